/* The calls of calls.h by C: each row's call answers and changes what the row says, and allocates only where the row says it.
   Where malloc answers null, at each place in turn, a call that allocates answers
   JSSTR_NO_MEMORY, has changed nothing, and succeeds when it is made again; but where jsstr_intern notes a slot, and where an
   agent first interns or looks for units or bytes, the call answers what it would, and jsstr_reserve has claimed its words, and
   one that renews what is reserved is made as if it didn't.

   It has a malloc, realloc and free of its own in front of the C library's, so it is linked with -Wl,--wrap=malloc,--wrap=realloc,--wrap=free.
   Prints "ok". */
#include "play.h"
#include <limits.h>

/* The answer of a call, by its type. */
static answer told(uint32_t status) { return ANSWER(status); }
static answer value(uint32_t n) { return ANSWER(JSSTR_DONE, n); }
/* (a refusal has no string, and a call that makes none has none to answer, for which the rows have 0) */
static answer string(jsstr_answer s) {
  if (s.status != JSSTR_DONE && s.id != JSSTR_NO_STRING) printf("%s answers a string where it is refused\n", playing), exit(1);
  return ANSWER(s.status, s.id == JSSTR_NO_STRING ? 0 : s.id, s.at, s.want, s.end);
}
static answer batch(jsstr_batch b) { return ANSWER(b.status, b.done, b.at, b.want, b.end); }
static answer number(jsstr_number n) { return ANSWER(n.status, n.value); }
static answer truth(jsstr_truth t) { return ANSWER(t.status, t.holds); }
static answer order(jsstr_order o) { return ANSWER(o.status, (uint32_t)o.order); }
static answer place(jsstr_place p) { return ANSWER(p.status, p.at); }
static answer bytes(jsstr_bytes b) { return ANSWER(b.status, b.at, b.size); }
static answer used(jsstr_counts u) { return ANSWER(u.status, u.ids, u.words); }
static answer room(jsstr_room r) { return ANSWER(r.status, r.ids, r.words, r.all_ids, r.all_words, r.slots, r.seen_slots); }

/* The units that lie in the words of a window, by the lanes of jsstr.h, in the place of these words. */
static answer window(world *w, jsstr_words it) {
  uint32_t lanes = it.wide ? 4 : 8;
  CHECK(it.length <= 64 && it.count <= 16 && it.lane + it.length <= it.count * lanes);
  for (uint32_t i = it.lane; i < it.lane + it.length; i++)
    w->units[i - it.lane] = (uint16_t)(w->words[i / lanes] >> i % lanes * (64 / lanes) & (it.wide ? 0xFFFF : 0xFF));
  memset(w->words, BLANK, it.count * sizeof *w->words);
  return ANSWER(it.status, it.wide, it.lane, it.length, it.count);
}

#define DEFINED(name, takes, call, method, is_right) \
  static answer name##_call(world *w) { (void)w; return call; } \
  static expected name##_expected(world *w) { (void)w; return is_right; }
CALLS(DEFINED)

#define LISTED(name, takes, call, method, is_right) {#name, #call, #is_right, takes, name##_call, name##_expected},
static const row rows[] = {CALLS(LISTED)};

/* How many allocations succeed yet, how many were asked for, how many blocks there are, and their bytes now and at most. */
static long left = LONG_MAX, asked, blocks;
static size_t held, most;

/* What is in front of each block. */
typedef struct front { size_t size, rest; } front;

void *__real_malloc(size_t n);
void *__real_realloc(void *p, size_t n);
void __real_free(void *p);
void *__wrap_malloc(size_t n);
void *__wrap_realloc(void *p, size_t n);
void __wrap_free(void *p);

static int is_denied(void) {
  asked++;
  return left == 0 || left-- == 0;
}

static void *begun(front *p, size_t n) {
  p->size = n;
  held += n;
  most = held > most ? held : most;
  return p + 1;
}

void *__wrap_malloc(size_t n) {
  front *p = is_denied() ? NULL : __real_malloc(sizeof *p + n);
  blocks += p != NULL;
  return p ? begun(p, n) : NULL;
}

void *__wrap_realloc(void *p, size_t n) {
  if (!p) return __wrap_malloc(n);
  size_t had = ((front *)p - 1)->size;
  front *q = is_denied() ? NULL : __real_realloc((front *)p - 1, sizeof *q + n);
  held -= q ? had : 0;
  return q ? begun(q, n) : NULL;
}

void __wrap_free(void *p) {
  if (!p) return;
  blocks--;
  held -= ((front *)p - 1)->size;
  __real_free((front *)p - 1);
}

/* `full` ends where no further unit has room. */
static void fill(world *w) {
  uint32_t status = jsstr_build_units(&w->full, UNITS);
  CHECK(status == JSSTR_DONE);
  for (left = 0; status == JSSTR_DONE;) status = jsstr_build_units(&w->full, units, 1);
  CHECK(status == JSSTR_NO_MEMORY);
  left = LONG_MAX;
  w->had = w->full.len;
  CHECK(w->had <= 64);
}

static jsstr_id built(any_builder *text, world *w) { return id_of(jsstr_built(text, &w->one)); }

static void begin(world *w) {
  memset(w, 0, sizeof *w);
  blank(w);
  CHECK(jsstr_make(size, 4, 100, &w->one) == JSSTR_DONE && jsstr_make(size, 1, 100, &w->far) == JSSTR_DONE);
  CHECK(jsstr_reserve(&w->far, 3, 9).status == JSSTR_DONE);
  w->plain = id_of(jsstr_from_units(&w->one, twin, 11));
  w->rope = id_of(jsstr_concat(&w->one, w->plain, w->plain));
  w->twin = id_of(jsstr_from_units(&w->one, twin, 22));
  w->wide = id_of(jsstr_from_units(&w->one, wide, 8));
  CHECK(jsstr_split(&w->one, 2, &w->other) == JSSTR_DONE);
  w->key = id_of(jsstr_intern_units(&w->one, KEY_UNITS));
  w->theirs = id_of(jsstr_from_bytes(&w->other, JSSTR_LATIN1, (const uint8_t *)"theirs", 6));
  CHECK(jsstr_build_units(&w->text, text, 6) == JSSTR_DONE);
  fill(w);
}

static void end(world *w) {
  left = LONG_MAX;
  jsstr_agent *agents[] = {&w->one, &w->other, &w->far, &w->out};
  for (int i = 0; i < 4; i++)
    if (agents[i]->live) CHECK(jsstr_free(agents[i]) == JSSTR_DONE);
  jsstr_drop_builder(&w->text);
  jsstr_drop_builder(&w->full);
  jsstr_drop_builder(&w->empty);
  CHECK(blocks == 0);
}

/* With ample memory: the answer is the one that is expected, and so is all that has changed. How many allocations there were. */
static long play(const row *r, answer *got) {
  world w;
  begin(&w);
  state before = seen(&w);
  expected e = r->leads(&w);
  long had = asked;
  *got = r->call(&w);
  long count = asked - had;
  state now = seen(&w), right = after(&w, before, &e);
  check_answer(r, &w, *got, e);
  check_state(&now, &right);
  end(&w);
  return count;
}

/* What a refusal for lack of memory may leave: a rope that is settled. */
static state left_by(const row *r, world *w, state before) {
  state now = seen(w);
  if ((r->memory == MEMORY_SETTLED || r->memory == MEMORY_NOTED) && now.is_settled && !before.is_settled) before.is_settled = 1, before.words[0] += 3;
  return before;
}

/* The call with allocation number `failing` refused: nothing has changed, and it is made again. */
static void refuse(const row *r, long failing) {
  world w;
  begin(&w);
  state before = seen(&w);
  expected e = r->leads(&w);
  long had = blocks;
  left = failing;
  answer got = r->call(&w);
  left = LONG_MAX;
  if (r->memory == NOTED || (r->memory == MEMORY_NOTED && got.numbers[0] != JSSTR_NO_MEMORY)) check_answer(r, &w, got, e);
  else {
    state now = seen(&w), right = left_by(r, &w, before);
    CHECK(is_same(got, told(JSSTR_NO_MEMORY)) && !memcmp(&now, &right, sizeof now));
    CHECK(blocks == had || (blocks == had + 1 && w.empty.live));
  }
  check_answer(r, &w, r->call(&w), e);
  end(&w);
}

/* Whether a row is a checked call on an agent that meets its condition. */
static int is_checked(const row *r) {
  int has_agent = strstr(r->text, "&w->one") || strstr(r->text, "&w->other") || strstr(r->text, "&w->far");
  return has_agent && !strstr(r->text, "_unchecked") && strcmp(r->shown, "is_refused()");
}

/* The call with handles of nothing in the place of all agents: it is refused, and nothing has changed. */
static void empty_handles(const row *r) {
  world w;
  begin(&w);
  state before = seen(&w);
  jsstr_agent *const agents[] = {&w.one, &w.other, &w.far};
  jsstr_agent kept[3];
  for (int i = 0; i < 3; i++) kept[i] = *agents[i], *agents[i] = w.none;
  CHECK(is_same(r->call(&w), told(JSSTR_BAD_ARGUMENT)));
  for (int i = 0; i < 3; i++) {
    CHECK(!agents[i]->at && !agents[i]->live);
    *agents[i] = kept[i];
  }
  state now = seen(&w);
  check_state(&now, &before);
  end(&w);
}

static void try_row(const row *r) {
  world w;
  answer got;
  playing = r->name;
  long count = play(r, &got);
  if (is_checked(r)) empty_handles(r);
  if ((count > 0) != (r->memory != NOTHING)) {
    printf("%s asked %ld times for memory\n", r->name, count);
    exit(1);
  }
  for (long failing = 0; failing < count; failing++) refuse(r, failing);
  if (count > 0) return;
  begin(&w);
  left = 0;
  CHECK(is_same(r->call(&w), got));
  end(&w);
}

/* A heap has the bytes that jsstr.h says, beside two bits an id for each agent and a little, and twice as many while it is made. */
static void measure(void) {
  enum { IDS = 4000, LITTLE = 512 };
  const jsstr_size sizes[] = {{IDS, 3000, 1009}, {IDS, 9, 9}, {IDS, 90000, 9}, {IDS, 9, 90001}};
  jsstr_agent a = {0}, b = {0};
  for (size_t i = 0; i < sizeof sizes / sizeof *sizes; i++) {
    size_t heap = 8 * (2 + (size_t)sizes[i].slots + 2 * IDS + sizes[i].words), bits = IDS / 4;
    most = held;
    CHECK(held == 0 && jsstr_make(sizes[i], 2, 100, &a) == JSSTR_DONE);
    CHECK(held >= heap + bits && held <= heap + bits + LITTLE && most >= heap && most <= 2 * heap + bits + LITTLE);
    size_t before = held;
    CHECK(jsstr_split(&a, 1, &b) == JSSTR_DONE);
    CHECK(held >= before + bits && held <= before + bits + LITTLE);
    CHECK(jsstr_free(&a) == JSSTR_DONE && held >= heap && jsstr_free(&b) == JSSTR_DONE && held == 0);
  }
}

int main(void) {
  measure();
  for (size_t i = 0; i < sizeof rows / sizeof *rows; i++) try_row(&rows[i]);
  puts("ok");
  return 0;
}
