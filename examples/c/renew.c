/* A host that runs for long. A heap gives nothing back, so when this one is three quarters full the host makes
   a new heap, carries over the strings that it still holds, gives its tables the new numbers, and drops the
   old heap. Numbers of the old heap mean nothing on the new one.

   The pause is that of making a heap of these sizes, and of reading, making and interning what is carried
   over, however much the old heap held beside that. */
#include "jsstr.h"
#include <stdio.h>
#include <stdlib.h>
#include <string.h>
#include <time.h>

#define ENTRIES 1000
#define UPDATES 100000
#define LOOK 64 /* after so many updates the host looks how full the heap is; a quarter of it holds far more */

#define CHECK(c) do { if (!(c)) { printf("line %d: %s\n", __LINE__, #c); exit(1); } } while (0)

static const jsstr_size size = {40000, 160000, 4099};

/* The roots: a table of names, which are interned, with their values. Other entries hold the same value. */
typedef struct entry { jsstr_id name, value; uint32_t number; } entry;

/* The heap in use is that of agents[now]: a handle is never copied. */
typedef struct host { jsstr_agent agents[2]; int now; entry entries[ENTRIES]; } host;

static double seconds(void) {
  struct timespec t;
  CHECK(!clock_gettime(CLOCK_MONOTONIC, &t));
  return (double)t.tv_sec + (double)t.tv_nsec / 1e9;
}

static jsstr_id done(jsstr_answer a) {
  if (a.status == JSSTR_DONE) return a.id;
  printf("refused: %s\n", jsstr_status_name(a.status));
  exit(1);
}

static bool is_three_quarters(uint64_t used, uint32_t end) { return used * 4 >= (uint64_t)end * 3; }

/* Other agents may run meanwhile. Slots are those that this agent knows to be used: here it interns all. */
static bool is_nearly_full(jsstr_agent *agent) {
  jsstr_room room = jsstr_room_of(agent);
  CHECK(room.status == JSSTR_DONE);
  return is_three_quarters(room.ids, room.all_ids) || is_three_quarters(room.words, room.all_words) ||
         is_three_quarters(room.seen_slots, room.slots);
}

/* A string on its way: `went` has for each number of the old heap its new one, so that what was one string
   stays one. Interned strings go first. */
typedef struct journey { jsstr_agent *from, *to; jsstr_id *went; } journey;

static jsstr_id carried(journey *j, jsstr_id s, bool is_key) {
  if (j->went[s] != JSSTR_NO_STRING) return j->went[s];
  /* A rope is settled in the old heap: a quarter is left for that. */
  return j->went[s] = done((is_key ? jsstr_intern_into : jsstr_copy_into)(j->from, s, j->to));
}

/* Goes over to a new heap, and answers how many seconds that took. */
static double renew(host *h) {
  double began = seconds();
  journey j = {&h->agents[h->now], &h->agents[!h->now], malloc(size.ids * sizeof *j.went)};
  CHECK(j.went);
  memset(j.went, 0xFF, size.ids * sizeof *j.went); /* JSSTR_NO_STRING */
  CHECK(jsstr_make(size, 1, JSSTR_MAX_LENGTH, j.to) == JSSTR_DONE);
  for (entry *e = h->entries; e < h->entries + ENTRIES; e++) e->name = carried(&j, e->name, true);
  for (entry *e = h->entries; e < h->entries + ENTRIES; e++) e->value = carried(&j, e->value, false);
  CHECK(jsstr_free(j.from) == JSSTR_DONE);
  h->now = !h->now;
  free(j.went);
  return seconds() - began;
}

static jsstr_id made(jsstr_agent *agent, const char *before, uint32_t number) {
  char text[64];
  int length = snprintf(text, sizeof text, "%s %u", before, number);
  return done(jsstr_from_bytes(agent, JSSTR_LATIN1, (const uint8_t *)text, (size_t)length));
}

/* The value of an entry is a rope, which two entries hold. */
static void update(host *h, uint32_t number) {
  jsstr_agent *agent = &h->agents[h->now];
  entry *one = &h->entries[number * 7919 % ENTRIES], *other = &h->entries[(number * 7919 + 1) % ENTRIES];
  jsstr_id left = made(agent, "the value that was stored as number", number);
  one->value = other->value = done(jsstr_concat(agent, left, one->name));
  one->number = other->number = number;
}

static void check(host *h) {
  jsstr_agent *agent = &h->agents[h->now];
  for (uint32_t i = 0; i < ENTRIES; i++) {
    entry *e = &h->entries[i];
    CHECK(jsstr_equal(agent, e->name, made(agent, "name", i)).holds);
    CHECK(e->name == done(jsstr_intern(agent, made(agent, "name", i))));
    jsstr_id left = made(agent, "the value that was stored as number", e->number);
    CHECK(jsstr_starts_with(agent, e->value, left, 0).holds);
  }
}

int main(void) {
  static host h;
  double longest = 0;
  int renewals = 0;
  CHECK(jsstr_make(size, 1, JSSTR_MAX_LENGTH, &h.agents[0]) == JSSTR_DONE);
  for (uint32_t i = 0; i < ENTRIES; i++) {
    jsstr_id name = done(jsstr_intern(&h.agents[0], made(&h.agents[0], "name", i)));
    h.entries[i] = (entry){name, name, 0};
  }
  for (uint32_t number = 1; number <= UPDATES; number++) {
    update(&h, number);
    if (number % LOOK || !is_nearly_full(&h.agents[h.now])) continue;
    double pause = renew(&h);
    longest = pause > longest ? pause : longest;
    renewals++;
  }
  renew(&h);
  check(&h);
  CHECK(renewals > 5);
  jsstr_room room = jsstr_room_of(&h.agents[h.now]);
  printf("%d updates, %d renewals, the longest pause %.1f ms, %u ids and %u words in the end\n", UPDATES, renewals, longest * 1e3,
         room.ids, room.words);
  jsstr_free(&h.agents[h.now]);
  return 0;
}
