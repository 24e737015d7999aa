/* The exports that out.c, building.c and board.c don't try, beyond calls.c: calls in a row, each refusal, each kind of bad
   argument, and two threads that intern the same units. Prints "ok". */
#include "jsstr_unchecked.h"
#include <pthread.h>
#include <stdio.h>
#include <stdlib.h>
#include <string.h>

#define KEYS 1000
#define CHECK(c) do { if (!(c)) { printf("line %d: %s\n", __LINE__, #c); exit(1); } } while (0)

typedef struct job {
  jsstr_agent agent;
  jsstr_id hello, numbers[KEYS];
  int from;
} job;

/* The units of a key; those of every second one begin with a unit over 255. */
static size_t key_units(int key, uint16_t *units) {
  char text[32];
  int n = snprintf(text, sizeof text, "key number %d", key);
  for (int i = 0; i < n; i++) units[i] = (uint16_t)text[i];
  if (key % 2) units[0] = 0x4E16;
  return (size_t)n;
}

static jsstr_id made(jsstr_agent *agent, const char *text) {
  jsstr_answer s = jsstr_from_bytes(agent, JSSTR_LATIN1, (const uint8_t *)text, strlen(text));
  CHECK(s.status == JSSTR_DONE);
  return s.id;
}

static void *intern_keys(void *at) {
  job *j = at;
  for (int i = 0; i < KEYS; i++) {
    int key = (i + j->from) % KEYS;
    uint16_t units[32];
    size_t n = key_units(key, units);
    jsstr_answer s = jsstr_from_units(&j->agent, units, n);
    CHECK(s.status == JSSTR_DONE);
    jsstr_answer whole = jsstr_concat(&j->agent, j->hello, s.id);
    CHECK(whole.status == JSSTR_DONE);
    jsstr_answer settled = jsstr_settle(&j->agent, whole.id);
    CHECK(settled.status == JSSTR_DONE && settled.id == whole.id);
    jsstr_answer part = jsstr_slice(&j->agent, whole.id, 7, (uint32_t)(7 + n));
    CHECK(part.status == JSSTR_DONE);
    jsstr_answer first = jsstr_intern_units(&j->agent, units, i % 3 ? n : 0);
    jsstr_answer one = jsstr_intern(&j->agent, part.id);
    CHECK(one.status == JSSTR_DONE && first.status == JSSTR_DONE && (i % 3 == 0 || first.id == one.id));
    CHECK(jsstr_find_units(&j->agent, units, n).id == one.id && jsstr_is_interned(&j->agent, one.id).holds);
    jsstr_answer other = jsstr_intern(&j->agent, s.id);
    CHECK(other.status == JSSTR_DONE && other.id == one.id);
    j->numbers[key] = one.id;
  }
  return 0;
}

static void refuse_sizes(void) {
  jsstr_agent none = {0};
  CHECK(jsstr_make((jsstr_size){0, 1, 1}, 1, 0, &none) == JSSTR_BAD_SIZE && !none.at);
  CHECK(jsstr_make((jsstr_size){1, 0, 1}, 1, 0, &none) == JSSTR_BAD_SIZE && !none.at);
  CHECK(jsstr_make((jsstr_size){1, 1, 0}, 1, 0, &none) == JSSTR_BAD_SIZE && !none.at);
  CHECK(jsstr_make((jsstr_size){1, 1, 1}, 0, 0, &none) == JSSTR_BAD_SIZE && !none.at);
  CHECK(jsstr_make((jsstr_size){1, 1, 1}, 65, 0, &none) == JSSTR_BAD_SIZE && !none.at);
  CHECK(jsstr_make((jsstr_size){1u << 28, 1u << 28, 1}, 1, 0, &none) == JSSTR_BAD_SIZE && !none.at);
  CHECK(jsstr_make((jsstr_size){9, 9, 9}, 1, JSSTR_MAX_LENGTH + 1, &none) == JSSTR_BAD_SIZE && !none.at);
}

static void refuse_calls(void) {
  jsstr_agent agent = {0};
  CHECK(jsstr_make((jsstr_size){3, 2, 1}, 1, 20, &agent) == JSSTR_DONE);
  jsstr_id s = made(&agent, "0123456789abcdef");
  jsstr_answer long_one = jsstr_concat(&agent, s, s);
  CHECK(long_one.status == JSSTR_TOO_LONG && long_one.at == 16 && long_one.want == 16);
  uint16_t x = 'x';
  jsstr_answer words = jsstr_from_units(&agent, &x, 1);
  CHECK(words.status == JSSTR_NO_WORDS && words.at == 2 && words.want == 1 && words.end == 2);
  jsstr_answer empty = jsstr_from_units(&agent, &x, 0);
  CHECK(empty.status == JSSTR_DONE && jsstr_length(&agent, empty.id).value == 0);
  jsstr_answer same = jsstr_concat(&agent, empty.id, s);
  CHECK(same.status == JSSTR_DONE && same.id == s);
  jsstr_answer one = jsstr_intern(&agent, s);
  CHECK(one.status == JSSTR_DONE && jsstr_count_interned(&agent).value == 1);
  jsstr_answer slots = jsstr_intern(&agent, empty.id);
  CHECK(slots.status == JSSTR_NO_SLOTS && slots.end == 1);
  jsstr_room use = jsstr_room_of(&agent);
  CHECK(use.status == JSSTR_DONE && use.ids == 3 && use.words == 2);
  jsstr_answer ids = jsstr_from_units(&agent, &x, 0);
  CHECK(ids.status == JSSTR_NO_IDS && ids.at == 3 && ids.want == 1 && ids.end == 3);
  CHECK(jsstr_free(&agent) == JSSTR_DONE && !agent.at && !agent.live);
}

static void intern_by_two(void) {
  static job a, b;
  CHECK(jsstr_make((jsstr_size){20000, 60000, 4096}, 2, JSSTR_MAX_LENGTH, &a.agent) == JSSTR_DONE);
  CHECK(jsstr_share(&a.agent).value == 2);
  a.hello = b.hello = made(&a.agent, "Hello, ");
  b.from = KEYS / 2;
  CHECK(jsstr_split(&a.agent, 1, &b.agent) == JSSTR_DONE);
  CHECK(jsstr_share(&a.agent).value == 1 && jsstr_share(&b.agent).value == 1);
  pthread_t one, other;
  CHECK(!pthread_create(&one, 0, intern_keys, &a) && !pthread_create(&other, 0, intern_keys, &b));
  CHECK(!pthread_join(one, 0) && !pthread_join(other, 0));
  CHECK(memcmp(a.numbers, b.numbers, sizeof a.numbers) == 0);
  CHECK(jsstr_join(&a.agent, &b.agent) == JSSTR_DONE);
  CHECK(!b.agent.at && jsstr_share(&a.agent).value == 2);
  CHECK(jsstr_count_interned(&a.agent).value == KEYS + 1);
  for (int key = 0; key < KEYS; key++) {
    uint16_t want[32], got[32];
    size_t n = key_units(key, want);
    jsstr_id s = a.numbers[key];
    CHECK(jsstr_length(&a.agent, s).value == n);
    for (size_t from = 0; from <= n; from += 3) {
      memset(got, 0, sizeof got);
      CHECK(jsstr_read(&a.agent, s, (uint32_t)from, got, n - from) == JSSTR_DONE);
      CHECK(memcmp(want + from, got, (n - from) * 2) == 0 && got[n - from] == 0);
    }
  }
  CHECK(a.numbers[3] == b.numbers[3]);
  CHECK(a.numbers[3] != b.numbers[4]);
  jsstr_free(&a.agent);
}

/* The words of a string, all at once and one by one, show its units; what is behind them stays. */
static void show_words(jsstr_agent *a, jsstr_id s, const uint16_t *want, uint32_t n) {
  uint64_t all[32];
  memset(all, 0x5A, sizeof all);
  jsstr_words w = jsstr_window(a, s, 0, all, 32), again = jsstr_window_unchecked(a, s, 0, all, 32);
  uint32_t lanes = w.wide ? 4 : 8, bits = 64 / lanes, end = n ? (w.lane + n + lanes - 1) / lanes : 0;
  CHECK(w.status == JSSTR_DONE && w.length == n && w.lane < lanes && w.count == end && end < 32);
  CHECK(again.wide == w.wide && again.lane == w.lane && again.length == n && again.count == end && !again.status);
  for (uint32_t i = 0; i < n; i++)
    CHECK((all[(w.lane + i) / lanes] >> (w.lane + i) % lanes * bits & (w.wide ? 0xFFFF : 0xFF)) == want[i]);
  for (uint32_t k = end; k < 32; k++) CHECK(all[k] == 0x5A5A5A5A5A5A5A5A);
  for (uint32_t k = 0; k < end + 2; k++) {
    uint64_t one[2] = {7, 7};
    CHECK(jsstr_window(a, s, k, one, 1).count == (k < end) && one[0] == (k < end ? all[k] : 7) && one[1] == 7);
    CHECK(jsstr_window(a, s, k, one, 0).count == 0);
  }
  CHECK(jsstr_window(a, s, UINT32_MAX, all, 32).count == 0);
}

/* Narrow and wide units, a part from each lane on, no units, a rope, an interned part, and a rope for which
   there is no room. */
static void windows(void) {
  jsstr_agent a = {0};
  uint16_t units[100];
  uint64_t word = 7;
  CHECK(jsstr_make((jsstr_size){100, 200, 10}, 1, 1000, &a) == JSSTR_DONE);
  for (uint32_t wide = 0; wide < 2; wide++) {
    for (int i = 0; i < 100; i++) units[i] = (uint16_t)(i * (wide ? 643 : 2) + 1);
    jsstr_id half = jsstr_from_units(&a, units, 50).id, rest = jsstr_from_units(&a, units + 50, 50).id;
    show_words(&a, half, units, 50);
    jsstr_id rope = jsstr_concat(&a, half, rest).id;
    jsstr_words first = jsstr_window(&a, rope, 0, &word, 1);
    CHECK(first.status == JSSTR_DONE && first.wide == wide && first.lane == 0 && first.length == 100 && first.count == 1);
    show_words(&a, rope, units, 100);
    for (uint32_t from = 1; from <= 9; from++)
      for (uint32_t n = 13; n < 22; n += 4) {
        jsstr_id part = jsstr_slice(&a, rope, from, from + n).id;
        CHECK(jsstr_window(&a, part, 0, &word, 0).lane == from % (wide ? 4 : 8));
        show_words(&a, part, units + from, n);
      }
    jsstr_id part = jsstr_slice(&a, rope, 3, 20).id;
    CHECK(jsstr_intern(&a, part).status == JSSTR_DONE);
    show_words(&a, part, units + 3, 17);
    show_words(&a, jsstr_slice(&a, rope, 5, 5).id, units, 0);
  }
  word = 7;
  CHECK(jsstr_window(&a, 99, 0, &word, 1).status == JSSTR_BAD_ARGUMENT && word == 7 && jsstr_free(&a) == JSSTR_DONE);
  CHECK(jsstr_make((jsstr_size){10, 2, 1}, 1, 100, &a) == JSSTR_DONE);
  jsstr_id s = made(&a, "12345678"), two = jsstr_concat(&a, s, s).id, none = jsstr_concat(&a, two, s).id;
  jsstr_words w = jsstr_window(&a, none, 0, &word, 1);
  CHECK(w.status == JSSTR_NO_WORDS && !w.wide && !w.lane && !w.length && !w.count && word == 7);
  CHECK(jsstr_free(&a) == JSSTR_DONE);
}

/* Each byte becomes the unit with its number, and is no part of a UTF-8 sequence. */
static void every_byte(void) {
  jsstr_agent agent = {0};
  uint8_t bytes[256];
  uint16_t want[256], got[256];
  for (int i = 0; i < 256; i++) want[i] = bytes[i] = (uint8_t)i;
  CHECK(jsstr_make((jsstr_size){4, 64, 4}, 1, 256, &agent) == JSSTR_DONE);
  jsstr_answer s = jsstr_from_bytes(&agent, JSSTR_LATIN1, bytes, 256);
  CHECK(s.status == JSSTR_DONE && jsstr_length(&agent, s.id).value == 256);
  CHECK(jsstr_read(&agent, s.id, 0, got, 256) == JSSTR_DONE);
  CHECK(memcmp(want, got, sizeof want) == 0 && jsstr_room_of(&agent).words == 32);
  jsstr_answer t = jsstr_from_units(&agent, want, 256);
  CHECK(t.status == JSSTR_DONE && jsstr_intern(&agent, s.id).id == jsstr_intern(&agent, t.id).id);
  jsstr_free(&agent);
}

/* Agents that outlive the one that they were split off from. */
static void free_in_any_order(void) {
  jsstr_agent a = {0}, b = {0}, c = {0};
  CHECK(jsstr_make((jsstr_size){64, 64, 64}, 3, 100, &a) == JSSTR_DONE);
  jsstr_id s = made(&a, "kept by the others");
  CHECK(jsstr_split(&a, 2, &b) == JSSTR_DONE && jsstr_split(&b, 1, &c) == JSSTR_DONE);
  jsstr_free(&a);
  CHECK(jsstr_length(&c, s).value == 18);
  jsstr_free(&c);
  CHECK(jsstr_length(&b, s).value == 18);
  jsstr_free(&b);
}

/* Each call with a string that the agent doesn't know: one of another agent, one past the ids, a wild one. */
static void refuse_strings(void) {
  jsstr_agent a = {0}, b = {0};
  uint16_t x = 'x';
  uint64_t w = 7;
  CHECK(jsstr_make((jsstr_size){100, 100, 10}, 2, 1000, &a) == JSSTR_DONE);
  jsstr_id s = made(&a, "known to both"), none[4];
  CHECK(jsstr_split(&a, 1, &b) == JSSTR_DONE);
  none[0] = made(&b, "of the other agent"), none[1] = 99, none[2] = 100, none[3] = UINT32_MAX;
  for (int i = 0; i < 4; i++) {
    jsstr_id u = none[i];
    CHECK(jsstr_concat(&a, u, s).status == JSSTR_BAD_ARGUMENT);
    CHECK(jsstr_concat(&a, s, u).status == JSSTR_BAD_ARGUMENT);
    CHECK(jsstr_slice(&a, u, 0, 0).status == JSSTR_BAD_ARGUMENT);
    CHECK(jsstr_length(&a, u).status == JSSTR_BAD_ARGUMENT);
    CHECK(jsstr_settle(&a, u).status == JSSTR_BAD_ARGUMENT);
    CHECK(jsstr_read(&a, u, 0, &x, 1) == JSSTR_BAD_ARGUMENT && x == 'x');
    CHECK(jsstr_window(&a, u, 0, &w, 1).status == JSSTR_BAD_ARGUMENT && w == 7);
    CHECK(jsstr_compare(&a, u, s).status == JSSTR_BAD_ARGUMENT);
    CHECK(jsstr_compare(&a, s, u).status == JSSTR_BAD_ARGUMENT);
    CHECK(jsstr_equal(&a, u, s).status == JSSTR_BAD_ARGUMENT);
    CHECK(jsstr_equal(&a, s, u).status == JSSTR_BAD_ARGUMENT);
    CHECK(jsstr_starts_with(&a, u, s, 0).status == JSSTR_BAD_ARGUMENT);
    CHECK(jsstr_starts_with(&a, s, u, 0).status == JSSTR_BAD_ARGUMENT);
    CHECK(jsstr_index_of(&a, u, s, 0).status == JSSTR_BAD_ARGUMENT);
    CHECK(jsstr_index_of(&a, s, u, 0).status == JSSTR_BAD_ARGUMENT);
    CHECK(jsstr_last_index_of(&a, u, s, 0).status == JSSTR_BAD_ARGUMENT);
    CHECK(jsstr_last_index_of(&a, s, u, 0).status == JSSTR_BAD_ARGUMENT);
    CHECK(jsstr_intern(&a, u).status == JSSTR_BAD_ARGUMENT);
    CHECK(jsstr_slot_of(&a, u).status == JSSTR_BAD_ARGUMENT);
    CHECK(jsstr_is_interned(&a, u).status == JSSTR_DONE && !jsstr_is_interned(&a, u).holds);
  }
  CHECK(jsstr_length(&a, s).value == 13 && jsstr_length(&b, s).value == 13);
  /* Known, and not an answer of the string table. */
  CHECK(jsstr_slot_of(&a, s).status == JSSTR_BAD_ARGUMENT);
  jsstr_answer one = jsstr_intern(&a, s);
  CHECK(one.status == JSSTR_DONE && jsstr_slot_of(&a, one.id).status == JSSTR_DONE);
  /* Neither agent has the whole share. */
  CHECK(jsstr_count_interned(&a).status == JSSTR_BAD_ARGUMENT && jsstr_count_interned(&b).status == JSSTR_BAD_ARGUMENT);
  CHECK(jsstr_join(&a, &b) == JSSTR_DONE && jsstr_length(&a, none[0]).value == 18);
  CHECK(jsstr_count_interned(&a).status == JSSTR_DONE && jsstr_free(&a) == JSSTR_DONE);
}

static void refuse_parts(void) {
  jsstr_agent a = {0};
  uint16_t units[32] = {0};
  CHECK(jsstr_make((jsstr_size){100, 100, 10}, 1, 1000, &a) == JSSTR_DONE);
  jsstr_id s = made(&a, "0123456789"), rope = jsstr_concat(&a, s, s).id;
  jsstr_id both[] = {s, rope};
  for (uint32_t i = 0; i < 2; i++) {
    uint32_t n = 10 * (i + 1);
    CHECK(jsstr_slice(&a, both[i], 0, n + 1).status == JSSTR_BAD_ARGUMENT);
    CHECK(jsstr_slice(&a, both[i], n + 1, n + 1).status == JSSTR_BAD_ARGUMENT);
    CHECK(jsstr_slice(&a, both[i], 3, 2).status == JSSTR_BAD_ARGUMENT);
    CHECK(jsstr_slice(&a, both[i], 0, UINT32_MAX).status == JSSTR_BAD_ARGUMENT);
    CHECK(jsstr_read(&a, both[i], 0, units, n + 1) == JSSTR_BAD_ARGUMENT && units[0] == 0);
    CHECK(jsstr_read(&a, both[i], n + 1, units, 0) == JSSTR_BAD_ARGUMENT);
    CHECK(jsstr_read(&a, both[i], UINT32_MAX, units, 1) == JSSTR_BAD_ARGUMENT);
    CHECK(jsstr_index_of(&a, both[i], s, n + 1).status == JSSTR_BAD_ARGUMENT);
    jsstr_answer end = jsstr_slice(&a, both[i], n, n);
    CHECK(end.status == JSSTR_DONE && jsstr_length(&a, end.id).value == 0);
    CHECK(jsstr_read(&a, both[i], n, units, 0) == JSSTR_DONE);
    CHECK(jsstr_index_of(&a, both[i], end.id, n).at == n);
  }
  CHECK(jsstr_from_bytes(&a, JSSTR_LATIN1, (uint8_t *)units, SIZE_MAX / 4).status == JSSTR_BAD_ARGUMENT);
  CHECK(jsstr_free(&a) == JSSTR_DONE);
}

/* Agents of two heaps, of one that was joined, in the wrong order, of a copy, of the second generation. */
static void refuse_joins(void) {
  jsstr_agent a = {0}, b = {0}, c = {0}, d = {0}, e = {0};
  jsstr_size size = {10, 10, 10};
  CHECK(jsstr_make(size, 64, 9, &a) == JSSTR_DONE && jsstr_make(size, 64, 9, &d) == JSSTR_DONE);
  CHECK(jsstr_make(size, 64, 9, &a) == JSSTR_BAD_ARGUMENT);
  CHECK(jsstr_split(&a, 0, &b) == JSSTR_BAD_ARGUMENT && jsstr_split(&a, 64, &b) == JSSTR_BAD_ARGUMENT);
  CHECK(jsstr_split(&a, 8, &d) == JSSTR_BAD_ARGUMENT && jsstr_share(&a).value == 64);
  CHECK(jsstr_split(&a, 32, &b) == JSSTR_DONE && jsstr_split(&b, 16, &c) == JSSTR_DONE);
  CHECK(jsstr_split(&d, 32, &e) == JSSTR_DONE);
  CHECK(jsstr_join(&a, &e) == JSSTR_BAD_ARGUMENT && jsstr_join(&d, &b) == JSSTR_BAD_ARGUMENT);
  CHECK(jsstr_join(&a, &d) == JSSTR_BAD_ARGUMENT && jsstr_join(&b, &a) == JSSTR_BAD_ARGUMENT);
  CHECK(jsstr_join(&a, &c) == JSSTR_BAD_ARGUMENT && jsstr_join(&c, &b) == JSSTR_BAD_ARGUMENT);
  CHECK(jsstr_share(&a).value == 32 && jsstr_share(&b).value == 16 && jsstr_share(&c).value == 16);
  jsstr_agent copy = a;
  CHECK(jsstr_join(&a, &copy) == JSSTR_BAD_ARGUMENT && a.live && copy.live);
  CHECK(jsstr_join(&b, &c) == JSSTR_DONE && jsstr_join(&b, &c) == JSSTR_BAD_ARGUMENT);
  CHECK(jsstr_join(&a, &b) == JSSTR_DONE && jsstr_share(&a).value == 64);
  CHECK(jsstr_join(&d, &e) == JSSTR_DONE && jsstr_share(&d).value == 64);
  CHECK(jsstr_free(&a) == JSSTR_DONE && jsstr_free(&a) == JSSTR_BAD_ARGUMENT && jsstr_free(&d) == JSSTR_DONE);
  CHECK(jsstr_share(&a).status == JSSTR_BAD_ARGUMENT);
}

/* As many agents as there may be, which all get one number for a key; one more is refused to each. */
static void most_agents(void) {
  static jsstr_agent agents[64];
  jsstr_agent more = {0};
  jsstr_id key = JSSTR_NO_STRING;
  CHECK(jsstr_make((jsstr_size){200, 200, 11}, 64, 100, &agents[0]) == JSSTR_DONE);
  for (int i = 1; i < 64; i++) CHECK(jsstr_split(&agents[0], 1, &agents[i]) == JSSTR_DONE);
  for (int i = 0; i < 64; i++) {
    CHECK(jsstr_share(&agents[i]).value == 1 && jsstr_split(&agents[i], 1, &more) == JSSTR_BAD_ARGUMENT && !more.at && !more.live);
    jsstr_answer s = jsstr_intern(&agents[i], made(&agents[i], "a key of all"));
    CHECK(s.status == JSSTR_DONE && (i == 0 || s.id == key));
    key = s.id;
  }
  for (int i = 63; i > 0; i--) CHECK(jsstr_join(&agents[0], &agents[i]) == JSSTR_DONE);
  CHECK(jsstr_share(&agents[0]).value == 64 && jsstr_count_interned(&agents[0]).value == 1);
  CHECK(jsstr_split(&agents[0], 63, &more) == JSSTR_DONE && jsstr_join(&agents[0], &more) == JSSTR_DONE && jsstr_free(&agents[0]) == JSSTR_DONE);
}

/* The same work by the calls that test nothing, and both forms by turns over one handle. */
static void unchecked(void) {
  jsstr_agent a = {0}, b = {0};
  static const uint16_t units[] = {'u', 'n', 'i', 't', 's', ' ', 'o', 'f', ' ', 'o', 'n', 'e', ' ', 'r', 'o', 'p', 'e'};
  uint16_t got[17];
  CHECK(jsstr_make((jsstr_size){100, 100, 10}, 2, 1000, &a) == JSSTR_DONE);
  jsstr_id one = jsstr_from_units(&a, units, 9).id, other = made(&a, "one rope");
  jsstr_id all = jsstr_concat_unchecked(&a, one, other).id;
  CHECK(jsstr_length_unchecked(&a, all) == 17 && jsstr_length(&a, all).value == 17);
  CHECK(jsstr_settle(&a, all).id == all && jsstr_read(&a, all, 0, got, 17) == JSSTR_DONE && !memcmp(units, got, sizeof got));
  jsstr_id part = jsstr_slice_unchecked(&a, all, 9, 17).id;
  CHECK(jsstr_equal_unchecked(&a, part, other) && !jsstr_equal_unchecked(&a, part, all) && jsstr_compare(&a, part, all).order == -1);
  CHECK(jsstr_unit_at_unchecked(&a, all, 16) == 'e' && jsstr_hash_unchecked(&a, part) == jsstr_hash(&a, other).value);
  CHECK(jsstr_split(&a, 1, &b) == JSSTR_DONE && jsstr_equal(&b, part, other).holds);
  jsstr_id i = jsstr_intern_unchecked(&b, part).id, j = jsstr_intern(&b, other).id;
  CHECK(i == j && jsstr_slot_of(&a, i).status == JSSTR_BAD_ARGUMENT);
  jsstr_id key = jsstr_intern_units(&b, units, 9).id;
  CHECK(jsstr_intern_bytes(&b, JSSTR_LATIN1, (const uint8_t *)"units of ", 9).id == key && jsstr_intern_unchecked(&b, one).id == key);
  CHECK(jsstr_find_units(&a, units, 9).id == key && jsstr_is_interned(&a, key).holds && !jsstr_is_interned(&a, one).holds);
  CHECK(jsstr_join(&a, &b) == JSSTR_DONE && !b.at && !b.live && jsstr_is_interned(&a, i).holds);
  CHECK(jsstr_count_interned(&a).value == 2 && jsstr_free(&a) == JSSTR_DONE && !a.at && !a.live);
}

/* Whether an answer has this status, and nothing else. */
static int is_bare(jsstr_answer s, uint32_t status) {
  return s.status == status && s.id == JSSTR_NO_STRING && !s.at && !s.want && !s.end;
}

/* Whether an answer is this string. */
static int is_string(jsstr_answer s, jsstr_id id) {
  return s.status == JSSTR_DONE && s.id == id && !s.at && !s.want && !s.end;
}

static int has_used(jsstr_agent *a, uint32_t ids, uint32_t words) {
  jsstr_room use = jsstr_room_of(a);
  return use.status == JSSTR_DONE && use.ids == ids && use.words == words;
}

/* Units that aren't in the table, then are: an id and their words once, and never again. */
static void intern_row(jsstr_agent *a, const uint16_t *units, uint32_t len, uint32_t words) {
  uint8_t bytes[16];
  jsstr_room use = jsstr_room_of(a);
  uint32_t lists = jsstr_count_interned(a).value, narrow = 1;
  CHECK(is_bare(jsstr_find_units(a, units, len), JSSTR_NONE) && has_used(a, use.ids, use.words));
  jsstr_answer key = jsstr_intern_units(a, units, len);
  CHECK(is_string(key, key.id) && has_used(a, use.ids + 1, use.words + words));
  CHECK(is_string(jsstr_intern_units(a, units, len), key.id) && is_string(jsstr_find_units(a, units, len), key.id));
  for (uint32_t i = 0; i < len; i++) bytes[i] = (uint8_t)units[i], narrow &= units[i] < 128;
  if (narrow) {
    CHECK(is_string(jsstr_intern_bytes(a, JSSTR_LATIN1, bytes, len), key.id) && is_string(jsstr_find_bytes(a, JSSTR_LATIN1, bytes, len), key.id));
    CHECK(is_string(jsstr_intern_bytes(a, JSSTR_UTF8, bytes, len), key.id) && is_string(jsstr_find_bytes(a, JSSTR_UTF8, bytes, len), key.id));
  }
  CHECK(has_used(a, use.ids + 1, use.words + words) && jsstr_count_interned(a).value == lists + 1);
  CHECK(jsstr_is_interned(a, key.id).holds);
  jsstr_id s = jsstr_from_units(a, units, len).id;
  CHECK(!jsstr_is_interned(a, s).holds && jsstr_equal(a, s, key.id).holds && is_string(jsstr_intern(a, s), key.id));
}

/* The UTF-8 of a key. */
static size_t key_bytes(int key, uint8_t *bytes) {
  uint16_t units[32];
  size_t n = key_units(key, units), size = 0;
  for (size_t i = 0; i < n; i++) {
    if (units[i] == 0x4E16) {
      memcpy(bytes + size, "\xE4\xB8\x96", 3);
      size += 3;
    } else {
      bytes[size++] = (uint8_t)units[i];
    }
  }
  return size;
}

/* A key that is in a full table has its number in each call, and one that isn't is refused and not found. */
static void key_row(jsstr_agent *a, int key, const jsstr_id *ids, uint32_t slots) {
  uint16_t units[32];
  uint8_t bytes[64];
  size_t n = key_units(key, units), size = key_bytes(key, bytes);
  jsstr_answer all[] = {
    jsstr_find_units(a, units, n), jsstr_find_bytes(a, JSSTR_UTF8, bytes, size), jsstr_intern_units(a, units, n), jsstr_intern_bytes(a, JSSTR_UTF8, bytes, size)};
  for (int i = 0; i < 4; i++) {
    if (key < (int)slots) CHECK(is_string(all[i], ids[key]));
    else if (i < 2) CHECK(is_bare(all[i], JSSTR_NONE));
    else CHECK(all[i].status == JSSTR_NO_SLOTS && all[i].end == slots);
  }
}

/* A table is filled by two agents; then each of them has all its keys, and no other one, twice over. */
static void fill_table(uint32_t slots) {
  static jsstr_id ids[KEYS];
  jsstr_agent one = {0}, other = {0};
  CHECK(jsstr_make((jsstr_size){slots, 9 * slots, slots}, 2, 100, &one) == JSSTR_DONE && jsstr_split(&one, 1, &other) == JSSTR_DONE);
  for (int key = 0; key < (int)slots; key++) {
    uint16_t units[32];
    uint8_t bytes[64];
    size_t n = key_units(key, units), size = key_bytes(key, bytes);
    jsstr_agent *a = key % 5 ? &one : &other;
    CHECK(is_bare(jsstr_find_units(a, units, n), JSSTR_NONE) && is_bare(jsstr_find_bytes(a, JSSTR_UTF8, bytes, size), JSSTR_NONE));
    jsstr_answer s = key % 3 ? jsstr_intern_units(a, units, n) : jsstr_intern_bytes(a, JSSTR_UTF8, bytes, size);
    CHECK(is_string(s, s.id));
    ids[key] = s.id;
  }
  for (int round = 0; round < 4; round++) {
    for (int key = 0; key < 2 * (int)slots; key++) key_row(round % 2 ? &other : &one, key, ids, slots);
  }
  CHECK(jsstr_join(&one, &other) == JSSTR_DONE);
  CHECK(jsstr_room_of(&one).ids == slots && jsstr_count_interned(&one).value == slots && jsstr_free(&one) == JSSTR_DONE);
}

static void intern_units(void) {
  jsstr_agent a = {0};
  static const uint16_t narrow[] = {'n', 'i', 'n', 'e', 'u', 'n', 'i', 't', 's'}, wide[] = {'n', 'i', 'n', 'e', 0x100, 'n', 'i', 't', 0xD800};
  CHECK(jsstr_make((jsstr_size){100, 100, 20}, 1, 1000, &a) == JSSTR_DONE);
  for (uint32_t len = 0; len <= 9; len++) intern_row(&a, narrow, len, (len + 7) / 8);
  for (uint32_t len = 5; len <= 9; len++) intern_row(&a, wide, len, (len + 3) / 4);
  jsstr_room use = jsstr_room_of(&a);
  CHECK(is_bare(jsstr_find_units(&a, narrow, SIZE_MAX / 4), JSSTR_BAD_ARGUMENT));
  CHECK(is_bare(jsstr_intern_bytes(&a, JSSTR_LATIN1, (const uint8_t *)narrow, SIZE_MAX / 4), JSSTR_BAD_ARGUMENT));
  CHECK(is_bare(jsstr_find_bytes(&a, JSSTR_UTF8, (const uint8_t *)narrow, SIZE_MAX / 4), JSSTR_BAD_ARGUMENT));
  CHECK(has_used(&a, use.ids, use.words) && jsstr_free(&a) == JSSTR_DONE);
}

/* Interned again: a string that was made, a part, a rope, and the interned one itself, over searches, a split, a join,
   and on a full heap. */
static void intern_again(void) {
  enum { STRINGS = 300, ROUNDS = 3 };
  static jsstr_id ids[STRINGS], keys[STRINGS];
  jsstr_agent a = {0}, b = {0};
  uint16_t units[32];
  CHECK(jsstr_make((jsstr_size){3 * STRINGS, 9 * STRINGS, 509}, 2, 1000, &a) == JSSTR_DONE);
  for (int i = 0; i < STRINGS; i++) {
    size_t n = key_units(i, units);
    ids[i] = jsstr_from_units(&a, units, n).id;
    if (i % 3 == 1) ids[i] = jsstr_concat(&a, ids[i], ids[i - 1]).id;
    if (i % 3 == 2) ids[i] = jsstr_slice(&a, ids[i], 1, (uint32_t)n).id;
    jsstr_answer one = jsstr_intern(&a, ids[i]);
    CHECK(one.status == JSSTR_DONE);
    keys[i] = one.id;
  }
  jsstr_room use = jsstr_room_of(&a);
  for (int round = 0; round < ROUNDS; round++) {
    for (int i = 0; i < STRINGS; i++) {
      CHECK(is_string(jsstr_intern(&a, ids[i]), keys[i]) && is_string(jsstr_intern(&a, keys[i]), keys[i]));
      CHECK(is_string(jsstr_intern_unchecked(&a, ids[i]), keys[i]) && is_string(jsstr_intern_unchecked(&a, keys[i]), keys[i]));
      CHECK(jsstr_index_of(&a, ids[i], keys[i], 0).at == 0 && jsstr_starts_with(&a, keys[i], ids[i], 0).holds);
      CHECK(jsstr_last_index_of(&a, ids[i], keys[i], 9).at == 0 && jsstr_equal(&a, ids[i], keys[i]).holds);
    }
    CHECK(has_used(&a, use.ids, use.words) && jsstr_split(&a, 1, &b) == JSSTR_DONE);
    for (int i = 0; i < STRINGS; i++) CHECK(is_string(jsstr_intern(&b, ids[i]), keys[i]) && is_string(jsstr_intern(&b, ids[i]), keys[i]));
    CHECK(jsstr_join(&a, &b) == JSSTR_DONE && has_used(&a, use.ids, use.words));
  }
  while (jsstr_from_units(&a, units, 0).status == JSSTR_DONE) {}
  for (int i = 0; i < STRINGS; i++) CHECK(is_string(jsstr_intern(&a, ids[i]), keys[i]));
  CHECK(jsstr_count_interned(&a).value == STRINGS && jsstr_free(&a) == JSSTR_DONE);
}

/* One free slot and none, no id and no word: what is in the table is answered, and what isn't is refused. */
static void refuse_keys(void) {
  jsstr_agent a = {0};
  static const uint16_t x[] = {'x', 'y', 'z'}, wide[] = {0x4E16, 0x754C};
  CHECK(jsstr_make((jsstr_size){9, 9, 2}, 1, 9, &a) == JSSTR_DONE);
  jsstr_id one = jsstr_intern_units(&a, x, 1).id, two = jsstr_intern_units(&a, wide, 2).id;
  jsstr_answer slots = jsstr_intern_units(&a, x, 3);
  CHECK(slots.status == JSSTR_NO_SLOTS && slots.id == JSSTR_NO_STRING && !slots.at && !slots.want && slots.end == 2);
  CHECK(is_bare(jsstr_find_units(&a, x, 3), JSSTR_NONE) && is_string(jsstr_find_units(&a, wide, 2), two));
  CHECK(is_string(jsstr_intern_units(&a, x, 1), one) && has_used(&a, 2, 2) && jsstr_free(&a) == JSSTR_DONE);

  CHECK(jsstr_make((jsstr_size){1, 9, 9}, 1, 9, &a) == JSSTR_DONE);
  one = jsstr_intern_units(&a, x, 1).id;
  jsstr_answer ids = jsstr_intern_units(&a, x, 0);
  CHECK(ids.status == JSSTR_NO_IDS && ids.id == JSSTR_NO_STRING && ids.at == 1 && ids.want == 1 && ids.end == 1);
  CHECK(is_bare(jsstr_find_units(&a, x, 0), JSSTR_NONE) && jsstr_count_interned(&a).value == 1);
  CHECK(is_string(jsstr_intern_units(&a, x, 1), one) && is_string(jsstr_find_bytes(&a, JSSTR_LATIN1, (const uint8_t *)"x", 1), one));
  CHECK(has_used(&a, 1, 1) && jsstr_free(&a) == JSSTR_DONE);

  CHECK(jsstr_make((jsstr_size){9, 1, 9}, 1, 9, &a) == JSSTR_DONE);
  one = jsstr_intern_units(&a, x, 3).id;
  jsstr_answer words = jsstr_intern_units(&a, x, 2);
  CHECK(words.status == JSSTR_NO_WORDS && words.id == JSSTR_NO_STRING && words.at == 1 && words.want == 1 && words.end == 1);
  CHECK(is_bare(jsstr_find_units(&a, x, 2), JSSTR_NONE) && is_string(jsstr_intern_units(&a, x, 3), one) && has_used(&a, 1, 1));
  CHECK(jsstr_intern_units(&a, x, 0).status == JSSTR_DONE && has_used(&a, 2, 1) && jsstr_free(&a) == JSSTR_DONE);
}

static int is_batch(jsstr_batch b, uint32_t done) { return b.status == JSSTR_DONE && b.done == done && !b.at && !b.want && !b.end; }
static int is_bad_batch(jsstr_batch b) { return b.status == JSSTR_BAD_ARGUMENT && !b.done && !b.at && !b.want && !b.end; }

/* Many lists in one call: none, an empty one, equal ones, and more room for ids than lists. */
static void intern_many(void) {
  jsstr_agent a = {0}, none = {0};
  static const uint16_t units[] = {'a', 'b', 'a', 'b', 0x4E16};
  static const uint32_t ends[] = {0, 2, 4, 4, 5}, bad[][2] = {{2, 1}, {0, 6}, {6, 6}, {JSSTR_MAX_LENGTH, UINT32_MAX}};
  jsstr_id ids[6] = {7, 7, 7, 7, 7, 7};
  CHECK(jsstr_make((jsstr_size){9, 9, 7}, 1, 9, &a) == JSSTR_DONE);
  CHECK(is_batch(jsstr_intern_many(&a, units, 5, ends, 0, ids, 0), 0) && is_batch(jsstr_intern_many(&a, units, 0, ends, 0, ids, 6), 0));
  for (int i = 0; i < 4; i++) CHECK(is_bad_batch(jsstr_intern_many(&a, units, 5, bad[i], 2, ids, 6)));
  CHECK(is_bad_batch(jsstr_intern_many(&a, units, 5, ends, 5, ids, 4)) && is_bad_batch(jsstr_intern_many(&none, units, 5, ends, 5, ids, 6)));
  for (int i = 0; i < 6; i++) CHECK(ids[i] == 7);
  CHECK(has_used(&a, 0, 0) && is_batch(jsstr_intern_many(&a, units, 4, ends, 1, ids, 1), 1) && ids[0] == 0 && ids[1] == 7 && has_used(&a, 1, 0));
  CHECK(is_batch(jsstr_intern_many(&a, units, 5, ends, 5, ids, 6), 5) && has_used(&a, 3, 2) && jsstr_count_interned(&a).value == 3);
  CHECK(ids[0] == 0 && ids[1] == ids[2] && ids[3] == 0 && ids[5] == 7 && jsstr_is_interned(&a, ids[4]).holds);
  CHECK(is_string(jsstr_find_units(&a, units, 2), ids[1]) && is_string(jsstr_find_units(&a, units + 4, 1), ids[4]));
  jsstr_id again[5];
  CHECK(is_batch(jsstr_intern_many(&a, units, 5, ends, 5, again, 5), 5) && !memcmp(again, ids, sizeof again) && has_used(&a, 3, 2));
  CHECK(jsstr_free(&a) == JSSTR_DONE);
}

/* A refusal in the middle: the ids of the lists before it are written, and those alone. */
static void refuse_many(void) {
  static const jsstr_size sizes[] = {{2, 9, 9}, {9, 2, 9}, {9, 9, 2}};
  static const jsstr_batch refusals[] = {{JSSTR_NO_IDS, 3, 2, 1, 2}, {JSSTR_NO_WORDS, 3, 2, 1, 2}, {JSSTR_NO_SLOTS, 3, 0, 0, 2}};
  static const uint16_t units[] = {'x', 'y', 'x', 'z', 'y'};
  static const uint32_t ends[] = {1, 2, 3, 4, 5};
  for (int way = 0; way < 6; way++) {
    jsstr_agent a = {0};
    jsstr_id ids[] = {7, 7, 7, 7, 7};
    CHECK(jsstr_make(sizes[way / 2], 1, 9, &a) == JSSTR_DONE);
    jsstr_batch s = jsstr_intern_many(&a, units, 5, ends, 5, ids, 5);
    CHECK(!memcmp(&s, &refusals[way / 2], sizeof s) && ids[0] == ids[2] && ids[3] == 7 && ids[4] == 7);
    CHECK(is_string(jsstr_find_units(&a, units, 1), ids[0]) && is_string(jsstr_find_units(&a, units + 1, 1), ids[1]));
    CHECK(is_bare(jsstr_find_units(&a, units + 3, 1), JSSTR_NONE) && jsstr_count_interned(&a).value == 2 && jsstr_free(&a) == JSSTR_DONE);
  }
}

/* A text of one to four bytes a character, cut short at each place, and with each byte replaced. */
static void malformed_keys(void) {
  jsstr_agent a = {0};
  static const char text[] = "a\xC3\xA9\xE4\xB8\x96\xF0\x9F\x98\x80z";
  static const uint32_t starts[] = {0, 1, 1, 3, 3, 3, 6, 6, 6, 6, 10}, all = 11;
  static const uint16_t units[] = {'a', 0xE9, 0x4E16, 0xD83D, 0xDE00, 'z'};
  uint8_t bytes[11];
  CHECK(jsstr_make((jsstr_size){9, 9, 9}, 1, 9, &a) == JSSTR_DONE);
  for (uint32_t i = 0; i < all; i++) {
    memcpy(bytes, text, all);
    bytes[i] = 0xFF;
    jsstr_answer s = jsstr_intern_bytes(&a, JSSTR_UTF8, bytes, all), t = jsstr_find_bytes(&a, JSSTR_UTF8, bytes, all);
    CHECK(s.status == JSSTR_NOT_UTF8 && s.id == JSSTR_NO_STRING && s.at == starts[i] && !s.want && !s.end && !memcmp(&s, &t, sizeof s));
    if (starts[i] == i) continue;
    s = jsstr_intern_bytes(&a, JSSTR_UTF8, (const uint8_t *)text, i), t = jsstr_find_bytes(&a, JSSTR_UTF8, (const uint8_t *)text, i);
    CHECK(s.status == JSSTR_NOT_UTF8 && s.id == JSSTR_NO_STRING && s.at == starts[i] && !s.want && !s.end && !memcmp(&s, &t, sizeof s));
  }
  CHECK(has_used(&a, 0, 0));
  jsstr_id key = jsstr_intern_bytes(&a, JSSTR_UTF8, (const uint8_t *)text, all).id;
  CHECK(is_string(jsstr_find_units(&a, units, 6), key) && jsstr_length(&a, key).value == 6);
  CHECK(has_used(&a, 1, 2) && jsstr_free(&a) == JSSTR_DONE);
}

/* The number of a string as an array index; -1 where it is none. */
static int64_t index_of(jsstr_agent *a, const char *text) {
  jsstr_id s = made(a, text);
  jsstr_number n = jsstr_array_index(a, s);
  CHECK(n.status == JSSTR_DONE || (n.status == JSSTR_NONE && !n.value));
  return n.status == JSSTR_DONE ? (int64_t)n.value : -1;
}

static void array_indexes(void) {
  jsstr_agent a = {0};
  static const char *const none[] = {"", "00", "01", "007", "+1", "-0", "-1", "1.0", "1e3", " 1", "1 ", "4294967295", "4294967296", "9999999999", "10000000000", "42949672940", "x", "1x", "x1", "0x1", "/", ":"};
  CHECK(jsstr_make((jsstr_size){2000, 2000, 10}, 1, 1000, &a) == JSSTR_DONE);
  for (size_t i = 0; i < sizeof none / sizeof *none; i++) CHECK(index_of(&a, none[i]) == -1);
  for (uint64_t n = 0; n < 4294967295u; n = n < 20 ? n + 1 : n * 10 / 7) {
    char text[16];
    snprintf(text, sizeof text, "%llu", (unsigned long long)n);
    CHECK(index_of(&a, text) == (int64_t)n);
  }
  CHECK(index_of(&a, "4294967294") == 4294967294 && index_of(&a, "1000000000") == 1000000000);
  static const uint16_t wide[] = {'1', 0xFF11}, past[] = {0x131};
  CHECK(jsstr_array_index(&a, jsstr_from_units(&a, wide, 2).id).status == JSSTR_NONE);
  CHECK(jsstr_array_index(&a, jsstr_from_units(&a, past, 1).id).status == JSSTR_NONE);
  jsstr_id rope = jsstr_concat(&a, made(&a, "1234567"), made(&a, "890123")).id, part = jsstr_slice(&a, rope, 1, 10).id;
  CHECK(jsstr_array_index(&a, rope).status == JSSTR_NONE && jsstr_array_index(&a, part).value == 234567890);
  jsstr_number bad = jsstr_array_index(&a, UINT32_MAX);
  CHECK(bad.status == JSSTR_BAD_ARGUMENT && !bad.value && jsstr_free(&a) == JSSTR_DONE);
  CHECK(jsstr_array_index(&a, 0).status == JSSTR_BAD_ARGUMENT);
}

/* The first units, with each room up to one more than there are, in both forms. */
static void read_fronts(void) {
  jsstr_agent a = {0};
  uint16_t units[20], got[22];
  CHECK(jsstr_make((jsstr_size){100, 200, 10}, 1, 1000, &a) == JSSTR_DONE);
  for (int wide = 0; wide < 2; wide++)
    for (uint32_t len = 0; len <= 20; len++) {
      for (uint32_t i = 0; i < len; i++) units[i] = (uint16_t)(wide && i % 3 ? 0xD800 + i : i);
      jsstr_id s = jsstr_from_units(&a, units, len).id;
      for (uint32_t room = 0; room <= len + 1; room++) {
        memset(got, 0x5A, sizeof got);
        CHECK(jsstr_read(&a, s, 0, got, room) == (room > len ? JSSTR_BAD_ARGUMENT : JSSTR_DONE));
        uint32_t written = room > len ? 0 : room;
        CHECK(!memcmp(units, got, written * 2));
        for (uint32_t i = written; i < 22; i++) CHECK(got[i] == 0x5A5A);
      }
    }
  got[0] = 7;
  CHECK(jsstr_read(&a, 99, 0, got, 0) == JSSTR_BAD_ARGUMENT && got[0] == 7 && jsstr_free(&a) == JSSTR_DONE);
  CHECK(jsstr_read(&a, 0, 0, got, 0) == JSSTR_BAD_ARGUMENT && got[0] == 7);
}

/* A number that is no encoding: every call with one refuses it, and nothing is done. */
static void no_encoding(void) {
  jsstr_agent a = {0};
  jsstr_builder text = {0};
  const uint8_t bytes[] = "bytes";
  CHECK(jsstr_make((jsstr_size){10, 10, 11}, 1, 100, &a) == JSSTR_DONE);
  jsstr_id s = jsstr_intern_bytes(&a, JSSTR_LATIN1, bytes, 5).id;
  jsstr_room use = jsstr_room_of(&a);
  for (int i = 0; i < 3; i++) {
    const uint32_t how[] = {JSSTR_WTF8 + 1, 255, UINT32_MAX};
    CHECK(is_bare(jsstr_from_bytes(&a, how[i], bytes, 5), JSSTR_BAD_ARGUMENT) && is_bare(jsstr_intern_bytes(&a, how[i], bytes, 5), JSSTR_BAD_ARGUMENT));
    CHECK(is_bare(jsstr_find_bytes(&a, how[i], bytes, 5), JSSTR_BAD_ARGUMENT) && is_bare(jsstr_build_bytes(&text, how[i], bytes, 5), JSSTR_BAD_ARGUMENT));
    CHECK(jsstr_equals_bytes(&a, s, how[i], bytes, 5).status == JSSTR_BAD_ARGUMENT && jsstr_compare_bytes(&a, s, how[i], bytes, 5).status == JSSTR_BAD_ARGUMENT);
  }
  jsstr_room now = jsstr_room_of(&a);
  CHECK(!memcmp(&use, &now, sizeof use) && !text.live && jsstr_free(&a) == JSSTR_DONE);
}

static int has_units(jsstr_agent *a, jsstr_id s, const uint16_t *units, uint32_t len) {
  uint16_t got[64];
  return jsstr_length(a, s).value == len && jsstr_read(a, s, 0, got, len) == JSSTR_DONE && !memcmp(units, got, len * 2);
}

/* Strings carried to another heap: each form of string, what they use there, each refusal, the same heap. */
static void copies(void) {
  jsstr_agent a = {0}, b = {0}, c = {0};
  uint16_t units[40];
  CHECK(jsstr_make((jsstr_size){200, 400, 10}, 2, 1000, &a) == JSSTR_DONE);
  CHECK(jsstr_make((jsstr_size){200, 400, 10}, 1, 1000, &b) == JSSTR_DONE);
  for (int wide = 0; wide < 2; wide++)
    for (uint32_t len = 0; len <= 40; len += len < 10 ? 1 : 15) {
      for (uint32_t i = 0; i < len; i++) units[i] = (uint16_t)(wide && i % 3 ? 0xD800 + i : i + 1);
      jsstr_id s = jsstr_from_units(&a, units, len).id;
      jsstr_room use = jsstr_room_of(&b), mine = jsstr_room_of(&a);
      jsstr_answer copy = jsstr_copy_into(&a, s, &b), again = jsstr_copy_into(&a, s, &b);
      uint32_t lanes = wide && len > 1 ? 4 : 8, words = (len + lanes - 1) / lanes;
      CHECK(is_string(copy, copy.id) && is_string(again, again.id) && copy.id != again.id);
      CHECK(has_used(&b, use.ids + 2, use.words + 2 * words) && has_used(&a, mine.ids, mine.words));
      CHECK(has_units(&b, copy.id, units, len) && has_units(&b, again.id, units, len) && jsstr_is_settled(&b, copy.id).holds);
      CHECK(!jsstr_is_interned(&b, copy.id).holds);
    }
  for (uint32_t i = 0; i < 30; i++) units[i] = (uint16_t)('a' + i);
  jsstr_id left = jsstr_from_units(&a, units, 15).id, rope = jsstr_concat(&a, left, jsstr_from_units(&a, units + 15, 15).id).id;
  jsstr_id part = jsstr_slice(&a, rope, 3, 20).id;
  CHECK(has_units(&b, jsstr_copy_into(&a, rope, &b).id, units, 30) && has_units(&b, jsstr_copy_into(&a, part, &b).id, units + 3, 17));
  jsstr_id key = jsstr_intern_into(&a, part, &b).id;
  jsstr_room use = jsstr_room_of(&b);
  CHECK(is_string(jsstr_intern_into(&a, part, &b), key));
  CHECK(is_string(jsstr_find_units(&b, units + 3, 17), key) && jsstr_is_interned(&b, key).holds && has_used(&b, use.ids, use.words));
  CHECK(jsstr_intern(&a, part).status == JSSTR_DONE && has_units(&b, jsstr_copy_into(&a, part, &b).id, units + 3, 17));
  /* Within one heap. */
  CHECK(jsstr_split(&a, 1, &c) == JSSTR_DONE);
  jsstr_answer within = jsstr_copy_into(&a, left, &c);
  CHECK(within.status == JSSTR_DONE && within.id != left && has_units(&c, within.id, units, 15));
  CHECK(jsstr_intern_into(&a, part, &c).id == jsstr_intern(&c, part).id && jsstr_join(&a, &c) == JSSTR_DONE);
  /* Bad arguments change neither heap. */
  use = jsstr_room_of(&b);
  jsstr_room mine = jsstr_room_of(&a);
  CHECK(is_bare(jsstr_copy_into(&a, 199, &b), JSSTR_BAD_ARGUMENT) && is_bare(jsstr_intern_into(&a, UINT32_MAX, &b), JSSTR_BAD_ARGUMENT));
  CHECK(is_bare(jsstr_copy_into(&a, left, &c), JSSTR_BAD_ARGUMENT) && is_bare(jsstr_intern_into(&a, left, &c), JSSTR_BAD_ARGUMENT));
  CHECK(is_bare(jsstr_copy_into(&c, left, &a), JSSTR_BAD_ARGUMENT) && is_bare(jsstr_intern_into(&c, left, &a), JSSTR_BAD_ARGUMENT));
  CHECK(has_used(&a, mine.ids, mine.words) && has_used(&b, use.ids, use.words) && !c.at && !c.live);
  CHECK(jsstr_free(&a) == JSSTR_DONE && jsstr_free(&b) == JSSTR_DONE);
}

/* The other heap is full in each of its ways; and the rope has no words in its own. */
static void refuse_copies(void) {
  jsstr_agent a = {0}, b = {0};
  CHECK(jsstr_make((jsstr_size){20, 3, 9}, 1, 100, &a) == JSSTR_DONE);
  jsstr_id s = made(&a, "12345678"), x = made(&a, "x"), rope = jsstr_concat(&a, s, s).id;
  CHECK(jsstr_make((jsstr_size){2, 9, 1}, 1, 100, &b) == JSSTR_DONE);
  jsstr_answer unsettled = jsstr_copy_into(&a, rope, &b);
  CHECK(unsettled.status == JSSTR_NO_WORDS && unsettled.at == 2 && unsettled.want == 2 && unsettled.end == 3 && has_used(&b, 0, 0));
  CHECK(jsstr_intern_into(&a, rope, &b).status == JSSTR_NO_WORDS && has_used(&b, 0, 0));
  CHECK(is_string(jsstr_intern_into(&a, x, &b), 0) && jsstr_intern_into(&a, s, &b).status == JSSTR_NO_SLOTS && has_used(&b, 1, 1));
  CHECK(jsstr_copy_into(&a, s, &b).status == JSSTR_DONE);
  jsstr_answer ids = jsstr_copy_into(&a, x, &b);
  CHECK(ids.status == JSSTR_NO_IDS && ids.at == 2 && ids.want == 1 && ids.end == 2 && is_string(jsstr_intern_into(&a, x, &b), 0));
  CHECK(jsstr_free(&b) == JSSTR_DONE && jsstr_make((jsstr_size){9, 1, 1}, 1, 100, &b) == JSSTR_DONE);
  CHECK(jsstr_copy_into(&a, x, &b).status == JSSTR_DONE);
  jsstr_answer words = jsstr_copy_into(&a, s, &b);
  CHECK(words.status == JSSTR_NO_WORDS && words.at == 1 && words.want == 1 && words.end == 1);
  CHECK(jsstr_length(&a, s).value == 8 && jsstr_free(&a) == JSSTR_DONE && jsstr_free(&b) == JSSTR_DONE);
}

/* The other heap becomes full on the way, in each of its ways: what was carried over stays, and the rest can go elsewhere. */
static void copy_until_full(uint32_t way, int interns) {
  static const jsstr_size sizes[] = {{5, 99, 99}, {99, 5, 99}, {99, 99, 5}};
  static const jsstr_answer refusals[] = {{JSSTR_NO_IDS, JSSTR_NO_STRING, 5, 1, 5}, {JSSTR_NO_WORDS, JSSTR_NO_STRING, 5, 1, 5}, {JSSTR_NO_SLOTS, JSSTR_NO_STRING, 0, 0, 5}};
  jsstr_agent a = {0}, b = {0}, c = {0};
  uint16_t units[] = {'s', 't', 'r', 'i', 'n', 'g', ' ', 0};
  jsstr_answer went[12];
  CHECK(jsstr_make((jsstr_size){99, 99, 9}, 1, 100, &a) == JSSTR_DONE && jsstr_make((jsstr_size){12, 12, 12}, 1, 100, &c) == JSSTR_DONE);
  CHECK(jsstr_make(sizes[way], 1, 100, &b) == JSSTR_DONE);
  for (uint32_t i = 0; i < 12; i++) {
    units[7] = (uint16_t)('a' + i);
    went[i] = (interns ? jsstr_intern_into : jsstr_copy_into)(&a, jsstr_from_units(&a, units, 8).id, &b);
    CHECK(i < 5 ? is_string(went[i], went[i].id) : !memcmp(&went[i], &refusals[way], sizeof *went));
    CHECK(i < 5 || is_string((interns ? jsstr_intern_into : jsstr_copy_into)(&a, i, &c), i - 5));
  }
  for (uint32_t i = 0; i < 12; i++) {
    units[7] = (uint16_t)('a' + i);
    CHECK(has_units(&a, i, units, 8) && (i < 5 ? has_units(&b, went[i].id, units, 8) : has_units(&c, i - 5, units, 8)));
    if (interns) CHECK(i < 5 ? is_string(jsstr_find_units(&b, units, 8), went[i].id) : is_bare(jsstr_find_units(&b, units, 8), JSSTR_NONE));
  }
  CHECK(has_used(&a, 12, 12) && has_used(&c, 7, 7) && jsstr_count_interned(&b).value == (interns ? 5 : 0));
  CHECK(jsstr_free(&a) == JSSTR_DONE && jsstr_free(&b) == JSSTR_DONE && jsstr_free(&c) == JSSTR_DONE);
}

/* A rope that can't be settled for lack of words: what needs it settled is refused, and the rope stays. */
static void refuse_settling(void) {
  jsstr_agent a = {0};
  uint16_t got[16];
  CHECK(jsstr_make((jsstr_size){10, 2, 1}, 1, 100, &a) == JSSTR_DONE);
  jsstr_id s = made(&a, "12345678"), rope = jsstr_concat(&a, s, s).id, t = jsstr_concat(&a, rope, s).id;
  CHECK(jsstr_settle(&a, t).status == JSSTR_NO_WORDS && jsstr_slice(&a, t, 1, 20).status == JSSTR_NO_WORDS);
  CHECK(jsstr_read(&a, t, 0, got, 16) == JSSTR_NO_WORDS && jsstr_compare(&a, s, t).status == JSSTR_NO_WORDS);
  CHECK(jsstr_equal(&a, t, s).status == JSSTR_NO_WORDS && jsstr_intern(&a, t).status == JSSTR_NO_WORDS);
  CHECK(jsstr_array_index(&a, t).status == JSSTR_NO_WORDS);
  CHECK(jsstr_starts_with(&a, t, s, 0).status == JSSTR_NO_WORDS && jsstr_index_of(&a, t, s, 0).status == JSSTR_NO_WORDS);
  CHECK(jsstr_last_index_of(&a, t, s, 9).status == JSSTR_NO_WORDS && jsstr_length(&a, t).value == 24);
  CHECK(jsstr_free(&a) == JSSTR_DONE);
}

int main(void) {
  CHECK(jsstr_version() == JSSTR_VERSION_NUMBER);
  refuse_strings();
  refuse_parts();
  refuse_joins();
  refuse_settling();
  intern_units();
  fill_table(1);
  fill_table(2);
  fill_table(400);
  intern_again();
  refuse_keys();
  intern_many();
  refuse_many();
  malformed_keys();
  array_indexes();
  read_fronts();
  no_encoding();
  copies();
  refuse_copies();
  for (uint32_t way = 0; way < 3; way++) copy_until_full(way, 1);
  for (uint32_t way = 0; way < 2; way++) copy_until_full(way, 0);
  most_agents();
  unchecked();
  refuse_sizes();
  refuse_calls();
  intern_by_two();
  windows();
  every_byte();
  free_in_any_order();
  puts("ok");
  return 0;
}
