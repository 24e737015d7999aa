/* Short lists of units that agents keep, so that one that is interned again or found is answered by one load: lists of lengths about
   the longest that is kept, many at one place, interned and found in turn by two agents of a heap, over a join, and where
   everything is full. Prints "ok". */
#include "jsstr.h"
#include <stdio.h>
#include <stdlib.h>
#include <string.h>

#define CHECK(c) do { if (!(c)) { printf("line %d: %s\n", __LINE__, #c); exit(1); } } while (0)
enum { LISTS = 4000, PAIRS = 200, LONGEST = 17 };

static int is_bare(jsstr_answer s, uint32_t status) { return s.status == status && s.id == JSSTR_NO_STRING && !s.at && !s.want && !s.end; }

static int is_string(jsstr_answer s, jsstr_id id) { return s.status == JSSTR_DONE && s.id == id && !s.at && !s.want && !s.end; }

static int has_used(jsstr_agent *a, uint32_t ids, uint32_t words) {
  jsstr_room use = jsstr_room_of(a);
  return use.status == JSSTR_DONE && use.ids == ids && use.words == words;
}

/* List number i, which differs from others of its length in its first unit or in its last alone; some have units over 255. */
static size_t list(int i, uint16_t *units) {
  static const size_t lengths[] = {0, 1, 15, 16, LONGEST};
  size_t n = lengths[i % 5];
  for (size_t k = 0; k < n; k++) units[k] = (uint16_t)('a' + k);
  if (n) units[i % 2 ? 0 : n - 1] = (uint16_t)(i % 3 ? i / 5 % 256 : 16 * (i / 5));
  return n;
}

/* A list that is in the table has its string in each call, whether it is kept or not. One that differs from it in its last unit
   has none. */
static void row(jsstr_agent *a, uint16_t *units, size_t n, jsstr_id id) {
  CHECK(is_string(jsstr_find_units(a, units, n), id) && is_string(jsstr_intern_units(a, units, n), id));
  CHECK(is_string(jsstr_intern_units(a, units, n), id) && is_string(jsstr_find_units(a, units, n), id));
  CHECK(jsstr_is_interned(a, id).holds && jsstr_equals_units(a, id, units, n).holds);
  if (!n) return;
  units[n - 1] ^= 0x8000;
  CHECK(is_bare(jsstr_find_units(a, units, n), JSSTR_NONE));
  units[n - 1] ^= 0x8000;
}

/* Each of two lists of one unit after the other: some two of them have one place. */
static void pairs(jsstr_agent *a, jsstr_agent *maker) {
  jsstr_id ids[PAIRS];
  uint16_t units[PAIRS];
  for (int i = 0; i < PAIRS; i++) {
    units[i] = (uint16_t)(0x4E00 + i);
    ids[i] = jsstr_intern_units(maker, units + i, 1).id;
  }
  for (int i = 0; i < PAIRS; i++) {
    for (int k = 0; k < PAIRS; k++) {
      CHECK(is_string(jsstr_intern_units(a, units + i, 1), ids[i]) && is_string(jsstr_find_units(a, units + k, 1), ids[k]));
      CHECK(is_string(jsstr_find_units(a, units + i, 1), ids[i]));
    }
  }
}

/* Two agents, each of which interned lists that the other finds; then one of them has all, on a heap with no id left. */
static void two_agents(void) {
  static jsstr_id ids[LISTS];
  jsstr_agent a = {0}, b = {0};
  uint16_t units[LONGEST];
  CHECK(jsstr_make((jsstr_size){LISTS + PAIRS, 6 * (LISTS + PAIRS), 20011}, 2, 100, &a) == JSSTR_DONE);
  CHECK(jsstr_split(&a, 1, &b) == JSSTR_DONE);
  for (int i = 0; i < LISTS; i++) {
    size_t n = list(i, units);
    jsstr_answer key = jsstr_intern_units(i % 7 ? &a : &b, units, n);
    CHECK(is_string(key, key.id));
    ids[i] = key.id;
  }
  for (int round = 0; round < 4; round++) {
    for (int i = 0; i < LISTS; i++) row(round % 2 ? &a : &b, units, list(i, units), ids[i]);
  }
  pairs(&b, &a);
  CHECK(jsstr_join(&a, &b) == JSSTR_DONE);
  while (jsstr_from_units(&a, units, 1).status == JSSTR_DONE) {}
  jsstr_room use = jsstr_room_of(&a);
  for (int i = 0; i < LISTS; i++) row(&a, units, list(i, units), ids[i]);
  CHECK(has_used(&a, use.ids, use.words) && jsstr_free(&a) == JSSTR_DONE);
}

/* A full table: what is in it is answered, and beginnings of that are refused. */
static void full_table(void) {
  static uint16_t units[] = {'s', 'i', 'x', 't', 'e', 'e', 'n', ' ', 'c', 'o', 'd', 'e', ' ', 'u', 'n', 0x2026};
  jsstr_agent a = {0};
  CHECK(jsstr_make((jsstr_size){2, 9, 2}, 1, 9, &a) == JSSTR_DONE);
  jsstr_id empty = jsstr_intern_units(&a, units, 0).id, whole = jsstr_intern_units(&a, units, 16).id;
  for (int round = 0; round < 3; round++) {
    row(&a, units, 0, empty);
    row(&a, units, 16, whole);
    for (size_t n = 1; n < 16; n++) {
      jsstr_answer refused = jsstr_intern_units(&a, units, n);
      CHECK(refused.status == JSSTR_NO_SLOTS && refused.end == 2 && is_bare(jsstr_find_units(&a, units, n), JSSTR_NONE));
    }
  }
  CHECK(has_used(&a, 2, 4) && jsstr_count_interned(&a).value == 2 && jsstr_free(&a) == JSSTR_DONE);
}

int main(void) {
  two_agents();
  full_table();
  puts("ok");
  return 0;
}
