/* Ids and words that an agent reserves, from which its later strings are taken, and renews by blocks: what is used, and
   when, and what becomes of the rest; by calls in both forms, also where the heap is full but for what an agent reserved.
   Prints "ok". */
#include "jsstr_unchecked.h"
#include <stdio.h>
#include <stdlib.h>
#include <string.h>

#define CHECK(c) do { if (!(c)) { printf("line %d: %s\n", __LINE__, #c); exit(1); } } while (0)

static const char LONG[] = "a string of 24 units, 3w";
static const char LONGER[] = "a string of 64 units, which are 8 words, so more than a block is";

/* What all agents used, and what this one has in reserve. */
static int has(jsstr_agent *a, uint32_t used_ids, uint32_t used_words, uint32_t ids, uint32_t words) {
  jsstr_room room = jsstr_room_of(a);
  jsstr_counts kept = jsstr_reserved(a);
  CHECK(kept.status == JSSTR_DONE);
  return room.ids == used_ids && room.words == used_words && kept.ids == ids && kept.words == words;
}

static int is_done(jsstr_answer s) { return s.status == JSSTR_DONE && s.id == JSSTR_NO_STRING && !s.at && !s.want && !s.end; }

static int is_refused(jsstr_answer s, uint32_t status, uint32_t at, uint32_t want, uint32_t end) {
  return s.status == status && s.id == JSSTR_NO_STRING && s.at == at && s.want == want && s.end == end;
}

static jsstr_answer made(jsstr_agent *a, const char *text) { return jsstr_from_bytes(a, JSSTR_LATIN1, (const uint8_t *)text, strlen(text)); }

static jsstr_id id_of(jsstr_answer s) {
  CHECK(s.status == JSSTR_DONE);
  return s.id;
}

static jsstr_id interned(jsstr_agent *a, const char *text) { return id_of(jsstr_intern_bytes(a, JSSTR_LATIN1, (const uint8_t *)text, strlen(text))); }

static int has_text(jsstr_agent *a, jsstr_id s, const char *text) { return jsstr_equals_bytes(a, s, JSSTR_LATIN1, (const uint8_t *)text, strlen(text)).holds; }

/* Each kind of new string takes an id, in their order, and a copy its words; none uses anything. */
static void take(void) {
  jsstr_agent a = {0}, far = {0};
  CHECK(jsstr_make((jsstr_size){100, 100, 7}, 1, 100, &a) == JSSTR_DONE && jsstr_make((jsstr_size){9, 9, 7}, 1, 100, &far) == JSSTR_DONE);
  CHECK(has(&a, 0, 0, 0, 0) && is_done(jsstr_reserve(&a, 0, 0)) && has(&a, 0, 0, 0, 0));
  CHECK(is_done(jsstr_reserve(&a, 8, 20)) && has(&a, 8, 20, 8, 20));
  jsstr_id one = id_of(made(&a, LONG)), short_one = id_of(made(&a, "short"));
  CHECK(one == 0 && short_one == 1 && has(&a, 8, 20, 6, 16));
  jsstr_id rope = id_of(jsstr_concat(&a, one, short_one)), both = id_of(jsstr_concat_unchecked(&a, short_one, short_one));
  CHECK(rope == 2 && both == 3 && has(&a, 8, 20, 4, 14) && has_text(&a, both, "shortshort"));
  CHECK(has_text(&a, rope, "a string of 24 units, 3wshort") && has(&a, 8, 24, 4, 14)); /* settling takes nothing from these */
  jsstr_id part = id_of(jsstr_slice(&a, one, 2, 20)), few = id_of(jsstr_slice_unchecked(&a, one, 2, 8));
  CHECK(part == 4 && few == 5 && has(&a, 8, 24, 2, 13) && has_text(&a, part, "string of 24 units") && has_text(&a, few, "string"));
  CHECK(id_of(jsstr_slice(&a, one, 0, 24)) == one && has(&a, 8, 24, 2, 13));
  jsstr_id empty = id_of(made(&a, ""));
  CHECK(id_of(jsstr_concat(&a, empty, one)) == one && has(&a, 8, 24, 1, 13));
  CHECK(id_of(jsstr_copy_into(&a, both, &far)) == 0 && id_of(jsstr_copy_into(&far, 0, &a)) == 7 && has(&a, 8, 24, 0, 11));
  CHECK(id_of(made(&a, "of its own")) == 8 && has(&a, 9, 24, 0, 9)); /* an id of its own, and words of these */
  CHECK(jsstr_free(&a) == JSSTR_DONE && jsstr_free(&far) == JSSTR_DONE);
}

/* An id that isn't above a rope's sides, or above what is cut, is left for a string that is copied. */
static void below(void) {
  jsstr_agent a = {0};
  CHECK(jsstr_make((jsstr_size){100, 100, 7}, 1, 100, &a) == JSSTR_DONE && is_done(jsstr_reserve(&a, 2, 0)));
  jsstr_id key = interned(&a, LONG); /* there are no words for it */
  CHECK(key == 2 && has(&a, 3, 3, 2, 0) && is_done(jsstr_reserve(&a, 0, 10)) && has(&a, 3, 13, 2, 10));
  CHECK(id_of(jsstr_concat(&a, key, key)) == 3 && has(&a, 4, 13, 2, 10));
  CHECK(id_of(jsstr_slice(&a, key, 1, 20)) == 4 && has(&a, 5, 13, 2, 10));
  jsstr_id one = id_of(made(&a, "one"));
  CHECK(one == 0 && has(&a, 5, 13, 1, 9) && id_of(jsstr_concat(&a, one, key)) == 5 && id_of(jsstr_concat(&a, key, one)) == 6);
  CHECK(has(&a, 7, 13, 1, 9) && id_of(jsstr_slice(&a, key, 0, 3)) == 1 && has(&a, 7, 13, 0, 8));
  CHECK(jsstr_free(&a) == JSSTR_DONE);
}

/* More than there is, all that there is, and words in two runs. */
static void refuse(void) {
  jsstr_agent a = {0}, none = {0};
  CHECK(is_refused(jsstr_reserve(&none, 1, 1), JSSTR_BAD_ARGUMENT, 0, 0, 0) && jsstr_reserved(&none).status == JSSTR_BAD_ARGUMENT && !none.at);
  CHECK(jsstr_make((jsstr_size){10, 25, 7}, 1, 100, &a) == JSSTR_DONE);
  CHECK(is_refused(jsstr_reserve(&a, 3, 26), JSSTR_NO_WORDS, 0, 26, 25) && has(&a, 0, 0, 0, 0));
  CHECK(is_refused(jsstr_reserve(&a, 3, UINT32_MAX), JSSTR_NO_WORDS, 0, UINT32_MAX, 25) && has(&a, 0, 0, 0, 0));
  CHECK(is_done(jsstr_reserve(&a, 1, 3)) && is_done(jsstr_reserve(&a, 1, 2)) && has(&a, 2, 5, 2, 5));
  CHECK(interned(&a, "a key of 41 units, for which six words do") == 2 && has(&a, 3, 11, 2, 5));
  CHECK(is_done(jsstr_reserve(&a, 0, 4)) && has(&a, 3, 15, 2, 4)); /* the five words before are lost */
  CHECK(is_refused(jsstr_reserve(&a, 8, 10), JSSTR_NO_IDS, 10, 1, 10) && has(&a, 10, 25, 9, 14));
  CHECK(is_refused(jsstr_reserve(&a, 1, 0), JSSTR_NO_IDS, 10, 1, 10) && is_refused(jsstr_reserve(&a, 0, 1), JSSTR_NO_WORDS, 25, 1, 25));
  CHECK(is_done(jsstr_reserve(&a, 0, 0)) && has(&a, 10, 25, 9, 14));
  for (int i = 0; i < 4; i++) id_of(made(&a, LONG));
  CHECK(has(&a, 10, 25, 5, 2) && is_refused(made(&a, LONG), JSSTR_NO_WORDS, 25, 3, 25) && has(&a, 10, 25, 5, 2));
  for (int i = 0; i < 5; i++) id_of(made(&a, i < 2 ? "short" : ""));
  CHECK(has(&a, 10, 25, 0, 0) && is_refused(made(&a, ""), JSSTR_NO_IDS, 10, 1, 10));
  CHECK(jsstr_free(&a) == JSSTR_DONE);
}

/* Keys that are not in the table take an id and words, by each call; those that are there take nothing. */
static void keys(void) {
  jsstr_agent a = {0};
  const uint16_t wide[] = {0x100, 0x101, 0x102, 0x103, 0x104}, many[] = {'a', 'b', 'a', 'c', 'd'};
  const uint32_t ends[] = {1, 2, 3, 5};
  jsstr_id ids[4];
  CHECK(jsstr_make((jsstr_size){100, 100, 31}, 1, 100, &a) == JSSTR_DONE && is_done(jsstr_reserve(&a, 9, 12)));
  CHECK(interned(&a, LONG) == 0 && has(&a, 9, 12, 8, 9) && interned(&a, LONG) == 0 && has(&a, 9, 12, 8, 9));
  CHECK(id_of(jsstr_intern_units(&a, wide, 5)) == 1 && has(&a, 9, 12, 7, 7) && id_of(jsstr_intern_units(&a, wide, 5)) == 1);
  CHECK(id_of(jsstr_intern_bytes(&a, JSSTR_UTF8, (const uint8_t *)"\xc3\xa9t\xc3\xa9", 5)) == 2 && has(&a, 9, 12, 6, 6) && has_text(&a, 2, "\xe9t\xe9"));
  CHECK(id_of(jsstr_intern_bytes(&a, JSSTR_LATIN1, (const uint8_t *)"\xe9t\xe9", 3)) == 2 && has(&a, 9, 12, 6, 6));
  CHECK(jsstr_intern_many(&a, many, 5, ends, 4, ids, 4).done == 4 && has(&a, 9, 12, 3, 3));
  CHECK(ids[0] == 3 && ids[1] == 4 && ids[2] == 3 && ids[3] == 5 && has_text(&a, 5, "cd"));
  jsstr_id s = id_of(made(&a, "a string"));
  CHECK(s == 6 && has(&a, 9, 12, 2, 2) && id_of(jsstr_intern(&a, s)) == 7 && has(&a, 9, 12, 1, 2)); /* a string takes an id alone */
  CHECK(interned(&a, "a string") == 7 && interned(&a, "") == 8 && has(&a, 9, 12, 0, 2) && interned(&a, LONG) == 0);
  CHECK(jsstr_free(&a) == JSSTR_DONE);
}

/* A heap that is full but for what was reserved, and a table without a free slot, which leaves that. */
static void last(void) {
  jsstr_agent a = {0};
  CHECK(jsstr_make((jsstr_size){2, 3, 7}, 1, 100, &a) == JSSTR_DONE && is_done(jsstr_reserve(&a, 2, 3)));
  CHECK(is_refused(jsstr_intern_bytes(&a, JSSTR_LATIN1, (const uint8_t *)"a key of 30 units, too long, .", 30), JSSTR_NO_WORDS, 3, 4, 3) && has(&a, 2, 3, 2, 3));
  CHECK(interned(&a, "a") == 0 && interned(&a, "b") == 1 && interned(&a, "a") == 0 && has(&a, 2, 3, 0, 1));
  CHECK(is_refused(jsstr_intern_bytes(&a, JSSTR_LATIN1, (const uint8_t *)"", 0), JSSTR_NO_IDS, 2, 1, 2) && has(&a, 2, 3, 0, 1));
  CHECK(jsstr_free(&a) == JSSTR_DONE);
  CHECK(jsstr_make((jsstr_size){9, 9, 1}, 1, 100, &a) == JSSTR_DONE && is_done(jsstr_reserve(&a, 3, 3)));
  CHECK(interned(&a, "a") == 0 && jsstr_intern_bytes(&a, JSSTR_LATIN1, (const uint8_t *)"b", 1).status == JSSTR_NO_SLOTS && has(&a, 3, 3, 2, 2) && interned(&a, "a") == 0);
  CHECK(jsstr_free(&a) == JSSTR_DONE);
}

/* Two agents: what one reserved the other can't use, and what goes over, or is lost, as they are joined or given back. */
static void share(void) {
  jsstr_agent a = {0}, b = {0};
  CHECK(jsstr_make((jsstr_size){30, 30, 7}, 3, 100, &a) == JSSTR_DONE && is_done(jsstr_reserve(&a, 2, 4)));
  CHECK(jsstr_split(&a, 1, &b) == JSSTR_DONE && has(&a, 2, 4, 2, 4) && has(&b, 2, 4, 0, 0));
  CHECK(is_done(jsstr_reserve(&b, 3, 6)) && has(&b, 5, 10, 3, 6) && has(&a, 5, 10, 2, 4));
  CHECK(jsstr_join(&a, &b) == JSSTR_DONE && !b.at && has(&a, 5, 10, 2, 4)); /* what b reserved is lost */
  CHECK(id_of(made(&a, LONG)) == 0 && id_of(made(&a, "")) == 1 && has(&a, 5, 10, 0, 1));
  CHECK(jsstr_split(&a, 1, &b) == JSSTR_DONE && is_done(jsstr_reserve(&b, 3, 6)) && has(&b, 8, 16, 3, 6));
  jsstr_id theirs = id_of(made(&b, "theirs"));
  CHECK(theirs == 5 && jsstr_join(&a, &b) == JSSTR_DONE && has(&a, 8, 16, 2, 1)); /* the ids go over */
  CHECK(id_of(made(&a, "mine")) == 6 && has(&a, 8, 16, 1, 0) && has_text(&a, theirs, "theirs") && has_text(&a, 6, "mine"));
  CHECK(jsstr_split(&a, 1, &b) == JSSTR_DONE && is_done(jsstr_reserve(&b, 3, 6)) && jsstr_join(&a, &b) == JSSTR_DONE && has(&a, 11, 22, 1, 6)); /* the words do */
  CHECK(id_of(made(&a, LONG)) == 7 && has(&a, 11, 22, 0, 3));
  CHECK(jsstr_split(&a, 1, &b) == JSSTR_DONE && is_refused(jsstr_reserve(&b, 40, 8), JSSTR_NO_IDS, 30, 1, 30) && has(&b, 30, 30, 19, 8));
  CHECK(is_refused(made(&a, "a"), JSSTR_NO_IDS, 30, 1, 30) && is_refused(made(&a, ""), JSSTR_NO_IDS, 30, 1, 30) && id_of(made(&b, LONG)) == 11);
  CHECK(jsstr_free(&b) == JSSTR_DONE && has(&a, 30, 30, 0, 3) && is_refused(made(&a, ""), JSSTR_NO_IDS, 30, 1, 30)); /* what b reserved is lost */
  CHECK(jsstr_free(&a) == JSSTR_DONE);
}

/* Blocks that are claimed where a new string finds no id, or too few words; each kind of string, and what needs none. */
static void renew(void) {
  jsstr_agent a = {0}, none = {0};
  CHECK(jsstr_renew(&none, 1, 1) == JSSTR_BAD_ARGUMENT && !none.at);
  CHECK(jsstr_make((jsstr_size){30, 40, 7}, 1, 100, &a) == JSSTR_DONE && jsstr_renew(&a, 4, 6) == JSSTR_DONE && has(&a, 0, 0, 0, 0));
  jsstr_id one = id_of(made(&a, "short"));
  CHECK(one == 0 && has(&a, 4, 6, 3, 5));
  jsstr_id b = id_of(made(&a, LONG)), c = id_of(made(&a, LONG));
  CHECK(b == 1 && c == 2 && has(&a, 4, 12, 1, 5)); /* the words go on where those before end */
  CHECK(id_of(jsstr_concat(&a, b, c)) == 3 && has(&a, 4, 12, 0, 5));
  CHECK(id_of(jsstr_concat_unchecked(&a, c, b)) == 4 && has(&a, 8, 12, 3, 5));
  CHECK(id_of(jsstr_slice(&a, b, 2, 20)) == 5 && has(&a, 8, 12, 2, 5));
  CHECK(strlen(LONGER) == 64 && id_of(made(&a, LONGER)) == 6 && has(&a, 8, 20, 1, 5)); /* as many words as it needs */
  CHECK(id_of(jsstr_concat(&a, one, one)) == 7 && has(&a, 8, 20, 0, 3));
  CHECK(id_of(jsstr_slice(&a, b, 0, 24)) == b && jsstr_length(&a, b).value == 24 && has(&a, 8, 20, 0, 3)); /* no new string */
  CHECK(jsstr_concat(&a, 6, 6).status == JSSTR_TOO_LONG && has(&a, 8, 20, 0, 3));
  jsstr_id empty = id_of(made(&a, ""));
  CHECK(empty == 8 && has(&a, 12, 20, 3, 3) && id_of(jsstr_concat(&a, empty, b)) == b && has(&a, 12, 20, 3, 3));
  CHECK(jsstr_renew(&a, 0, 6) == JSSTR_DONE); /* where no id is left it claims nothing */
  for (jsstr_id i = 9; i < 12; i++) CHECK(id_of(made(&a, "")) == i);
  CHECK(id_of(made(&a, "")) == 12 && has(&a, 13, 20, 0, 3) && id_of(made(&a, LONG)) == 13 && has(&a, 14, 20, 0, 0)); /* its words are there */
  CHECK(id_of(made(&a, LONGER)) == 14 && has(&a, 15, 28, 0, 0));
  CHECK(jsstr_renew(&a, 4, 0) == JSSTR_DONE && id_of(made(&a, LONGER)) == 15 && has(&a, 16, 36, 0, 0));
  CHECK(is_done(jsstr_reserve(&a, 0, 3)) && id_of(made(&a, "short")) == 16 && has(&a, 20, 39, 3, 2));
  CHECK(jsstr_renew(&a, 0, 0) == JSSTR_DONE && is_refused(made(&a, LONG), JSSTR_NO_WORDS, 39, 3, 40) && has(&a, 20, 39, 3, 2));
  CHECK(jsstr_renew(&a, 4, 6) == JSSTR_DONE && is_refused(made(&a, LONG), JSSTR_NO_WORDS, 39, 3, 40) && has(&a, 20, 39, 3, 2));
  CHECK(id_of(made(&a, "short")) == 17 && id_of(made(&a, "short")) == 18 && has(&a, 20, 39, 1, 0));
  CHECK(id_of(made(&a, "short")) == 19 && has(&a, 20, 40, 0, 0)); /* no whole block is left, but the word is */
  CHECK(is_refused(made(&a, "short"), JSSTR_NO_WORDS, 40, 1, 40) && id_of(made(&a, "")) == 20 && has(&a, 24, 40, 3, 0));
  for (jsstr_id i = 21; i < 30; i++) CHECK(id_of(made(&a, "")) == i); /* the last block is of two ids */
  CHECK(has(&a, 30, 40, 0, 0) && is_refused(made(&a, ""), JSSTR_NO_IDS, 30, 1, 30) && has(&a, 30, 40, 0, 0));
  CHECK(jsstr_free(&a) == JSSTR_DONE);
}

/* Blocks of more than is left, of one agent of two, and what becomes of them as agents are split off and joined. */
static void renew_beside(void) {
  jsstr_agent a = {0}, b = {0};
  CHECK(jsstr_make((jsstr_size){20, 20, 7}, 2, 100, &a) == JSSTR_DONE && jsstr_renew(&a, 1, 1) == JSSTR_DONE);
  CHECK(id_of(made(&a, "short")) == 0 && has(&a, 1, 1, 0, 0));
  CHECK(jsstr_renew(&a, 2, 2) == JSSTR_DONE && id_of(jsstr_intern(&a, 0)) == 1 && has(&a, 3, 1, 1, 0)); /* a string that is no slice renews ids alone */
  CHECK(id_of(jsstr_intern(&a, 0)) == 1 && has(&a, 3, 1, 1, 0));
  CHECK(jsstr_free(&a) == JSSTR_DONE);

  CHECK(jsstr_make((jsstr_size){20, 20, 7}, 2, 100, &a) == JSSTR_DONE && jsstr_renew(&a, 100, 21) == JSSTR_DONE);
  CHECK(id_of(made(&a, LONG)) == 0 && has(&a, 1, 3, 0, 0)); /* no id either, as the string took none of them */
  CHECK(id_of(jsstr_slice(&a, 0, 1, 24)) == 1 && has(&a, 20, 3, 18, 0));
  CHECK(jsstr_free(&a) == JSSTR_DONE);

  CHECK(jsstr_make((jsstr_size){20, 20, 7}, 2, 100, &a) == JSSTR_DONE && jsstr_renew(&a, 3, 3) == JSSTR_DONE);
  CHECK(jsstr_split(&a, 1, &b) == JSSTR_DONE && id_of(made(&b, "b")) == 0 && has(&b, 1, 1, 0, 0)); /* it has no blocks yet */
  CHECK(id_of(made(&a, "a")) == 1 && has(&a, 4, 4, 2, 2) && jsstr_renew(&b, 5, 5) == JSSTR_DONE);
  CHECK(id_of(made(&b, "b")) == 4 && has(&b, 9, 9, 4, 4) && has(&a, 9, 9, 2, 2));
  CHECK(id_of(made(&a, LONG)) == 2 && has(&a, 9, 12, 1, 0)); /* the two words before are lost */
  CHECK(jsstr_join(&a, &b) == JSSTR_DONE && has(&a, 9, 12, 1, 4) && id_of(made(&a, "a")) == 3 && has(&a, 9, 12, 0, 3));
  CHECK(id_of(made(&a, "a")) == 9 && has(&a, 12, 12, 2, 2)); /* by its own blocks still */
  CHECK(jsstr_split(&a, 1, &b) == JSSTR_DONE && is_done(jsstr_reserve(&b, 8, 8)) && has(&b, 20, 20, 8, 8));
  CHECK(id_of(made(&a, "a")) == 10 && id_of(made(&a, "a")) == 11 && has(&a, 20, 20, 0, 0)); /* the heap is full but for what b reserved */
  CHECK(is_refused(made(&a, "a"), JSSTR_NO_WORDS, 20, 1, 20) && is_refused(made(&a, ""), JSSTR_NO_IDS, 20, 1, 20) && has(&a, 20, 20, 0, 0));
  CHECK(jsstr_renew(&b, 2, 2) == JSSTR_DONE && id_of(made(&b, LONG)) == 12 && has(&b, 20, 20, 7, 5));
  CHECK(id_of(made(&b, LONG)) == 13 && is_refused(made(&b, LONG), JSSTR_NO_WORDS, 20, 3, 20) && has(&b, 20, 20, 6, 2));
  CHECK(jsstr_free(&b) == JSSTR_DONE && jsstr_free(&a) == JSSTR_DONE);
}

/* Interning renews what is reserved only where a string is made for a free slot; a hit, and a full table, claim nothing. */
static void renew_keys(void) {
  static const char other[] = "a key of 24 units, words";
  jsstr_agent a = {0};
  CHECK(jsstr_make((jsstr_size){20, 20, 3}, 1, 100, &a) == JSSTR_DONE && jsstr_renew(&a, 4, 6) == JSSTR_DONE);
  CHECK(interned(&a, "short") == 0 && has(&a, 4, 6, 3, 5) && interned(&a, "short") == 0 && has(&a, 4, 6, 3, 5));
  CHECK(interned(&a, LONG) == 1 && has(&a, 4, 6, 2, 2) && interned(&a, LONG) == 1 && has(&a, 4, 6, 2, 2));
  CHECK(strlen(other) == 24 && interned(&a, other) == 2 && has(&a, 4, 12, 1, 5)); /* the words go on where those before end */
  CHECK(id_of(made(&a, "")) == 3 && has(&a, 4, 12, 0, 5) && interned(&a, "short") == 0 && interned(&a, LONG) == 1 && has(&a, 4, 12, 0, 5));
  CHECK(jsstr_intern_bytes(&a, JSSTR_LATIN1, (const uint8_t *)"more", 4).status == JSSTR_NO_SLOTS && has(&a, 4, 12, 0, 5));
  CHECK(jsstr_free(&a) == JSSTR_DONE);

  CHECK(jsstr_make((jsstr_size){5, 2, 7}, 1, 100, &a) == JSSTR_DONE && jsstr_renew(&a, 2, 3) == JSSTR_DONE);
  CHECK(interned(&a, "a") == 0 && has(&a, 1, 1, 0, 0) && interned(&a, "b") == 1 && has(&a, 2, 2, 0, 0)); /* no whole block is left, but the words are */
  CHECK(is_refused(jsstr_intern_bytes(&a, JSSTR_LATIN1, (const uint8_t *)"c", 1), JSSTR_NO_WORDS, 2, 1, 2) && has(&a, 2, 2, 0, 0) && interned(&a, "a") == 0);
  CHECK(interned(&a, "") == 2 && has(&a, 4, 2, 1, 0) && interned(&a, "") == 2 && jsstr_free(&a) == JSSTR_DONE);
}

int main(void) {
  take();
  below();
  refuse();
  keys();
  last();
  share();
  renew();
  renew_beside();
  renew_keys();
  puts("ok");
  return 0;
}
