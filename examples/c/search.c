/* Strings from UTF-8, compared and found in one another. Prints "ok". */
#include "jsstr.h"
#include <stdio.h>
#include <stdlib.h>
#include <string.h>

#define CHECK(c) do { if (!(c)) { printf("line %d: %s\n", __LINE__, #c); exit(1); } } while (0)

static jsstr_agent agent;

static jsstr_id made(const char *text) {
  jsstr_answer s = jsstr_from_bytes(&agent, JSSTR_UTF8, (const uint8_t *)text, strlen(text));
  CHECK(s.status == JSSTR_DONE);
  return s.id;
}

static jsstr_id repeated(const char *text, int times) {
  jsstr_id piece = made(text), all = made("");
  for (int i = 0; i < times; i++) {
    jsstr_answer joined = jsstr_concat(&agent, all, piece);
    CHECK(joined.status == JSSTR_DONE);
    all = joined.id;
  }
  return all;
}

static int found(jsstr_id hay, const char *needle, uint32_t from) {
  jsstr_place place = jsstr_index_of(&agent, hay, made(needle), from);
  CHECK(place.status == JSSTR_DONE || (place.status == JSSTR_NONE && place.at == 0));
  return place.status == JSSTR_DONE ? (int)place.at : -1;
}

static int found_last(jsstr_id hay, const char *needle, uint32_t limit) {
  jsstr_place place = jsstr_last_index_of(&agent, hay, made(needle), limit);
  CHECK(place.status == JSSTR_DONE || (place.status == JSSTR_NONE && place.at == 0));
  return place.status == JSSTR_DONE ? (int)place.at : -1;
}

static void order(void) {
  /* Each comes before all that follow: a unit of a surrogate pair is less than U+FFFD. */
  static const char *const rows[] = {"", "A", "AB", "Aa", "B", "a", "a\xC3\xA9", "b", "\xC3\xA9",
                                     "\xF0\x9F\x98\x80", "\xEF\xBF\xBD"};
  int count = (int)(sizeof rows / sizeof *rows);
  for (int i = 0; i < count; i++)
    for (int j = 0; j < count; j++) {
      jsstr_id a = made(rows[i]), b = made(rows[j]);
      CHECK(jsstr_compare(&agent, a, b).order == (i > j) - (i < j));
      CHECK(jsstr_equal(&agent, a, b).holds == (i == j));
    }
  jsstr_id one = repeated("0123456789", 100), other = repeated("0123456789", 99);
  CHECK(jsstr_compare(&agent, one, other).order == 1 && jsstr_compare(&agent, other, one).order == -1);
  CHECK(jsstr_equal(&agent, one, repeated("0123456789", 100)).holds && !jsstr_equal(&agent, one, other).holds);
}

static bool starts(jsstr_id hay, const char *needle, uint32_t at) {
  jsstr_truth truth = jsstr_starts_with(&agent, hay, made(needle), at);
  CHECK(truth.status == JSSTR_DONE);
  return truth.holds;
}

static void places(void) {
  jsstr_id s = made("banana");
  CHECK(found(s, "an", 0) == 1 && found(s, "an", 1) == 1 && found(s, "an", 2) == 3 && found(s, "an", 4) == -1);
  CHECK(found(s, "", 0) == 0 && found(s, "", 6) == 6 && found(s, "bananas", 0) == -1);
  CHECK(found_last(s, "an", 6) == 3 && found_last(s, "an", 3) == 3 && found_last(s, "an", 2) == 1);
  CHECK(found_last(s, "an", 0) == -1 && found_last(s, "", 9) == 6 && found_last(s, "ban", UINT32_MAX) == 0);
  CHECK(starts(s, "ban", 0) && !starts(s, "ban", 1));
  CHECK(starts(s, "na", 4) && !starts(s, "nan", 4));
  CHECK(starts(s, "", 6) && !starts(s, "", 7));
  CHECK(!starts(s, "b", UINT32_MAX));
  jsstr_id as = repeated("aaaaaaaaab", 200);
  CHECK(found(as, "aaaaaaaaabaaaaaaaaab", 1) == 10 && found(as, "aaaaaaaaaa", 0) == -1);
  CHECK(found_last(as, "baaaaaaaaab", UINT32_MAX) == 1989);
}

/* What a search leaves: strings, internings, shares and uses. */
static void kept(void) {
  jsstr_id s = made("kept"), t = made("kept");
  jsstr_answer one = jsstr_intern(&agent, s);
  CHECK(one.status == JSSTR_DONE);
  jsstr_room before = jsstr_room_of(&agent);
  uint32_t lists = jsstr_count_interned(&agent).value;
  CHECK(jsstr_equal(&agent, s, t).holds && jsstr_compare(&agent, s, one.id).order == 0);
  CHECK(jsstr_index_of(&agent, s, t, 0).at == 0 && jsstr_last_index_of(&agent, s, t, 0).at == 0);
  jsstr_room after = jsstr_room_of(&agent);
  CHECK(after.ids == before.ids && after.words == before.words);
  CHECK(jsstr_count_interned(&agent).value == lists && jsstr_share(&agent).value == 1);
  jsstr_answer other = jsstr_intern(&agent, t);
  CHECK(other.status == JSSTR_DONE && one.id == other.id);
}

static void utf8(void) {
  static const uint16_t want[] = {'a', 0xE9, 0x20AC, 0xD83D, 0xDE00, 0xFFFF, 0xDBFF, 0xDFFF, 0};
  static const char text[] = "a\xC3\xA9\xE2\x82\xAC\xF0\x9F\x98\x80\xEF\xBF\xBF\xF4\x8F\xBF\xBF";
  jsstr_answer s = jsstr_from_bytes(&agent, JSSTR_UTF8, (const uint8_t *)text, sizeof text);
  uint16_t got[9];
  CHECK(s.status == JSSTR_DONE && jsstr_length(&agent, s.id).value == 9);
  CHECK(jsstr_read(&agent, s.id, 0, got, 9) == JSSTR_DONE);
  CHECK(memcmp(want, got, sizeof want) == 0);
  /* Bytes that are no UTF-8, and how many of them are. */
  static const struct { const char *bytes; uint32_t good; } bad[] = {
    {"\x80", 0}, {"ab\xFF", 2}, {"\xC3", 0}, {"a\xC3z", 1}, {"\xC0\x80", 0}, {"\xC1\xBF", 0},
    {"\xE2\x82", 0}, {"\xC3\xA9\xE2\x82", 2}, {"\xE0\x9F\xBF", 0}, {"\xED\xA0\x80", 0}, {"\xED\xBF\xBF", 0},
    {"abc\xF0\x8F\xBF\xBF", 3}, {"\xF4\x90\x80\x80", 0}, {"\xF5\x80\x80\x80", 0}, {"\xF0\x9F\x98\x80\xA9", 4}};
  jsstr_room before = jsstr_room_of(&agent);
  for (size_t i = 0; i < sizeof bad / sizeof *bad; i++) {
    jsstr_answer none = jsstr_from_bytes(&agent, JSSTR_UTF8, (const uint8_t *)bad[i].bytes, strlen(bad[i].bytes));
    CHECK(none.status == JSSTR_NOT_UTF8 && none.at == bad[i].good && none.id == JSSTR_NO_STRING);
  }
  jsstr_room after = jsstr_room_of(&agent);
  CHECK(after.ids == before.ids && after.words == before.words);
}

static void full(void) {
  jsstr_agent small = {0};
  CHECK(jsstr_make((jsstr_size){2, 1, 1}, 1, 100, &small) == JSSTR_DONE);
  jsstr_answer words = jsstr_from_bytes(&small, JSSTR_UTF8, (const uint8_t *)"ninechars", 9);
  CHECK(words.status == JSSTR_NO_WORDS && words.at == 0 && words.want == 2 && words.end == 1);
  /* Four bytes, and two units of two lanes: one word. */
  CHECK(jsstr_from_bytes(&small, JSSTR_UTF8, (const uint8_t *)"\xF0\x9F\x98\x80", 4).status == JSSTR_DONE);
  CHECK(jsstr_from_bytes(&small, JSSTR_UTF8, (const uint8_t *)"", 0).status == JSSTR_DONE);
  CHECK(jsstr_from_bytes(&small, JSSTR_UTF8, (const uint8_t *)"", 0).status == JSSTR_NO_IDS);
  jsstr_free(&small);
}

int main(void) {
  CHECK(jsstr_make((jsstr_size){4096, 65536, 64}, 1, JSSTR_MAX_LENGTH, &agent) == JSSTR_DONE);
  order();
  places();
  kept();
  utf8();
  full();
  jsstr_free(&agent);
  puts("ok");
  return 0;
}
