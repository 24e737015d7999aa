/* Reading strings out: units, hashes, UTF-8, WTF-8 and Latin-1 into buffers of each size, and comparing with
   lists of units and with bytes; with each bad argument. Prints "ok". */
#include "jsstr_unchecked.h"
#include <stdio.h>
#include <stdlib.h>
#include <string.h>

#define CHECK(c) do { if (!(c)) { printf("line %d: %s\n", __LINE__, #c); exit(1); } } while (0)
#define MOST 64

typedef struct text { uint16_t units[MOST]; size_t len; } text;

/* A row: units, their UTF-8 with U+FFFD for what is unpaired, their WTF-8, and the place of the first unpaired
   surrogate, -1 where there is none. The bytes are those of WHATWG's TextEncoder, and of the WTF-8 page. */
typedef struct row { text of; const char *utf8, *wtf8; int unpaired; } row;

static const row rows[] = {
  {{{0}, 0}, "", "", -1},
  {{{'a'}, 1}, "a", "a", -1},
  {{{0x7F, 0x80, 0x7FF, 0x800, 0xFFFF}, 5}, "\x7F\xC2\x80\xDF\xBF\xE0\xA0\x80\xEF\xBF\xBF", "\x7F\xC2\x80\xDF\xBF\xE0\xA0\x80\xEF\xBF\xBF", -1},
  {{{0xD83D, 0xDE00}, 2}, "\xF0\x9F\x98\x80", "\xF0\x9F\x98\x80", -1},
  {{{0xD800, 0xDC00, 0xDBFF, 0xDFFF}, 4}, "\xF0\x90\x80\x80\xF4\x8F\xBF\xBF", "\xF0\x90\x80\x80\xF4\x8F\xBF\xBF", -1},
  {{{0xD800}, 1}, "\xEF\xBF\xBD", "\xED\xA0\x80", 0},
  {{{'x', 0xDC00}, 2}, "x\xEF\xBF\xBD", "x\xED\xB0\x80", 1},
  {{{0xDBFF, 'x'}, 2}, "\xEF\xBF\xBDx", "\xED\xAF\xBFx", 0},
  {{{0xD83D, 0xD83D, 0xDE00}, 3}, "\xEF\xBF\xBD\xF0\x9F\x98\x80", "\xED\xA0\xBD\xF0\x9F\x98\x80", 0},
  {{{0xD83D, 0xDE00, 0xDE00}, 3}, "\xF0\x9F\x98\x80\xEF\xBF\xBD", "\xF0\x9F\x98\x80\xED\xB8\x80", 2},
  {{{0xDFFF, 0xD800}, 2}, "\xEF\xBF\xBD\xEF\xBF\xBD", "\xED\xBF\xBF\xED\xA0\x80", 0},
  {{{'c', 'a', 'f', 0xE9, ' ', 0x4E16, 0x754C}, 7}, "caf\xC3\xA9 \xE4\xB8\x96\xE7\x95\x8C", "caf\xC3\xA9 \xE4\xB8\x96\xE7\x95\x8C", -1},
};

static jsstr_agent heap(void) {
  jsstr_agent agent = {0};
  CHECK(jsstr_make((jsstr_size){4000, 20000, 101}, 1, JSSTR_MAX_LENGTH, &agent) == JSSTR_DONE);
  return agent;
}

static jsstr_id made(jsstr_agent *agent, const text *of) {
  jsstr_answer s = jsstr_from_units(agent, of->units, of->len);
  CHECK(s.status == JSSTR_DONE);
  return s.id;
}

/* The string once more, as a rope of two halves with twelve units in front, and cut out of that. */
static jsstr_id cut(jsstr_agent *agent, const text *of) {
  const uint8_t front[] = "twelve units";
  jsstr_answer head = jsstr_from_bytes(agent, JSSTR_LATIN1, front, 12), tail = jsstr_from_units(agent, of->units, of->len);
  CHECK(head.status == JSSTR_DONE && tail.status == JSSTR_DONE);
  jsstr_answer rope = jsstr_concat(agent, head.id, tail.id);
  CHECK(rope.status == JSSTR_DONE);
  jsstr_answer part = jsstr_slice(agent, rope.id, 12, (uint32_t)(12 + of->len));
  CHECK(part.status == JSSTR_DONE);
  return part.id;
}

/* Into each room from none to three bytes more than are needed: all bytes and nothing behind them, or the size
   and nothing at all. */
static void write_to_each_room(jsstr_agent *agent, jsstr_id s, uint32_t unpaired, const char *bytes) {
  size_t need = strlen(bytes);
  for (size_t room = 0; room <= need + 3; room++) {
    uint8_t out[4 * MOST], blank[sizeof out];
    memset(out, 0xAA, sizeof out);
    memset(blank, 0xAA, sizeof blank);
    jsstr_bytes told = jsstr_to_utf8(agent, s, unpaired, out, room);
    CHECK(told.at == 0 && told.size == need);
    CHECK(told.status == (room < need ? JSSTR_NO_ROOM : JSSTR_DONE));
    size_t done = room < need ? 0 : need;
    CHECK(memcmp(out, bytes, done) == 0 && memcmp(out + done, blank, sizeof out - done) == 0);
  }
}

static void try_row(jsstr_agent *agent, const row *r, jsstr_id s) {
  CHECK(jsstr_settle(agent, s).status == JSSTR_DONE);
  write_to_each_room(agent, s, JSSTR_REPLACE, r->utf8);
  write_to_each_room(agent, s, JSSTR_KEEP, r->wtf8);
  if (r->unpaired < 0) {
    write_to_each_room(agent, s, JSSTR_REFUSE, r->utf8);
    CHECK(jsstr_equals_bytes(agent, s, JSSTR_UTF8, (const uint8_t *)r->utf8, strlen(r->utf8)).holds);
    CHECK(jsstr_compare_bytes(agent, s, JSSTR_UTF8, (const uint8_t *)r->utf8, strlen(r->utf8)).order == 0);
  } else {
    uint8_t out = 7;
    jsstr_bytes told = jsstr_to_utf8(agent, s, JSSTR_REFUSE, &out, 0);
    CHECK(told.status == JSSTR_UNMAPPED && told.at == (uint32_t)r->unpaired && told.size == 0 && out == 7);
    CHECK(jsstr_equals_bytes(agent, s, JSSTR_UTF8, (const uint8_t *)r->wtf8, strlen(r->wtf8)).status == JSSTR_NOT_UTF8);
    CHECK(jsstr_compare_bytes(agent, s, JSSTR_UTF8, (const uint8_t *)r->wtf8, strlen(r->wtf8)).status == JSSTR_NOT_UTF8);
  }
  for (uint32_t i = 0; i < r->of.len; i++) {
    CHECK(jsstr_unit_at(agent, s, i).value == r->of.units[i] && jsstr_unit_at_unchecked(agent, s, i) == r->of.units[i]);
  }
  CHECK(jsstr_unit_at(agent, s, (uint32_t)r->of.len).status == JSSTR_BAD_ARGUMENT);
  CHECK(jsstr_unit_at(agent, s, UINT32_MAX).status == JSSTR_BAD_ARGUMENT);
}

static int sign(int x) { return (x > 0) - (x < 0); }

static int order_of(const text *a, const text *b) {
  for (size_t i = 0; i < a->len && i < b->len; i++) {
    if (a->units[i] != b->units[i]) return sign((int)a->units[i] - (int)b->units[i]);
  }
  return sign((int)a->len - (int)b->len);
}

static void compare_all(jsstr_agent *agent) {
  for (size_t i = 0; i < sizeof rows / sizeof *rows; i++) {
    jsstr_id s = i % 2 ? made(agent, &rows[i].of) : cut(agent, &rows[i].of);
    for (size_t k = 0; k < sizeof rows / sizeof *rows; k++) {
      const text *other = &rows[k].of;
      int order = order_of(&rows[i].of, other);
      jsstr_order told = jsstr_compare_units(agent, s, other->units, other->len);
      CHECK(told.status == JSSTR_DONE && told.order == order);
      jsstr_truth same = jsstr_equals_units(agent, s, other->units, other->len);
      CHECK(same.status == JSSTR_DONE && same.holds == (order == 0));
    }
  }
}

/* How a string compares with bytes, by both calls, as Latin-1 and as UTF-8. */
static void compare_as(jsstr_agent *agent, jsstr_id s, const uint8_t *bytes, size_t len, int utf8, int order) {
  jsstr_order told = jsstr_compare_bytes(agent, s, utf8 ? JSSTR_UTF8 : JSSTR_LATIN1, bytes, len);
  CHECK(told.status == JSSTR_DONE && told.order == order);
  jsstr_truth same = jsstr_equals_bytes(agent, s, utf8 ? JSSTR_UTF8 : JSSTR_LATIN1, bytes, len);
  CHECK(same.status == JSSTR_DONE && same.holds == (order == 0));
}

/* Bytes that are read in several pieces: each front of them, and a unit changed at each place. */
static void compare_bytes(jsstr_agent *agent) {
  enum { LEN = 200, OF = 4 };
  static const char *const letters[OF] = {"\xC3\xA9", "\xE4\xB8\x96", "\xF0\x9F\x98\x80", "a"};
  static const int turned[OF] = {1, -1, -1, 1}; /* where the last bit of a letter is turned */
  uint8_t bytes[LEN + 1], text[OF * LEN];
  for (size_t i = 0; i <= LEN; i++) bytes[i] = (uint8_t)(2 * (i % 50) + 1);
  jsstr_id s = jsstr_from_bytes(agent, JSSTR_LATIN1, bytes, LEN).id, empty = jsstr_from_bytes(agent, JSSTR_LATIN1, bytes, 0).id;
  for (int utf8 = 0; utf8 < 2; utf8++) {
    compare_as(agent, s, bytes, LEN + 1, utf8, -1);
    compare_as(agent, empty, bytes, 0, utf8, 0);
    for (size_t n = 0; n <= LEN; n++) {
      compare_as(agent, s, bytes, n, utf8, n < LEN);
      if (n == LEN) continue;
      bytes[n]++;
      compare_as(agent, s, bytes, n % 2 ? LEN : n + 1, utf8, -1);
      bytes[n] -= 2;
      compare_as(agent, s, bytes, n % 2 ? LEN : n + 1, utf8, 1);
      bytes[n]++;
    }
  }
  size_t all = 0, at = 0;
  for (size_t i = 0; i < LEN; i++) memcpy(text + all, letters[i % OF], strlen(letters[i % OF])), all += strlen(letters[i % OF]);
  s = jsstr_from_bytes(agent, JSSTR_UTF8, text, all).id;
  for (size_t i = 0; i < LEN; i++) {
    compare_as(agent, s, text, at, 1, 1);
    at += strlen(letters[i % OF]);
    text[at - 1] ^= 1;
    compare_as(agent, s, text, i % 2 ? all : at, 1, turned[i % OF]);
    text[at - 1] ^= 1;
  }
  compare_as(agent, s, text, all, 1, 0);
  compare_as(agent, s, text, 0, 0, 1);
  text[all - 2] = 0xFF;
  CHECK(jsstr_compare_bytes(agent, s, JSSTR_UTF8, text, all).status == JSSTR_NOT_UTF8 && jsstr_equals_bytes(agent, s, JSSTR_UTF8, text, all).status == JSSTR_NOT_UTF8);
}

static void write_latin1(jsstr_agent *agent) {
  text of = {{0}, 17};
  for (size_t i = 0; i < of.len; i++) of.units[i] = (uint16_t)(i * 15);
  jsstr_id narrow = made(agent, &of);
  uint8_t out[20], want[17];
  for (size_t i = 0; i < of.len; i++) want[i] = (uint8_t)of.units[i];
  memset(out, 0xAA, sizeof out);
  jsstr_bytes told = jsstr_to_latin1(agent, narrow, out, 16);
  CHECK(told.status == JSSTR_NO_ROOM && told.size == 17 && told.at == 0 && out[0] == 0xAA);
  told = jsstr_to_latin1(agent, narrow, out, 20);
  CHECK(told.status == JSSTR_DONE && told.size == 17 && memcmp(out, want, 17) == 0 && out[17] == 0xAA);
  memset(out, 0xAA, sizeof out);
  told = jsstr_to_latin1(agent, narrow, out, 17);
  CHECK(told.status == JSSTR_DONE && told.size == 17 && memcmp(out, want, 17) == 0 && out[17] == 0xAA);
  CHECK(jsstr_equals_bytes(agent, narrow, JSSTR_LATIN1, want, 17).holds && !jsstr_equals_bytes(agent, narrow, JSSTR_LATIN1, want, 16).holds);
  CHECK(jsstr_compare_bytes(agent, narrow, JSSTR_LATIN1, want, 17).order == 0 && jsstr_compare_bytes(agent, narrow, JSSTR_LATIN1, want, 16).order == 1);
  want[3] = 255;
  CHECK(jsstr_compare_bytes(agent, narrow, JSSTR_LATIN1, want, 17).order == -1);
  of.units[5] = 255;
  of.units[11] = 256;
  jsstr_id wide = made(agent, &of);
  told = jsstr_to_latin1(agent, wide, out, 0);
  CHECK(told.status == JSSTR_UNMAPPED && told.at == 11 && told.size == 0);
  jsstr_id part = jsstr_slice(agent, wide, 0, 11).id;
  CHECK(jsstr_to_latin1(agent, part, out, sizeof out).size == 11);
}

/* The hash is the polynomial that Java's String.hashCode has, and the values are those that its users know. */
static void hash_some(jsstr_agent *agent) {
  const struct { const char *of; uint32_t hash; } known[] = {{"", 0}, {"a", 97}, {"abc", 96354}, {"hello", 99162322}, {"polygenelubricants", 2147483648u}};
  for (size_t i = 0; i < sizeof known / sizeof *known; i++) {
    jsstr_id s = jsstr_from_bytes(agent, JSSTR_LATIN1, (const uint8_t *)known[i].of, strlen(known[i].of)).id;
    jsstr_number told = jsstr_hash(agent, s);
    CHECK(told.status == JSSTR_DONE && told.value == known[i].hash && jsstr_hash_unchecked(agent, s) == known[i].hash);
  }
}

static void settle_on_the_way(void) {
  jsstr_agent agent = {0};
  CHECK(jsstr_make((jsstr_size){9, 4, 1}, 1, 100, &agent) == JSSTR_DONE);
  jsstr_id half = jsstr_from_bytes(&agent, JSSTR_LATIN1, (const uint8_t *)"0123456789abcdef", 16).id;
  jsstr_id rope = jsstr_concat(&agent, half, half).id, other = jsstr_concat(&agent, rope, half).id;
  CHECK(jsstr_is_settled(&agent, half).holds && !jsstr_is_settled(&agent, rope).holds);
  CHECK(jsstr_is_settled(&agent, rope).status == JSSTR_DONE);
  uint8_t out[48];
  uint16_t unit = 0;
  CHECK(jsstr_to_utf8(&agent, other, JSSTR_KEEP, out, sizeof out).status == JSSTR_NO_WORDS);
  CHECK(jsstr_to_latin1(&agent, other, out, sizeof out).status == JSSTR_NO_WORDS);
  CHECK(jsstr_unit_at(&agent, other, 0).status == JSSTR_NO_WORDS && jsstr_hash(&agent, other).status == JSSTR_NO_WORDS);
  CHECK(jsstr_equals_units(&agent, other, &unit, 0).status == JSSTR_NO_WORDS && jsstr_compare_units(&agent, other, &unit, 0).status == JSSTR_NO_WORDS);
  CHECK(jsstr_equals_bytes(&agent, other, JSSTR_LATIN1, out, 0).status == JSSTR_NO_WORDS && jsstr_compare_bytes(&agent, other, JSSTR_LATIN1, out, 0).status == JSSTR_NO_WORDS);
  CHECK(jsstr_equals_bytes(&agent, other, JSSTR_UTF8, out, 0).status == JSSTR_NO_WORDS && jsstr_compare_bytes(&agent, other, JSSTR_UTF8, out, 0).status == JSSTR_NO_WORDS);
  jsstr_free(&agent);
  CHECK(jsstr_make((jsstr_size){9, 40, 1}, 1, 100, &agent) == JSSTR_DONE);
  half = jsstr_from_bytes(&agent, JSSTR_LATIN1, (const uint8_t *)"0123456789abcdef", 16).id;
  rope = jsstr_concat(&agent, half, half).id;
  CHECK(jsstr_unit_at(&agent, rope, 31).value == 'f' && jsstr_is_settled(&agent, rope).holds);
  jsstr_free(&agent);
}

static void refuse(jsstr_agent *agent, jsstr_id known, jsstr_id unknown) {
  jsstr_agent none = {0};
  jsstr_agent *const agents[] = {&none, agent};
  uint8_t out[4] = {1, 2, 3, 4};
  uint16_t unit = 0;
  for (int i = 0; i < 2; i++) {
    jsstr_agent *it = agents[i];
    CHECK(jsstr_unit_at(it, unknown, 0).status == JSSTR_BAD_ARGUMENT);
    CHECK(jsstr_hash(it, unknown).status == JSSTR_BAD_ARGUMENT);
    CHECK(jsstr_is_settled(it, unknown).status == JSSTR_BAD_ARGUMENT);
    CHECK(jsstr_to_utf8(it, unknown, JSSTR_KEEP, out, 4).status == JSSTR_BAD_ARGUMENT);
    CHECK(jsstr_to_latin1(it, unknown, out, 4).status == JSSTR_BAD_ARGUMENT);
    CHECK(jsstr_equals_units(it, unknown, &unit, 1).status == JSSTR_BAD_ARGUMENT);
    CHECK(jsstr_equals_bytes(it, unknown, JSSTR_LATIN1, out, 1).status == JSSTR_BAD_ARGUMENT);
    CHECK(jsstr_equals_bytes(it, unknown, JSSTR_UTF8, out, 1).status == JSSTR_BAD_ARGUMENT);
    CHECK(jsstr_compare_units(it, unknown, &unit, 1).status == JSSTR_BAD_ARGUMENT);
    CHECK(jsstr_compare_bytes(it, unknown, JSSTR_LATIN1, out, 1).status == JSSTR_BAD_ARGUMENT);
    CHECK(jsstr_compare_bytes(it, unknown, JSSTR_UTF8, out, 1).status == JSSTR_BAD_ARGUMENT);
  }
  jsstr_bytes told = jsstr_to_utf8(agent, known, 3, out, 4);
  CHECK(told.status == JSSTR_BAD_ARGUMENT && told.at == 0 && told.size == 0);
  CHECK(out[0] == 1 && out[1] == 2 && out[2] == 3 && out[3] == 4);
}

int main(void) {
  jsstr_agent agent = heap();
  for (size_t i = 0; i < sizeof rows / sizeof *rows; i++) {
    try_row(&agent, &rows[i], made(&agent, &rows[i].of));
    try_row(&agent, &rows[i], cut(&agent, &rows[i].of));
  }
  compare_all(&agent);
  compare_bytes(&agent);
  write_latin1(&agent);
  hash_some(&agent);
  refuse(&agent, made(&agent, &rows[1].of), 3999);
  CHECK(strcmp(jsstr_status_name(JSSTR_NO_ROOM), "JSSTR_NO_ROOM") == 0 && strcmp(jsstr_status_name(JSSTR_UNMAPPED), "JSSTR_UNMAPPED") == 0);
  jsstr_free(&agent);
  settle_on_the_way();
  puts("ok");
  return 0;
}
