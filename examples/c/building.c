/* Reading WTF-8, and texts that are built up: each call in both forms, bytes that are no WTF-8, refusals, two heaps.
   Prints "ok". */
#include "jsstr.h"
#include <inttypes.h>
#include <stdio.h>
#include <stdlib.h>
#include <string.h>

#define MOST 16
#define CHECK(c) do { if (!(c)) { printf("line %d: %s\n", __LINE__, #c); exit(1); } } while (0)

static int is_bare(jsstr_answer s, uint32_t status) { return s.status == status && s.id == JSSTR_NO_STRING && !s.at && !s.want && !s.end; }

static int is_string(jsstr_answer s, jsstr_id id) { return s.status == JSSTR_DONE && s.id == id && !s.at && !s.want && !s.end; }

static int is_fault(jsstr_answer s, uint32_t at) { return s.status == JSSTR_NOT_UTF8 && s.id == JSSTR_NO_STRING && s.at == at && !s.want && !s.end; }

static int has_used(jsstr_agent *a, uint32_t ids, uint32_t words) {
  jsstr_room use = jsstr_room_of(a);
  return use.status == JSSTR_DONE && use.ids == ids && use.words == words;
}

static int has_units(jsstr_agent *a, jsstr_id s, const uint16_t *units, size_t len) {
  return jsstr_equals_units(a, s, units, len).holds && jsstr_length(a, s).value == len;
}

static jsstr_id made(jsstr_agent *a, const char *text) {
  jsstr_answer s = jsstr_from_bytes(a, JSSTR_LATIN1, (const uint8_t *)text, strlen(text));
  CHECK(s.status == JSSTR_DONE);
  return s.id;
}

/* A row of WTF-8: the units that the bytes spell, or how many of the bytes are WTF-8. */
typedef struct row { const char *bytes; size_t size; uint16_t units[MOST]; size_t len; long fault; } row;

#define ROW(text, ...) {text, sizeof text - 1, {__VA_ARGS__}, sizeof (uint16_t[]){__VA_ARGS__} / 2, -1}
#define FAULT(text, at) {text, sizeof text - 1, {0}, 0, at}
#define LEAD "\xED\xA0\x80"   /* U+D800 */
#define LEADS "\xED\xAF\xBF"  /* U+DBFF */
#define TRAIL "\xED\xB0\x80"  /* U+DC00 */
#define TRAILS "\xED\xBF\xBF" /* U+DFFF */
#define PAIR "\xF0\x90\x80\x80"

static const row rows[] = {
  ROW("a\xC3\xA9\xE4\xB8\x96\xF0\x9F\x98\x80z", 'a', 0xE9, 0x4E16, 0xD83D, 0xDE00, 'z'),
  ROW("\x7F\xC2\x80\xDF\xBF\xE0\xA0\x80\xED\x9F\xBF\xEE\x80\x80\xEF\xBF\xBF", 0x7F, 0x80, 0x7FF, 0x800, 0xD7FF, 0xE000, 0xFFFF),
  ROW(PAIR "\xF4\x8F\xBF\xBF", 0xD800, 0xDC00, 0xDBFF, 0xDFFF),
  ROW("\0", 0),
  ROW(LEAD, 0xD800), ROW(LEADS, 0xDBFF), ROW(TRAIL, 0xDC00), ROW(TRAILS, 0xDFFF),
  ROW(LEAD LEADS, 0xD800, 0xDBFF), ROW(TRAIL TRAILS, 0xDC00, 0xDFFF), ROW(TRAIL LEAD, 0xDC00, 0xD800),
  ROW(LEAD "x" TRAIL, 0xD800, 'x', 0xDC00), ROW("x" LEAD, 'x', 0xD800), ROW(TRAIL "x", 0xDC00, 'x'),
  ROW(LEAD PAIR, 0xD800, 0xD800, 0xDC00), ROW(PAIR TRAIL, 0xD800, 0xDC00, 0xDC00), ROW(TRAIL PAIR LEAD, 0xDC00, 0xD800, 0xDC00, 0xD800),
  FAULT(LEAD TRAIL, 3), FAULT(LEADS TRAILS, 3), FAULT(LEAD TRAILS, 3), FAULT(LEADS TRAIL, 3),
  FAULT("x" LEAD TRAIL "y", 4), FAULT(LEAD LEAD TRAIL, 6), FAULT(TRAIL LEAD TRAIL, 6), FAULT(PAIR LEAD TRAIL, 7), FAULT(LEAD TRAIL "\xFF", 3),
  FAULT("\xED", 0), FAULT("\xED\xA0", 0), FAULT("ab\xED\xB0", 2), FAULT(LEAD "\xED", 3), FAULT(LEAD "\xED\xB0", 3), FAULT(LEAD "\xED\xB0\xC0", 3),
  FAULT("\xED\xA0\x7F", 0), FAULT("\xED\xC0\x80", 0), FAULT(LEAD "\x80", 3), FAULT("\xC0\x80", 0), FAULT("a\xC1\xBF", 1),
  FAULT("\xE0\x9F\xBF", 0), FAULT("\xF0\x8F\xBF\xBF", 0), FAULT("\xF0\x8D\xA0\x80", 0), FAULT("\xF4\x90\x80\x80", 0), FAULT("\xF5\x80\x80\x80", 0),
  FAULT("\x80", 0), FAULT("\xFF", 0), FAULT(LEAD "\xFE", 3), FAULT("\xF0\x9F\x98", 0), FAULT("\xF0\x9F", 0), FAULT("\xF0", 0), FAULT("\xE4\xB8", 0),
};
#define ROWS (sizeof rows / sizeof *rows)

/* Whether the bytes are what is written for the string, where a surrogate that is in no pair is kept. */
static int is_written(jsstr_agent *a, jsstr_id s, const uint8_t *bytes, size_t size) {
  uint8_t out[4 * MOST];
  jsstr_bytes all = jsstr_to_utf8(a, s, JSSTR_KEEP, out, sizeof out);
  return all.status == JSSTR_DONE && all.size == size && !memcmp(out, bytes, size);
}

static void refuse_row(jsstr_agent *a, jsstr_builder *text, const row *r) {
  const uint8_t *bytes = (const uint8_t *)r->bytes;
  uint32_t at = (uint32_t)r->fault;
  jsstr_room use = jsstr_room_of(a);
  CHECK(is_fault(jsstr_from_bytes(a, JSSTR_WTF8, bytes, r->size), at));
  CHECK(is_fault(jsstr_intern_bytes(a, JSSTR_WTF8, bytes, r->size), at));
  CHECK(is_fault(jsstr_find_bytes(a, JSSTR_WTF8, bytes, r->size), at));
  CHECK(is_fault(jsstr_build_bytes(text, JSSTR_WTF8, bytes, r->size), at) && text->len == 0 && has_used(a, use.ids, use.words));
}

static void read_row(jsstr_agent *a, jsstr_builder *text, const row *r) {
  const uint8_t *bytes = (const uint8_t *)r->bytes;
  CHECK(is_bare(jsstr_find_bytes(a, JSSTR_WTF8, bytes, r->size), JSSTR_NONE));
  jsstr_answer s = jsstr_from_bytes(a, JSSTR_WTF8, bytes, r->size), t = jsstr_from_bytes(a, JSSTR_WTF8, bytes, r->size), key = jsstr_intern_bytes(a, JSSTR_WTF8, bytes, r->size);
  CHECK(is_string(s, s.id) && is_string(t, t.id) && is_string(key, key.id) && s.id != t.id);
  CHECK(has_units(a, s.id, r->units, r->len) && has_units(a, t.id, r->units, r->len) && has_units(a, key.id, r->units, r->len));
  CHECK(is_string(jsstr_intern_bytes(a, JSSTR_WTF8, bytes, r->size), key.id) && is_string(jsstr_find_units(a, r->units, r->len), key.id));
  CHECK(is_string(jsstr_find_bytes(a, JSSTR_WTF8, bytes, r->size), key.id));
  CHECK(is_bare(jsstr_build_bytes(text, JSSTR_WTF8, bytes, r->size), JSSTR_DONE) && is_string(jsstr_built_interned(text, a), key.id));
  CHECK(is_written(a, s.id, bytes, r->size));
}

/* The rule once more: a character in the one form that it has, a surrogate in three bytes where that is WTF-8, and there
   no trail behind a lead. The number of bytes that are well. */
static size_t well(const uint8_t *b, size_t n, int wtf8) {
  static const uint32_t least[] = {0, 0, 0x80, 0x800, 0x10000};
  int follows = 0; /* whether a lead in three bytes comes before */
  for (size_t i = 0, k; i < n; i += k) {
    k = b[i] < 0x80 ? 1 : b[i] < 0xC0 ? 0 : b[i] < 0xE0 ? 2 : b[i] < 0xF0 ? 3 : b[i] < 0xF8 ? 4 : 0;
    if (!k || i + k > n) return i;
    uint32_t c = k == 1 ? b[i] : b[i] & (0xFFu >> (k + 1));
    for (size_t j = 1; j < k; j++) {
      if (b[i + j] >> 6 != 2) return i;
      c = c << 6 | (b[i + j] & 63);
    }
    int half = c >= 0xD800 && c < 0xE000, lead = half && c < 0xDC00;
    if (c < least[k] || c > 0x10FFFF || (half && (!wtf8 || (follows && !lead)))) return i;
    follows = lead;
  }
  return n;
}

/* A list of bytes to be looked for, and to be appended: each answer by the rule. */
static void try_list(jsstr_agent *a, jsstr_builder *text, const uint8_t *bytes, size_t size) {
  size_t utf8 = well(bytes, size, 0), wtf8 = well(bytes, size, 1);
  uint32_t length = text->len;
  jsstr_answer s = jsstr_find_bytes(a, JSSTR_UTF8, bytes, size), t = jsstr_find_bytes(a, JSSTR_WTF8, bytes, size), u = jsstr_build_bytes(text, JSSTR_WTF8, bytes, size);
  CHECK(utf8 == size ? is_bare(s, JSSTR_NONE) : is_fault(s, (uint32_t)utf8));
  CHECK(wtf8 == size ? is_bare(t, JSSTR_NONE) && is_bare(u, JSSTR_DONE) : is_fault(t, (uint32_t)wtf8) && is_fault(u, (uint32_t)wtf8));
  CHECK((text->len > length) == (wtf8 == size));
}

/* Lists of bytes at the ends of ranges: each one of three, many of four, and these behind a surrogate. */
static void every_list(void) {
  static const uint8_t ends[] = {0x00, 0x41, 0x7F, 0x80, 0x8F, 0x90, 0x9F, 0xA0, 0xAF, 0xB0, 0xBF, 0xC0, 0xC1, 0xC2, 0xDF, 0xE0, 0xED, 0xEE, 0xEF, 0xF0, 0xF4, 0xF5, 0xFF};
  enum { N = sizeof ends };
  jsstr_agent a = {0};
  jsstr_builder text = {0};
  CHECK(jsstr_make((jsstr_size){9, 9, 9}, 1, 9, &a) == JSSTR_DONE);
  for (uint32_t code = 0; code < N * N * N * N; code += code < N * N * N ? 1 : 11) {
    uint8_t bytes[] = LEAD "....";
    uint32_t rest = code;
    for (size_t i = 3; i < 7; i++, rest /= N) bytes[i] = ends[rest % N];
    try_list(&a, &text, bytes, 6);
    try_list(&a, &text, bytes, 7);
    try_list(&a, &text, bytes + 3, 3);
    try_list(&a, &text, bytes + 3, 4);
  }
  jsstr_drop_builder(&text);
  CHECK(jsstr_free(&a) == JSSTR_DONE);
}

/* Every call that reads bytes reports the same place. */
static void try_all(jsstr_agent *a, jsstr_builder *text, const uint8_t *b, size_t n) {
  for (int wtf8 = 0; wtf8 < 2; wtf8++) {
    size_t good = well(b, n, wtf8);
    const uint32_t how = wtf8 ? JSSTR_WTF8 : JSSTR_UTF8;
    jsstr_room use = jsstr_room_of(a);
    const jsstr_answer told[] = {
      jsstr_from_bytes(a, how, b, n), jsstr_intern_bytes(a, how, b, n), jsstr_find_bytes(a, how, b, n), jsstr_build_bytes(text, how, b, n)};
    for (size_t i = 0; i < sizeof told / sizeof *told; i++) CHECK(good < n ? is_fault(told[i], (uint32_t)good) : told[i].status == JSSTR_DONE);
    CHECK(good == n || has_used(a, use.ids, use.words));
    CHECK(jsstr_equals_bytes(a, 0, how, b, n).status == (good < n ? JSSTR_NOT_UTF8 : JSSTR_DONE));
  }
}

/* A text that is cut short at each place, and with each byte replaced. */
static void each_place(const char *text, size_t size) {
  static const uint8_t others[] = {'x', 0x80, 0xA0, 0xBF, 0xC0, 0xC3, 0xE0, 0xED, 0xF0, 0xF4, 0xF5, 0xFF};
  jsstr_agent a = {0};
  jsstr_builder built = {0};
  uint8_t bytes[64];
  CHECK(jsstr_make((jsstr_size){4000, 20000, 1009}, 1, 9, &a) == JSSTR_DONE && made(&a, "") == 0);
  for (size_t at = 0; at < size; at++) {
    try_all(&a, &built, (const uint8_t *)text, at);
    for (size_t i = 0; i < sizeof others; i++) {
      memcpy(bytes, text, size);
      bytes[at] = others[i];
      try_all(&a, &built, bytes, size);
    }
  }
  jsstr_drop_builder(&built);
  CHECK(jsstr_free(&a) == JSSTR_DONE);
}

/* Each surrogate alone, and characters beside them, back in the bytes that they came by. */
static void every_surrogate(void) {
  jsstr_agent a = {0};
  CHECK(jsstr_make((jsstr_size){3000, 3000, 9}, 1, 9, &a) == JSSTR_DONE);
  for (uint32_t c = 0xD700; c < 0xE100; c++) {
    uint8_t bytes[] = {(uint8_t)(0xE0 | c >> 12), (uint8_t)(0x80 | (c >> 6 & 63)), (uint8_t)(0x80 | (c & 63))};
    uint16_t unit = (uint16_t)c;
    jsstr_answer s = jsstr_from_bytes(&a, JSSTR_WTF8, bytes, 3), plain = jsstr_find_bytes(&a, JSSTR_UTF8, bytes, 3);
    CHECK(is_string(s, s.id) && has_units(&a, s.id, &unit, 1) && is_written(&a, s.id, bytes, 3));
    CHECK(c >= 0xD800 && c < 0xE000 ? is_fault(plain, 0) : is_bare(plain, JSSTR_NONE));
  }
  CHECK(jsstr_free(&a) == JSSTR_DONE);
}

static void read_rows(void) {
  jsstr_agent a = {0}, none = {0};
  jsstr_builder text = {0};
  const uint8_t x = 'x';
  CHECK(jsstr_make((jsstr_size){500, 500, 101}, 1, 100, &a) == JSSTR_DONE);
  for (size_t i = 0; i < ROWS; i++) (rows[i].fault < 0 ? read_row : refuse_row)(&a, &text, &rows[i]);
  jsstr_answer empty = jsstr_from_bytes(&a, JSSTR_WTF8, &x, 0);
  CHECK(is_string(empty, empty.id) && jsstr_length(&a, empty.id).value == 0 && is_bare(jsstr_find_bytes(&a, JSSTR_WTF8, &x, 0), JSSTR_NONE));
  jsstr_room use = jsstr_room_of(&a);
  const size_t lengths[] = {(size_t)JSSTR_MAX_LENGTH + 1, SIZE_MAX / 4};
  for (int i = 0; i < 2; i++) {
    CHECK(is_bare(jsstr_from_bytes(&a, JSSTR_WTF8, &x, lengths[i]), JSSTR_BAD_ARGUMENT) && is_bare(jsstr_intern_bytes(&a, JSSTR_WTF8, &x, lengths[i]), JSSTR_BAD_ARGUMENT));
    CHECK(is_bare(jsstr_find_bytes(&a, JSSTR_WTF8, &x, lengths[i]), JSSTR_BAD_ARGUMENT));
  }
  CHECK(is_bare(jsstr_from_bytes(&none, JSSTR_WTF8, &x, 1), JSSTR_BAD_ARGUMENT) && is_bare(jsstr_intern_bytes(&none, JSSTR_WTF8, &x, 1), JSSTR_BAD_ARGUMENT));
  CHECK(is_bare(jsstr_find_bytes(&none, JSSTR_WTF8, &x, 1), JSSTR_BAD_ARGUMENT) && has_used(&a, use.ids, use.words));
  jsstr_drop_builder(&text);
  CHECK(jsstr_free(&a) == JSSTR_DONE);
}

/* Each way to append, and one text after the other in one builder. */
static void append(void) {
  jsstr_agent a = {0}, b = {0};
  jsstr_builder text = {0};
  static const uint16_t units[] = {0x4E16, 0xD800, 'u'}, all[] = {0x4E16, 0xD800, 'u', 0xE9, 0xD83D, 0xDE00, 0xDC00, 'r', 'o', 'p', 'e', '-', '7'};
  CHECK(jsstr_make((jsstr_size){100, 100, 11}, 2, 100, &a) == JSSTR_DONE && jsstr_split(&a, 1, &b) == JSSTR_DONE);
  CHECK(text.len == 0);
  for (int round = 0; round < 4; round++) {
    CHECK(jsstr_build_units(&text, units, 3) == JSSTR_DONE && text.len == 3);
    CHECK(jsstr_build_units(&text, units, 0) == JSSTR_DONE && jsstr_build_bytes(&text, JSSTR_LATIN1, (const uint8_t *)"\xE9", 1).status == JSSTR_DONE);
    CHECK(is_bare(jsstr_build_bytes(&text, JSSTR_UTF8, (const uint8_t *)"\xF0\x9F\x98\x80", 4), JSSTR_DONE) && text.len == 6);
    CHECK(is_bare(jsstr_build_bytes(&text, JSSTR_WTF8, (const uint8_t *)TRAIL, 3), JSSTR_DONE) && text.len == 7);
    jsstr_id rope = made(&a, "rope"), others = made(&b, "of b");
    CHECK(jsstr_build_string(&text, &a, rope) == JSSTR_DONE && text.len == 11);
    CHECK(jsstr_build_string(&text, &a, others) == JSSTR_BAD_ARGUMENT && jsstr_build_string(&text, &a, JSSTR_NO_STRING) == JSSTR_BAD_ARGUMENT);
    CHECK(is_fault(jsstr_build_bytes(&text, JSSTR_UTF8, (const uint8_t *)"abc" LEAD, 6), 3) && is_fault(jsstr_build_bytes(&text, JSSTR_WTF8, (const uint8_t *)LEAD TRAIL, 6), 3));
    CHECK(text.len == 11 && jsstr_build_number(&text, -7) == JSSTR_DONE && text.len == 13);
    jsstr_room room = jsstr_room_of(&a);
    jsstr_answer s = round < 2 ? jsstr_built(&text, &a) : jsstr_built_interned(&text, &a);
    CHECK(is_string(s, s.id) && has_units(&a, s.id, all, 13) && text.len == 0 && jsstr_is_settled(&a, s.id).holds);
    CHECK(jsstr_is_interned(&a, s.id).holds == (round > 1) && jsstr_room_of(&a).ids == room.ids + (round < 3) && jsstr_room_of(&a).words == room.words + (round < 3 ? 4 : 0));
    jsstr_answer empty = jsstr_built(&text, &a);
    CHECK(is_string(empty, empty.id) && jsstr_length(&a, empty.id).value == 0);
  }
  CHECK(jsstr_join(&a, &b) == JSSTR_DONE && jsstr_free(&a) == JSSTR_DONE);
  CHECK(jsstr_build_bytes(&text, JSSTR_LATIN1, (const uint8_t *)"half", 4).status == JSSTR_DONE && is_bare(jsstr_built(&text, &a), JSSTR_BAD_ARGUMENT));
  CHECK(is_bare(jsstr_built_interned(&text, &a), JSSTR_BAD_ARGUMENT) && jsstr_build_string(&text, &a, 0) == JSSTR_BAD_ARGUMENT && text.len == 4);
  jsstr_drop_builder(&text);
  CHECK(!text.at && !text.live && !text.len && text.len == 0);
  jsstr_drop_builder(&text);
  CHECK(!text.at && !text.live && !text.len);
}

/* More units than a string may have, and then a text that is what it was; by the lengths alone, nothing is read. */
static void too_long(void) {
  jsstr_builder text = {0};
  static const uint16_t units[] = {'x'};
  static const uint8_t bytes[] = {'x'};
  for (uint32_t had = 0; had < 2; had++) {
    const size_t lengths[] = {(size_t)JSSTR_MAX_LENGTH - had + 1, SIZE_MAX / 4};
    for (int i = 0; i < 2; i++) {
      CHECK(jsstr_build_units(&text, units, lengths[i]) == JSSTR_TOO_LONG && text.len == had);
      CHECK(jsstr_build_bytes(&text, JSSTR_LATIN1, bytes, lengths[i]).status == JSSTR_TOO_LONG && text.len == had);
      size_t size = i ? SIZE_MAX / 4 : 3 * (size_t)JSSTR_MAX_LENGTH + 1;
      CHECK(is_bare(jsstr_build_bytes(&text, JSSTR_UTF8, bytes, size), JSSTR_TOO_LONG) && is_bare(jsstr_build_bytes(&text, JSSTR_WTF8, bytes, size), JSSTR_TOO_LONG));
      CHECK(text.len == had);
    }
    CHECK(jsstr_build_bytes(&text, JSSTR_LATIN1, bytes, 1).status == JSSTR_DONE);
  }
  jsstr_drop_builder(&text);
}

static void numbers(void) {
  jsstr_agent a = {0};
  jsstr_builder text = {0};
  char digits[24];
  CHECK(jsstr_make((jsstr_size){500, 1000, 11}, 1, 100, &a) == JSSTR_DONE);
  const int64_t ends[] = {0, 1, -1, 9, 10, -10, INT32_MAX, INT32_MIN, INT32_MAX + 1LL, INT32_MIN - 1LL,
                          9007199254740991, -9007199254740991, INT64_MAX, INT64_MIN};
  const size_t some = sizeof ends / sizeof *ends;
  for (size_t i = 0; i < some + 18 * 6; i++) {
    int64_t number = i < some ? ends[i] : 1;
    for (size_t power = 1; i >= some && power <= (i - some) / 6; power++) number *= 10;
    if (i >= some) number = (number + (int64_t)(i % 3) - 1) * (i % 2 ? -1 : 1);
    int size = snprintf(digits, sizeof digits, "%" PRId64, number);
    CHECK(jsstr_build_number(&text, number) == JSSTR_DONE && text.len == (uint32_t)size);
    jsstr_answer s = jsstr_built(&text, &a);
    CHECK(s.status == JSSTR_DONE && jsstr_equals_bytes(&a, s.id, JSSTR_LATIN1, (const uint8_t *)digits, (size_t)size).holds);
  }
  jsstr_drop_builder(&text);
  CHECK(jsstr_free(&a) == JSSTR_DONE);
}

/* A heap that is full, in each way: the text stays, and goes into another heap, whose limit is of joining alone. */
static void two_heaps(void) {
  jsstr_agent full = {0}, other = {0};
  jsstr_builder text = {0};
  static const jsstr_size sizes[] = {{1, 9, 9}, {9, 1, 9}, {9, 9, 1}};
  static const jsstr_answer refusals[] = {{JSSTR_NO_IDS, JSSTR_NO_STRING, 1, 1, 1}, {JSSTR_NO_WORDS, JSSTR_NO_STRING, 1, 2, 1}, {JSSTR_NO_SLOTS, JSSTR_NO_STRING, 0, 0, 1}};
  CHECK(jsstr_make((jsstr_size){50, 50, 11}, 1, 5, &other) == JSSTR_DONE);
  for (int i = 0; i < 3; i++) {
    CHECK(jsstr_make(sizes[i], 1, 100, &full) == JSSTR_DONE);
    jsstr_id key = jsstr_intern_bytes(&full, JSSTR_LATIN1, (const uint8_t *)"only one", 8).id;
    CHECK(jsstr_build_bytes(&text, JSSTR_LATIN1, (const uint8_t *)"nine units", 10).status == JSSTR_DONE);
    for (int form = i < 2 ? 0 : 2; form < 4; form++) {
      jsstr_answer s = form < 2 ? jsstr_built(&text, &full) : jsstr_built_interned(&text, &full);
      CHECK(!memcmp(&s, &refusals[i], sizeof s) && text.len == 10);
    }
    jsstr_answer kept = i % 2 ? jsstr_built(&text, &other) : jsstr_built_interned(&text, &other);
    CHECK(kept.status == JSSTR_DONE && jsstr_equals_bytes(&other, kept.id, JSSTR_LATIN1, (const uint8_t *)"nine units", 10).holds && text.len == 0);
    CHECK(jsstr_build_string(&text, &full, key) == JSSTR_DONE && is_string(jsstr_built_interned(&text, &full), key));
    CHECK(jsstr_free(&full) == JSSTR_DONE);
  }
  CHECK(jsstr_free(&other) == JSSTR_DONE);
  jsstr_drop_builder(&text);
}

/* A rope is settled before its units are appended; where there is no room for that the text stays. */
static void ropes(void) {
  jsstr_agent a = {0};
  jsstr_builder text = {0};
  CHECK(jsstr_make((jsstr_size){20, 3, 1}, 1, 100, &a) == JSSTR_DONE);
  jsstr_id s = made(&a, "12345678"), rope = jsstr_concat(&a, s, s).id, large = jsstr_concat(&a, rope, rope).id;
  CHECK(jsstr_build_bytes(&text, JSSTR_LATIN1, (const uint8_t *)"x", 1).status == JSSTR_DONE && jsstr_build_string(&text, &a, rope) == JSSTR_DONE);
  CHECK(jsstr_is_settled(&a, rope).holds && text.len == 17 && has_used(&a, 3, 3));
  CHECK(jsstr_build_string(&text, &a, large) == JSSTR_NO_WORDS && text.len == 17 && !jsstr_is_settled(&a, large).holds);
  CHECK(jsstr_built(&text, &a).status == JSSTR_NO_WORDS && text.len == 17 && jsstr_free(&a) == JSSTR_DONE);
  CHECK(jsstr_make((jsstr_size){20, 3, 1}, 1, 100, &a) == JSSTR_DONE);
  jsstr_answer whole = jsstr_built(&text, &a);
  CHECK(whole.status == JSSTR_DONE && jsstr_equals_bytes(&a, whole.id, JSSTR_LATIN1, (const uint8_t *)"x1234567812345678", 17).holds);
  CHECK(jsstr_free(&a) == JSSTR_DONE);
  jsstr_drop_builder(&text);
}

int main(void) {
  read_rows();
  every_list();
  static const char utf8[] = "a\xC3\xA9\xE4\xB8\x96\xF0\x9F\x98\x80z", wtf8[] = "a" LEAD "\xC3\xA9" TRAIL "\xF0\x9F\x98\x80" LEADS "z";
  each_place(utf8, sizeof utf8 - 1);
  each_place(wtf8, sizeof wtf8 - 1);
  every_surrogate();
  append();
  too_long();
  numbers();
  two_heaps();
  ropes();
  puts("ok");
  return 0;
}
