/* Calls made by chance, valid ones and others, by several agents of a heap, each compared with a plain
   reference: a string, and the text that is built up, is an array of units, an agent is the ids that it was
   answered, and the string table is an array of ids, each in the slot that its units have by the rule.

       fuzz [COUNT [SEED]]

   makes COUNT calls, 20,000 by default. Prints how many were valid, or the first that differs. */
#include "jsstr.h"
#include <stdio.h>
#include <stdlib.h>
#include <string.h>

#define AGENTS 6
#define IDS 3000
#define WORDS 4000
#define SLOTS 200
#define LIMIT 400
#define FAIL(c) do { printf("call %ld, line %d: %s\n", call, __LINE__, c); exit(1); } while (0)
#define CHECK(c) do { if (!(c)) FAIL(#c); } while (0)

typedef struct use { uint32_t ids, words; } use;
typedef struct text { uint16_t *units; uint32_t len; } text;
typedef struct agent {
  jsstr_agent handle;
  uint32_t share;
  int number, giver;
  uint8_t known[IDS], interned[IDS];
  uint32_t ids, words; /* what it reserved, and has left */
  use blocks; /* by which it renews that */
} agent;

static text texts[IDS];
static agent agents[AGENTS], stranger;
static jsstr_id table[SLOTS]; /* JSSTR_NO_STRING in a free slot */
static uint32_t entries, numbers;
static struct { jsstr_builder handle; uint16_t units[LIMIT]; uint32_t len; } built;
static jsstr_room last;
static int full;
static long call, lawful;
static uint64_t state;

static uint32_t chance(uint32_t below) {
  state = state * 6364136223846793005u + 1442695040888963407u;
  return (uint32_t)((state >> 33) % below);
}

static void begin(void) {
  for (int i = 0; i < AGENTS; i++) {
    if (agents[i].handle.live) CHECK(jsstr_free(&agents[i].handle) == JSSTR_DONE);
    memset(&agents[i], 0, sizeof agents[i]);
  }
  for (int i = 0; i < IDS; i++) free(texts[i].units);
  memset(texts, 0, sizeof texts);
  memset(table, 0xFF, sizeof table);
  memset(&last, 0, sizeof last);
  entries = numbers = full = 0;
  CHECK(jsstr_make((jsstr_size){IDS, WORDS, SLOTS}, AGENTS, LIMIT, &agents[0].handle) == JSSTR_DONE);
  agents[0].share = AGENTS;
  agents[0].number = ++numbers;
}

/* An id that the agent knows, mostly; else any. */
static jsstr_id some_id(const agent *a) {
  if (chance(40) == 0) return chance(2) ? chance(IDS + 50) : chance(1u << 31) * 2;
  for (int i = 0; i < 200; i++) {
    jsstr_id s = chance(numbers > 1 && i > 100 ? IDS : IDS / 2);
    if (a->known[s]) return s;
  }
  return chance(IDS);
}

static int knows(const agent *a, jsstr_id s) { return a->handle.live && s < IDS && a->known[s]; }

static int refused_for_room(uint32_t status) {
  if (status != JSSTR_NO_IDS && status != JSSTR_NO_WORDS && status != JSSTR_NO_SLOTS) return 0;
  full++;
  return 1;
}

/* The string is to have these units, and is known from now on. */
static void answered(agent *a, jsstr_answer s, const uint16_t *units, uint32_t len) {
  if (refused_for_room(s.status)) return;
  CHECK(s.status == JSSTR_DONE && s.id < IDS);
  text *t = &texts[s.id];
  if (!t->units) {
    t->units = malloc(len * 2 + 2);
    t->len = len;
    if (len) memcpy(t->units, units, len * 2);
  }
  CHECK(t->len == len && (!len || memcmp(t->units, units, len * 2) == 0));
  a->known[s.id] = 1;
}

/* What all agents used. */
static use used_now(jsstr_agent *a) {
  jsstr_room now = jsstr_room_of(a);
  return (use){now.ids, now.words};
}

/* What was used before a call for an agent. */
static use used(agent *a) { return a->handle.live ? used_now(&a->handle) : (use){0, 0}; }

/* The same before a call that may settle s first; then the words that this takes are not known. */
static use used_settled(agent *a, agent *of, jsstr_id s) {
  use now = used(a);
  if (knows(of, s) && !jsstr_is_settled(&of->handle, s).holds) now.words = UINT32_MAX;
  return now;
}

/* How many words hold a copy of these units. */
static uint32_t words_of(const uint16_t *units, uint32_t len) {
  uint32_t lanes = 8;
  for (uint32_t i = 0; i < len; i++) if (units[i] > 255) lanes = 4;
  return (len + lanes - 1) / lanes;
}

/* What a copy of these units, which are interned, takes of what is reserved: an id and its words, or nothing. */
static int takes(agent *a, const uint16_t *units, uint32_t len) {
  uint32_t words = words_of(units, len);
  if (!a->ids || words > a->words) return 0;
  a->ids--, a->words -= words;
  return 1;
}

/* What is renewed for a string that takes so many words, and needs at most `most`: a block of what is missing, if there is
   one of all that is. What was left shows whether the words begin a new run. */
static void renewed(agent *a, use *before, uint32_t most, uint32_t words) {
  int no_ids = !a->ids, few = a->words < most;
  if (!(no_ids || few) || (no_ids && !a->blocks.ids) || (few && !a->blocks.words)) return;
  uint32_t more = !few ? 0 : most > a->blocks.words ? most : a->blocks.words;
  jsstr_counts kept = jsstr_reserved(&a->handle);
  if (few && more > WORDS - before->words) return;
  uint32_t ids = !no_ids ? 0 : a->blocks.ids < IDS - before->ids ? a->blocks.ids : IDS - before->ids;
  a->ids += ids, before->ids += ids;
  if (!few) return;
  before->words += more;
  a->words = kept.words + (a->ids ? words : 0) == a->words + more ? a->words + more : more;
}

/* A string of these units was made, or interned as a new one: it took the id, and the words, of what is reserved, each where
   there is what it needs, and used what was lacking; interned, it took both or neither. A refusal is of what was lacking, and
   leaves what is reserved. */
static int is_taken(agent *a, use before, jsstr_answer s, const uint16_t *units, uint32_t len, int interns) {
  use after = used_now(&a->handle);
  uint32_t words = words_of(units, len), id = a->ids > 0, has = words <= a->words;
  if (interns && !(id && has)) id = has = 0;
  if (s.status != JSSTR_DONE) return s.status == JSSTR_NO_IDS ? !id : s.status == JSSTR_NO_WORDS && !has;
  a->ids -= id, a->words -= has ? words : 0;
  return after.ids == before.ids + !id && (before.words == UINT32_MAX || after.words == before.words + (has ? 0 : words));
}

/* The same, and what is reserved was renewed before. Where it isn't known what was used before, what is left is believed. */
static int is_renewed(agent *a, use before, jsstr_answer s, const uint16_t *units, uint32_t len, int is_short, int interns) {
  uint32_t words = words_of(units, len), most = is_short ? (len + 3) / 4 : words;
  if (before.words == UINT32_MAX && a->words < most && a->blocks.words) {
    jsstr_counts kept = jsstr_reserved(&a->handle);
    a->ids = kept.ids, a->words = kept.words;
    return 1;
  }
  renewed(a, &before, most, words);
  return is_taken(a, before, s, units, len, interns);
}

/* The same of a rope or a slice, which takes an id and no word, if it takes any. */
static int is_linked(agent *a, use before) {
  renewed(a, &before, 0, 0);
  use after = used_now(&a->handle);
  if (jsstr_reserved(&a->handle).ids == a->ids) return 1;
  a->ids--;
  return before.ids == after.ids;
}

/* The same of the header of a string that is interned as a new one: an id, and where the string is a slice the words of a
   copy. Which of the two it is, what is left says; what was renewed in between is believed. */
static int is_headed(agent *a, jsstr_answer s, const uint16_t *units, uint32_t len) {
  jsstr_counts kept = jsstr_reserved(&a->handle);
  uint32_t copy = words_of(units, len), ids = a->ids - kept.ids, words = a->words - kept.words;
  int lacks = !a->ids || copy > a->words, renews = a->blocks.ids || a->blocks.words;
  a->ids = kept.ids, a->words = kept.words;
  if (renews) return 1;
  if (s.status != JSSTR_DONE || !ids) return !ids && !words && (s.status != JSSTR_DONE || lacks);
  return ids == 1 && (!words || words == copy);
}

static int keeps_reserve(agent *a) {
  jsstr_counts kept = jsstr_reserved(&a->handle);
  if (!a->handle.live) return kept.status == JSSTR_BAD_ARGUMENT && !kept.ids && !kept.words;
  return kept.status == JSSTR_DONE && kept.ids == a->ids && kept.words == a->words;
}

static uint32_t some_units(uint16_t *units) {
  uint32_t len = chance(8) ? chance(20) : chance(100), wide = chance(3) == 0, digits = chance(20) == 0;
  for (uint32_t i = 0; i < len; i++) units[i] = (uint16_t)(chance(3) + (digits ? '0' : wide && chance(2) ? 0x4E00 : 'a'));
  return len;
}

/* The units as Latin-1, each cut to a byte. */
static void to_latin1(uint16_t *units, uint32_t len, uint8_t *bytes) {
  for (uint32_t i = 0; i < len; i++) units[i] = bytes[i] = (uint8_t)units[i];
}

/* The UTF-8 of units that are below 128, or from 0x800 on; of a surrogate, three bytes. */
static uint32_t to_utf8(const uint16_t *units, uint32_t len, uint8_t *bytes) {
  uint32_t n = 0;
  for (uint32_t i = 0; i < len; i++)
    if (units[i] < 128) bytes[n++] = (uint8_t)units[i];
    else {
      bytes[n++] = (uint8_t)(0xE0 | units[i] >> 12);
      bytes[n++] = (uint8_t)(0x80 | (units[i] >> 6 & 63));
      bytes[n++] = (uint8_t)(0x80 | (units[i] & 63));
    }
  return n;
}

/* What a call is given: units, and the bytes that spell them. */
enum kind { UNITS, LATIN1, UTF8, WTF8, KINDS };

static uint32_t encoding_of(enum kind kind) { return kind == LATIN1 ? JSSTR_LATIN1 : kind == UTF8 ? JSSTR_UTF8 : JSSTR_WTF8; }
typedef struct given { uint16_t units[102]; uint8_t bytes[310]; uint32_t len, n; long fault; } given;

/* Behind the bytes, now and then, one or two surrogates in three bytes each, and a byte that ends no character.
   `fault` is how many bytes are UTF-8, or WTF-8, where not all are. */
static void spoil(given *g, enum kind kind) {
  for (uint32_t i = chance(9) ? 0 : 1 + chance(2), first = 1; i > 0; i--, first = 0) {
    uint16_t half = (uint16_t)(0xD800 + chance(0x800));
    int is_pair = !first && half >= 0xDC00 && g->units[g->len - 1] < 0xDC00;
    if (g->fault < 0 && (kind == UTF8 || is_pair)) g->fault = g->n;
    g->units[g->len++] = half;
    g->n += to_utf8(&half, 1, g->bytes + g->n);
  }
  if (chance(20)) return;
  if (g->fault < 0) g->fault = g->n;
  g->bytes[g->n++] = (uint8_t)(0x80 + chance(0x80));
}

static void give(given *g, enum kind kind) {
  g->len = some_units(g->units);
  if (chance(3) == 0) g->len %= 9;
  g->n = g->len;
  g->fault = -1;
  if (kind == LATIN1) to_latin1(g->units, g->len, g->bytes);
  if (kind < UTF8) return;
  g->n = to_utf8(g->units, g->len, g->bytes);
  spoil(g, kind);
}

/* Whether the call refuses its bytes, as it should. */
static int is_refused(const given *g, jsstr_answer s) {
  CHECK((s.status == JSSTR_NOT_UTF8) == (g->fault >= 0));
  if (g->fault < 0) return 0;
  CHECK(s.at == (uint32_t)g->fault && s.id == JSSTR_NO_STRING && !s.want && !s.end);
  return 1;
}

static void make(agent *a) {
  given g;
  enum kind kind = (enum kind)chance(KINDS);
  give(&g, kind);
  use before = used(a);
  jsstr_answer s = kind == UNITS ? jsstr_from_units(&a->handle, g.units, g.len) : jsstr_from_bytes(&a->handle, encoding_of(kind), g.bytes, g.n);
  if (!a->handle.live) { CHECK(s.status == JSSTR_BAD_ARGUMENT); return; }
  lawful++;
  if (is_refused(&g, s)) return;
  CHECK(is_renewed(a, before, s, g.units, g.len, 0, 0));
  answered(a, s, g.units, g.len);
}

static void concat(agent *a) {
  jsstr_id l = some_id(a), r = some_id(a);
  use before = used(a);
  jsstr_answer s = jsstr_concat(&a->handle, l, r);
  if (!knows(a, l) || !knows(a, r)) { CHECK(s.status == JSSTR_BAD_ARGUMENT); return; }
  lawful++;
  uint32_t m = texts[l].len, n = texts[r].len;
  if (m + n > LIMIT) { CHECK(s.status == JSSTR_TOO_LONG && s.at == m && s.want == n); return; }
  uint16_t units[LIMIT];
  memcpy(units, texts[l].units, m * 2);
  memcpy(units + m, texts[r].units, n * 2);
  if (m && n) CHECK(m + n < 13 ? is_renewed(a, before, s, units, m + n, 1, 0) : is_linked(a, before));
  answered(a, s, units, m + n);
}

static void slice(agent *a) {
  jsstr_id s = some_id(a);
  uint32_t len = knows(a, s) ? texts[s].len : 9, from = chance(len + 2), to = chance(9) ? from + chance(len + 2 - from) : chance(500);
  use before = used_settled(a, a, s);
  jsstr_answer t = jsstr_slice(&a->handle, s, from, to);
  if (!knows(a, s) || from > to || to > len) { CHECK(t.status == JSSTR_BAD_ARGUMENT); return; }
  lawful++;
  if (to - from < len && jsstr_is_settled(&a->handle, s).holds)
    CHECK(to - from < 13 ? is_renewed(a, before, t, texts[s].units + from, to - from, 1, 0) : is_linked(a, before));
  answered(a, t, texts[s].units + from, to - from);
}

static void read(agent *a) {
  uint16_t units[LIMIT + 2];
  jsstr_id s = some_id(a);
  uint32_t len = knows(a, s) ? texts[s].len : 9, from = chance(len + 2), n = chance(len + 2);
  jsstr_number all = jsstr_length(&a->handle, s);
  uint32_t status = jsstr_read(&a->handle, s, from, units, n);
  if (!knows(a, s)) { CHECK(all.status == JSSTR_BAD_ARGUMENT && status == JSSTR_BAD_ARGUMENT); return; }
  lawful++;
  CHECK(all.status == JSSTR_DONE && all.value == len);
  if (from + n > len) { CHECK(status == JSSTR_BAD_ARGUMENT); return; }
  if (refused_for_room(status)) return;
  CHECK(status == JSSTR_DONE && memcmp(units, texts[s].units + from, n * 2) == 0);
}

/* The first units, and the number as an array index, which strings by chance rarely have. */
static void read_out(agent *a) {
  uint16_t units[LIMIT + 1];
  char text[LIMIT + 1], again[16];
  jsstr_id s = some_id(a);
  uint32_t len = knows(a, s) ? texts[s].len : 9, room = chance(2) ? len : chance(LIMIT + 1);
  memset(units, 0x5A, sizeof units);
  uint32_t status = jsstr_read(&a->handle, s, 0, units, room);
  jsstr_number n = jsstr_array_index(&a->handle, s);
  if (!knows(a, s)) { CHECK(status == JSSTR_BAD_ARGUMENT && n.status == JSSTR_BAD_ARGUMENT && units[0] == 0x5A5A); return; }
  lawful++;
  if (refused_for_room(status)) return;
  CHECK(status == (room > len ? JSSTR_BAD_ARGUMENT : JSSTR_DONE));
  CHECK(room > len ? units[0] == 0x5A5A : memcmp(units, texts[s].units, room * 2) == 0 && units[room] == 0x5A5A);
  if (refused_for_room(n.status)) return;
  for (uint32_t i = 0; i < len; i++) text[i] = texts[s].units[i] < 128 ? (char)texts[s].units[i] : 'x';
  text[len] = 0;
  uint64_t value = len && len <= 10 && strspn(text, "0123456789") == len ? strtoull(text, 0, 10) : UINT64_MAX;
  if (value < UINT32_MAX) snprintf(again, sizeof again, "%llu", (unsigned long long)value);
  int is = value < UINT32_MAX && strcmp(text, again) == 0;
  CHECK(is ? n.status == JSSTR_DONE && n.value == value : n.status == JSSTR_NONE && !n.value);
}

/* A string of one agent for another one of the same heap; and for a stranger, which has room for little. */
static void carry(agent *a, agent *b) {
  if (a == b) return;
  jsstr_id s = some_id(a);
  if (chance(9) == 0) {
    jsstr_answer t = jsstr_copy_into(&a->handle, s, &stranger.handle);
    CHECK((t.status == JSSTR_BAD_ARGUMENT) == !knows(a, s));
    return;
  }
  use before = used_settled(b, a, s);
  jsstr_answer t = jsstr_copy_into(&a->handle, s, &b->handle);
  if (!knows(a, s) || !b->handle.live) { CHECK(t.status == JSSTR_BAD_ARGUMENT); return; }
  lawful++;
  if (jsstr_is_settled(&a->handle, s).holds) CHECK(is_renewed(b, before, t, texts[s].units, texts[s].len, 0, 0));
  answered(b, t, texts[s].units, texts[s].len);
}

static void window(agent *a) {
  uint64_t words[120];
  jsstr_id s = some_id(a);
  uint32_t at = chance(4) ? 0 : chance(20), room = chance(2) ? 120 : chance(20);
  memset(words, 0x5A, sizeof words);
  jsstr_words w = jsstr_window(&a->handle, s, at, words, room);
  if (w.status != JSSTR_DONE) CHECK(!w.wide && !w.lane && !w.length && !w.count);
  if (!knows(a, s)) { CHECK(w.status == JSSTR_BAD_ARGUMENT); return; }
  lawful++;
  if (refused_for_room(w.status)) return;
  uint32_t n = w.wide ? 4 : 8, bits = 64 / n, len = texts[s].len, end = len ? (w.lane + len + n - 1) / n : 0, left = at < end ? end - at : 0;
  CHECK(w.status == JSSTR_DONE && w.length == len && w.lane < n && w.count == (left < room ? left : room));
  for (uint32_t i = 0; i < len; i++) {
    uint32_t k = (w.lane + i) / n;
    if (k >= at && k < at + w.count)
      CHECK((words[k - at] >> (w.lane + i) % n * bits & (w.wide ? 0xFFFF : 0xFF)) == texts[s].units[i]);
  }
  for (uint32_t k = w.count; k < 120; k++) CHECK(words[k] == 0x5A5A5A5A5A5A5A5A);
}

static int stands(text hay, text needle, uint32_t at) {
  return at <= hay.len && needle.len <= hay.len - at && memcmp(hay.units + at, needle.units, needle.len * 2) == 0;
}

static int order_of(text a, text b) {
  for (uint32_t i = 0; i < a.len && i < b.len; i++)
    if (a.units[i] != b.units[i]) return a.units[i] < b.units[i] ? -1 : 1;
  return (a.len > b.len) - (a.len < b.len);
}

static void search(agent *a) {
  jsstr_id s = some_id(a), t = some_id(a);
  uint32_t at = chance(30), ok = knows(a, s) && knows(a, t), want = 0;
  int found = 0;
  switch (chance(5)) {
  case 0: {
    jsstr_order o = jsstr_compare(&a->handle, s, t);
    if (!ok) { CHECK(o.status == JSSTR_BAD_ARGUMENT); return; }
    if (!refused_for_room(o.status)) CHECK(o.status == JSSTR_DONE && o.order == order_of(texts[s], texts[t]));
    break;
  }
  case 1: {
    jsstr_truth o = jsstr_equal(&a->handle, s, t);
    if (!ok) { CHECK(o.status == JSSTR_BAD_ARGUMENT); return; }
    if (!refused_for_room(o.status)) CHECK(o.status == JSSTR_DONE && o.holds == (order_of(texts[s], texts[t]) == 0));
    break;
  }
  case 2: {
    jsstr_truth o = jsstr_starts_with(&a->handle, s, t, at);
    if (!ok) { CHECK(o.status == JSSTR_BAD_ARGUMENT); return; }
    if (!refused_for_room(o.status)) CHECK(o.status == JSSTR_DONE && o.holds == stands(texts[s], texts[t], at));
    break;
  }
  case 3: {
    jsstr_place o = jsstr_index_of(&a->handle, s, t, at);
    if (!ok || at > texts[s].len) { CHECK(o.status == JSSTR_BAD_ARGUMENT); return; }
    for (want = at; want <= texts[s].len && !(found = stands(texts[s], texts[t], want)); want++) {}
    if (!refused_for_room(o.status)) CHECK(found ? o.status == JSSTR_DONE && o.at == want : o.status == JSSTR_NONE);
    break;
  }
  default: {
    jsstr_place o = jsstr_last_index_of(&a->handle, s, t, at);
    if (!ok) { CHECK(o.status == JSSTR_BAD_ARGUMENT); return; }
    for (want = at + 1; want-- > 0 && !(found = stands(texts[s], texts[t], want));) {}
    if (!refused_for_room(o.status)) CHECK(found ? o.status == JSSTR_DONE && o.at == want : o.status == JSSTR_NONE);
  }
  }
  lawful++;
}

/* The slot of these units: the first one on their path that is free or has them; SLOTS where each has others. */
static uint32_t slot_for(const uint16_t *units, uint32_t len) {
  uint32_t hash = 0;
  for (uint32_t i = 0; i < len; i++) hash = hash * 31 + units[i];
  for (uint32_t i = 0; i < SLOTS; i++) {
    uint32_t slot = (hash % SLOTS + i) % SLOTS;
    if (table[slot] == JSSTR_NO_STRING) return slot;
    text t = texts[table[slot]];
    if (t.len == len && (!len || memcmp(t.units, units, len * 2) == 0)) return slot;
  }
  return SLOTS;
}

static int is_used(uint32_t slot) { return slot < SLOTS && table[slot] != JSSTR_NO_STRING; }

/* Whether the string of these units is to be put into the table: then it is made. */
static int is_new(const uint16_t *units, uint32_t len) {
  uint32_t slot = slot_for(units, len);
  return slot < SLOTS && !is_used(slot);
}

/* The answer is to be the string of the table with these units, made for them where there was none. */
static void interned(agent *a, jsstr_answer one, const uint16_t *units, uint32_t len) {
  uint32_t slot = slot_for(units, len);
  if (!is_used(slot) && refused_for_room(one.status)) return;
  CHECK(one.status == JSSTR_DONE && slot < SLOTS && (!is_used(slot) || table[slot] == one.id));
  answered(a, one, units, len);
  a->interned[one.id] = 1;
  entries += !is_used(slot);
  table[slot] = one.id;
}

static void intern(agent *a) {
  jsstr_id s = some_id(a);
  jsstr_answer one = jsstr_intern(&a->handle, s);
  if (!knows(a, s)) { CHECK(one.status == JSSTR_BAD_ARGUMENT); return; }
  lawful++;
  if (is_new(texts[s].units, texts[s].len)) CHECK(is_headed(a, one, texts[s].units, texts[s].len));
  if (!refused_for_room(one.status)) interned(a, one, texts[s].units, texts[s].len);
}

/* Units that are interned, or looked for, with no string of their own: each answer is the table's. */
static void key(agent *a) {
  given g;
  enum kind kind = (enum kind)chance(KINDS);
  int find = (int)chance(2);
  give(&g, kind);
  use before = used(a);
  jsstr_answer one = kind == UNITS ? (find ? jsstr_find_units : jsstr_intern_units)(&a->handle, g.units, g.len)
    : (find ? jsstr_find_bytes : jsstr_intern_bytes)(&a->handle, encoding_of(kind), g.bytes, g.n);
  if (!a->handle.live) { CHECK(one.status == JSSTR_BAD_ARGUMENT); return; }
  lawful++;
  if (is_refused(&g, one)) return;
  if (!find && is_new(g.units, g.len)) CHECK(is_renewed(a, before, one, g.units, g.len, 0, 1));
  if (find && !is_used(slot_for(g.units, g.len))) CHECK(one.status == JSSTR_NONE && one.id == JSSTR_NO_STRING);
  else interned(a, one, g.units, g.len);
}

/* A few lists in one call, with ends that sometimes descend: each answer is the table's, in turn. */
static void many(agent *a) {
  given g;
  uint32_t ends[4], count = chance(5), from = 0, wrong = 0;
  jsstr_id ids[4] = {UINT32_MAX, UINT32_MAX, UINT32_MAX, UINT32_MAX};
  give(&g, UNITS);
  for (uint32_t i = 0; i < count; i++) {
    ends[i] = i + 1 == count && chance(9) ? g.len : chance(20) ? from + chance(g.len - from + 1) : chance(g.len + 9);
    if (ends[i] < from || ends[i] > g.len) wrong = 1, ends[i] = from > 0 ? from - 1 : g.len + 1;
    else from = ends[i];
  }
  jsstr_batch all = jsstr_intern_many(&a->handle, g.units, g.len, ends, count, ids, count);
  if (!a->handle.live || wrong) { CHECK(all.status == JSSTR_BAD_ARGUMENT && !all.done && ids[0] == UINT32_MAX); return; }
  lawful++;
  CHECK(all.done <= count && (all.status == JSSTR_DONE) == (all.done == count));
  int renews = a->blocks.ids || a->blocks.words; /* what was renewed in between is believed */
  if (renews) a->ids = jsstr_reserved(&a->handle).ids, a->words = jsstr_reserved(&a->handle).words;
  for (uint32_t i = 0, at = 0; i < all.done; at = ends[i++]) {
    if (!renews && is_new(g.units + at, ends[i] - at)) takes(a, g.units + at, ends[i] - at);
    interned(a, (jsstr_answer){JSSTR_DONE, ids[i], 0, 0, 0}, g.units + at, ends[i] - at);
  }
  for (uint32_t i = all.done; i < count; i++) CHECK(ids[i] == UINT32_MAX);
  if (all.done < count) {
    uint32_t at = all.done ? ends[all.done - 1] : 0;
    CHECK(refused_for_room(all.status) && !is_used(slot_for(g.units + at, ends[all.done] - at)));
  }
}

/* A string of the table, mostly. */
static jsstr_id some_key(const agent *a) {
  for (int i = 0; i < 20 && chance(99); i++) {
    uint32_t slot = chance(SLOTS);
    if (is_used(slot)) return table[slot];
  }
  return some_id(a);
}

/* The slot of a string, and the string in a slot, which another agent may have interned. */
static void adopt(agent *a) {
  jsstr_id s = some_key(a);
  jsstr_number k = jsstr_slot_of(&a->handle, s);
  int ok = knows(a, s) && a->interned[s];
  CHECK(ok ? k.status == JSSTR_DONE && k.value < SLOTS && table[k.value] == s : k.status == JSSTR_BAD_ARGUMENT && !k.value);
  uint32_t slot = ok && chance(2) ? k.value : chance(20) ? chance(SLOTS + 2) : chance(1u << 31) * 2;
  jsstr_answer one = jsstr_adopt(&a->handle, slot);
  if (!a->handle.live || slot >= SLOTS) { CHECK(one.status == JSSTR_BAD_ARGUMENT && one.id == JSSTR_NO_STRING); return; }
  lawful++;
  if (is_used(slot)) interned(a, one, texts[table[slot]].units, texts[table[slot]].len);
  else CHECK(one.status == JSSTR_NONE && one.id == JSSTR_NO_STRING && !one.at && !one.want && !one.end);
}

/* The text has these units behind those that it had. */
static void appended(uint32_t status, const uint16_t *units, uint32_t len) {
  CHECK(status == JSSTR_DONE && built.len + len <= LIMIT);
  if (len) memcpy(built.units + built.len, units, len * 2);
  built.len += len;
}

static void append_given(void) {
  given g;
  enum kind kind = (enum kind)chance(KINDS);
  give(&g, kind);
  if (built.len + g.len > LIMIT) return;
  if (kind == UNITS) appended(jsstr_build_units(&built.handle, g.units, g.len), g.units, g.len);
  else {
    jsstr_answer s = jsstr_build_bytes(&built.handle, encoding_of(kind), g.bytes, g.n);
    if (!is_refused(&g, s)) appended(s.status, g.units, g.len);
  }
}

static void append_number(void) {
  char digits[16];
  uint16_t units[16];
  int32_t number = (int32_t)chance(1u << 31) >> chance(31);
  if (chance(2)) number = -number - 1;
  uint32_t len = (uint32_t)snprintf(digits, sizeof digits, "%ld", (long)number);
  for (uint32_t i = 0; i < len; i++) units[i] = (uint8_t)digits[i];
  if (built.len + len <= LIMIT) appended(jsstr_build_number(&built.handle, number), units, len);
}

static void append_string(agent *a) {
  jsstr_id s = some_id(a);
  if (knows(a, s) && built.len + texts[s].len > LIMIT) return;
  uint32_t status = jsstr_build_string(&built.handle, &a->handle, s);
  if (!knows(a, s)) CHECK(status == JSSTR_BAD_ARGUMENT);
  else if (!refused_for_room(status)) appended(status, texts[s].units, texts[s].len);
}

/* A string of the text, here or in a heap that has little room; a refusal leaves the text. */
static void finish(agent *a) {
  int interns = (int)chance(2), here = chance(9) > 0;
  use before = used(a);
  jsstr_answer s = (interns ? jsstr_built_interned : jsstr_built)(&built.handle, here ? &a->handle : &stranger.handle);
  if (here && a->handle.live && !interns) CHECK(is_renewed(a, before, s, built.units, built.len, 0, 0));
  if (here && a->handle.live && interns && is_new(built.units, built.len)) CHECK(is_renewed(a, before, s, built.units, built.len, 0, 1));
  if (here && !a->handle.live) CHECK(s.status == JSSTR_BAD_ARGUMENT);
  else if (here) (interns ? interned : answered)(a, s, built.units, built.len);
  else CHECK(s.status == JSSTR_DONE || s.status == JSSTR_NO_IDS || s.status == JSSTR_NO_WORDS || s.status == JSSTR_NO_SLOTS);
  if (s.status == JSSTR_DONE) built.len = 0;
}

static void build(agent *a) {
  lawful++;
  switch (chance(6)) {
  case 0: append_number(); break;
  case 1: append_string(a); break;
  case 2: case 3: append_given(); break;
  default: finish(a);
  }
  CHECK(built.handle.len == built.len);
  if (chance(50)) return;
  jsstr_drop_builder(&built.handle);
  CHECK(!built.handle.at && !built.handle.live && built.handle.len == 0);
  built.len = 0;
}

/* How full the heap is, for any agent. */
static void gauge(agent *a) {
  jsstr_room room = jsstr_room_of(&a->handle);
  if (!a->handle.live) { CHECK(room.status == JSSTR_BAD_ARGUMENT && !room.ids && !room.words && !room.all_ids && !room.seen_slots); return; }
  lawful++;
  use all = used_now(&a->handle);
  uint32_t known = 0, keys = 0;
  for (int i = 0; i < IDS; i++) known += a->known[i], keys += a->interned[i];
  CHECK(room.status == JSSTR_DONE && room.all_ids == IDS && room.all_words == WORDS && room.slots == SLOTS);
  CHECK(room.ids == all.ids && room.words == all.words && room.ids >= known && room.seen_slots == keys);
  CHECK(room.ids >= last.ids && room.words >= last.words);
  last = room;
}

static void is_key(agent *a) {
  jsstr_id s = some_key(a);
  jsstr_truth is = jsstr_is_interned(&a->handle, s);
  CHECK(a->handle.live ? is.status == JSSTR_DONE && is.holds == (s < IDS && a->interned[s]) : is.status == JSSTR_BAD_ARGUMENT);
  lawful += knows(a, s);
}

static void count(agent *a) {
  jsstr_number share = jsstr_share(&a->handle), lists = jsstr_count_interned(&a->handle);
  CHECK(a->handle.live ? share.status == JSSTR_DONE && share.value == a->share : share.status == JSSTR_BAD_ARGUMENT);
  if (a->share < AGENTS) { CHECK(lists.status == JSSTR_BAD_ARGUMENT); return; }
  lawful++;
  CHECK(lists.status == JSSTR_DONE && lists.value == entries);
}

static void settle(agent *a) {
  jsstr_id s = some_id(a);
  jsstr_answer t = jsstr_settle(&a->handle, s);
  if (!knows(a, s)) { CHECK(t.status == JSSTR_BAD_ARGUMENT); return; }
  lawful++;
  if (!refused_for_room(t.status)) CHECK(t.status == JSSTR_DONE && t.id == s);
}

/* What is reserved is used, and is what is left of it by the reference; of words, a run that is not gone on with is lost. */
static void reserve(agent *a) {
  uint32_t ids = chance(9) ? chance(6) : chance(2 * IDS), words = chance(9) ? chance(20) : chance(2 * WORDS);
  if (chance(200)) ids %= 6, words %= 20;
  use before = used(a);
  jsstr_answer s = jsstr_reserve(&a->handle, ids, words);
  if (!a->handle.live) { CHECK(s.status == JSSTR_BAD_ARGUMENT); return; }
  lawful++;
  use after = used_now(&a->handle);
  jsstr_counts kept = jsstr_reserved(&a->handle);
  CHECK(kept.status == JSSTR_DONE && kept.ids - a->ids == after.ids - before.ids);
  CHECK(s.status == JSSTR_DONE ? s.id == JSSTR_NO_STRING && kept.ids == a->ids + ids : refused_for_room(s.status));
  CHECK(s.status == JSSTR_NO_WORDS ? after.ids == before.ids && after.words == before.words && kept.words == a->words
    : after.words == before.words + words && (kept.words == a->words + words || (words && kept.words == words)));
  a->ids = kept.ids, a->words = kept.words;
}

static void renew(agent *a) {
  use blocks = {chance(3) ? chance(6) : 0, chance(3) ? chance(20) : 0};
  if (chance(40) == 0) blocks = (use){chance(2) ? IDS : blocks.ids, chance(2) ? 2 * WORDS : blocks.words};
  uint32_t status = jsstr_renew(&a->handle, blocks.ids, blocks.words);
  CHECK(status == (a->handle.live ? JSSTR_DONE : JSSTR_BAD_ARGUMENT));
  if (!a->handle.live) return;
  lawful++;
  a->blocks = blocks;
}

static void split(agent *a, agent *b) {
  uint32_t give = chance(AGENTS + 1);
  int ok = a != b && a->handle.live && !b->handle.live && give >= 1 && give < a->share;
  if (a == b) return;
  uint32_t status = jsstr_split(&a->handle, give, &b->handle);
  CHECK(status == (ok ? JSSTR_DONE : JSSTR_BAD_ARGUMENT));
  if (!ok) return;
  lawful++;
  jsstr_agent handle = b->handle;
  *b = *a;
  b->handle = handle;
  b->share = give;
  b->giver = a->number;
  b->number = (int)++numbers;
  b->ids = b->words = 0;
  b->blocks = (use){0, 0};
  a->share -= give;
}

static void join(agent *a, agent *b) {
  if (a == b) return;
  if (chance(20) == 0) {
    CHECK(jsstr_join(&a->handle, &stranger.handle) == JSSTR_BAD_ARGUMENT && jsstr_join(&stranger.handle, &b->handle) == JSSTR_BAD_ARGUMENT);
    return;
  }
  int ok = a->handle.live && b->handle.live && b->giver == a->number;
  CHECK(jsstr_join(&a->handle, &b->handle) == (ok ? JSSTR_DONE : JSSTR_BAD_ARGUMENT));
  if (!ok) return;
  lawful++;
  CHECK(!b->handle.live && !b->handle.at);
  for (int i = 0; i < IDS; i++) a->known[i] |= b->known[i], a->interned[i] |= b->interned[i];
  a->share += b->share;
  if (!a->ids) a->ids = b->ids;
  if (!a->words) a->words = b->words;
  memset(b, 0, sizeof *b);
}

int main(int count_of, char **told) {
  long calls = count_of > 1 ? atol(told[1]) : 20000;
  state = count_of > 2 ? strtoull(told[2], 0, 10) : 1;
  CHECK(jsstr_make((jsstr_size){8, 8, 8}, 4, 9, &stranger.handle) == JSSTR_DONE);
  begin();
  for (call = 0; call < calls; call++) {
    agent *a = &agents[chance(AGENTS)], *b = &agents[chance(AGENTS)];
    if (!a->handle.live && chance(3)) a = &agents[0];
    switch (chance(28)) {
    case 0: case 1: make(a); break;
    case 2: case 3: concat(a); break;
    case 4: case 5: slice(a); break;
    case 6: case 7: read(a); break;
    case 8: case 9: search(a); break;
    case 10: intern(a); break;
    case 11: is_key(a); break;
    case 12: count(a); break;
    case 13: settle(a); break;
    case 14: split(a, b); break;
    case 15: window(a); break;
    case 16: case 17: key(a); break;
    case 18: read_out(a); break;
    case 19: carry(a, b); break;
    case 20: case 21: build(a); break;
    case 22: adopt(a); break;
    case 23: gauge(a); break;
    case 24: many(a); break;
    case 25: reserve(a); break;
    case 26: renew(a); break;
    default: join(a, b);
    }
    CHECK(keeps_reserve(a) && keeps_reserve(b));
    if (full > 300) begin();
  }
  for (int i = 0; i < AGENTS; i++)
    if (agents[i].handle.live) CHECK(jsstr_free(&agents[i].handle) == JSSTR_DONE);
  CHECK(jsstr_free(&stranger.handle) == JSSTR_DONE);
  jsstr_drop_builder(&built.handle);
  for (int i = 0; i < IDS; i++) free(texts[i].units);
  printf("%ld calls, %ld valid, none differs\n", calls, lawful);
  return 0;
}
