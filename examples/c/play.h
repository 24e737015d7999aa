/* What calls.c and calls.cpp look at when they play a row of calls.h: what can be seen of its world, which its call changes as the row
   says, and the answer, with the units of what was made. */
#ifndef PLAY_H
#define PLAY_H
#include "calls.h"
#include <stdio.h>
#include <stdlib.h>
#include <string.h>

#ifdef __cplusplus
#define HANDLE(agent) (agent)->handle()
#define BUILT_LENGTH(text) (text)->length()
#else
#define HANDLE(agent) (agent)
#define BUILT_LENGTH(text) (text)->len
#endif

#define CHECK(c) do { if (!(c)) failed(__LINE__, #c); } while (0)

/* A row with its call as text, its answer as text, and both as functions. */
typedef struct row { const char *name, *text, *shown; enum takes memory; answer (*call)(world *); expected (*leads)(world *); } row;

/* The row that is played, and how a check that fails ends the program. */
static const char *playing = "a heap";

static void failed(int line, const char *what) {
  printf("%s: line %d: %s\n", playing, line, what);
  exit(1);
}

static jsstr_id id_of(jsstr_answer s) {
  CHECK(s.status == JSSTR_DONE);
  return s.id;
}

/* A string of `one` with these units, while there is such an agent. */
static any_string made(world *w, const char *latin1) {
  jsstr_answer s = jsstr_from_bytes(HANDLE(&w->one), JSSTR_LATIN1, (const uint8_t *)latin1, strlen(latin1));
  CHECK(s.status == (HANDLE(&w->one)->live ? JSSTR_DONE : JSSTR_BAD_ARGUMENT));
  return (any_string)s.id;
}

/* What a byte is that no call wrote. */
enum { BLANK = 0x5A };

static void blank(world *w) {
  memset(w->units, BLANK, sizeof w->units);
  memset(w->bytes, BLANK, sizeof w->bytes);
  memset(w->words, BLANK, sizeof w->words);
  memset(w->ids, BLANK, sizeof w->ids);
}

/* What can be seen of a world: of its two heaps, of its agents, whose shares are 0 where there is none, of its strings and
   texts, and the memory that calls are given. */
typedef struct state {
  uint32_t ids[2], words[2], shares[3], learned, lengths[6], is_settled, built[3];
  any_unit units[64];
  any_byte bytes[64];
  uint64_t content[16];
  jsstr_id keys[3];
} state;

static state seen(world *w) {
  state now;
  memset(&now, 0, sizeof now);
  const jsstr_room rooms[] = {jsstr_room_of(HANDLE(&w->one)), jsstr_room_of(HANDLE(&w->far)), jsstr_room_of(HANDLE(&w->other))};
  for (int i = 0; i < 2; i++) now.ids[i] = rooms[i].ids, now.words[i] = rooms[i].words;
  for (int i = 0; i < 3; i++) now.learned += rooms[i].seen_slots;
  jsstr_agent *const agents[] = {HANDLE(&w->one), HANDLE(&w->other), HANDLE(&w->out)};
  for (int i = 0; i < 3; i++) {
    CHECK(!agents[i]->at == !agents[i]->live);
    now.shares[i] = jsstr_share(agents[i]).value;
  }
  const jsstr_id strings[] = {ID(w->plain), ID(w->rope), ID(w->twin), ID(w->wide), ID(w->key), ID(w->theirs)};
  for (int i = 0; i < 6; i++) now.lengths[i] = jsstr_length(HANDLE(&w->one), strings[i]).value;
  now.is_settled = jsstr_is_settled(HANDLE(&w->one), ID(w->rope)).holds;
  now.built[0] = BUILT_LENGTH(&w->text), now.built[1] = BUILT_LENGTH(&w->full), now.built[2] = BUILT_LENGTH(&w->empty);
  memcpy(now.units, w->units, sizeof now.units);
  memcpy(now.bytes, w->bytes, sizeof now.bytes);
  memcpy(now.content, w->words, sizeof now.content);
  memcpy(now.keys, w->ids, sizeof now.keys);
  return now;
}

static int is_same(answer a, answer b) { return !memcmp(&a, &b, sizeof a); }

/* The state that a row leads to. A rope of 22 units below 256 that is settled uses three words. */
static state after(const world *w, state now, const expected *e) {
  int heap = e->agent == &w->far;
  now.ids[heap] += e->ids, now.words[heap] += e->words;
  now.words[0] += e->is_settled ? 3 : 0;
  now.is_settled = e->is_settled, now.learned += e->learned;
  memcpy(now.shares, e->shares, sizeof now.shares);
  if (e->is_joined) now.lengths[5] = 6;
  if (e->is_spent) now.built[0] = 0;
  if (e->what == APPENDED) now.built[e->text == &w->full ? 1 : 2] += (uint32_t)wcslen(e->units);
  for (size_t i = 0; e->what == WROTE_UNITS && e->units[i]; i++) now.units[i] = (any_unit)e->units[i];
  if (e->what == WROTE_BYTES) memcpy(now.bytes, e->bytes, strlen(e->bytes));
  if (e->what == KEYS) memcpy(now.keys, w->ids, sizeof now.keys);
  return now;
}

/* The units of a string, read back. */
static void check_units(any_agent *agent, jsstr_id s, const wchar_t *units, size_t len) {
  uint16_t got[128];
  jsstr_number length = jsstr_length(HANDLE(agent), s);
  CHECK(length.status == JSSTR_DONE && length.value == len && jsstr_read(HANDLE(agent), s, 0, got, len) == JSSTR_DONE);
  for (size_t i = 0; i < len; i++) CHECK(got[i] == (uint16_t)units[i]);
}

/* An interned string has the one number that is found for its units. */
static void check_key(any_agent *agent, jsstr_id s, const wchar_t *units, size_t len) {
  uint16_t list[64];
  for (size_t i = 0; i < len; i++) list[i] = (uint16_t)units[i];
  check_units(agent, s, units, len);
  CHECK(jsstr_is_interned(HANDLE(agent), s).holds && id_of(jsstr_find_units(HANDLE(agent), list, len)) == s);
}

static void check_keys(world *w, const expected *e) {
  const wchar_t *at = e->units;
  for (uint32_t i = 0; i < e->right.numbers[1]; i++) {
    size_t len = wcscspn(at, L" ");
    check_key(e->agent, w->ids[i], at, len);
    at += len + 1;
  }
}

/* A string of `one` with the units of a text, which is empty then. */
static jsstr_id built(any_builder *text, world *w);

/* The text has what it had, and then these units; `full` had its units, and then 'u' alone. */
static void check_text(world *w, const expected *e) {
  wchar_t all[128];
  uint32_t had = e->text == &w->full ? w->had : 0;
  for (uint32_t i = 0; i < had; i++) all[i] = i < 6 ? units[i] : 'u';
  wcscpy(all + had, e->units);
  check_units(&w->one, built(e->text, w), all, wcslen(all));
}

/* The answer is the one that the row expects, as far as it doesn't show in the state. */
static void check_answer(const row *r, world *w, answer got, expected e) {
  if (e.what == STRING || e.what == KEY) e.right.numbers[1] = got.numbers[1];
  if (!is_same(got, e.right)) {
    printf("%s answers %s", r->name, jsstr_status_name(got.numbers[0]));
    for (int i = 1; i < 7; i++) printf(" %u", got.numbers[i]);
    printf(", which isn't %s\n", r->shown);
    exit(1);
  }
  if (e.what == STRING) CHECK(!jsstr_is_interned(HANDLE(e.agent), got.numbers[1]).holds);
  if (e.what == STRING || e.what == THAT) check_units(e.agent, got.numbers[1], e.units, wcslen(e.units));
  if (e.what == KEY || (e.what == THAT && e.right.numbers[1] == ID(w->key))) check_key(e.agent, got.numbers[1], e.units, wcslen(e.units));
  if (e.what == KEYS) check_keys(w, &e);
  if (e.what == APPENDED) check_text(w, &e);
}

/* The state is the one that the row leads to. */
static void check_state(const state *now, const state *right) {
  CHECK(now->is_settled == right->is_settled);
  CHECK(now->ids[0] == right->ids[0] && now->words[0] == right->words[0]);
  CHECK(now->ids[1] == right->ids[1] && now->words[1] == right->words[1]);
  CHECK(now->learned == right->learned);
  CHECK(!memcmp(now->shares, right->shares, sizeof now->shares));
  CHECK(!memcmp(now->built, right->built, sizeof now->built));
  CHECK(!memcmp(now, right, sizeof *now));
}
#endif
