/* Strings that go from one running agent to another by their slots of the string table, and how full a heap is: both
   calls in both forms, each bad argument, full heaps, two threads. Prints "ok". */
#include "jsstr.h"
#include <pthread.h>
#include <stdio.h>
#include <stdlib.h>
#include <string.h>

#define KEYS 2000
#define SLOTS 5003
#define CHECK(c) do { if (!(c)) { printf("line %d: %s\n", __LINE__, #c); exit(1); } } while (0)

typedef struct text { uint16_t units[16]; uint32_t len; } text;

static const text texts[] = {
  {{0}, 0}, {{0}, 1}, {{'a'}, 1}, {{'k', 'e', 'y'}, 3}, {{0xD800}, 1}, {{0xDC00, 0xD800}, 2}, {{0xD83D, 0xDE00}, 2},
  {{'e', 'i', 'g', 'h', 't', 0xFF, 0xFE, 0xFD}, 8}, {{0x100, 0xFFFF, 1, 2, 3}, 5},
  {{'t', 'h', 'i', 'r', 't', 'e', 'e', 'n', ' ', 'u', 'n', 'i', 't'}, 13},
};
#define TEXTS (sizeof texts / sizeof *texts)

static int is_bare(jsstr_answer s, uint32_t status) { return s.status == status && s.id == JSSTR_NO_STRING && !s.at && !s.want && !s.end; }

static int is_string(jsstr_answer s, jsstr_id id) { return s.status == JSSTR_DONE && s.id == id && !s.at && !s.want && !s.end; }

static int is_number(jsstr_number n, uint32_t status, uint32_t value) { return n.status == status && n.value == value; }

static int has_room(jsstr_agent *a, jsstr_room want) {
  jsstr_room seen = jsstr_room_of(a);
  return !memcmp(&seen, &want, sizeof want);
}

static int has_units(jsstr_agent *a, jsstr_id s, const text *of) {
  uint16_t got[16];
  return jsstr_length(a, s).value == of->len && jsstr_read(a, s, 0, got, of->len) == JSSTR_DONE && !memcmp(got, of->units, of->len * 2);
}

/* The slot by the rule, of a table whose slots are used as `is_used` has it. */
static uint32_t free_slot(const text *of, const char *is_used, uint32_t slots) {
  uint32_t hash = 0;
  for (uint32_t i = 0; i < of->len; i++) hash = hash * 31 + of->units[i];
  for (hash %= slots; is_used[hash];) hash = (hash + 1) % slots;
  return hash;
}

/* Each text is interned by one agent and adopted by another, in a table of so many slots. */
static void hand_over(uint32_t slots) {
  jsstr_agent one = {0}, other = {0};
  jsstr_id keys[TEXTS];
  char is_used[64] = {0};
  CHECK(jsstr_make((jsstr_size){100, 100, slots}, 2, 1000, &one) == JSSTR_DONE && jsstr_split(&one, 1, &other) == JSSTR_DONE);
  for (uint32_t i = 0; i < TEXTS; i++) {
    jsstr_id made = jsstr_from_units(&one, texts[i].units, texts[i].len).id;
    CHECK(is_number(jsstr_slot_of(&one, made), JSSTR_BAD_ARGUMENT, 0));
    jsstr_id key = keys[i] = i % 2 ? jsstr_intern(&one, made).id : jsstr_intern_units(&one, texts[i].units, texts[i].len).id;
    uint32_t slot = free_slot(&texts[i], is_used, slots);
    is_used[slot] = 1;
    CHECK(is_number(jsstr_slot_of(&one, key), JSSTR_DONE, slot));
    CHECK(is_number(jsstr_slot_of(&other, key), JSSTR_BAD_ARGUMENT, 0) && jsstr_length(&other, key).status == JSSTR_BAD_ARGUMENT);
    jsstr_room before = jsstr_room_of(&other);
    CHECK(is_string(jsstr_adopt(&other, slot), key));
    before.seen_slots++;
    CHECK(has_room(&other, before) && has_units(&other, key, &texts[i]));
    CHECK(jsstr_is_interned(&other, key).holds && jsstr_is_settled(&other, key).holds && jsstr_slot_of(&other, key).value == slot);
    CHECK(jsstr_length(&other, made).status == JSSTR_BAD_ARGUMENT || made == key);
    CHECK(is_string(jsstr_find_units(&other, texts[i].units, texts[i].len), key) && is_string(jsstr_adopt(&other, slot), key));
    CHECK(is_number(jsstr_slot_of(&other, key), JSSTR_DONE, slot) && is_string(jsstr_adopt(&one, slot), key));
    CHECK(has_room(&other, before));
  }
  for (uint32_t slot = 0; slot < slots; slot++) {
    jsstr_answer s = jsstr_adopt(&other, slot);
    CHECK(is_used[slot] ? is_number(jsstr_slot_of(&other, s.id), JSSTR_DONE, slot) : is_bare(s, JSSTR_NONE));
  }
  CHECK(jsstr_join(&one, &other) == JSSTR_DONE && jsstr_count_interned(&one).value == TEXTS);
  for (uint32_t i = 0; i < TEXTS; i++) CHECK(is_string(jsstr_intern_units(&one, texts[i].units, texts[i].len), keys[i]));
  CHECK(jsstr_free(&one) == JSSTR_DONE);
}

/* What is no slot and no interned string: nothing has changed. */
static void refuse(void) {
  jsstr_agent a = {0}, b = {0}, none = {0};
  CHECK(jsstr_make((jsstr_size){10, 10, 7}, 2, 100, &a) == JSSTR_DONE && jsstr_split(&a, 1, &b) == JSSTR_DONE);
  jsstr_id key = jsstr_intern_units(&a, texts[3].units, texts[3].len).id, own = jsstr_from_units(&a, texts[3].units, texts[3].len).id;
  jsstr_id others = jsstr_from_units(&b, texts[9].units, texts[9].len).id;
  uint32_t slot = jsstr_slot_of(&a, key).value;
  const jsstr_room room = {JSSTR_DONE, 3, 4, 10, 10, 7, 1};
  CHECK(has_room(&a, room));
  const uint32_t slots[] = {7, 8, 1u << 29, UINT32_MAX - 1, UINT32_MAX};
  for (size_t i = 0; i < sizeof slots / sizeof *slots; i++) CHECK(is_bare(jsstr_adopt(&a, slots[i]), JSSTR_BAD_ARGUMENT));
  for (uint32_t i = 0; i < 7; i++)
    if (i != slot) CHECK(is_bare(jsstr_adopt(&a, i), JSSTR_NONE));
  const jsstr_id ids[] = {own, others, 9, 10, 1u << 29, JSSTR_NO_STRING};
  for (size_t i = 0; i < sizeof ids / sizeof *ids; i++) CHECK(is_number(jsstr_slot_of(&a, ids[i]), JSSTR_BAD_ARGUMENT, 0));
  CHECK(has_room(&a, room) && !jsstr_is_interned(&a, own).holds && jsstr_length(&a, others).status == JSSTR_BAD_ARGUMENT);
  CHECK(is_number(jsstr_slot_of(&none, key), JSSTR_BAD_ARGUMENT, 0) && is_bare(jsstr_adopt(&none, slot), JSSTR_BAD_ARGUMENT));
  const jsstr_room no_room = {JSSTR_BAD_ARGUMENT, 0, 0, 0, 0, 0, 0};
  jsstr_room seen = jsstr_room_of(&none);
  CHECK(!memcmp(&seen, &no_room, sizeof seen));
  CHECK(jsstr_join(&a, &b) == JSSTR_DONE && is_bare(jsstr_adopt(&b, slot), JSSTR_BAD_ARGUMENT));
  CHECK(jsstr_length(&a, others).value == 13 && jsstr_free(&a) == JSSTR_DONE && jsstr_room_of(&a).status == JSSTR_BAD_ARGUMENT);
}

/* A slot is one of its own heap: in another one it is free, or has what was interned there. */
static void other_heap(void) {
  jsstr_agent a = {0}, b = {0};
  CHECK(jsstr_make((jsstr_size){10, 10, 101}, 1, 100, &a) == JSSTR_DONE && jsstr_make((jsstr_size){10, 10, 7}, 1, 100, &b) == JSSTR_DONE);
  uint32_t slot = jsstr_slot_of(&a, jsstr_intern_units(&a, texts[2].units, texts[2].len).id).value;
  CHECK(slot == 'a' % 101 && is_bare(jsstr_adopt(&b, slot), JSSTR_BAD_ARGUMENT));
  slot = jsstr_slot_of(&a, jsstr_intern_units(&a, texts[1].units, texts[1].len).id).value;
  CHECK(slot == 0 && is_bare(jsstr_adopt(&b, slot), JSSTR_NONE) && is_bare(jsstr_adopt(&b, 7), JSSTR_BAD_ARGUMENT));
  jsstr_id own = jsstr_intern_units(&b, texts[0].units, texts[0].len).id;
  CHECK(is_string(jsstr_adopt(&b, slot), own) && has_units(&b, own, &texts[0]) && jsstr_room_of(&b).ids == 1);
  CHECK(jsstr_free(&a) == JSSTR_DONE && jsstr_free(&b) == JSSTR_DONE);
}

/* No id, no word and no slot is left, and keys still go over; each counter is what was used, of all agents. */
static void full_heaps(void) {
  jsstr_agent a = {0}, b = {0};
  CHECK(jsstr_make((jsstr_size){3, 2, 2}, 2, 100, &a) == JSSTR_DONE && jsstr_split(&a, 1, &b) == JSSTR_DONE);
  CHECK(has_room(&a, (jsstr_room){JSSTR_DONE, 0, 0, 3, 2, 2, 0}));
  jsstr_id one = jsstr_intern_units(&a, texts[2].units, 1).id;
  CHECK(has_room(&b, (jsstr_room){JSSTR_DONE, 1, 1, 3, 2, 2, 0}) && has_room(&a, (jsstr_room){JSSTR_DONE, 1, 1, 3, 2, 2, 1}));
  jsstr_id two = jsstr_intern_units(&b, texts[3].units, 3).id;
  CHECK(jsstr_from_units(&b, texts[0].units, 0).status == JSSTR_DONE);
  CHECK(has_room(&a, (jsstr_room){JSSTR_DONE, 3, 2, 3, 2, 2, 1}));
  CHECK(jsstr_from_units(&a, texts[0].units, 0).status == JSSTR_NO_IDS && jsstr_intern_units(&b, texts[4].units, 1).status == JSSTR_NO_SLOTS);
  CHECK(jsstr_from_units(&b, texts[3].units, 1).status == JSSTR_NO_WORDS);
  for (uint32_t slot = 0; slot < 2; slot++) {
    jsstr_answer mine = jsstr_adopt(&a, slot), same = jsstr_adopt(&b, slot);
    CHECK(is_string(mine, same.id) && is_string(same, mine.id) && (mine.id == one || mine.id == two));
    CHECK(jsstr_slot_of(&a, mine.id).value == slot && has_units(&a, mine.id, &texts[mine.id == one ? 2 : 3]));
  }
  CHECK(has_room(&a, (jsstr_room){JSSTR_DONE, 3, 2, 3, 2, 2, 2}) && has_room(&b, (jsstr_room){JSSTR_DONE, 3, 2, 3, 2, 2, 2}));
  CHECK(jsstr_free(&b) == JSSTR_DONE && has_room(&a, (jsstr_room){JSSTR_DONE, 3, 2, 3, 2, 2, 2}) && jsstr_free(&a) == JSSTR_DONE);
}

/* One thread interns, and puts each slot on the board; the other adopts from it, and from any slot in between. */
static struct { pthread_mutex_t lock; uint32_t slots[KEYS], count; } board = {.lock = PTHREAD_MUTEX_INITIALIZER};

static text key(uint32_t number) {
  text of = {{0}, 0};
  for (of.units[of.len++] = 0x4E16; number; number /= 10) of.units[of.len++] = (uint16_t)('0' + number % 10);
  return of;
}

static void *fill_board(void *agent) {
  for (uint32_t i = 0; i < KEYS; i++) {
    text of = key(i);
    jsstr_number slot = jsstr_slot_of(agent, jsstr_intern_units(agent, of.units, of.len).id);
    CHECK(slot.status == JSSTR_DONE && slot.value < SLOTS);
    pthread_mutex_lock(&board.lock);
    board.slots[board.count++] = slot.value;
    pthread_mutex_unlock(&board.lock);
  }
  return NULL;
}

static void *read_board(void *agent) {
  jsstr_room last = jsstr_room_of(agent);
  for (uint32_t i = 0, any = 0; i < KEYS;) {
    pthread_mutex_lock(&board.lock);
    uint32_t count = board.count;
    pthread_mutex_unlock(&board.lock);
    for (; i < count; i++) {
      text of = key(i);
      jsstr_answer s = jsstr_adopt(agent, board.slots[i]);
      CHECK(is_string(s, s.id) && has_units(agent, s.id, &of) && is_string(jsstr_find_units(agent, of.units, of.len), s.id));
    }
    any = (any + 7) % SLOTS;
    jsstr_answer s = jsstr_adopt(agent, any);
    CHECK(is_bare(s, JSSTR_NONE) || (is_string(s, s.id) && jsstr_slot_of(agent, s.id).value == any && jsstr_length(agent, s.id).value < 6));
    jsstr_room room = jsstr_room_of(agent);
    CHECK(room.ids >= last.ids && room.words >= last.words && room.ids >= count && room.ids <= KEYS && room.seen_slots >= last.seen_slots);
    last = room;
  }
  return NULL;
}

static void two_threads(void) {
  static struct { jsstr_agent agent; char line[64]; } one, other;
  pthread_t threads[2];
  CHECK(jsstr_make((jsstr_size){KEYS, 2 * KEYS, SLOTS}, 2, 100, &one.agent) == JSSTR_DONE && jsstr_split(&one.agent, 1, &other.agent) == JSSTR_DONE);
  CHECK(!pthread_create(&threads[0], NULL, fill_board, &one.agent) && !pthread_create(&threads[1], NULL, read_board, &other.agent));
  CHECK(!pthread_join(threads[0], NULL) && !pthread_join(threads[1], NULL));
  CHECK(jsstr_room_of(&one.agent).seen_slots == KEYS && jsstr_room_of(&other.agent).seen_slots == KEYS);
  CHECK(jsstr_join(&one.agent, &other.agent) == JSSTR_DONE && jsstr_count_interned(&one.agent).value == KEYS);
  jsstr_room used = jsstr_room_of(&one.agent);
  jsstr_room room = jsstr_room_of(&one.agent);
  CHECK(room.ids == used.ids && room.words == used.words && jsstr_free(&one.agent) == JSSTR_DONE);
}

int main(void) {
  hand_over(TEXTS);
  hand_over(TEXTS + 1);
  hand_over(61);
  refuse();
  other_heap();
  full_heaps();
  two_threads();
  puts("ok");
  return 0;
}
