/* A pool of workers that live on. They get texts from one queue, make keys of the words in them, and put keys and an
   answer into another queue, from which the host gets them.

   A number alone means nothing to another running agent. A key goes there by its slot of the string table, which
   is the same for all agents and for good: the host adopts what is in it. Any other string goes by its units. The
   lock of a queue orders memory, so the slot is filled by the time that the host looks there. */
#include "jsstr.h"
#include <pthread.h>
#include <stdio.h>
#include <stdlib.h>
#include <string.h>

#define WORKERS 4
#define TEXTS 5000
#define IN_FLIGHT 16
#define ROOM (IN_FLIGHT + WORKERS) /* never needed in full, so who puts never waits */
#define WORDS 8                    /* of a text */
#define SLOTS 4099

#define CHECK(c) do { if (!(c)) { printf("line %d: %s\n", __LINE__, #c); exit(1); } } while (0)

typedef struct job {
  char text[64];
  size_t count, length;
  uint32_t slots[WORDS]; /* of the keys */
  uint16_t answer[80];   /* "N words, backwards: .." */
} job;

typedef struct queue {
  pthread_mutex_t lock;
  pthread_cond_t filled;
  job *jobs[ROOM];
  size_t first, count;
} queue;

static queue todo = {.lock = PTHREAD_MUTEX_INITIALIZER, .filled = PTHREAD_COND_INITIALIZER};
static queue done = {.lock = PTHREAD_MUTEX_INITIALIZER, .filled = PTHREAD_COND_INITIALIZER};

static void put(queue *q, job *j) {
  pthread_mutex_lock(&q->lock);
  CHECK(q->count < ROOM);
  q->jobs[(q->first + q->count++) % ROOM] = j;
  pthread_cond_signal(&q->filled);
  pthread_mutex_unlock(&q->lock);
}

static job *take(queue *q) {
  pthread_mutex_lock(&q->lock);
  while (!q->count) pthread_cond_wait(&q->filled, &q->lock);
  job *j = q->jobs[q->first];
  q->first = (q->first + 1) % ROOM;
  q->count--;
  pthread_mutex_unlock(&q->lock);
  return j;
}

static jsstr_id string_of(jsstr_answer s) {
  CHECK(s.status == JSSTR_DONE);
  return s.id;
}

/* Appends to a text what an answer has for these keys: how many there are, and the last one first. */
static void build_answer(jsstr_builder *text, jsstr_agent *agent, const jsstr_id *keys, size_t count) {
  CHECK(jsstr_build_number(text, (int32_t)count) == JSSTR_DONE);
  CHECK(jsstr_build_bytes(text, JSSTR_LATIN1, (const uint8_t *)" words, backwards:", 18).status == JSSTR_DONE);
  while (count--) {
    CHECK(jsstr_build_bytes(text, JSSTR_LATIN1, (const uint8_t *)" ", 1).status == JSSTR_DONE);
    CHECK(jsstr_build_string(text, agent, keys[count]) == JSSTR_DONE);
  }
}

/* Each call on a text writes its handle, and a worker has a cache line of its own. */
typedef struct worker { jsstr_agent agent; jsstr_builder text; char line[64]; } worker;

static void answer(worker *w, job *j) {
  jsstr_id keys[WORDS];
  j->count = 0;
  for (const char *at = j->text; *at; at += strspn(at, " ")) {
    size_t length = strcspn(at, " ");
    CHECK(j->count < WORDS);
    jsstr_id key = keys[j->count] = string_of(jsstr_intern_bytes(&w->agent, JSSTR_LATIN1, (const uint8_t *)at, length));
    jsstr_number slot = jsstr_slot_of(&w->agent, key);
    CHECK(slot.status == JSSTR_DONE);
    j->slots[j->count++] = slot.value;
    at += length;
  }
  build_answer(&w->text, &w->agent, keys, j->count);
  j->length = w->text.len;
  CHECK(j->length <= sizeof j->answer / 2);
  CHECK(jsstr_read(&w->agent, string_of(jsstr_built(&w->text, &w->agent)), 0, j->answer, j->length) == JSSTR_DONE);
}

static void *work(void *at) {
  worker *w = at;
  for (job *j; (j = take(&todo)) != NULL; put(&done, j)) answer(w, j);
  jsstr_drop_builder(&w->text);
  return NULL;
}

/* The host: it adopts the keys, and finds that the answer is made of just these. */
static jsstr_agent host;
static jsstr_builder expected;
static uint32_t counts[SLOTS];

static void check_answer(const job *j) {
  jsstr_id keys[WORDS];
  for (size_t i = 0; i < j->count; i++) {
    keys[i] = string_of(jsstr_adopt(&host, j->slots[i]));
    counts[j->slots[i]]++;
  }
  build_answer(&expected, &host, keys, j->count);
  CHECK(jsstr_equals_units(&host, string_of(jsstr_built(&expected, &host)), j->answer, j->length).holds);
}

static void fill(job *j, unsigned number) {
  snprintf(j->text, sizeof j->text, "request %u of user%u asks for page%u", number % 10, number % 100, number % 1000);
}

/* Puts all texts into the queue, some at a time, and checks each answer. */
static void ask(job *jobs) {
  for (unsigned sent = 0; sent < IN_FLIGHT; sent++) {
    fill(&jobs[sent], sent);
    put(&todo, &jobs[sent]);
  }
  for (unsigned got = 0; got < TEXTS; got++) {
    job *j = take(&done);
    check_answer(j);
    if (got + IN_FLIGHT >= TEXTS) continue;
    fill(j, got + IN_FLIGHT);
    put(&todo, j);
  }
}

static uint32_t count_of(const char *word) {
  jsstr_number slot = jsstr_slot_of(&host, string_of(jsstr_find_bytes(&host, JSSTR_LATIN1, (const uint8_t *)word, strlen(word))));
  CHECK(slot.status == JSSTR_DONE);
  return counts[slot.value];
}

int main(void) {
  static worker workers[WORKERS];
  static job jobs[IN_FLIGHT];
  pthread_t threads[WORKERS];
  CHECK(jsstr_make((jsstr_size){20000, 100000, SLOTS}, WORKERS + 1, JSSTR_MAX_LENGTH, &host) == JSSTR_DONE);
  for (int i = 0; i < WORKERS; i++) {
    CHECK(jsstr_split(&host, 1, &workers[i].agent) == JSSTR_DONE);
    CHECK(!pthread_create(&threads[i], NULL, work, &workers[i]));
  }
  ask(jobs);
  CHECK(count_of("request") == TEXTS && count_of("user7") == TEXTS / 100 && count_of("page77") == TEXTS / 1000);
  jsstr_room room = jsstr_room_of(&host); /* the workers still run */
  printf("%d texts by %d workers: %u ids of %u, %u words of %u\n", TEXTS, WORKERS, room.ids, room.all_ids, room.words, room.all_words);
  for (int i = 0; i < WORKERS; i++) put(&todo, NULL);
  for (int i = 0; i < WORKERS; i++) {
    CHECK(!pthread_join(threads[i], NULL));
    CHECK(jsstr_join(&host, &workers[i].agent) == JSSTR_DONE);
  }
  printf("%u keys\n", jsstr_count_interned(&host).value);
  jsstr_drop_builder(&expected);
  jsstr_free(&host);
  return 0;
}
