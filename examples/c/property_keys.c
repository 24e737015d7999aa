/* An engine's property keys: four threads intern the same names, each in its own order, and get the
   same numbers, so a key is compared as a number. */
#include "jsstr.h"
#include <pthread.h>
#include <stdio.h>
#include <stdlib.h>

#define THREADS 4
#define NAMES 2000

/* Each call reads the agent: what is behind a worker keeps what it writes out of the next one's cache line. */
typedef struct worker {
  jsstr_agent agent;
  uint32_t seed;
  jsstr_id keys[NAMES];
  int failed;
  char apart[64];
} worker;

static size_t name_units(uint32_t name, uint16_t *units) {
  char text[24];
  int n = snprintf(text, sizeof text, "property%u", name);
  for (int i = 0; i < n; i++) units[i] = (uint16_t)text[i];
  return (size_t)n;
}

static void *intern_all(void *at) {
  worker *w = at;
  for (uint32_t i = 0; i < NAMES; i++) {
    uint32_t name = (i * 7 + w->seed * 501) % NAMES;
    uint16_t units[24];
    jsstr_answer key = jsstr_intern_units(&w->agent, units, name_units(name, units));
    if (key.status != JSSTR_DONE) return w->failed = 1, NULL;
    w->keys[name] = key.id;
  }
  return NULL;
}

int main(void) {
  static worker workers[THREADS];
  jsstr_size size = {THREADS * NAMES, 2 * THREADS * NAMES, 8209};
  if (jsstr_make(size, THREADS, JSSTR_MAX_LENGTH, &workers[0].agent) != JSSTR_DONE) return 1;
  for (uint32_t i = 1; i < THREADS; i++) {
    workers[i].seed = i;
    if (jsstr_split(&workers[0].agent, 1, &workers[i].agent) != JSSTR_DONE) return 1;
  }
  pthread_t threads[THREADS];
  for (int i = 0; i < THREADS; i++)
    if (pthread_create(&threads[i], NULL, intern_all, &workers[i])) return 1;
  for (int i = 0; i < THREADS; i++) pthread_join(threads[i], NULL);
  int apart = 0;
  for (int i = 0; i < THREADS; i++) {
    if (workers[i].failed) return 1;
    for (int name = 0; name < NAMES; name++) apart += workers[i].keys[name] != workers[0].keys[name];
    if (i && jsstr_join(&workers[0].agent, &workers[i].agent) != JSSTR_DONE) return 1;
  }
  printf("%u keys, %d apart\n", jsstr_count_interned(&workers[0].agent).value, apart);
  jsstr_free(&workers[0].agent);
  return apart != 0;
}
