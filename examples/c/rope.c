/* A rope that one thread builds of many joins, and that another reads after the first one has ended. */
#include "jsstr.h"
#include <pthread.h>
#include <stdio.h>

#define JOINS 10000

typedef struct builder {
  jsstr_agent agent;
  jsstr_answer rope;
} builder;

static void *build(void *at) {
  static const uint16_t word[] = {'r', 'o', 'p', 'e', ' '};
  builder *b = at;
  jsstr_answer piece = jsstr_from_units(&b->agent, word, 5);
  b->rope = piece;
  for (int i = 1; i < JOINS && b->rope.status == JSSTR_DONE; i++)
    b->rope = jsstr_concat(&b->agent, b->rope.id, piece.id);
  return NULL;
}

int main(void) {
  jsstr_agent reader = {0};
  static builder b;
  if (jsstr_make((jsstr_size){20000, 20000, 1}, 2, JSSTR_MAX_LENGTH, &reader) != JSSTR_DONE) return 1;
  if (jsstr_split(&reader, 1, &b.agent) != JSSTR_DONE) return 1;
  pthread_t thread;
  if (pthread_create(&thread, NULL, build, &b)) return 1;
  pthread_join(thread, NULL);
  if (jsstr_join(&reader, &b.agent) != JSSTR_DONE) return 1;
  if (b.rope.status != JSSTR_DONE) return 1;
  /* Here the reader knows what the builder made. */
  uint32_t length = jsstr_length(&reader, b.rope.id).value;
  uint16_t last[5];
  if (jsstr_read(&reader, b.rope.id, length - 5, last, 5) != JSSTR_DONE) return 1;
  printf("%u units, the last are \"", length);
  for (int i = 0; i < 5; i++) putchar(last[i]);
  puts("\"");
  jsstr_free(&reader);
  return 0;
}
