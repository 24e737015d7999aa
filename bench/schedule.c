// Plays a schedule on an array of words alone: reads the file, makes each event's one access, writes the word that it
// found, and then the units of each string. It keeps no views: it asks of no event whether it may come, and refuses none.
#include <fcntl.h>
#include <stdint.h>
#include <stdio.h>
#include <stdlib.h>
#include <string.h>
#include <unistd.h>

enum { LARGEST = 1048576, MASK = (1 << 29) - 1 };
enum { UNBORN, FLAT, CONS, SLICED, THIN };

static char text[LARGEST + 1];
static const char *at;
static uint64_t ids, slots, *words;
static char *out;
static size_t length, capacity;

static void put(char byte) {
  if (length == capacity) out = realloc(out, capacity = 2 * capacity + 4096);
  out[length++] = byte;
}

static void put_text(const char *bytes) {
  while (*bytes) put(*bytes++);
}

static void put_number(uint64_t number) {
  char digits[20];
  int count = 0;
  do digits[count++] = '0' + number % 10; while (number /= 10);
  while (count) put(digits[--count]);
}

// The next field of the line is behind one space.
static uint64_t number(void) {
  uint64_t value = 0;
  for (at++; *at >= '0' && *at <= '9'; at++) value = 10 * value + (*at - '0');
  return value;
}

static int counter(void) {
  int which = at[1] == 'w';
  at += which ? 6 : 4;
  return which;
}

static uint64_t *slot(uint64_t k) { return words + 2 + k; }
static uint64_t *form(uint64_t i) { return words + 2 + slots + 2 * i; }
static uint64_t *content(uint64_t c) { return words + 2 + slots + 2 * ids + c; }

static uint64_t load(const uint64_t *word) { return *word; }

static uint64_t store(uint64_t *word, uint64_t new) {
  uint64_t found = *word;
  *word = new;
  return found;
}

static uint64_t exchange(uint64_t *word, uint64_t old, uint64_t new) {
  uint64_t found = *word;
  if (found == old) *word = new;
  return found;
}

static uint64_t event(const char *name) {
  switch (name[0]) {
  case 's':
    if (name[1] == 'p') return load(words);
    if (name[1] == 'l') return load(slot(number()));
    { uint64_t c = number(); return store(content(c), number()); }
  case 'j': return load(words);
  case 'c': {
    int which = counter();
    if (name[1] == 'o') return load(words + which);
    uint64_t from = number();
    return exchange(words + which, from, from + number());
  }
  case 'l': {
    uint64_t i = number();
    return name[3] == ' ' ? load(form(i) + 1) : store(form(i) + 1, number());
  }
  case 'b': { uint64_t i = number(); return store(form(i), number()); }
  case 'f': {
    uint64_t i = number();
    if (name[1] == 'o') return load(form(i));
    uint64_t old = number();
    return exchange(form(i), old, number());
  }
  case 'w': return load(content(number()));
  case 't': {
    uint64_t i = number(), old = number();
    if (name[1] == 'a') return exchange(slot(i), 0, old + 1);
    return exchange(form(i), old, THIN | number() << 5);
  }
  }
  return 0;
}

static void put_span(uint64_t header, uint64_t from, uint64_t count) {
  static const char digits[] = "0123456789abcdef";
  uint64_t start = header >> 5 & MASK, wide = header >> 3 & 1;
  for (uint64_t lane = from; lane < from + count; lane++) {
    uint64_t unit = wide ? *content(start + lane / 4) >> 16 * (lane % 4) & 65535 : *content(start + lane / 8) >> 8 * (lane % 8) & 255;
    put(' ');
    for (int shift = 12; shift >= 0; shift -= 4) put(digits[unit >> shift & 15]);
  }
}

static void put_units(uint64_t i, uint64_t from, uint64_t count) {
  uint64_t header = *form(i), first = header >> 5 & MASK;
  switch (header & 7) {
  case FLAT: put_span(header, from, count); break;
  case CONS: put_units(first, 0, form(first)[1]); put_units(header >> 34 & MASK, 0, form(header >> 34 & MASK)[1]); break;
  case SLICED: put_units(first, header >> 34 & MASK, count); break;
  case THIN: put_units(first, from, count); break;
  }
}

int main(int count, char **names) {
  int file = count == 2 ? open(names[1], O_RDONLY) : -1;
  ssize_t size = file < 0 ? -1 : read(file, text, LARGEST);
  if (size <= 0 || strncmp(text, "heap", 4)) return 1;
  at = text + 4;
  ids = number();
  uint64_t contents = number();
  slots = number();
  number();
  words = calloc(2 + slots + 2 * ids + contents, sizeof *words);
  for (uint64_t line = 2; (at = strchr(at, '\n')) && at[1]; line++) {
    const char *name = ++at;
    at = strchr(at, ' ');
    number();
    uint64_t found = event(name);
    put_number(line);
    put_text(" found ");
    put_number(found);
    put('\n');
  }
  for (uint64_t i = 0; i < ids; i++) {
    if (!*form(i)) continue;
    put_text("id ");
    put_number(i);
    put(':');
    put_units(i, 0, form(i)[1]);
    put('\n');
  }
  return write(1, out, length) == (ssize_t)length ? 0 : 1;
}
