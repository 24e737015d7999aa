/* Texts of JSON (RFC 8259), without the heap: their strings, their numbers, and documents that are made up. */
#ifndef JSON_TEXT_H
#define JSON_TEXT_H
#include <stdbool.h>
#include <stdint.h>
#include <stdio.h>
#include <stdlib.h>
#include <string.h>

/* What is between the quotes of a string; plain where it has no escape. */
typedef struct spelling { const char *at; uint32_t length; bool plain; } spelling;

/* The string behind a quote, up to the next one; its `at` is null where there is none. */
static spelling spelled(const char *at) {
  spelling s = {at, 0, true};
  for (; at[s.length] != '"'; s.length++) {
    if (at[s.length] == '\\') s.plain = false, s.length++;
    if ((unsigned char)at[s.length] < 0x20) return (spelling){0};
  }
  return s;
}

/* The character whose UTF-8 is at *at, which moves on; UINT32_MAX where there is none. */
static uint32_t character(const char **at) {
  static const uint32_t least[] = {0, 0x80, 0x800, 0x10000};
  unsigned char first = (unsigned char)*(*at)++;
  if ((first & 0xC0) == 0x80 || first >= 0xF8) return UINT32_MAX;
  int more = first < 0x80 ? 0 : first < 0xE0 ? 1 : first < 0xF0 ? 2 : 3;
  uint32_t c = more ? first & (0x3Fu >> more) : first;
  for (int i = 0; i < more; i++) {
    if ((**at & 0xC0) != 0x80) return UINT32_MAX;
    c = c << 6 | (*(*at)++ & 0x3F);
  }
  return c < least[more] || c >> 11 == 0x1B || c > 0x10FFFF ? UINT32_MAX : c;
}

/* The unit of the escape whose backslash *at is behind, and it moves on; UINT32_MAX where there is none. */
static uint32_t escaped(const char **at) {
  static const char names[] = "\"\\/bfnrt", units[] = "\"\\/\b\f\n\r\t";
  char name = *(*at)++, digits[5] = {0};
  const char *it = strchr(names, name);
  if (it) return (uint32_t)units[it - names];
  if (name != 'u' || strspn(*at, "0123456789abcdefABCDEF") < 4) return UINT32_MAX;
  memcpy(digits, *at, 4);
  *at += 4;
  return (uint32_t)strtoul(digits, NULL, 16);
}

/* The units of a string, at most one for each byte, and how many they are; SIZE_MAX where it isn't one. */
static size_t decode(spelling s, uint16_t *units) {
  size_t count = 0;
  for (const char *at = s.at; at < s.at + s.length;) {
    bool is_escape = *at == '\\';
    at += is_escape;
    uint32_t c = is_escape ? escaped(&at) : character(&at);
    if (c == UINT32_MAX) return SIZE_MAX;
    if (c > 0xFFFF) units[count++] = (uint16_t)(0xD7C0 + (c >> 10)), c = 0xDC00 | (c & 0x3FF);
    units[count++] = (uint16_t)c;
  }
  return count;
}

static bool skip_digits(const char **at) {
  size_t count = strspn(*at, "0123456789");
  *at += count;
  return count > 0;
}

/* Whether a number is at *at, which moves behind it. */
static bool skip_number(const char **at) {
  *at += **at == '-';
  bool good = **at == '0' ? ++*at, true : skip_digits(at);
  if (**at == '.') ++*at, good &= skip_digits(at);
  if (**at != 'e' && **at != 'E') return good;
  ++*at;
  *at += **at == '+' || **at == '-';
  return good & skip_digits(at);
}

/* A document a line, of eleven keys: ten that all have, one of them spelled in two ways, and one of a thousand. */
static char *made_documents(size_t count, uint32_t seed) {
  static const char form[] =
    "{\"id\":%zu,\"%s\":\"user %u\",\"gr\xC3\xB6\xC3\x9F" "e\":%u.%02u,\"tags\":[\"\xF0\x9F\x94\xB4\",\"tag %u\",\"\"],"
    "\"address\":{\"street\":\"%u Main Street\",\"city\":\"K\\u00f6ln\",\"zip\":null},"
    "\"\xE5\x90\x8D\xE5\x89\x8D\":\"\\ud83d\\ude00 \xF0\x9F\x98\x80\",\"visited page %u\":true,"
    "\"has \\\"quotes\\\"\":[-0.5e3,false,{}]}\n";
  size_t room = count * 512 + 1, used = 0;
  char *text = malloc(room);
  if (!text) return NULL;
  *text = 0;
  for (size_t i = 0; i < count; i++) {
    unsigned random = (seed = seed * 1664525u + 1013904223u) >> 8;
    const char *name = random % 3 ? "name" : "n\\u0061me";
    used += (size_t)snprintf(text + used, room - used, form, i, name, random % 5000, random % 3, random % 100,
                             random % 777, random % 99, random / 100 % 1000);
  }
  return text;
}

/* The whole of a file; null where it can't be read, or has a zero byte. */
static char *read_file(const char *name) {
  FILE *file = fopen(name, "rb");
  char *text = NULL;
  bool good = file != NULL;
  for (size_t used = 0, got = 1; good && got; used += got) {
    char *grown = realloc(text, used + 65537);
    if (grown) text = grown;
    got = grown ? fread(text + used, 1, 65536, file) : 0;
    good = grown && !ferror(file) && !memchr(text + used, 0, got);
    if (good) text[used + got] = 0;
  }
  if (file) fclose(file);
  if (!good) free(text);
  return good ? text : NULL;
}
#endif
