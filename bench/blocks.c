// What the memory of a script alone costs: of a file of statements
//     print('the quick brown fox ' + 'jumps over the lazy dog');
// it makes the blocks that the tree and the plain store have for it, of the same sizes and in the same order,
// fills them from the file, writes the lines and frees the blocks. It reads no token, builds no tree, interns
// nothing and evaluates nothing.
#include <fcntl.h>
#include <stdint.h>
#include <stdlib.h>
#include <string.h>
#include <unistd.h>

enum { LARGEST = 1048576, STATEMENT = 59, FIRST = 7, FIRST_UNITS = 20, SECOND = 32, SECOND_UNITS = 23, LINE = 44 };
enum { LINK = 48, OPERAND = 40, ARGUMENT = 40 };

struct units { uint16_t *items; size_t capacity, length; };
struct statement { void *links, *operand, *arguments, *kind; };

static struct units list(size_t length) { return (struct units){malloc(length * sizeof(uint16_t)), length, length}; }

static struct units widened(const char *bytes, size_t length) {
  struct units units = list(length);
  for (size_t i = 0; i < length; i++) units.items[i] = (unsigned char)bytes[i];
  return units;
}

static struct units joined(struct units left, struct units right) {
  struct units both = list(left.length + right.length);
  memcpy(both.items, left.items, left.length * sizeof(uint16_t));
  memcpy(both.items + left.length, right.items, right.length * sizeof(uint16_t));
  return both;
}

static void *filled(size_t size) { return memset(malloc(size), 1, size); }

static size_t read_file(const char *name, char *bytes) {
  int file = open(name, O_RDONLY);
  size_t length = 0;
  for (ssize_t part; length < LARGEST && (part = read(file, bytes + length, LARGEST - length)) > 0;) length += part;
  close(file);
  return length;
}

int main(int count, char **words) {
  if (count != 2) return 2;
  char *file = malloc(LARGEST);
  size_t statements = read_file(words[1], file) / STATEMENT, literals = 2 * statements;
  struct units *texts = malloc(literals * sizeof *texts), *strings = malloc((literals + statements) * sizeof *strings);
  struct statement *body = malloc(statements * sizeof *body);
  char *lines = malloc(statements * LINE), *end = lines;
  for (size_t i = 0; i < statements; i++) {
    texts[2 * i] = widened(file + i * STATEMENT + FIRST, FIRST_UNITS);
    texts[2 * i + 1] = widened(file + i * STATEMENT + SECOND, SECOND_UNITS);
  }
  for (size_t i = 0; i < statements; i++)
    body[i] = (struct statement){filled(LINK), filled(OPERAND), filled(ARGUMENT), NULL};
  for (size_t i = 0; i < literals; i++) strings[i] = joined(texts[i], (struct units){texts[i].items, 0, 0});
  for (size_t i = 0; i < statements; i++) {
    struct units line = strings[literals + i] = joined(strings[2 * i], strings[2 * i + 1]);
    for (size_t j = 0; j < line.length; j++) *end++ = (char)line.items[j];
    *end++ = '\n';
  }
  for (char *at = lines; at < end;) {
    ssize_t part = write(1, at, end - at);
    if (part <= 0) return 7;
    at += part;
  }
  for (size_t i = 0; i < literals + statements; i++) free(strings[i].items);
  for (size_t i = 0; i < statements; i++) { free(body[i].links); free(body[i].operand); free(body[i].arguments); }
  for (size_t i = 0; i < literals; i++) free(texts[i].items);
  free(lines); free(body); free(strings); free(texts); free(file);
  return 0;
}
