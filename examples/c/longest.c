/* Strings and texts of the greatest length, and of one unit more. It needs 3 GB of memory: where less is free it says so,
   and ends with 77. Prints "ok". */
#include "jsstr_unchecked.h"
#include <stdio.h>
#include <stdlib.h>
#include <string.h>

#define CHECK(c) do { if (!(c)) { printf("line %d: %s\n", __LINE__, #c); exit(1); } } while (0)
#define MOST JSSTR_MAX_LENGTH
#define SKIPPED 77
#define NEEDED (3ul << 20) /* kilobytes */

static const uint8_t digits[] = "01234567";

static int is_bare(jsstr_answer s, uint32_t status) { return s.status == status && s.id == JSSTR_NO_STRING && !s.at && !s.want && !s.end; }

static int is_string(jsstr_answer s, jsstr_id id) { return s.status == JSSTR_DONE && s.id == id && !s.at && !s.want && !s.end; }

static int is_too_long(jsstr_answer s, uint32_t at, uint32_t want) {
  return s.status == JSSTR_TOO_LONG && s.id == JSSTR_NO_STRING && s.at == at && s.want == want && !s.end;
}

/* How many kilobytes are free, as Linux says it; 0 where it doesn't. */
static unsigned long kilobytes_free(void) {
  char line[128];
  unsigned long free = 0;
  FILE *file = fopen("/proc/meminfo", "r");
  while (file && !free && fgets(line, sizeof line, file)) sscanf(line, "MemAvailable: %lu", &free);
  if (file) fclose(file);
  return free;
}

static jsstr_id made(jsstr_answer s) {
  CHECK(is_string(s, s.id));
  return s.id;
}

/* `count` strings joined, by doubling. */
static jsstr_id repeated(jsstr_agent *a, jsstr_id s, uint32_t count) {
  jsstr_id all = made(jsstr_from_bytes(a, JSSTR_LATIN1, digits, 0));
  for (; count; count /= 2) {
    if (count % 2) all = made(jsstr_concat(a, all, s));
    if (count > 1) s = made(jsstr_concat(a, s, s));
  }
  return all;
}

/* All digits over and over are in the string, at each place that is looked at. */
static void look(jsstr_agent *a, jsstr_id s) {
  uint16_t units[16];
  CHECK(jsstr_length(a, s).value == MOST && jsstr_unit_at(a, s, MOST).status == JSSTR_BAD_ARGUMENT);
  for (uint32_t at = 0; at < MOST; at += at < MOST - 9 ? MOST / 7 : 1) CHECK(jsstr_unit_at(a, s, at).value == digits[at % 8]);
  CHECK(jsstr_read(a, s, MOST - 16, units, 16) == JSSTR_DONE && units[0] == '0' && units[15] == '7');
  CHECK(jsstr_read(a, s, MOST - 15, units, 16) == JSSTR_BAD_ARGUMENT && jsstr_slice(a, s, 1, MOST + 1).status == JSSTR_BAD_ARGUMENT);
  jsstr_answer end = jsstr_slice(a, s, MOST - 14, MOST);
  CHECK(jsstr_starts_with(a, s, end.id, MOST - 14).holds && !jsstr_starts_with(a, s, end.id, MOST - 13).holds);
  CHECK(jsstr_last_index_of(a, s, end.id, UINT32_MAX).at == MOST - 14 && jsstr_index_of(a, s, end.id, MOST - 20).at == MOST - 14);
  CHECK(jsstr_index_of(a, s, end.id, MOST).status == JSSTR_NONE && jsstr_index_of(a, s, end.id, MOST + 1).status == JSSTR_BAD_ARGUMENT);
  CHECK(is_string(jsstr_slice(a, s, 0, MOST), s) && jsstr_length(a, jsstr_slice(a, s, 1, MOST).id).value == MOST - 1);
}

/* Joined to the greatest length, and one unit more is refused on either side; then settled. */
static jsstr_id join(jsstr_agent *a) {
  jsstr_id eight = made(jsstr_from_bytes(a, JSSTR_LATIN1, digits, 8)), one = made(jsstr_from_bytes(a, JSSTR_LATIN1, digits, 1)), none = made(jsstr_from_bytes(a, JSSTR_LATIN1, digits, 0));
  jsstr_id s = repeated(a, eight, MOST / 8);
  jsstr_room room = jsstr_room_of(a), after;
  CHECK(jsstr_length(a, s).value == MOST && is_too_long(jsstr_concat(a, s, one), MOST, 1) && is_too_long(jsstr_concat(a, one, s), 1, MOST));
  CHECK(is_too_long(jsstr_concat(a, s, s), MOST, MOST) && is_too_long(jsstr_concat_unchecked(a, s, one), MOST, 1));
  CHECK(is_string(jsstr_concat(a, s, none), s) && is_string(jsstr_concat(a, none, s), s));
  after = jsstr_room_of(a);
  CHECK(!memcmp(&room, &after, sizeof room) && is_string(jsstr_settle(a, s), s));
  CHECK(jsstr_room_of(a).words == room.words + MOST / 8 && is_too_long(jsstr_concat(a, s, one), MOST, 1));
  return s;
}

/* A text of all units of the string: one more is refused, whatever it is, and the text is what it was. */
static void build(jsstr_agent *a, jsstr_id s, jsstr_id one) {
  jsstr_builder text = {0};
  static const uint16_t unit = 'x';
  CHECK(jsstr_build_string(&text, a, s) == JSSTR_DONE && text.len == MOST);
  CHECK(jsstr_build_units(&text, &unit, 1) == JSSTR_TOO_LONG && jsstr_build_bytes(&text, JSSTR_LATIN1, digits, 1).status == JSSTR_TOO_LONG);
  CHECK(jsstr_build_number(&text, 7) == JSSTR_TOO_LONG && jsstr_build_number(&text, -2147483647 - 1) == JSSTR_TOO_LONG);
  CHECK(is_bare(jsstr_build_bytes(&text, JSSTR_UTF8, digits, 1), JSSTR_TOO_LONG) && is_bare(jsstr_build_bytes(&text, JSSTR_WTF8, digits, 1), JSSTR_TOO_LONG));
  CHECK(jsstr_build_string(&text, a, one) == JSSTR_TOO_LONG && jsstr_build_string(&text, a, s) == JSSTR_TOO_LONG);
  CHECK(jsstr_build_units(&text, &unit, 0) == JSSTR_DONE && is_bare(jsstr_build_bytes(&text, JSSTR_UTF8, digits, 0), JSSTR_DONE));
  CHECK(text.len == MOST);
  jsstr_id t = made(jsstr_built(&text, a));
  CHECK(text.len == 0 && jsstr_equal(a, s, t).holds && jsstr_compare(a, s, t).order == 0);
  jsstr_drop_builder(&text);
}

/* Units and bytes of the greatest length, given at once, and of one more. */
static void give(void) {
  jsstr_agent a = {0};
  jsstr_answer s[4];
  uint16_t *units = calloc((size_t)MOST + 1, 2);
  const uint8_t *bytes = (const uint8_t *)units;
  for (int i = 0; i < 4; i++) {
    CHECK(units && jsstr_make((jsstr_size){2, MOST / 8, 3}, 1, 9, &a) == JSSTR_DONE);
    for (size_t more = 1; more < 2; more--) {
      size_t len = MOST + more;
      s[i] = i == 0 ? jsstr_from_units(&a, units, len) : i == 1 ? jsstr_from_bytes(&a, JSSTR_LATIN1, bytes, len)
        : i == 2 ? jsstr_intern_bytes(&a, JSSTR_UTF8, bytes, len) : jsstr_from_bytes(&a, JSSTR_WTF8, bytes, len);
      CHECK(more ? is_bare(s[i], JSSTR_BAD_ARGUMENT) : is_string(s[i], 0));
    }
    CHECK(jsstr_length(&a, 0).value == MOST && jsstr_hash(&a, 0).value == 0 && jsstr_room_of(&a).words == MOST / 8 && jsstr_free(&a) == JSSTR_DONE);
  }
  free(units);
}

/* Each unit needs three bytes: how many these are is in the answer. */
static void write_out(void) {
  jsstr_agent a = {0};
  static const uint16_t units[] = {0xFFFF, 0xD800, 0xFFFE, 0xDC00, 0x800, 0xDFFF, 0x4E16, 0xDBFF};
  uint8_t none;
  CHECK(jsstr_make((jsstr_size){100, MOST / 4 + 4, 3}, 1, MOST, &a) == JSSTR_DONE);
  jsstr_id s = repeated(&a, made(jsstr_from_units(&a, units, 8)), MOST / 8);
  for (uint32_t unpaired = JSSTR_REPLACE; unpaired <= JSSTR_KEEP; unpaired += 2) {
    jsstr_bytes all = jsstr_to_utf8(&a, s, unpaired, &none, 0);
    CHECK(all.status == JSSTR_NO_ROOM && !all.at && all.size == 3 * MOST);
  }
  CHECK(jsstr_to_latin1(&a, s, &none, 0).status == JSSTR_UNMAPPED && jsstr_free(&a) == JSSTR_DONE);
}

int main(void) {
  unsigned long free = kilobytes_free();
  if (free < NEEDED) {
    printf("skipped: it needs %lu kB of memory, and %lu are free\n", NEEDED, free);
    return SKIPPED;
  }
  jsstr_agent a = {0};
  CHECK(jsstr_make((jsstr_size){200, MOST / 4 + 16, 3}, 1, MOST, &a) == JSSTR_DONE);
  jsstr_id s = join(&a);
  look(&a, s);
  build(&a, s, made(jsstr_from_bytes(&a, JSSTR_LATIN1, digits, 1)));
  CHECK(jsstr_free(&a) == JSSTR_DONE);
  give();
  write_out();
  puts("ok");
  return 0;
}
