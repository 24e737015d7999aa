/* A JSON reader on four threads over one heap, without a map of its own. A document becomes a list of values in
   the order of the text, where keys and strings are numbers of the heap. A key is interned straight from the
   text's bytes, so one that is there already uses nothing, and equal keys of all threads are one number.

       json                      5,000 documents, which the program makes
       json DOCUMENTS [SEED]     as many, and from this seed
       json FILE                 each line of the file is a document

   It reads all of them twice, each time over a new heap: with keys interned straight, and with each key made as
   a string that is then interned. It prints what both used, and ends with status 0 only where each key and each
   string has the units of its text, and the string table finds by a key's units its number. */
#include "json_text.h"
#include "jsstr.h"
#include <pthread.h>

#define THREADS 4
#define SLOTS 10007 /* a prime number, at least 2.6 for each distinct key */
#define DEPTH 100

#define CHECK(c) do { if (!(c)) { printf("line %d: %s\n", __LINE__, #c); exit(1); } } while (0)

enum kind { IS_NULL, IS_FALSE, IS_TRUE, IS_NUMBER, IS_STRING, IS_ARRAY, IS_OBJECT };

/* A value; as many as its count follow it. The spellings are kept for the checks alone. */
typedef struct value {
  enum kind kind;
  jsstr_id key; /* of a member, else JSSTR_NO_STRING */
  union { double number; jsstr_id string; size_t count; } is;
  spelling key_text, text;
} value;

/* Each call reads the agent: what is beside it keeps that in other cache lines than what the threads write. */
typedef struct reader {
  jsstr_agent agent;
  char apart[128];
  bool makes_first; /* each key is made as a string, and that is interned */
  size_t document;
  const char *begin, *at;
  value *values;
  size_t count, room;
  uint16_t *units; /* of a text, and as many behind them for what is compared with them */
  size_t unit_room;
} reader;

static char **documents;
static size_t document_count;

static void fail(const reader *r, const char *why) {
  printf("document %zu, byte %zu: %s\n", r->document + 1, (size_t)(r->at - r->begin), why);
  exit(1);
}

static bool took(reader *r, char c) {
  r->at += strspn(r->at, " \t\r");
  if (*r->at != c) return false;
  r->at++;
  return true;
}

static void want(reader *r, char c) {
  if (!took(r, c)) fail(r, "not JSON");
}

static spelling take_string(reader *r) {
  want(r, '"');
  spelling s = spelled(r->at);
  if (!s.at) fail(r, "a string without an end, or a control character in it");
  r->at += s.length + 1;
  return s;
}

/* How many units a text has; they are in r->units then. */
static size_t decoded(reader *r, spelling s) {
  if (r->unit_room <= s.length) {
    r->unit_room = s.length + 64;
    CHECK((r->units = realloc(r->units, 2 * r->unit_room * sizeof *r->units)) != NULL);
  }
  size_t length = decode(s, r->units);
  if (length == SIZE_MAX) fail(r, "an escape that JSON hasn't, or not UTF-8");
  return length;
}

static jsstr_id done(const reader *r, jsstr_answer a) {
  if (a.status != JSSTR_DONE) fail(r, jsstr_status_name(a.status));
  return a.id;
}

static jsstr_id string_of(reader *r, spelling s) {
  if (s.plain) return done(r, jsstr_from_bytes(&r->agent, JSSTR_UTF8, (const uint8_t *)s.at, s.length));
  size_t length = decoded(r, s);
  return done(r, jsstr_from_units(&r->agent, r->units, length));
}

static jsstr_id key_of(reader *r, spelling s) {
  if (r->makes_first) return done(r, jsstr_intern(&r->agent, string_of(r, s)));
  if (s.plain) return done(r, jsstr_intern_bytes(&r->agent, JSSTR_UTF8, (const uint8_t *)s.at, s.length));
  size_t length = decoded(r, s);
  return done(r, jsstr_intern_units(&r->agent, r->units, length));
}

static value *added(reader *r) {
  if (r->count == r->room) {
    r->room = r->room * 2 + 64;
    CHECK((r->values = realloc(r->values, r->room * sizeof *r->values)) != NULL);
  }
  return &r->values[r->count++];
}

static void read_value(reader *r, jsstr_id key, spelling key_text, int depth);

/* What an array or an object has, up to the bracket that ends it. */
static void read_items(reader *r, size_t place, char end, int depth) {
  if (depth == DEPTH) fail(r, "nested too deep");
  if (took(r, end)) return;
  do {
    spelling text = {0};
    jsstr_id key = JSSTR_NO_STRING;
    if (end == '}') {
      text = take_string(r);
      key = key_of(r, text);
      want(r, ':');
    }
    read_value(r, key, text, depth + 1);
    r->values[place].is.count++;
  } while (took(r, ','));
  want(r, end);
}

static enum kind word_at(const char *at) {
  if (!strncmp(at, "null", 4)) return IS_NULL;
  if (!strncmp(at, "false", 5)) return IS_FALSE;
  return !strncmp(at, "true", 4) ? IS_TRUE : IS_NUMBER;
}

static void read_value(reader *r, jsstr_id key, spelling key_text, int depth) {
  size_t place = r->count;
  value *v = added(r); /* until others are added */
  *v = (value){.kind = IS_NUMBER, .key = key, .key_text = key_text};
  if (took(r, '{') || took(r, '[')) {
    v->kind = r->at[-1] == '{' ? IS_OBJECT : IS_ARRAY;
    v->is.count = 0;
    read_items(r, place, r->at[-1] == '{' ? '}' : ']', depth);
  } else if (*r->at == '"') {
    v->kind = IS_STRING;
    v->text = take_string(r);
    v->is.string = string_of(r, v->text);
  } else if ((v->kind = word_at(r->at)) == IS_NUMBER) {
    v->is.number = strtod(r->at, NULL);
    if (!skip_number(&r->at)) fail(r, "not JSON");
  } else r->at += v->kind == IS_FALSE ? 5 : 4;
}

/* Every fourth document. */
static void *read_documents(void *at) {
  reader *r = at;
  for (; r->document < document_count; r->document += THREADS) {
    r->begin = r->at = documents[r->document];
    read_value(r, JSSTR_NO_STRING, (spelling){0}, 0);
    if (!took(r, 0)) fail(r, "more than a value");
  }
  return NULL;
}

/* How many texts there are, and how many words their units take. */
typedef struct texts { uint64_t count, words; } texts;

/* Adds a text, if s has its units; they are in root->units then. Answers how many they are. */
static size_t check_units(reader *root, jsstr_id s, spelling text, texts *to) {
  size_t length = decoded(root, text);
  uint16_t *got = root->units + root->unit_room, all = 0;
  CHECK(jsstr_length(&root->agent, s).value == length);
  CHECK(jsstr_read(&root->agent, s, 0, got, length) == JSSTR_DONE);
  CHECK(!memcmp(got, root->units, length * sizeof *got));
  for (size_t i = 0; i < length; i++) all |= got[i];
  to->words += all > 0xFF ? (length + 3) / 4 : (length + 7) / 8;
  to->count++;
  return length;
}

static void check_values(reader *root, const reader *r, bool *seen, texts *keys, texts *names, texts *strings) {
  for (const value *v = r->values; v < r->values + r->count; v++) {
    if (v->kind == IS_STRING) check_units(root, v->is.string, v->text, strings);
    if (v->key == JSSTR_NO_STRING) continue;
    size_t length = check_units(root, v->key, v->key_text, keys);
    jsstr_answer found = jsstr_find_units(&root->agent, root->units, length);
    CHECK(found.status == JSSTR_DONE && found.id == v->key);
    if (!seen[v->key]) check_units(root, v->key, v->key_text, names);
    seen[v->key] = true;
  }
}

/* Four readers over a heap of this size. Where several intern a new key at once, all but one make it in vain. */
static void read_all(jsstr_size size, bool makes_first) {
  reader readers[THREADS] = {{.document = 0}}, *root = readers;
  pthread_t threads[THREADS];
  texts keys = {0}, names = {0}, strings = {0};
  bool *seen = calloc(size.ids, sizeof *seen);
  CHECK(seen && jsstr_make(size, THREADS, JSSTR_MAX_LENGTH, &root->agent) == JSSTR_DONE);
  for (size_t i = 0; i < THREADS; i++) {
    readers[i].document = i;
    readers[i].makes_first = makes_first;
    CHECK(!i || jsstr_split(&root->agent, 1, &readers[i].agent) == JSSTR_DONE);
  }
  for (size_t i = 0; i < THREADS; i++) CHECK(!pthread_create(&threads[i], NULL, read_documents, &readers[i]));
  for (size_t i = 0; i < THREADS; i++) CHECK(!pthread_join(threads[i], NULL));
  for (size_t i = 1; i < THREADS; i++) CHECK(jsstr_join(&root->agent, &readers[i].agent) == JSSTR_DONE);
  for (size_t i = 0; i < THREADS; i++) check_values(root, &readers[i], seen, &keys, &names, &strings);
  jsstr_room used = jsstr_room_of(&root->agent);
  uint64_t ids = strings.count + (makes_first ? keys.count : 0);
  uint64_t words = strings.words + (makes_first ? keys.words : names.words);
  CHECK(used.status == JSSTR_DONE && jsstr_count_interned(&root->agent).value == names.count);
  CHECK(ids + names.count <= used.ids && used.ids <= ids + THREADS * names.count);
  CHECK(words <= used.words && used.words <= words + (makes_first ? 0 : (THREADS - 1) * names.words));
  printf("%zu documents, keys %s: %llu strings, %llu keys, %llu of them distinct; %u ids, %u words\n", document_count,
         makes_first ? "made and then interned" : "interned straight", (unsigned long long)strings.count,
         (unsigned long long)keys.count, (unsigned long long)names.count, used.ids, used.words);
  for (reader *r = readers; r < readers + THREADS; r++) free(r->values), free(r->units);
  free(seen);
  jsstr_free(&root->agent);
}

static char *documents_of(int count, char **told) {
  const char *what = count > 1 ? told[1] : "5000";
  if (what[strspn(what, "0123456789")]) return read_file(what);
  return made_documents(strtoul(what, NULL, 10), count > 2 ? (uint32_t)strtoul(told[2], NULL, 10) : 1);
}

int main(int count, char **told) {
  char *text = documents_of(count, told);
  size_t quotes = 0, lines = 1, bytes = text ? strlen(text) : 0;
  if (bytes > JSSTR_MAX_LENGTH) bytes = 0;
  for (size_t i = 0; i < bytes; i++) quotes += text[i] == '"', lines += text[i] == '\n';
  CHECK((documents = malloc(lines * sizeof *documents)) != NULL);
  for (char *line = bytes ? strtok(text, "\n") : NULL; line; line = strtok(NULL, "\n")) documents[document_count++] = line;
  if (!document_count) return puts("no documents, too many, or no memory"), free(documents), free(text), 1;
  /* A string or a key uses at most two ids, a word for four units, and one more. */
  jsstr_size size = {(uint32_t)quotes + 1, (uint32_t)(bytes / 4 + quotes + 1), SLOTS};
  read_all(size, false);
  read_all(size, true);
  free(documents);
  free(text);
  return 0;
}
