/* Every call of jsstr.h and jsstr_unchecked.h, and the same calls by jsstr.hpp: what each answers, what it uses of the heap, what it refuses, and
   whether it allocates. The table below has a row for each, with the answer that jsstr.h and docs/HEAP.md give; a new call has its rows
   there. calls.c makes the calls of C, calls.cpp those of C++; play.h has what both look at. */
#ifndef CALLS_H
#define CALLS_H
#ifdef __cplusplus
#include "jsstr.hpp"
typedef jsstr::agent any_agent;
typedef jsstr::builder any_builder;
typedef jsstr::string any_string;
typedef jsstr::key any_key;
typedef jsstr::size any_size;
typedef char16_t any_unit;
typedef char any_byte;
#define ANSWER(...) answer{{__VA_ARGS__}}
#define ID(string) (string).id()
#else
#include "jsstr_unchecked.h"
typedef jsstr_agent any_agent;
typedef jsstr_builder any_builder;
typedef jsstr_id any_string, any_key;
typedef jsstr_size any_size;
typedef uint16_t any_unit;
typedef uint8_t any_byte;
#define ANSWER(...) (answer){{__VA_ARGS__}}
#define ID(string) (string)
#endif
#include <wchar.h>

/* What a call does for its answer: it allocates nothing; or it does; or it does, and has settled a rope before that; or it
   does beside its answer, or for its answer and beside it too; or for the ids that it claims after its words. */
enum takes { NOTHING, MEMORY, MEMORY_SETTLED, MEMORY_NOTED, NOTED };

/* Why a row has no call of C++: jsstr.hpp has none, or its types leave no way to make the one that is refused. */
enum untried { NO_METHOD, IMPOSSIBLE };

/* Two heaps. `one` and `other` are agents of the first, with 2 shares each. `one` made `plain` of 11 units, the rope of two of
   these, `twin` of the same 22, and `wide`, and interned `key`; `theirs` is of `other`, and `one` doesn't know it. `far` has a
   reserve of 3 ids and 9 words. `out` and `none` are no agents yet. `text` is 6 units, `full` begins with other 6, and in C has no room for
   one more, and `empty` never had any. What a call writes goes into `ids`, `units`, `bytes` and `words`. */
typedef struct world {
  any_agent one, other, far, out, none;
  any_builder text, full, empty;
  any_string plain, rope, twin, wide;
  any_key key;
  any_string theirs;
  jsstr_id ids[3];
  any_unit units[64];
  any_byte bytes[64];
  uint64_t words[16];
  uint32_t had; /* units of `full` */
} world;

static const any_size size = {64, 64, 13};
static const any_unit twin[] = {'a', ' ', 'p', 'l', 'a', 'i', 'n', ' ', 'o', 'n', 'e', 'a', ' ', 'p', 'l', 'a', 'i', 'n', ' ', 'o', 'n', 'e'};
static const any_unit wide[] = {'w', 0xEF, 'd', 'e', ' ', 0x4E16, ' ', 0xD800}, text[] = {'t', 'e', 'x', 't', ' ', 0x4E16};
static const any_unit units[] = {'u', 'n', 'i', 't', 's', 0xE9}, key[] = {'k', 'e', 'y'};
static const uint32_t ends[] = {1, 3, 6}, descending[] = {3, 1, 6};
static const any_byte latin1[] = "Latin-1 \xE9", utf8[] = "UTF-8 \xC3\xA9 \xF0\x9F\x98\x80", wtf8[] = "WTF-8 \xED\xA0\x80";
static const any_byte key_bytes[] = "key", twin_bytes[] = "a plain onea plain one";
#define UNITS units, 6
#define TWIN_UNITS twin, 22
#define KEY_UNITS key, 3
#define LATIN1 latin1, 9
#define UTF8 utf8, 13
#define WTF8 wtf8, 9
#define KEY_BYTES key_bytes, 3
#define TWIN_BYTES twin_bytes, 22
#define TOO_LONG ((size_t)JSSTR_MAX_LENGTH + 1)
#define PLAIN L"a plain one"
#define ROPE L"a plain onea plain one"
#define EIGHTY "01234567890123456789012345678901234567890123456789012345678901234567890123456789"

/* A row: its name, what the call allocates, the call, the same call by jsstr.hpp, and the answer that is right for both. Each call of
   jsstr.h has a row of its name, and one with two forms has a row NAME_refused, in which its condition fails; a row of another name
   is one call more. jsstr.hpp wraps the checked form alone, and `ended` is the end of an object. Each checked call on an agent is
   also made with handles of nothing.
   The answer has what the call changes around it: where nothing is said it settles no rope, uses no id and no word, and leaves
   shares, texts and the memory that it is given. The last two numbers of a string, or a key, are the ids and words that it uses. */
#define CALLS(ROW) \
  ROW(version, NOTHING, value(jsstr_version()), NO_METHOD, is_number(JSSTR_VERSION_NUMBER)) \
  ROW(make, MEMORY, told(jsstr_make(size, 2, 100, &w->out)), jsstr::agent::make(size, 2, 100), shares(is_done(), 2, 2, 2)) \
  ROW(make_refused, NOTHING, told(jsstr_make(size, 2, 100, &w->one)), IMPOSSIBLE, is_refused()) \
  ROW(make_without_slots, NOTHING, told(jsstr_make((jsstr_size){64, 64, 0}, 2, 100, &w->out)), jsstr::agent::make({64, 64, 0}, 2, 100), is_answer(JSSTR_BAD_SIZE)) \
  ROW(free, NOTHING, told(jsstr_free(&w->other)), ended(w->other), shares(is_done(), 2, 0, 0)) \
  ROW(free_refused, NOTHING, told(jsstr_free(&w->none)), IMPOSSIBLE, is_refused()) \
  ROW(split, MEMORY, told(jsstr_split(&w->one, 1, &w->out)), w->one.split(1), shares(is_done(), 1, 2, 1)) \
  ROW(split_refused, NOTHING, told(jsstr_split(&w->one, 2, &w->out)), w->one.split(2), is_refused()) \
  ROW(join, NOTHING, told(jsstr_join(&w->one, &w->other)), w->one.join(std::move(w->other)), joined(is_done())) \
  ROW(join_refused, NOTHING, told(jsstr_join(&w->one, &w->far)), w->one.join(std::move(w->far)), is_refused()) \
  ROW(share, NOTHING, number(jsstr_share(&w->one)), w->one.share(), is_number(2)) \
  ROW(share_refused, NOTHING, number(jsstr_share(&w->none)), w->none.share(), is_refused()) \
  ROW(reserve, MEMORY, string(jsstr_reserve(&w->one, 3, 4)), w->one.reserve(3, 4), uses(is_done(), 3, 4)) \
  ROW(reserve_refused, NOTHING, string(jsstr_reserve(&w->none, 3, 4)), w->none.reserve(3, 4), is_refused()) \
  ROW(reserve_words, NOTHING, string(jsstr_reserve(&w->one, 0, 4)), w->one.reserve(0, 4), uses(is_done(), 0, 4)) \
  ROW(reserve_more_words, MEMORY, string(jsstr_reserve(&w->one, 3, 100)), w->one.reserve(3, 100), is_answer(JSSTR_NO_WORDS, 0, 9, 100, 64)) \
  ROW(renew, NOTHING, told(jsstr_renew(&w->one, 3, 4)), w->one.renew(3, 4), is_done()) \
  ROW(renew_refused, NOTHING, told(jsstr_renew(&w->none, 3, 4)), w->none.renew(3, 4), is_refused()) \
  ROW(renewing, NOTED, ((void)jsstr_renew(&w->one, 3, 4), string(jsstr_from_units(&w->one, UNITS))), (void(w->one.renew(3, 4)), w->one.from({UNITS})), is_string(&w->one, L"units\xE9", 3, 4)) \
  ROW(renewing_key, NOTED, ((void)jsstr_renew(&w->one, 3, 4), string(jsstr_intern_units(&w->one, UNITS))), (void(w->one.renew(3, 4)), w->one.intern({UNITS})), is_key(&w->one, L"units\xE9", 3, 4)) \
  ROW(reserved, NOTHING, used(jsstr_reserved(&w->far)), w->far.reserved(), is_answer(JSSTR_DONE, 3, 9)) \
  ROW(reserved_refused, NOTHING, used(jsstr_reserved(&w->none)), w->none.reserved(), is_refused()) \
  ROW(from_units, NOTHING, string(jsstr_from_units(&w->one, UNITS)), w->one.from({UNITS}), is_string(&w->one, L"units\xE9", 1, 1)) \
  ROW(from_units_refused, NOTHING, string(jsstr_from_units(&w->one, units, TOO_LONG)), w->one.from({units, TOO_LONG}), is_refused()) \
  ROW(from_units_reserved, NOTHING, string(jsstr_from_units(&w->far, UNITS)), w->far.from({UNITS}), is_string(&w->far, L"units\xE9", 0, 0)) \
  ROW(from_bytes, NOTHING, string(jsstr_from_bytes(&w->one, JSSTR_LATIN1, LATIN1)), w->one.from(jsstr::encoding::latin1, {LATIN1}), is_string(&w->one, L"Latin-1 \xE9", 1, 2)) \
  ROW(from_bytes_refused, NOTHING, string(jsstr_from_bytes(&w->one, JSSTR_LATIN1, latin1, TOO_LONG)), w->one.from(jsstr::encoding::latin1, {latin1, TOO_LONG}), is_refused()) \
  ROW(from_bytes_of_no_encoding, NOTHING, string(jsstr_from_bytes(&w->one, 3, LATIN1)), w->one.from(jsstr::encoding(3), {LATIN1}), is_refused()) \
  ROW(from_utf8, NOTHING, string(jsstr_from_bytes(&w->one, JSSTR_UTF8, UTF8)), w->one.from(jsstr::encoding::utf8, {UTF8}), is_string(&w->one, L"UTF-8 \xE9 \xD83D\xDE00", 1, 3)) \
  ROW(from_utf8_refused, NOTHING, string(jsstr_from_bytes(&w->one, JSSTR_UTF8, utf8, TOO_LONG)), w->one.from(jsstr::encoding::utf8, {utf8, TOO_LONG}), is_refused()) \
  ROW(from_utf8_of_wtf8, NOTHING, string(jsstr_from_bytes(&w->one, JSSTR_UTF8, WTF8)), w->one.from(jsstr::encoding::utf8, {WTF8}), is_answer(JSSTR_NOT_UTF8, 0, 6)) \
  ROW(from_wtf8, NOTHING, string(jsstr_from_bytes(&w->one, JSSTR_WTF8, WTF8)), w->one.from(jsstr::encoding::wtf8, {WTF8}), is_string(&w->one, L"WTF-8 \xD800", 1, 2)) \
  ROW(from_wtf8_refused, NOTHING, string(jsstr_from_bytes(&w->one, JSSTR_WTF8, wtf8, TOO_LONG)), w->one.from(jsstr::encoding::wtf8, {wtf8, TOO_LONG}), is_refused()) \
  ROW(from_wtf8_of_latin1, NOTHING, string(jsstr_from_bytes(&w->one, JSSTR_WTF8, LATIN1)), w->one.from(jsstr::encoding::wtf8, {LATIN1}), is_answer(JSSTR_NOT_UTF8, 0, 8)) \
  ROW(concat, NOTHING, string(jsstr_concat(&w->one, w->rope, w->plain)), w->one.concat(w->rope, w->plain), is_string(&w->one, ROPE PLAIN, 1, 0)) \
  ROW(concat_unchecked, NOTHING, string(jsstr_concat_unchecked(&w->one, w->rope, w->plain)), NO_METHOD, is_string(&w->one, ROPE PLAIN, 1, 0)) \
  ROW(concat_refused, NOTHING, string(jsstr_concat(&w->one, w->plain, w->theirs)), w->one.concat(w->plain, w->theirs), is_refused()) \
  ROW(concat_short, NOTHING, string(jsstr_concat(&w->one, w->key, w->key)), w->one.concat(w->key, w->key), is_string(&w->one, L"keykey", 1, 1)) \
  ROW(concat_with_nothing, NOTHING, string(jsstr_concat(&w->one, w->rope, made(w, ""))), w->one.concat(w->rope, made(w, "")), uses(is_that(&w->one, w->rope, ROPE), 1, 0)) \
  ROW(concat_too_long, NOTHING, string(jsstr_concat(&w->one, w->rope, made(w, EIGHTY))), w->one.concat(w->rope, made(w, EIGHTY)), uses(is_answer(JSSTR_TOO_LONG, 0, 22, 80), 1, 10)) \
  ROW(slice, NOTHING, string(jsstr_slice(&w->one, w->rope, 1, 20)), w->one.slice(w->rope, 1, 20), settled(is_string(&w->one, L" plain onea plain o", 1, 0))) \
  ROW(slice_unchecked, NOTHING, string(jsstr_slice_unchecked(&w->one, w->twin, 1, 20)), NO_METHOD, is_string(&w->one, L" plain onea plain o", 1, 0)) \
  ROW(slice_refused, NOTHING, string(jsstr_slice(&w->one, w->rope, 1, 23)), w->one.slice(w->rope, 1, 23), is_refused()) \
  ROW(slice_short, NOTHING, string(jsstr_slice(&w->one, w->rope, 1, 3)), w->one.slice(w->rope, 1, 3), settled(is_string(&w->one, L" p", 1, 1))) \
  ROW(slice_whole, NOTHING, string(jsstr_slice(&w->one, w->rope, 0, 22)), w->one.slice(w->rope, 0, 22), settled(is_that(&w->one, w->rope, ROPE))) \
  ROW(length, NOTHING, number(jsstr_length(&w->one, w->rope)), w->one.length(w->rope), is_number(22)) \
  ROW(length_unchecked, NOTHING, value(jsstr_length_unchecked(&w->one, w->rope)), NO_METHOD, is_number(22)) \
  ROW(length_refused, NOTHING, number(jsstr_length(&w->one, w->theirs)), w->one.length(w->theirs), is_refused()) \
  ROW(settle, NOTHING, string(jsstr_settle(&w->one, w->rope)), w->one.settle(w->rope), settled(is_that(&w->one, w->rope, ROPE))) \
  ROW(settle_refused, NOTHING, string(jsstr_settle(&w->one, w->theirs)), w->one.settle(w->theirs), is_refused()) \
  ROW(read, NOTHING, told(jsstr_read(&w->one, w->rope, 2, w->units, 9)), w->one.read(w->rope, 2, w->units, 9), settled(wrote(is_done(), L"plain one"))) \
  ROW(read_refused, NOTHING, told(jsstr_read(&w->one, w->rope, 14, w->units, 9)), w->one.read(w->rope, 14, w->units, 9), is_refused()) \
  ROW(read_all, NOTHING, bytes((jsstr_bytes){jsstr_read(&w->one, w->rope, 0, w->units, 22), 0, jsstr_length(&w->one, w->rope).value}), w->one.units(w->rope), settled(wrote(is_size(22), ROPE))) \
  ROW(read_all_refused, NOTHING, bytes((jsstr_bytes){jsstr_read(&w->one, w->theirs, 0, w->units, 0), 0, jsstr_length(&w->one, w->theirs).value}), w->one.units(w->theirs), is_refused()) \
  ROW(unit_at, NOTHING, number(jsstr_unit_at(&w->one, w->rope, 3)), w->one.unit(w->rope, 3), settled(is_number('l'))) \
  ROW(unit_at_unchecked, NOTHING, value(jsstr_unit_at_unchecked(&w->one, w->wide, 5)), NO_METHOD, is_number(0x4E16)) \
  ROW(unit_at_refused, NOTHING, number(jsstr_unit_at(&w->one, w->rope, 22)), w->one.unit(w->rope, 22), is_refused()) \
  ROW(unit_at_wide, NOTHING, number(jsstr_unit_at(&w->one, w->wide, 5)), w->one.unit(w->wide, 5), is_number(0x4E16)) \
  ROW(to_utf8, NOTHING, bytes(jsstr_to_utf8(&w->one, w->rope, JSSTR_REPLACE, w->bytes, 64)), w->one.utf8(w->rope), settled(wrote_bytes(is_size(22), "a plain onea plain one"))) \
  ROW(to_utf8_refused, NOTHING, bytes(jsstr_to_utf8(&w->one, w->rope, 3, w->bytes, 64)), w->one.utf8(w->rope, jsstr::unpaired(3)), is_refused()) \
  ROW(to_utf8_replacing, NOTHING, bytes(jsstr_to_utf8(&w->one, w->wide, JSSTR_REPLACE, w->bytes, 64)), \
      w->one.utf8(w->wide, jsstr::unpaired::replace), wrote_bytes(is_size(13), "w\xC3\xAF" "de \xE4\xB8\x96 \xEF\xBF\xBD")) \
  ROW(to_utf8_refusing, NOTHING, bytes(jsstr_to_utf8(&w->one, w->wide, JSSTR_REFUSE, w->bytes, 64)), w->one.utf8(w->wide, jsstr::unpaired::refuse), is_answer(JSSTR_UNMAPPED, 7)) \
  ROW(to_latin1, NOTHING, bytes(jsstr_to_latin1(&w->one, w->rope, w->bytes, 64)), w->one.latin1(w->rope), settled(wrote_bytes(is_size(22), "a plain onea plain one"))) \
  ROW(to_latin1_refused, NOTHING, bytes(jsstr_to_latin1(&w->one, w->theirs, w->bytes, 64)), w->one.latin1(w->theirs), is_refused()) \
  ROW(to_latin1_unmapped, NOTHING, bytes(jsstr_to_latin1(&w->one, w->wide, w->bytes, 64)), w->one.latin1(w->wide), is_answer(JSSTR_UNMAPPED, 5)) \
  ROW(hash, NOTHING, number(jsstr_hash(&w->one, w->rope)), w->one.hash(w->rope), settled(is_number(hash(ROPE)))) \
  ROW(hash_unchecked, NOTHING, value(jsstr_hash_unchecked(&w->one, w->twin)), NO_METHOD, is_number(hash(ROPE))) \
  ROW(hash_refused, NOTHING, number(jsstr_hash(&w->one, w->theirs)), w->one.hash(w->theirs), is_refused()) \
  ROW(array_index, NOTHING, number(jsstr_array_index(&w->one, made(w, "4096"))), w->one.array_index(made(w, "4096")), uses(is_number(4096), 1, 1)) \
  ROW(array_index_refused, NOTHING, number(jsstr_array_index(&w->one, w->theirs)), w->one.array_index(w->theirs), is_refused()) \
  ROW(array_index_of_none, NOTHING, number(jsstr_array_index(&w->one, w->rope)), w->one.array_index(w->rope), settled(is_answer(JSSTR_NONE))) \
  ROW(is_settled, NOTHING, truth(jsstr_is_settled(&w->one, w->rope)), w->one.is_settled(w->rope), is_false()) \
  ROW(is_settled_refused, NOTHING, truth(jsstr_is_settled(&w->one, w->theirs)), w->one.is_settled(w->theirs), is_refused()) \
  ROW(window, NOTHING, window(w, jsstr_window(&w->one, w->rope, 0, w->words, 16)), NO_METHOD, settled(wrote(is_window(false, 0, 22, 3), ROPE))) \
  ROW(window_unchecked, NOTHING, window(w, jsstr_window_unchecked(&w->one, w->wide, 0, w->words, 16)), NO_METHOD, wrote(is_window(true, 0, 8, 2), L"w\xEF" L"de \x4E16 \xD800")) \
  ROW(window_refused, NOTHING, window(w, jsstr_window(&w->one, w->theirs, 0, w->words, 16)), NO_METHOD, is_refused()) \
  ROW(compare, NOTHING, order(jsstr_compare(&w->one, w->plain, w->rope)), w->one.compare(w->plain, w->rope), settled(is_order(-1))) \
  ROW(compare_refused, NOTHING, order(jsstr_compare(&w->one, w->plain, w->theirs)), w->one.compare(w->plain, w->theirs), is_refused()) \
  ROW(compare_same, NOTHING, order(jsstr_compare(&w->one, w->rope, w->twin)), w->one.compare(w->rope, w->twin), settled(is_order(0))) \
  ROW(equal, NOTHING, truth(jsstr_equal(&w->one, w->twin, w->rope)), w->one.equal(w->twin, w->rope), settled(is_true())) \
  ROW(equal_unchecked, NOTHING, value(jsstr_equal_unchecked(&w->one, w->key, made(w, "key"))), NO_METHOD, uses(is_true(), 1, 1)) \
  ROW(equal_refused, NOTHING, truth(jsstr_equal(&w->one, w->plain, w->theirs)), w->one.equal(w->plain, w->theirs), is_refused()) \
  ROW(equal_not, NOTHING, truth(jsstr_equal(&w->one, w->plain, w->twin)), w->one.equal(w->plain, w->twin), is_false()) \
  ROW(compare_units, NOTHING, order(jsstr_compare_units(&w->one, w->rope, UNITS)), w->one.compare(w->rope, {UNITS}), settled(is_order(-1))) \
  ROW(compare_units_refused, NOTHING, order(jsstr_compare_units(&w->one, w->theirs, UNITS)), w->one.compare(w->theirs, {UNITS}), is_refused()) \
  ROW(equals_units, NOTHING, truth(jsstr_equals_units(&w->one, w->rope, TWIN_UNITS)), w->one.equal(w->rope, {TWIN_UNITS}), settled(is_true())) \
  ROW(equals_units_refused, NOTHING, truth(jsstr_equals_units(&w->one, w->theirs, UNITS)), w->one.equal(w->theirs, {UNITS}), is_refused()) \
  ROW(equals_units_not, NOTHING, truth(jsstr_equals_units(&w->one, w->plain, TWIN_UNITS)), w->one.equal(w->plain, {TWIN_UNITS}), is_false()) \
  ROW(compare_bytes, NOTHING, order(jsstr_compare_bytes(&w->one, w->rope, JSSTR_LATIN1, LATIN1)), w->one.compare(w->rope, jsstr::encoding::latin1, {LATIN1}), settled(is_order(1))) \
  ROW(compare_bytes_refused, NOTHING, order(jsstr_compare_bytes(&w->one, w->theirs, JSSTR_LATIN1, LATIN1)), w->one.compare(w->theirs, jsstr::encoding::latin1, {LATIN1}), is_refused()) \
  ROW(compare_bytes_of_no_encoding, NOTHING, order(jsstr_compare_bytes(&w->one, w->rope, 3, LATIN1)), w->one.compare(w->rope, jsstr::encoding(3), {LATIN1}), is_refused()) \
  ROW(compare_utf8, NOTHING, order(jsstr_compare_bytes(&w->one, w->rope, JSSTR_UTF8, UTF8)), w->one.compare(w->rope, jsstr::encoding::utf8, {UTF8}), settled(is_order(1))) \
  ROW(compare_utf8_refused, NOTHING, order(jsstr_compare_bytes(&w->one, w->theirs, JSSTR_UTF8, UTF8)), w->one.compare(w->theirs, jsstr::encoding::utf8, {UTF8}), is_refused()) \
  ROW(compare_utf8_of_wtf8, NOTHING, order(jsstr_compare_bytes(&w->one, w->rope, JSSTR_UTF8, WTF8)), w->one.compare(w->rope, jsstr::encoding::utf8, {WTF8}), is_answer(JSSTR_NOT_UTF8)) \
  ROW(compare_wtf8, NOTHING, order(jsstr_compare_bytes(&w->one, w->rope, JSSTR_WTF8, WTF8)), w->one.compare(w->rope, jsstr::encoding::wtf8, {WTF8}), settled(is_order(1))) \
  ROW(equals_bytes, NOTHING, truth(jsstr_equals_bytes(&w->one, w->rope, JSSTR_LATIN1, TWIN_BYTES)), w->one.equal(w->rope, jsstr::encoding::latin1, {TWIN_BYTES}), settled(is_true())) \
  ROW(equals_bytes_refused, NOTHING, truth(jsstr_equals_bytes(&w->one, w->theirs, JSSTR_LATIN1, LATIN1)), w->one.equal(w->theirs, jsstr::encoding::latin1, {LATIN1}), is_refused()) \
  ROW(equals_bytes_of_no_encoding, NOTHING, truth(jsstr_equals_bytes(&w->one, w->rope, 3, TWIN_BYTES)), w->one.equal(w->rope, jsstr::encoding(3), {TWIN_BYTES}), is_refused()) \
  ROW(equals_bytes_not, NOTHING, truth(jsstr_equals_bytes(&w->one, w->plain, JSSTR_LATIN1, LATIN1)), w->one.equal(w->plain, jsstr::encoding::latin1, {LATIN1}), is_false()) \
  ROW(equals_utf8, NOTHING, truth(jsstr_equals_bytes(&w->one, w->rope, JSSTR_UTF8, TWIN_BYTES)), w->one.equal(w->rope, jsstr::encoding::utf8, {TWIN_BYTES}), settled(is_true())) \
  ROW(equals_wtf8, NOTHING, truth(jsstr_equals_bytes(&w->one, w->rope, JSSTR_WTF8, TWIN_BYTES)), w->one.equal(w->rope, jsstr::encoding::wtf8, {TWIN_BYTES}), settled(is_true())) \
  ROW(equals_utf8_refused, NOTHING, truth(jsstr_equals_bytes(&w->one, w->theirs, JSSTR_UTF8, UTF8)), w->one.equal(w->theirs, jsstr::encoding::utf8, {UTF8}), is_refused()) \
  ROW(equals_utf8_not, NOTHING, truth(jsstr_equals_bytes(&w->one, w->plain, JSSTR_UTF8, UTF8)), w->one.equal(w->plain, jsstr::encoding::utf8, {UTF8}), is_false()) \
  ROW(starts_with, NOTHING, truth(jsstr_starts_with(&w->one, w->rope, w->plain, 11)), w->one.starts_with(w->rope, w->plain, 11), settled(is_true())) \
  ROW(starts_with_refused, NOTHING, truth(jsstr_starts_with(&w->one, w->plain, w->theirs, 0)), w->one.starts_with(w->plain, w->theirs, 0), is_refused()) \
  ROW(starts_with_not, NOTHING, truth(jsstr_starts_with(&w->one, w->twin, w->plain, 10)), w->one.starts_with(w->twin, w->plain, 10), is_false()) \
  ROW(index_of, NOTHING, place(jsstr_index_of(&w->one, w->rope, w->plain, 1)), w->one.index_of(w->rope, w->plain, 1), settled(is_place(11))) \
  ROW(index_of_refused, NOTHING, place(jsstr_index_of(&w->one, w->rope, w->plain, 23)), w->one.index_of(w->rope, w->plain, 23), is_refused()) \
  ROW(index_of_none, NOTHING, place(jsstr_index_of(&w->one, w->twin, w->plain, 12)), w->one.index_of(w->twin, w->plain, 12), is_answer(JSSTR_NONE)) \
  ROW(last_index_of, NOTHING, place(jsstr_last_index_of(&w->one, w->rope, w->plain, 99)), w->one.last_index_of(w->rope, w->plain, 99), settled(is_place(11))) \
  ROW(last_index_of_refused, NOTHING, place(jsstr_last_index_of(&w->one, w->plain, w->theirs, 99)), w->one.last_index_of(w->plain, w->theirs, 99), is_refused()) \
  ROW(last_index_of_none, NOTHING, place(jsstr_last_index_of(&w->one, w->twin, w->key, 99)), w->one.last_index_of(w->twin, w->key, 99), is_answer(JSSTR_NONE)) \
  ROW(intern, NOTED, string(jsstr_intern(&w->one, w->rope)), w->one.intern(w->rope), settled(is_key(&w->one, ROPE, 1, 0))) \
  ROW(intern_unchecked, NOTED, string(jsstr_intern_unchecked(&w->one, w->twin)), NO_METHOD, is_key(&w->one, ROPE, 1, 0)) \
  ROW(intern_refused, NOTHING, string(jsstr_intern(&w->one, w->theirs)), w->one.intern(w->theirs), is_refused()) \
  ROW(intern_again, NOTED, (jsstr_intern(&w->one, w->plain), string(jsstr_intern(&w->one, w->plain))), (void(w->one.intern(w->plain)), w->one.intern(w->plain)), is_key(&w->one, PLAIN, 1, 0)) \
  ROW(intern_there, NOTED, string(jsstr_intern(&w->one, made(w, "key"))), w->one.intern(made(w, "key")), uses(is_that(&w->one, w->key, L"key"), 1, 1)) \
  ROW(intern_units, NOTHING, string(jsstr_intern_units(&w->one, UNITS)), w->one.intern({UNITS}), is_key(&w->one, L"units\xE9", 1, 1)) \
  ROW(intern_units_refused, NOTHING, string(jsstr_intern_units(&w->one, units, TOO_LONG)), w->one.intern({units, TOO_LONG}), is_refused()) \
  ROW(intern_units_there, NOTHING, string(jsstr_intern_units(&w->one, KEY_UNITS)), w->one.intern({KEY_UNITS}), is_that(&w->one, w->key, L"key")) \
  ROW(intern_units_first, NOTED, string(jsstr_intern_units(&w->far, UNITS)), w->far.intern({UNITS}), is_key(&w->far, L"units\xE9", 0, 0)) \
  ROW(intern_bytes, NOTHING, string(jsstr_intern_bytes(&w->one, JSSTR_LATIN1, LATIN1)), w->one.intern(jsstr::encoding::latin1, {LATIN1}), is_key(&w->one, L"Latin-1 \xE9", 1, 2)) \
  ROW(intern_bytes_refused, NOTHING, string(jsstr_intern_bytes(&w->one, JSSTR_LATIN1, latin1, TOO_LONG)), w->one.intern(jsstr::encoding::latin1, {latin1, TOO_LONG}), is_refused()) \
  ROW(intern_bytes_of_no_encoding, NOTHING, string(jsstr_intern_bytes(&w->one, 3, LATIN1)), w->one.intern(jsstr::encoding(3), {LATIN1}), is_refused()) \
  ROW(intern_utf8, NOTHING, string(jsstr_intern_bytes(&w->one, JSSTR_UTF8, UTF8)), w->one.intern(jsstr::encoding::utf8, {UTF8}), is_key(&w->one, L"UTF-8 \xE9 \xD83D\xDE00", 1, 3)) \
  ROW(intern_utf8_refused, NOTHING, string(jsstr_intern_bytes(&w->one, JSSTR_UTF8, utf8, TOO_LONG)), w->one.intern(jsstr::encoding::utf8, {utf8, TOO_LONG}), is_refused()) \
  ROW(intern_utf8_first, NOTED, string(jsstr_intern_bytes(&w->far, JSSTR_UTF8, UTF8)), w->far.intern(jsstr::encoding::utf8, {UTF8}), is_key(&w->far, L"UTF-8 \xE9 \xD83D\xDE00", 0, 0)) \
  ROW(intern_utf8_of_wtf8, NOTHING, string(jsstr_intern_bytes(&w->one, JSSTR_UTF8, WTF8)), w->one.intern(jsstr::encoding::utf8, {WTF8}), is_answer(JSSTR_NOT_UTF8, 0, 6)) \
  ROW(intern_wtf8, NOTHING, string(jsstr_intern_bytes(&w->one, JSSTR_WTF8, WTF8)), w->one.intern(jsstr::encoding::wtf8, {WTF8}), is_key(&w->one, L"WTF-8 \xD800", 1, 2)) \
  ROW(intern_wtf8_refused, NOTHING, string(jsstr_intern_bytes(&w->one, JSSTR_WTF8, wtf8, TOO_LONG)), w->one.intern(jsstr::encoding::wtf8, {wtf8, TOO_LONG}), is_refused()) \
  ROW(intern_wtf8_of_latin1, NOTHING, string(jsstr_intern_bytes(&w->one, JSSTR_WTF8, LATIN1)), w->one.intern(jsstr::encoding::wtf8, {LATIN1}), is_answer(JSSTR_NOT_UTF8, 0, 8)) \
  ROW(intern_many, NOTHING, batch(jsstr_intern_many(&w->one, UNITS, ends, 3, w->ids, 3)), w->one.intern_many({UNITS}, {ends, ends + 3}), is_keys(&w->one, L"u ni ts\xE9", 3, 3)) \
  ROW(intern_many_refused, NOTHING, batch(jsstr_intern_many(&w->one, UNITS, descending, 3, w->ids, 3)), w->one.intern_many({UNITS}, {descending, descending + 3}), is_refused()) \
  ROW(find_units, NOTHING, string(jsstr_find_units(&w->one, KEY_UNITS)), w->one.find({KEY_UNITS}), is_that(&w->one, w->key, L"key")) \
  ROW(find_units_refused, NOTHING, string(jsstr_find_units(&w->one, key, TOO_LONG)), w->one.find({key, TOO_LONG}), is_refused()) \
  ROW(find_units_first, NOTED, string(jsstr_find_units(&w->far, UNITS)), w->far.find({UNITS}), is_answer(JSSTR_NONE)) \
  ROW(find_bytes, NOTHING, string(jsstr_find_bytes(&w->one, JSSTR_LATIN1, KEY_BYTES)), w->one.find(jsstr::encoding::latin1, {KEY_BYTES}), is_that(&w->one, w->key, L"key")) \
  ROW(find_bytes_refused, NOTHING, string(jsstr_find_bytes(&w->one, JSSTR_LATIN1, key_bytes, TOO_LONG)), w->one.find(jsstr::encoding::latin1, {key_bytes, TOO_LONG}), is_refused()) \
  ROW(find_bytes_of_no_encoding, NOTHING, string(jsstr_find_bytes(&w->one, 3, KEY_BYTES)), w->one.find(jsstr::encoding(3), {KEY_BYTES}), is_refused()) \
  ROW(find_utf8, NOTHING, string(jsstr_find_bytes(&w->one, JSSTR_UTF8, KEY_BYTES)), w->one.find(jsstr::encoding::utf8, {KEY_BYTES}), is_that(&w->one, w->key, L"key")) \
  ROW(find_utf8_refused, NOTHING, string(jsstr_find_bytes(&w->one, JSSTR_UTF8, key_bytes, TOO_LONG)), w->one.find(jsstr::encoding::utf8, {key_bytes, TOO_LONG}), is_refused()) \
  ROW(find_utf8_first, NOTED, string(jsstr_find_bytes(&w->far, JSSTR_UTF8, UTF8)), w->far.find(jsstr::encoding::utf8, {UTF8}), is_answer(JSSTR_NONE)) \
  ROW(find_utf8_of_wtf8, NOTHING, string(jsstr_find_bytes(&w->one, JSSTR_UTF8, WTF8)), w->one.find(jsstr::encoding::utf8, {WTF8}), is_answer(JSSTR_NOT_UTF8, 0, 6)) \
  ROW(find_wtf8, NOTHING, string(jsstr_find_bytes(&w->one, JSSTR_WTF8, KEY_BYTES)), w->one.find(jsstr::encoding::wtf8, {KEY_BYTES}), is_that(&w->one, w->key, L"key")) \
  ROW(find_wtf8_refused, NOTHING, string(jsstr_find_bytes(&w->one, JSSTR_WTF8, key_bytes, TOO_LONG)), w->one.find(jsstr::encoding::wtf8, {key_bytes, TOO_LONG}), is_refused()) \
  ROW(find_wtf8_of_latin1, NOTHING, string(jsstr_find_bytes(&w->one, JSSTR_WTF8, LATIN1)), w->one.find(jsstr::encoding::wtf8, {LATIN1}), is_answer(JSSTR_NOT_UTF8, 0, 8)) \
  ROW(slot_of, NOTHING, number(jsstr_slot_of(&w->one, w->key)), w->one.slot_of(w->key), is_number(hash(L"key") % 13)) \
  ROW(slot_of_refused, NOTHING, number(jsstr_slot_of(&w->one, w->plain)), w->one.slot_of(jsstr::key(w->plain.id())), is_refused()) \
  ROW(adopt, NOTHING, string(jsstr_adopt(&w->other, hash(L"key") % 13)), w->other.adopt(hash(L"key") % 13), learned(is_that(&w->other, w->key, L"key"))) \
  ROW(adopt_refused, NOTHING, string(jsstr_adopt(&w->other, 13)), w->other.adopt(13), is_refused()) \
  ROW(adopt_none, NOTHING, string(jsstr_adopt(&w->other, (hash(L"key") + 1) % 13)), w->other.adopt((hash(L"key") + 1) % 13), is_answer(JSSTR_NONE)) \
  ROW(copy_into, MEMORY, string(jsstr_copy_into(&w->one, w->plain, &w->far)), w->one.copy_into(w->plain, w->far), is_string(&w->far, PLAIN, 0, 0)) \
  ROW(copy_into_refused, NOTHING, string(jsstr_copy_into(&w->one, w->plain, &w->none)), w->one.copy_into(w->plain, w->none), is_refused()) \
  ROW(copy_rope_into, MEMORY_SETTLED, string(jsstr_copy_into(&w->one, w->rope, &w->far)), w->one.copy_into(w->rope, w->far), settled(is_string(&w->far, ROPE, 0, 0))) \
  ROW(intern_into, MEMORY_NOTED, string(jsstr_intern_into(&w->one, w->plain, &w->far)), w->one.intern_into(w->plain, w->far), is_key(&w->far, PLAIN, 0, 0)) \
  ROW(intern_into_refused, NOTHING, string(jsstr_intern_into(&w->one, w->plain, &w->none)), w->one.intern_into(w->plain, w->none), is_refused()) \
  ROW(intern_rope_into, MEMORY_NOTED, string(jsstr_intern_into(&w->one, w->rope, &w->far)), w->one.intern_into(w->rope, w->far), settled(is_key(&w->far, ROPE, 0, 0))) \
  ROW(build_units, MEMORY, told(jsstr_build_units(&w->full, UNITS)), w->full.append({UNITS}), appended(&w->full, L"units\xE9")) \
  ROW(build_first_units, MEMORY, told(jsstr_build_units(&w->empty, UNITS)), w->empty.append({UNITS}), appended(&w->empty, L"units\xE9")) \
  ROW(build_nothing, NOTHING, told(jsstr_build_units(&w->full, units, 0)), w->full.append({units, 0}), appended(&w->full, L"")) \
  ROW(build_bytes, MEMORY, string(jsstr_build_bytes(&w->full, JSSTR_LATIN1, LATIN1)), w->full.append(jsstr::encoding::latin1, {LATIN1}), appended(&w->full, L"Latin-1 \xE9")) \
  ROW(build_bytes_of_no_encoding, NOTHING, string(jsstr_build_bytes(&w->full, 3, LATIN1)), w->full.append(jsstr::encoding(3), {LATIN1}), is_refused()) \
  ROW(build_first_latin1, MEMORY, string(jsstr_build_bytes(&w->empty, JSSTR_LATIN1, LATIN1)), w->empty.append(jsstr::encoding::latin1, {LATIN1}), appended(&w->empty, L"Latin-1 \xE9")) \
  ROW(build_utf8, MEMORY, string(jsstr_build_bytes(&w->full, JSSTR_UTF8, UTF8)), w->full.append(jsstr::encoding::utf8, {UTF8}), appended(&w->full, L"UTF-8 \xE9 \xD83D\xDE00")) \
  ROW(build_first_utf8, MEMORY, string(jsstr_build_bytes(&w->empty, JSSTR_UTF8, UTF8)), w->empty.append(jsstr::encoding::utf8, {UTF8}), appended(&w->empty, L"UTF-8 \xE9 \xD83D\xDE00")) \
  ROW(build_utf8_of_wtf8, NOTHING, string(jsstr_build_bytes(&w->full, JSSTR_UTF8, WTF8)), w->full.append(jsstr::encoding::utf8, {WTF8}), is_answer(JSSTR_NOT_UTF8, 0, 6)) \
  ROW(build_wtf8, MEMORY, string(jsstr_build_bytes(&w->full, JSSTR_WTF8, WTF8)), w->full.append(jsstr::encoding::wtf8, {WTF8}), appended(&w->full, L"WTF-8 \xD800")) \
  ROW(build_first_wtf8, MEMORY, string(jsstr_build_bytes(&w->empty, JSSTR_WTF8, WTF8)), w->empty.append(jsstr::encoding::wtf8, {WTF8}), appended(&w->empty, L"WTF-8 \xD800")) \
  ROW(build_wtf8_of_latin1, NOTHING, string(jsstr_build_bytes(&w->full, JSSTR_WTF8, LATIN1)), w->full.append(jsstr::encoding::wtf8, {LATIN1}), is_answer(JSSTR_NOT_UTF8, 0, 8)) \
  ROW(build_string, MEMORY, told(jsstr_build_string(&w->full, &w->one, w->plain)), w->full.append(w->one, w->plain), appended(&w->full, PLAIN)) \
  ROW(build_string_refused, NOTHING, told(jsstr_build_string(&w->full, &w->one, w->theirs)), w->full.append(w->one, w->theirs), is_refused()) \
  ROW(build_first_string, MEMORY, told(jsstr_build_string(&w->empty, &w->one, w->plain)), w->empty.append(w->one, w->plain), appended(&w->empty, PLAIN)) \
  ROW(build_rope, MEMORY_SETTLED, told(jsstr_build_string(&w->full, &w->one, w->rope)), w->full.append(w->one, w->rope), settled(appended(&w->full, ROPE))) \
  ROW(build_number, MEMORY, told(jsstr_build_number(&w->full, -2147483647)), w->full.append(std::int64_t(-2147483647)), appended(&w->full, L"-2147483647")) \
  ROW(build_first_number, MEMORY, told(jsstr_build_number(&w->empty, 7)), w->empty.append(std::int32_t(7)), appended(&w->empty, L"7")) \
  ROW(built, NOTHING, string(jsstr_built(&w->text, &w->one)), w->text.string(w->one), spent(is_string(&w->one, L"text \x4E16", 1, 2))) \
  ROW(built_refused, NOTHING, string(jsstr_built(&w->text, &w->none)), w->text.string(w->none), is_refused()) \
  ROW(built_of_nothing, NOTHING, string(jsstr_built(&w->empty, &w->one)), w->empty.string(w->one), is_string(&w->one, L"", 1, 0)) \
  ROW(built_interned, NOTHING, string(jsstr_built_interned(&w->text, &w->one)), w->text.interned(w->one), spent(is_key(&w->one, L"text \x4E16", 1, 2))) \
  ROW(built_interned_refused, NOTHING, string(jsstr_built_interned(&w->text, &w->none)), w->text.interned(w->none), is_refused()) \
  ROW(drop_builder, NOTHING, (jsstr_drop_builder(&w->text), value(w->text.at || w->text.live || w->text.len)), ended(w->text), spent(is_number(0))) \
  ROW(is_interned, NOTHING, truth(jsstr_is_interned(&w->one, w->key)), w->one.is_interned(w->key), is_true()) \
  ROW(is_interned_refused, NOTHING, truth(jsstr_is_interned(&w->none, w->key)), w->none.is_interned(w->key), is_refused()) \
  ROW(room_of, NOTHING, room(jsstr_room_of(&w->one)), w->one.room(), is_answer(JSSTR_DONE, 6, 9, 64, 64, 13, 1)) \
  ROW(room_of_refused, NOTHING, room(jsstr_room_of(&w->none)), w->none.room(), is_refused()) \
  ROW(count_interned, NOTHING, (jsstr_join(&w->one, &w->other), number(jsstr_count_interned(&w->one))), (void(w->one.join(std::move(w->other))), w->one.count_interned()), joined(is_number(1))) \
  ROW(count_interned_refused, NOTHING, number(jsstr_count_interned(&w->one)), w->one.count_interned(), is_refused())

/* An answer of any kind: its status and its numbers, in the order of its fields. */
typedef struct answer { uint32_t numbers[7]; } answer;

/* What is looked at beside the numbers: the string, key or keys that were answered to `agent`, the units or bytes that were written,
   the units that were appended to `text`. */
enum seen_too { NUMBERS, STRING, KEY, KEYS, THAT, WROTE_UNITS, WROTE_BYTES, APPENDED };

/* What a row expects: the answer, what is looked at beside it, and what has changed: the ids and words that were used in the heap of
   `agent`, whether the rope is settled, the shares of `one`, `other` and `out`, whether `one` knows what `other` did, how many
   more used slots an agent knows, whether `text` of the world is empty. */
typedef struct expected {
  answer right;
  enum seen_too what;
  any_agent *agent;
  any_builder *text;
  const wchar_t *units;
  const char *bytes;
  uint32_t ids, words, is_settled, shares[3], is_joined, learned, is_spent;
} expected;

static expected is(answer a) {
  expected e = {a, NUMBERS, NULL, NULL, NULL, NULL, 0, 0, 0, {2, 2, 0}, 0, 0, 0};
  return e;
}
#define is_answer(...) is(ANSWER(__VA_ARGS__))
static expected is_done(void) { return is_answer(JSSTR_DONE); }
static expected is_refused(void) { return is_answer(JSSTR_BAD_ARGUMENT); }
static expected is_number(uint32_t n) { return is_answer(JSSTR_DONE, n); }
static expected is_true(void) { return is_number(true); }
static expected is_false(void) { return is_number(false); }
static expected is_order(int32_t o) { return is_number((uint32_t)o); }
static expected is_place(uint32_t at) { return is_number(at); }
static expected is_size(uint32_t n) { return is_answer(JSSTR_DONE, 0, n); }
static expected is_window(bool wide, uint32_t lane, uint32_t length, uint32_t count) { return is_answer(JSSTR_DONE, wide, lane, length, count); }

static expected uses(expected e, uint32_t ids, uint32_t words) { return e.ids = ids, e.words = words, e; }
static expected settled(expected e) { return e.is_settled = 1, e; }
static expected spent(expected e) { return e.is_spent = 1, e; }
static expected learned(expected e) { return e.learned++, e; }
static expected shares(expected e, uint32_t one, uint32_t other, uint32_t out) { return e.shares[0] = one, e.shares[1] = other, e.shares[2] = out, e; }
static expected joined(expected e) { return e.is_joined = 1, shares(e, 4, 0, 0); }
static expected wrote(expected e, const wchar_t *units) { return e.what = WROTE_UNITS, e.units = units, e; }
static expected wrote_bytes(expected e, const char *bytes) { return e.what = WROTE_BYTES, e.bytes = bytes, e; }

/* These units of `agent`, or in a text. */
static expected has(enum seen_too what, any_agent *agent, const wchar_t *units) {
  expected e = is_done();
  return e.what = what, e.agent = agent, e.units = units, e;
}

static expected appended(any_builder *text, const wchar_t *units) {
  expected e = has(APPENDED, NULL, units);
  return e.text = text, e;
}

/* A new string of an agent, which isn't interned; a key that is new to the table; the keys of the lists that spaces separate; and a string,
   or key, that is there already. */
static expected is_string(any_agent *agent, const wchar_t *units, uint32_t ids, uint32_t words) { return uses(has(STRING, agent, units), ids, words); }
static expected is_key(any_agent *agent, const wchar_t *units, uint32_t ids, uint32_t words) { return learned(uses(has(KEY, agent, units), ids, words)); }

static expected is_keys(any_agent *agent, const wchar_t *units, uint32_t count, uint32_t words) {
  expected e = uses(has(KEYS, agent, units), count, words);
  return e.right.numbers[1] = e.learned = count, e;
}

static expected is_that(any_agent *agent, any_string s, const wchar_t *units) {
  expected e = has(THAT, agent, units);
  return e.right.numbers[1] = ID(s), e;
}

/* The hash by its definition: from 0, for each unit 31 times it plus the unit. */
static uint32_t hash(const wchar_t *units) {
  uint32_t h = 0;
  while (*units) h = 31 * h + (uint16_t)*units++;
  return h;
}
#endif
