/* The string heap of jsstr, for C99 and C++.

   A heap is one array of words that threads share, without a lock. An agent is one user of a heap, and
   makes its calls from one thread at a time. A string is a number below 2^29, and may be 0; JSSTR_NO_STRING is none.
   docs/EMBEDDING.md says what is proved of the calls, and what to do when a heap is full.

   CONDITIONS. A call tests its condition, and where it fails answers JSSTR_BAD_ARGUMENT and has done nothing. A call
   on a text alone has none, but that an encoding is one. jsstr_unchecked.h has eight calls that test nothing, where that gains a tenth or more.

   WHAT C STILL OWES:
   - A handle, of an agent or a text, is zero, or was written by this library, and by nothing else. Never copy
     a handle; to move one, copy its bytes and zero the old place before the next call.
   - One call at a time on a handle. It goes to another thread by what orders memory: the start or the join
     of a thread, a lock, a sequentially consistent atomic. No call from a signal handler, or from the child
     of a process that was forked while it had threads.
   - A pointer to a handle, units, bytes, ends or ids is valid, aligned and not null, even where there are none.
     Two handles of one call are distinct, and what a call writes overlaps nothing else that it receives.

   A call writes the handle of an agent only where that gets or loses one (tested, not proved), so handles of different
   threads may lie in one cache line; what a thread writes itself shouldn't lie beside another one's handle.

   KNOWN. An agent knows the strings that its calls answered, what the agent that it was split off from
   knew by then, and what those knew that it joined. A string goes from one running thread to another by
   the string table alone: the other thread interns equal units, or finds them, and gets that number; or it
   adopts what is in a slot (jsstr_slot_of).

   SETTLED. A string that was made of units, and a slice, is settled. What jsstr_concat answers may be a
   rope; the calls that need a settled string settle it first, for all agents, and may then be refused with
   JSSTR_NO_WORDS.

   MEMORY. jsstr_make, jsstr_split and jsstr_reserve allocate; a call that appends to a text may; and for its own
   duration one that copies into another heap. These alone may answer JSSTR_NO_MEMORY. jsstr_intern, the calls
   that intern or look for units or bytes, and those that renew what is reserved (jsstr_renew) may allocate too,
   and answer the same where they are refused that.
   That no other call allocates is tested, not proved.

   Link -ljsstr: there is one archive, libjsstr.a, and no shared object. malloc, realloc and free are the C
   library's, and malloc aligns to 16. */
#ifndef JSSTR_H
#define JSSTR_H
#include <stdbool.h>
#include <stddef.h>
#include <stdint.h>
#ifdef __cplusplus
extern "C" {
#endif

/* The version of this header: in the number, major * 10000 + minor * 100 + patch. */
#define JSSTR_VERSION "1.0.0"
#define JSSTR_VERSION_NUMBER 10000

/* An agent; all zero where there is none. */
typedef struct jsstr_agent { void *at; uint32_t live; } jsstr_agent;

/* A text that is built up, outside any heap, of `len` units; all zero is an empty one. */
typedef struct jsstr_builder { void *at; uint32_t live, len; } jsstr_builder;

/* A string. JSSTR_NO_STRING is none: a refusal answers it, and the calls of this header refuse it. */
typedef uint32_t jsstr_id;
#define JSSTR_NO_STRING UINT32_MAX

/* What a heap has for its life; nothing is given back. Each is 1 to 2^29 - 1, together at most 2^29. A string
   uses an id, and its units words of 8 bytes; each list of units that is interned uses a slot, and a second id
   where a string was made first. Set a prime number of slots, at least 2.6 for each. A heap occupies
   8 * (2 + slots + 2 * ids + words) bytes, twice that while it is made, and two bits an id for each agent
   (tested, not proved). What an agent notes of the table adds at most eight bytes an id, 4 MB and 44 KB. */
typedef struct jsstr_size { uint32_t ids, words, slots; } jsstr_size;

/* The greatest length of a string, and the greatest limit. */
#define JSSTR_MAX_LENGTH 536870888u

enum jsstr_status {
  JSSTR_DONE = 0,
  JSSTR_NO_MEMORY = 1,   /* malloc answered null; nothing has changed, but that a rope may have been settled, or that
                            jsstr_reserve has claimed what it says */
  JSSTR_BAD_SIZE = 2,    /* sizes, number of agents or limit are out of bounds */
  JSSTR_NO_IDS = 3,      /* no id is left: `at` used, `want` requested, `end` in all */
  JSSTR_NO_WORDS = 4,    /* not enough words are left: the same of words */
  JSSTR_NO_SLOTS = 5,    /* all `end` slots of the string table are used by other units */
  JSSTR_TOO_LONG = 6,    /* the sides, `at` and `want` units long, are longer together than the limit; or, with
                            neither number, a text is as long as may be */
  JSSTR_NONE = 7,        /* there is no such place, number or interned string */
  JSSTR_NOT_UTF8 = 8,    /* the first `at` bytes are UTF-8, or WTF-8, and no more of them are; nothing has changed */
  JSSTR_BAD_ARGUMENT = 9, /* the condition of the call doesn't hold; no string and no heap has changed */
  JSSTR_NO_ROOM = 10,    /* `size` bytes, or units, are needed, and there is room for fewer; nothing is written */
  JSSTR_UNMAPPED = 11    /* unit number `at` has no bytes; nothing is written */
};

/* The name of a status, as it is above, else "unknown". Not proved. */
static inline const char *jsstr_status_name(uint32_t status) {
  static const char *const names[] = {
    "JSSTR_DONE", "JSSTR_NO_MEMORY", "JSSTR_BAD_SIZE", "JSSTR_NO_IDS", "JSSTR_NO_WORDS",
    "JSSTR_NO_SLOTS", "JSSTR_TOO_LONG", "JSSTR_NONE", "JSSTR_NOT_UTF8", "JSSTR_BAD_ARGUMENT",
    "JSSTR_NO_ROOM", "JSSTR_UNMAPPED"};
  return status < sizeof names / sizeof *names ? names[status] : "unknown";
}

/* JSSTR_VERSION_NUMBER of the header that the library was built with. */
uint32_t jsstr_version(void);

/* Unused fields are 0, an id JSSTR_NO_STRING. After a refusal each string is what it was, and what the call had claimed by then
   is lost. After NO_IDS, NO_WORDS or NO_SLOTS any later request of that size fails, for every agent, except where what
   it reserved suffices. */
typedef struct jsstr_answer { uint32_t status; jsstr_id id; uint32_t at, want, end; } jsstr_answer;
typedef struct jsstr_batch { uint32_t status, done, at, want, end; } jsstr_batch;
typedef struct jsstr_number { uint32_t status, value; } jsstr_number;
typedef struct jsstr_order { uint32_t status; int32_t order; } jsstr_order;
typedef struct jsstr_truth { uint32_t status; bool holds; } jsstr_truth;
typedef struct jsstr_place { uint32_t status, at; } jsstr_place;
typedef struct jsstr_words { uint32_t status; bool wide; uint32_t lane, length, count; } jsstr_words;
typedef struct jsstr_bytes { uint32_t status, at, size; } jsstr_bytes;
typedef struct jsstr_counts { uint32_t status, ids, words; } jsstr_counts;
typedef struct jsstr_room {
  uint32_t status, ids, words;        /* what each counter was: claimed by all agents up to then */
  uint32_t all_ids, all_words, slots; /* the sizes of the heap */
  uint32_t seen_slots;                /* of these, how many this agent knows to be used: a pass over its marks */
} jsstr_room;

/* Every call with an agent has the conditions that the handle isn't zero, that each string that it is given is known
   (jsstr_is_interned: the first alone), and that len is at most JSSTR_MAX_LENGTH (of units and Latin-1 to compare
   with it may be any). */

/* A heap, and in `out` its first agent, with the whole share: `agents`, 1 to 64, is how many agents there
   may be at one time. Joined strings are at most `limit` units long, which is at most JSSTR_MAX_LENGTH.
   Answers DONE, BAD_SIZE or NO_MEMORY. Condition: *out is zero. It stays zero where no heap is made. */
uint32_t jsstr_make(jsstr_size size, uint32_t agents, uint32_t limit, jsstr_agent *out);

/* Frees an agent, and with the last one the heap (tested, not proved); *agent is zero afterwards. Its share
   doesn't return to the others: none ever has the whole again, as jsstr_share shows, which
   jsstr_count_interned needs, and what it reserved is lost. Where the heap goes on, join the agent instead. */
uint32_t jsstr_free(jsstr_agent *agent);

/* In `out` an agent of the same heap with `give` of the share, which knows all that this one knows.
   Answers DONE or NO_MEMORY. Condition: 1 <= give < share, and *out is zero. It stays zero where it is refused. */
uint32_t jsstr_split(jsstr_agent *agent, uint32_t give, jsstr_agent *out);

/* Takes over the share of another agent, and all that it has and knows; *other is zero afterwards. Of what it
   reserved (jsstr_reserve) and has left, the ids go over where this agent has none left, and the words where this
   agent has none left; the rest is lost. Answers DONE or BAD_ARGUMENT. Condition: `other` was split off from `agent`
   itself. Tested, not proved: none that was is refused, and any other one is; but one of another heap may not be, if
   that heap's agents split or join in that moment. */
uint32_t jsstr_join(jsstr_agent *agent, jsstr_agent *other);

/* How many agents this one may become, itself counted. */
jsstr_number jsstr_share(jsstr_agent *agent);

/* Claims `words` words in one piece, and then `ids` ids, for this agent's later strings: a call that makes, joins,
   cuts, copies or interns takes from these, and touches nothing that agents share for what it takes but slots. A copy takes
   an id and its words, each where there is enough, and claims what is lacking. A rope or a slice takes the least id left, where
   that is above the numbers of the strings that it is made of. What is interned needs nothing where its string is in the
   table; else units, bytes and a slice need what a copy needs, and any other string an id, and take all of it or nothing.
   Settling takes nothing from these. Answers DONE, with no string; NO_WORDS, or NO_MEMORY for the list of the first 1,024 ids,
   and then nothing was claimed; NO_IDS, or NO_MEMORY for the list of later ids, and then the words, and fewer ids, were.
   What was claimed is used, whether or not a string takes it. Where the new words don't begin where those left end, the words
   that were left are lost. */
jsstr_answer jsstr_reserve(jsstr_agent *agent, uint32_t ids, uint32_t words);

/* Sets the blocks by which what is reserved is renewed; with 0 and 0, as an agent begins, it isn't. A call that
   makes, joins, cuts, copies or interns, and whose new string finds too few words there, or no id,
   first claims `words` words, or as many as the string needs where these are more, and `ids` ids: what is missing of
   the two, and nothing where the block of what is missing is 0. For jsstr_concat and jsstr_slice a copy needs a word
   for 4 units. Where the heap has not that many words no id is claimed either, and nothing is renewed; where it has
   fewer ids, these are claimed. What is interned renews nothing where its string is in the table,
   or no slot is free; settling never does. At a join `agent` keeps its blocks. Answers DONE. Where several threads make
   strings, jsstr_renew(&agent, 64, 256) for each agent, once it is split off, keeps them out of each other's way. */
uint32_t jsstr_renew(jsstr_agent *agent, uint32_t ids, uint32_t words);

/* How many ids and words are reserved, and left. */
jsstr_counts jsstr_reserved(jsstr_agent *agent);

/* A new string with these units, settled. It uses an id, and a word for 8 units, or for 4 where one of
   them is over 255. */
jsstr_answer jsstr_from_units(jsstr_agent *agent, const uint16_t *units, size_t len);

/* How bytes spell units. Of Latin-1 each byte is a unit. UTF-8 spells characters, which are in UTF-16 then: no unit
   is an unpaired surrogate. In WTF-8 three bytes may also spell an unpaired surrogate, as JSSTR_KEEP writes it. A call
   answers NOT_UTF8 exactly where the bytes spell nothing, as where they end within a character, spell one by too
   many bytes, or in WTF-8 a lead and a trail behind it, three bytes each: four bytes spell a pair. Every call with
   an encoding has the condition that it is one of the three. */
enum jsstr_encoding { JSSTR_LATIN1 = 0, JSSTR_UTF8 = 1, JSSTR_WTF8 = 2 };

/* The same of the units that bytes spell. */
jsstr_answer jsstr_from_bytes(jsstr_agent *agent, uint32_t encoding, const uint8_t *bytes, size_t len);

/* The units of a, and then those of b. Fewer than 13 units are copied; from 13 on the answer is a rope,
   which uses an id and no word. Where one side is empty, the answer is the other side. */
jsstr_answer jsstr_concat(jsstr_agent *agent, jsstr_id a, jsstr_id b);

/* The units of s from number `from` up to number `to`, settled. The whole is s itself. Fewer than 13
   units are copied; from 13 on the answer is a slice, which uses an id and no word. Settles s.
   Condition: from <= to <= its length. */
jsstr_answer jsstr_slice(jsstr_agent *agent, jsstr_id s, uint32_t from, uint32_t to);

/* The number of units. */
jsstr_number jsstr_length(jsstr_agent *agent, jsstr_id s);

/* Settles s, and answers s. A rope's units are copied, for all agents; where another thread settles it at that
   moment, the words may be lost. */
jsstr_answer jsstr_settle(jsstr_agent *agent, jsstr_id s);

/* The units of s from number `from` on, `len` of them, into `out`; nothing is written but where it answers
   DONE. Settles s. Condition: from + len is at most its length. */
uint32_t jsstr_read(jsstr_agent *agent, jsstr_id s, uint32_t from, uint16_t *out, size_t len);

/* Unit number `place` of s. Settles s. Condition: place is below its length. */
jsstr_number jsstr_unit_at(jsstr_agent *agent, jsstr_id s, uint32_t place);

/* What becomes of a surrogate that is in no pair, which UTF-8 can't say: U+FFFD is written for it, the call is
   refused, or it is written in three bytes, as WTF-8 has it. */
enum jsstr_unpaired { JSSTR_REPLACE = 0, JSSTR_REFUSE = 1, JSSTR_KEEP = 2 };

/* The UTF-8 of s into `out`, all or none, and no zero behind it: `size` is how many bytes were written, with
   NO_ROOM how many are needed (at most 3 for each unit). UNMAPPED reports the first unpaired surrogate, where
   these are refused, also where there is no room. Settles s. Condition: unpaired is one of the three. */
jsstr_bytes jsstr_to_utf8(jsstr_agent *agent, jsstr_id s, uint32_t unpaired, uint8_t *out, size_t room);

/* The units of s into `out`, a byte each, as Latin-1 is; the same answers. UNMAPPED reports the first unit that
   is over 255. Settles s. */
jsstr_bytes jsstr_to_latin1(jsstr_agent *agent, jsstr_id s, uint8_t *out, size_t room);

/* The hash by which the string table looks for the units of s: from 0, for each unit 31 times it plus the unit,
   modulo 2^32. Equal strings have equal ones, in every heap. Settles s. */
jsstr_number jsstr_hash(jsstr_agent *agent, jsstr_id s);

/* The number of s as an array index of ECMA-262: s is its decimal digits, and it is at most 2^32 - 2. NONE where s
   is none, as "01". Settles s. */
jsstr_number jsstr_array_index(jsstr_agent *agent, jsstr_id s);

/* Whether s is settled, which it then stays. */
jsstr_truth jsstr_is_settled(jsstr_agent *agent, jsstr_id s);

/* The words that the units of s lie in, from word number `at` on, into `out`: as many as there are, at most
   `room`, and `count` says how many. A word has n lanes, 4 where `wide`, else 8, the first in its lowest
   bits; of the `length` units number i is in word (lane + i) / n, lane (lane + i) % n; other lanes may
   hold anything. `wide` and `lane` are those of this call; at the next one they may be others.
   Nothing is written but where it answers DONE. Settles s. */
jsstr_words jsstr_window(jsstr_agent *agent, jsstr_id s, uint32_t at, uint64_t *out, size_t room);

/* The order of two strings by their units, where a proper prefix comes first: -1 where a comes before b,
   0 where both have the same units, 1 where a comes after b. Settles both. */
jsstr_order jsstr_compare(jsstr_agent *agent, jsstr_id a, jsstr_id b);

/* Whether two strings have the same units. Settles both. */
jsstr_truth jsstr_equal(jsstr_agent *agent, jsstr_id a, jsstr_id b);

/* The same of s and units that are in no string. Settles s. */
jsstr_order jsstr_compare_units(jsstr_agent *agent, jsstr_id s, const uint16_t *units, size_t len);
jsstr_truth jsstr_equals_units(jsstr_agent *agent, jsstr_id s, const uint16_t *units, size_t len);

/* The same of s and the units that bytes spell. Where they spell nothing, nothing is settled. */
jsstr_order jsstr_compare_bytes(jsstr_agent *agent, jsstr_id s, uint32_t encoding, const uint8_t *bytes, size_t len);
jsstr_truth jsstr_equals_bytes(jsstr_agent *agent, jsstr_id s, uint32_t encoding, const uint8_t *bytes, size_t len);

/* Whether the units of `needle` are in `hay` from number `at` on; any `at` is allowed.
   Settles both. */
jsstr_truth jsstr_starts_with(jsstr_agent *agent, jsstr_id hay, jsstr_id needle, uint32_t at);

/* The least place at or after `from` at which `needle` is in `hay`, or NONE. An empty one is at each place.
   Settles both. Condition: from is at most the length of hay. */
jsstr_place jsstr_index_of(jsstr_agent *agent, jsstr_id hay, jsstr_id needle, uint32_t from);

/* The greatest place at most `limit` at which `needle` is in `hay`, or NONE; any limit is allowed.
   Settles both. */
jsstr_place jsstr_last_index_of(jsstr_agent *agent, jsstr_id hay, jsstr_id needle, uint32_t limit);

/* The one string of the string table with the units of s: every agent gets the same one for equal units, so two of
   these have equal units where their numbers are equal. It is known, and settled. It uses at most an id, and words where
   s is a slice. Settles s. */
jsstr_answer jsstr_intern(jsstr_agent *agent, jsstr_id s);

/* The same of units that are in no string yet. Where the table has their string by then, nothing is used: no id,
   no word and no slot. Else an id, its words and a slot are; where another thread interns these units at that
   moment, id and words may be lost. */
jsstr_answer jsstr_intern_units(jsstr_agent *agent, const uint16_t *units, size_t len);

/* The same of the units that bytes spell. */
jsstr_answer jsstr_intern_bytes(jsstr_agent *agent, uint32_t encoding, const uint8_t *bytes, size_t len);

/* The same of many lists of units, in turn, which lie one behind another: number k ends before units[ends[k]], and
   ids[k] becomes its string. `done` is how many were interned: all of them, or those before the first
   that is refused, whose ids are written and stay so, and no others; the report is that one's. Condition: the ends
   never descend, the last one is at most len, no list has more than JSSTR_MAX_LENGTH units, count is at most room
   and below 2^32. */
jsstr_batch jsstr_intern_many(jsstr_agent *agent, const uint16_t *units, size_t len, const uint32_t *ends,
                              size_t count, jsstr_id *ids, size_t room);

/* The one string of the string table with these units, or NONE. It is known, settled and interned. Nothing is used,
   ever. While another thread interns these units, either may be the answer. */
jsstr_answer jsstr_find_units(jsstr_agent *agent, const uint16_t *units, size_t len);

/* The same of the units that bytes spell. */
jsstr_answer jsstr_find_bytes(jsstr_agent *agent, uint32_t encoding, const uint8_t *bytes, size_t len);

/* The slot of the string table that an interned string is in, for good. Nothing is used.
   Condition: s is interned (jsstr_is_interned). */
jsstr_number jsstr_slot_of(jsstr_agent *agent, jsstr_id s);

/* The interned string in a slot, known, settled and interned from then on; NONE where the slot was found free, which
   one that this agent knows to be used never is. Nothing is used. Condition: slot is below the heap's slots. */
jsstr_answer jsstr_adopt(jsstr_agent *agent, uint32_t slot);

/* In the heap of `to`, which may be that of `from`: a new string with the units of s, settled; and the one string
   of the string table there with them. Settles s: NO_WORDS may be of its own heap, with `to` unchanged; any other
   report is of `to`, which NO_MEMORY leaves unchanged. Condition: `to` isn't zero. */
jsstr_answer jsstr_copy_into(jsstr_agent *from, jsstr_id s, jsstr_agent *to);
jsstr_answer jsstr_intern_into(jsstr_agent *from, jsstr_id s, jsstr_agent *to);

/* Each appends to a text: units; the units that bytes spell; the units of s, which is
   settled first; the decimal digits of a number, with - before those of one below 0, as ToString has it of whole
   numbers below 2^53. Answers DONE; or, and then the text is what it was, NO_MEMORY, NOT_UTF8, TOO_LONG past
   JSSTR_MAX_LENGTH units or three times as many bytes of UTF-8 or WTF-8, of a string NO_WORDS or
   BAD_ARGUMENT, and BAD_ARGUMENT of no encoding. */
uint32_t jsstr_build_units(jsstr_builder *text, const uint16_t *units, size_t len);
jsstr_answer jsstr_build_bytes(jsstr_builder *text, uint32_t encoding, const uint8_t *bytes, size_t len);
uint32_t jsstr_build_string(jsstr_builder *text, jsstr_agent *agent, jsstr_id s);
uint32_t jsstr_build_number(jsstr_builder *text, int64_t number);

/* A new string with the units of a text, settled; and the one string of the string table with them. They answer and
   use what jsstr_from_units and jsstr_intern_units do. After DONE the text is empty, and keeps its memory for the
   next one; else it is what it was. */
jsstr_answer jsstr_built(jsstr_builder *text, jsstr_agent *agent);
jsstr_answer jsstr_built_interned(jsstr_builder *text, jsstr_agent *agent);

/* Frees the memory of a text; *text is zero afterwards. */
void jsstr_drop_builder(jsstr_builder *text);

/* Whether s is an interned string of this agent: one that a call above answered, to it or to an agent from which
   it knows its strings. Any number is allowed. */
jsstr_truth jsstr_is_interned(jsstr_agent *agent, jsstr_id s);

/* How full the heap is, while others run too: at least what this agent has seen before, and used. */
jsstr_room jsstr_room_of(jsstr_agent *agent);

/* How many different lists of units were interned. Condition: the agent has the whole share. */
jsstr_number jsstr_count_interned(jsstr_agent *agent);

#ifdef __cplusplus
}
#endif
#endif
