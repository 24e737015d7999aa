/* The table of names of mujs on a heap of strings. The tool try-mujs puts this file in the place of the table
   that the engine's jsintern.c has: it is compiled behind the first part of that file, which stays.

   js_intern(J, s) answers one pointer for each name. Here a name is the interned string with its units, so it
   has one number on the heap, whoever asks, and its bytes are kept once for all seats, by that number. */
#include "jsstr.h"
#include "names.h"
#include <stdatomic.h>
#include <stdlib.h>
#include <string.h>

/* What all seats share: the bytes of each name, by its number. The first seat that is answered a number puts
   them there, and they stay. */
typedef struct names_heap {
	uint32_t ids;
	_Atomic(char *) bytes[];
} names_heap;

/* A seat. Each call of the heap reads the agent, so a seat begins a cache line, beside nothing that others write. */
struct js_StringNode {
	jsstr_agent agent;
	names_heap *heap;
};

static _Thread_local names_seat *seated;

/* ---- The heap */

/* Bytes that are no UTF-8, as an unpaired surrogate of a script: an unpaired surrogate, which no text in
   UTF-8 has, and then a unit for each byte. */
static jsstr_answer intern_odd_bytes(jsstr_agent *agent, const uint8_t *bytes, size_t count)
{
	uint16_t *units = malloc((count + 1) * sizeof *units);
	jsstr_answer name = { .status = JSSTR_NO_MEMORY };
	size_t i;
	if (!units)
		return name;
	units[0] = 0xD800;
	for (i = 0; i < count; ++i)
		units[i + 1] = bytes[i];
	name = jsstr_intern_units(agent, units, count + 1);
	free(units);
	return name;
}

/* The interned string of a name. Where it is there already, nothing is used. */
static jsstr_answer intern_bytes(jsstr_agent *agent, const uint8_t *bytes, size_t count)
{
	jsstr_answer name = jsstr_intern_bytes(agent, JSSTR_UTF8, bytes, count);
	return name.status == JSSTR_NOT_UTF8 ? intern_odd_bytes(agent, bytes, count) : name;
}

/* The kept bytes of the name with this number; null where there is no memory. */
static const char *bytes_of(names_heap *heap, jsstr_id number, const char *name, size_t count)
{
	char *kept = atomic_load(&heap->bytes[number]);
	char *mine;
	if (kept)
		return kept;
	mine = malloc(count + 1);
	if (!mine)
		return NULL;
	memcpy(mine, name, count + 1);
	if (atomic_compare_exchange_strong(&heap->bytes[number], &kept, mine))
		return mine;
	free(mine);
	return kept;
}

/* ---- What the engine calls */

/* An error that needs no further name. */
static void refuse(js_State *J, uint32_t status)
{
	js_pushliteral(J, jsstr_status_name(status));
	js_throw(J);
}

const char *js_intern(js_State *J, const char *s)
{
	names_seat *seat = J->strings ? J->strings : (J->strings = seated);
	size_t count = strlen(s);
	jsstr_answer answer;
	const char *name;
	if (!seat)
		refuse(J, JSSTR_BAD_ARGUMENT); /* the thread doesn't sit */
	if (count > JS_STRLIMIT)
		js_rangeerror(J, "invalid string length");
	answer = intern_bytes(&seat->agent, (const uint8_t *)s, count);
	if (answer.status != JSSTR_DONE)
		refuse(J, answer.status);
	name = bytes_of(seat->heap, answer.id, s, count);
	if (!name)
		refuse(J, JSSTR_NO_MEMORY);
	return name;
}

void jsS_dumpstrings(js_State *J)
{
	names_heap *heap = J->strings ? J->strings->heap : NULL;
	uint32_t id;
	printf("interned strings {\n");
	for (id = 0; heap && id < heap->ids; ++id) {
		const char *name = atomic_load(&heap->bytes[id]);
		if (name)
			printf("'%s'\n", name);
	}
	printf("}\n");
}

/* The names stay for the states that come. */
void jsS_freestrings(js_State *J)
{
	J->strings = NULL;
}

/* ---- What a host calls */

static names_seat *new_seat(names_heap *heap)
{
	names_seat *seat = aligned_alloc(64, (sizeof *seat + 63) / 64 * 64);
	if (seat)
		*seat = (names_seat){ .heap = heap };
	return seat;
}

names_seat *names_open(uint32_t ids, uint32_t words, uint32_t slots, uint32_t threads)
{
	jsstr_size size = { ids, words, slots };
	names_heap *heap = calloc(1, sizeof *heap + ids * sizeof *heap->bytes);
	names_seat *seat = heap ? new_seat(heap) : NULL;
	if (seat) {
		heap->ids = ids;
		if (jsstr_make(size, threads, JSSTR_MAX_LENGTH, &seat->agent) == JSSTR_DONE)
			return seat;
		free(seat);
	}
	free(heap);
	return NULL;
}

names_seat *names_split(names_seat *from)
{
	names_seat *seat = new_seat(from->heap);
	if (!seat || jsstr_split(&from->agent, 1, &seat->agent) == JSSTR_DONE)
		return seat;
	free(seat);
	return NULL;
}

void names_sit(names_seat *seat)
{
	seated = seat;
}

void names_join(names_seat *into, names_seat *seat)
{
	if (jsstr_join(&into->agent, &seat->agent) != JSSTR_DONE)
		abort(); /* it isn't one that was split off from this one */
	free(seat);
}

names_use names_used(names_seat *last)
{
	jsstr_room used = jsstr_room_of(&last->agent);
	return (names_use){ used.ids, used.words, jsstr_count_interned(&last->agent).value };
}

void names_close(names_seat *last)
{
	names_heap *heap = last->heap;
	uint32_t i;
	jsstr_free(&last->agent);
	for (i = 0; i < heap->ids; ++i)
		free(atomic_load(&heap->bytes[i]));
	free(heap);
	free(last);
}
