/* names.h where the engine keeps its own table of names, as it comes: each state has one, and drops it. */
#include "names.h"
#include <stddef.h>

static char none;

names_seat *names_open(uint32_t ids, uint32_t words, uint32_t slots, uint32_t threads)
{
	(void)ids, (void)words, (void)slots, (void)threads;
	return (names_seat *)&none;
}

names_seat *names_split(names_seat *from) { return from; }
void names_sit(names_seat *seat) { (void)seat; }
void names_join(names_seat *into, names_seat *seat) { (void)into, (void)seat; }
void names_close(names_seat *last) { (void)last; }

names_use names_used(names_seat *last)
{
	(void)last;
	return (names_use){ 0, 0, 0 };
}
