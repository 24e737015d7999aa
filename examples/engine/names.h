/* The names of several engines, kept on one heap of strings. A seat is what an engine works from: an agent of
   the heap. It serves any number of states, one after another or at once, but one thread at a time. */
#ifndef NAMES_H
#define NAMES_H
#include <stdbool.h>
#include <stdint.h>

typedef struct js_StringNode names_seat;
typedef struct names_use { uint32_t ids, words, names; } names_use;

/* The first seat of a new heap for so many threads; null where there is no memory. */
names_seat *names_open(uint32_t ids, uint32_t words, uint32_t slots, uint32_t threads);

/* A seat for another thread, to be made before that thread starts; null where there is no memory. */
names_seat *names_split(names_seat *from);

/* The states that the calling thread makes from now on work from this seat. A thread without one has no states. */
void names_sit(names_seat *seat);

/* Joins a seat that was split off from this one. */
void names_join(names_seat *into, names_seat *seat);

/* What all seats have used; all others are joined. */
names_use names_used(names_seat *last);

/* Drops the heap and all names. No state is left, and no other seat. */
void names_close(names_seat *last);
#endif
