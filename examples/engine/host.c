/* Runs scripts on mujs, each in a state of its own: so many threads, each so many rounds over all files.

       host IDS,WORDS,SLOTS THREADS ROUNDS FILE..

   All rounds of all threads have to print the same, which goes to standard output once. The last line, on
   standard error, has the seconds, the greatest resident kilobytes, and what the heap of names used. */
#include "mujs.h"
#include "names.h"
#include <pthread.h>
#include <stdio.h>
#include <stdlib.h>
#include <string.h>
#include <time.h>

#define MOST_THREADS 16

typedef struct engine {
	names_seat *seat;
	int rounds, count;
	char **files;
	char *printed; /* of the first round */
	int differs;
} engine;

static void print(js_State *J)
{
	FILE *to = js_getcontext(J);
	int i, top = js_gettop(J);
	for (i = 1; i < top; ++i)
		fprintf(to, i > 1 ? " %s" : "%s", js_tostring(J, i));
	fputc('\n', to);
	js_pushundefined(J);
}

static void check(js_State *J)
{
	if (!js_toboolean(J, 1))
		js_error(J, "it doesn't hold: %s", js_tostring(J, 2));
	js_pushundefined(J);
}

static void report(js_State *J, const char *message)
{
	fprintf(js_getcontext(J), "uncaught: %s\n", message);
}

static void give(js_State *J, js_CFunction function, const char *name)
{
	js_newcfunction(J, function, name, 0);
	js_setglobal(J, name);
}

static void run_file(FILE *to, char *file)
{
	js_State *J = js_newstate(NULL, NULL, 0);
	if (!J) {
		fprintf(to, "no state\n");
		return;
	}
	js_setcontext(J, to);
	js_setreport(J, report);
	if (js_try(J)) {
		report(J, js_trystring(J, -1, "Error"));
		js_pop(J, 1);
	} else {
		give(J, print, "print");
		give(J, check, "assert");
		js_endtry(J);
		js_dofile(J, file);
	}
	js_freestate(J);
}

static void *run_all(void *at)
{
	engine *e = at;
	int round, i;
	names_sit(e->seat);
	for (round = 0; round < e->rounds; ++round) {
		char *printed = NULL;
		size_t size;
		FILE *to = open_memstream(&printed, &size);
		if (!to)
			exit(1);
		for (i = 0; i < e->count; ++i)
			run_file(to, e->files[i]);
		fclose(to);
		if (e->printed && strcmp(e->printed, printed)) {
			e->differs = 1;
			fprintf(stderr, "round %d differs:\n%s", round, printed);
		}
		if (e->printed)
			free(printed);
		else
			e->printed = printed;
	}
	return NULL;
}

static double seconds(void)
{
	struct timespec t;
	clock_gettime(CLOCK_MONOTONIC, &t);
	return t.tv_sec + t.tv_nsec / 1e9;
}

/* The greatest resident size in kilobytes, where the system reports it. */
static long kilobytes(void)
{
	FILE *from = fopen("/proc/self/status", "r");
	char line[256];
	long most = 0;
	while (from && fgets(line, sizeof line, from))
		sscanf(line, "VmHWM: %ld", &most);
	if (from)
		fclose(from);
	return most;
}

/* The threads run beside one another, each from a seat of its own. */
static int run_threads(names_seat *first, int count, engine *engines)
{
	pthread_t threads[MOST_THREADS];
	int i, differs = 0;
	for (i = 1; i < count; ++i)
		if (!(engines[i].seat = names_split(first)))
			return 1;
	for (i = 1; i < count; ++i)
		if (pthread_create(&threads[i], NULL, run_all, &engines[i]))
			return 1;
	run_all(&engines[0]);
	for (i = 1; i < count; ++i) {
		pthread_join(threads[i], NULL);
		names_join(first, engines[i].seat);
	}
	for (i = 0; i < count; ++i)
		differs |= engines[i].differs || strcmp(engines[0].printed, engines[i].printed);
	fputs(engines[0].printed, stdout);
	for (i = 0; i < count; ++i)
		free(engines[i].printed);
	return differs;
}

int main(int count, char **told)
{
	static engine engines[MOST_THREADS];
	unsigned ids, words, slots;
	int threads = count > 4 ? atoi(told[2]) : 0, i, failed;
	double began = seconds();
	names_use names;
	names_seat *seat;
	if (threads < 1 || threads > MOST_THREADS || sscanf(told[1], "%u,%u,%u", &ids, &words, &slots) != 3)
		return 2;
	seat = names_open(ids, words, slots, (uint32_t)threads);
	if (!seat)
		return 1;
	for (i = 0; i < threads; ++i)
		engines[i] = (engine){ .seat = seat, .rounds = atoi(told[3]), .count = count - 4, .files = told + 4 };
	failed = run_threads(seat, threads, engines);
	names = names_used(seat);
	fprintf(stderr, "%.3f %ld %u %u %u\n", seconds() - began, kilobytes(), names.ids, names.words, names.names);
	names_close(seat);
	return failed;
}
