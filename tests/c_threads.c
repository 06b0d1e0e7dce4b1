/*
 * Makes all calls of the C library at once, in threads and in a handler of signals that interrupts them, over one text
 * and one table: each answers what it answers alone. What a call writes is its thread's own.
 *
 * usage: c_threads TEXT ROUNDS INTERRUPTS, with how often each thread makes all calls and how often one interrupts them
 */
#define _XOPEN_SOURCE 700
#define PRINTED (1 << 15)
#include "calls.h"
#include <pthread.h>
#include <signal.h>
#include <stdio.h>
#include <stdlib.h>
#include <string.h>
#include <sys/time.h>

#define THREADS 4

/* What all of them read. */
static uint8_t text[1 << 16];
static struct kmap_tables shared;
static uint32_t wanted;
static int rounds, interrupts;

/* What one of them writes, and the sum of its answers. */
struct maker {
	struct work work;
	uint32_t sum;
	unsigned wrong;
};

static struct maker makers[THREADS], interrupted, handler;
static volatile sig_atomic_t signals;

static void add(struct maker *maker, const void *bytes, size_t size)
{
	const uint8_t *byte = bytes;

	while (size-- > 0)
		maker->sum = (maker->sum ^ *byte++) * 16777619;
}

static void add_status(struct maker *maker, int32_t status)
{
	add(maker, &status, sizeof status);
	add(maker, maker->work.words, sizeof maker->work.words);
}

/* Makes all calls, and notes whether one answers otherwise than alone. */
static void make_calls(struct maker *maker)
{
	struct work *w = &maker->work;

	maker->sum = 2166136261u;
	memset(w->words, 0, sizeof w->words);
#define ADD(name, called) add_status(maker, called);
	KEYMAP_CALLS(ADD)
	add(maker, w->made.bytes, sizeof w->made.bytes);
	add(maker, w->printed, w->size);
	add(maker, w->answers, sizeof w->answers);
	for (w->number = 0; w->number < 258; w->number++) {
		NUMBER_CALLS(ADD)
		add(maker, &w->borne, sizeof w->borne);
		add(maker, &w->cell, sizeof w->cell);
		add(maker, &w->answer, sizeof w->answer);
	}
	maker->wrong += maker->sum != wanted;
}

static void *run(void *maker)
{
	int round;

	for (round = 0; round < rounds; round++)
		make_calls(maker);
	return NULL;
}

static void interrupt(int signal)
{
	(void)signal;
	make_calls(&handler);
	signals = signals + 1;
}

static unsigned wrong_in_threads(void)
{
	pthread_t threads[THREADS];
	unsigned i, wrong = 0;

	for (i = 0; i < THREADS; i++) {
		if (pthread_create(&threads[i], NULL, run, &makers[i]) != 0)
			return 1;
	}
	for (i = 0; i < THREADS; i++) {
		pthread_join(threads[i], NULL);
		wrong += makers[i].wrong;
	}
	return wrong;
}

/* Each signal is asked for behind the one before, so calls that take longer than the time between two are made too. */
static unsigned wrong_in_interrupts(void)
{
	static const struct itimerval once = { { 0, 0 }, { 0, 2000 } };
	struct sigaction action;
	int asked = -1;

	memset(&action, 0, sizeof action);
	action.sa_handler = interrupt;
	sigaction(SIGALRM, &action, NULL);
	while (signals < interrupts) {
		if (asked < signals) {
			asked = signals;
			setitimer(ITIMER_REAL, &once, NULL);
		}
		make_calls(&interrupted);
	}
	return interrupted.wrong + handler.wrong;
}

/* All make the same calls. */
static void prepare(struct maker *maker, size_t length)
{
	struct work *w = &maker->work;
	uint32_t number = 1;
	size_t i;

	w->text = text;
	w->length = length;
	w->tables = shared.bytes;
	w->room = sizeof w->printed;
	for (i = 0; i < 258; i++) {
		number = number * 1664525 + 1013904223;
		w->events[i] = (uint16_t)((number >> 16) % 258);
	}
}

int main(int argc, char **argv)
{
	struct kmap_text_fault fault;
	size_t i, length;
	unsigned wrong;
	FILE *file;

	if (argc != 4 || (file = fopen(argv[1], "rb")) == NULL)
		return 2;
	rounds = atoi(argv[2]);
	interrupts = atoi(argv[3]);
	length = fread(text, 1, sizeof text, file);
	fclose(file);
	if (kmap_read_text(text, length, &shared, &fault) != KMAP_OK)
		return 2;
	for (i = 0; i < THREADS; i++)
		prepare(&makers[i], length);
	prepare(&interrupted, length);
	prepare(&handler, length);
	make_calls(&interrupted);
	wanted = interrupted.sum;
	interrupted.wrong = 0;
	wrong = wrong_in_threads();
	printf("%u wrong in threads, ", wrong);
	wrong = wrong_in_interrupts();
	printf("%u wrong in interrupts\n", wrong);
	return 0;
}
