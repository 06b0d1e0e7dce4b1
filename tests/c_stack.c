/*
 * Tells how much stack each function of the C library takes: it is called on a stack of its own that was painted, with
 * texts, tables and events that lead it far. What a function reserves and never writes isn't seen.
 *
 * usage: c_stack TEXT.. prints lines such as 'kmap_start 24'
 */
#define _XOPEN_SOURCE 700
#define PRINTED (1 << 17)
#include "calls.h"
#include <stdio.h>
#include <string.h>
#include <ucontext.h>

static uint8_t stack[1 << 16], text[1 << 17];
static ucontext_t outside, inside;
static void (*called)(void);
static struct work work, *const w = &work;

static void call_nothing(void)
{
}

#define DEFINED(name, called) static void call_##name(void) { (void)(called); }
#define NUMBER(name, called) AT_##name,
#define ROW(name, called) { "kmap_" #name, call_##name, 0 },

KEYMAP_CALLS(DEFINED)
NUMBER_CALLS(DEFINED)

enum { KEYMAP_CALLS(NUMBER) NUMBER_CALLS(NUMBER) CALLS };

/* The calls, and the most that each took so far. */
static struct {
	const char *name;
	void (*call)(void);
	size_t most;
} calls[CALLS] = { KEYMAP_CALLS(ROW) NUMBER_CALLS(ROW) };

static void run_called(void)
{
	called();
}

/* How much of the stack below its start a call writes. It was made before, so that the linker has nothing to do. */
static size_t written_by(void (*call)(void))
{
	size_t unwritten = 0;

	call();
	called = call;
	memset(stack, 0x5a, sizeof stack);
	getcontext(&inside);
	inside.uc_stack.ss_sp = stack;
	inside.uc_stack.ss_size = sizeof stack;
	inside.uc_link = &outside;
	makecontext(&inside, run_called, 0);
	swapcontext(&outside, &inside);
	while (unwritten < sizeof stack && stack[unwritten] == 0x5a)
		unwritten++;
	return sizeof stack - unwritten;
}

/* A call's stack, with its arguments there and the return address: what it takes more than a call of nothing. */
static void measure(unsigned number)
{
	size_t took = written_by(calls[number].call) - written_by(call_nothing);

	if (took > calls[number].most)
		calls[number].most = took;
}

/* All that is done with the tables of a text. */
static void measure_keymap(void)
{
	unsigned number;

	measure(AT_check);
	measure(AT_accepts);
	measure(AT_narrow);
	measure(AT_widen);
	measure(AT_check_narrow);
	for (w->room = 0; w->room <= PRINTED; w->room += PRINTED)
		measure(AT_print_text);
	for (w->number = 0; w->number < 258; w->number++) {
		for (number = AT_bearer; number < CALLS; number++)
			measure(number);
	}
	measure(AT_deliver);
	measure(AT_modifiers);
	measure(AT_locks);
	measure(AT_pending);
}

int main(int argc, char **argv)
{
	static const struct kmap_finding longest = { 0x10ffff, 127, 8, 255, 7, 255, 7 };
	FILE *file;
	size_t whole;
	int i;

	for (i = 0; i < 258; i++)
		w->events[i] = (uint16_t)i;
	w->text = text;
	w->tables = w->made.bytes;
	w->finding = longest;
	measure(AT_finding_words);
	measure(AT_start);
	for (i = 1; i < argc; i++) {
		if ((file = fopen(argv[i], "rb")) == NULL)
			return 2;
		whole = fread(text, 1, sizeof text, file);
		fclose(file);
		w->length = whole;
		kmap_start(&w->console);
		measure(AT_read_text);
		measure_keymap();
		/* a text that ends early has a fault at most places, and a byte that is changed makes others */
		for (; w->length > whole - whole / 8; w->length--) {
			text[w->length - 1] ^= (uint8_t)(w->length % 5 * 3);
			measure(AT_read_text);
		}
		w->made.bytes[KMAP_TABLES_SIZE - 1] = 1;
		w->narrow.bytes[KMAP_NARROW_SIZE - 1] = 1;
		measure(AT_narrow);
		measure(AT_widen);
		measure(AT_check_narrow);
		w->narrow.bytes[KMAP_NARROW_SIZE - 1] = 0;
		measure(AT_check);
		measure(AT_accepts);
	}
	for (i = 0; i < CALLS; i++)
		printf("%s %lu\n", calls[i].name, (unsigned long)calls[i].most);
	return 0;
}
