/*
 * Types on a console by kmap_step: the rounds of the crate tests, in C, of which `make bench` counts what an event costs.
 *
 * usage: steps ROUNDS
 */
#include <kmap.h>
#include <stdio.h>
#include <stdlib.h>

/* A letter, a shift, a lock and a dead key with its accent. */
static const char text[] = "026 dacu dacu dacu dacu dacu dacu dacu dacu O\n"
    "030 'a' 'A' nop nop 'a' 'A' nop nop C\n"
    "042 lshift lshift lshift lshift lshift lshift lshift lshift O\n"
    "058 clock clock clock clock clock clock clock clock O\n"
    "dacu 180 ( 'a' 0xe1 )\n";

/* A letter, and a letter under shift and after a dead key. */
static const uint16_t events[] = { KMAP_PRESS(30), KMAP_RELEASE(30), KMAP_PRESS(42), KMAP_PRESS(30), KMAP_RELEASE(30),
	KMAP_RELEASE(42), KMAP_PRESS(26), KMAP_RELEASE(26) };

int main(int argc, char **argv)
{
	static struct kmap_tables tables;
	struct kmap_text_fault fault;
	struct kmap_console console;
	uint32_t answer, sum = 0;
	long round, rounds = argc > 1 ? atol(argv[1]) : 0;
	size_t i;

	if (kmap_read_text((const uint8_t *)text, sizeof text - 1, &tables, &fault) != KMAP_OK)
		return 1;
	kmap_start(&console);
	for (round = 0; round < rounds; round++) {
		for (i = 0; i < sizeof events / sizeof events[0]; i++) {
			if (kmap_step(tables.bytes, sizeof tables.bytes, &console, events[i], &answer) != KMAP_OK)
				return 1;
			sum += answer;
		}
	}
	printf("%lu\n", (unsigned long)sum);
	return 0;
}
