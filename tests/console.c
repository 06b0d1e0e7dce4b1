/*
 * A console to be tested: reads a keymap text, then events on standard input in a form of `kmap type --as`, and writes
 * what they type. With FAULT it has one mistake.
 *
 * usage: console FORM TEXT [FAULT]
 * FORM is script or set1, which is bytes. FAULT is drops-release, forgets-caps, ignores-alt, nop-drops-accent, tires or
 * stops.
 */
#include <kmap.h>
#include <stdio.h>
#include <stdlib.h>
#include <string.h>

#define TEXT_LIMIT 1048576

static uint8_t text[TEXT_LIMIT + 1];
static struct kmap_tables tables;
static struct kmap_console console;
static const char *fault = "";

static int has(const char *name)
{
	return strcmp(fault, name) == 0;
}

static void put_utf8(uint32_t c)
{
	if (c < 0x80) {
		putchar((int)c);
	} else if (c < 0x800) {
		putchar((int)(0xc0 | (c >> 6)));
		putchar((int)(0x80 | (c & 0x3f)));
	} else if (c < 0x10000) {
		putchar((int)(0xe0 | (c >> 12)));
		putchar((int)(0x80 | ((c >> 6) & 0x3f)));
		putchar((int)(0x80 | (c & 0x3f)));
	} else {
		putchar((int)(0xf0 | (c >> 18)));
		putchar((int)(0x80 | ((c >> 12) & 0x3f)));
		putchar((int)(0x80 | ((c >> 6) & 0x3f)));
		putchar((int)(0x80 | (c & 0x3f)));
	}
}

static void put_answer(uint32_t answer)
{
	if (KMAP_IS_CHAR(answer)) {
		if (answer & KMAP_MKEY)
			putchar(0x1b);
		put_utf8(KMAP_CHAR(answer));
	} else if ((answer & (KMAP_SPCLKEY | KMAP_BKEY)) == (KMAP_SPCLKEY | KMAP_BKEY)) {
		fputs("\033[Z", stdout);
	}
}

static uint32_t step(uint16_t event)
{
	uint32_t answer = KMAP_NOKEY;

	kmap_step(tables.bytes, sizeof tables.bytes, &console, event, &answer);
	return answer;
}

/* Delivers an event as a right console does, but for the mistake. */
static void deliver(uint16_t event)
{
	static int down[128], presses;
	struct kmap_console before = console;
	uint32_t answer;

	if (event > 255 || (has("stops") && event == KMAP_PRESS(15)))
		exit(event > 255 ? 1 : 3);
	down[event % 128] = event < 128;
	presses += event < 128;
	/* the release of the one shift key is lost while the other one is down */
	if (has("drops-release") && event == KMAP_RELEASE(42) && down[54])
		return;
	if (has("ignores-alt") && (event % 128 == 56 || event % 128 == 93))
		return;
	answer = step(event);
	if (has("tires") && presses >= 8 && KMAP_IS_CHAR(answer))
		answer = '.';
	put_answer(answer);
	/* the lock is on while its key is down alone */
	if (has("forgets-caps") && event == KMAP_RELEASE(58) && (kmap_locks(&console) & KMAP_CLOCK)) {
		step(KMAP_PRESS(58));
		step(KMAP_RELEASE(58));
	}
	/* a press that gives nothing ends an accent: it is composed with a blank, which isn't typed */
	if (has("nop-drops-accent") && event < 128 && answer == KMAP_NOKEY && kmap_pending(&console) >= 0
	    && kmap_pending(&before) >= 0) {
		step(KMAP_PRESS(57));
		step(KMAP_RELEASE(57));
	}
}

/* The keys behind e0, by their byte there: AT keyboards, and so the codes of keys from 89 on. */
static uint8_t key_behind_e0(int byte)
{
	static const uint8_t bytes[] = { 0x1c, 0x1d, 0x35, 0x37, 0x38, 0x47, 0x48, 0x49, 0x4b, 0x4d, 0x4f, 0x50, 0x51,
		0x52, 0x53, 0x5b, 0x5c, 0x5d };
	static const uint8_t keys[] = { 89, 90, 91, 92, 93, 94, 95, 96, 97, 98, 99, 100, 101, 102, 103, 105, 106, 107 };
	size_t i;

	for (i = 0; i < sizeof bytes; i++)
		if (bytes[i] == byte)
			return keys[i];
	return 0xff;
}

/* The event that a byte of a keyboard ends, or KMAP_NO_EVENT within one, and for what stands about Print Screen. */
static uint16_t event_of_byte(int byte)
{
	static int behind, pause;
	int was = behind;
	uint8_t key;

	behind = byte == 0xe0 || byte == 0xe1 ? byte : 0;
	if (behind != 0)
		return KMAP_NO_EVENT;
	if (was == 0xe1 || pause > 0) {
		/* e1 1d 45 and e1 9d c5 */
		pause = was == 0xe1;
		return pause ? KMAP_NO_EVENT : byte < 0x80 ? KMAP_PRESS(104) : KMAP_RELEASE(104);
	}
	key = was == 0xe0 ? key_behind_e0(byte & 0x7f) : (uint8_t)(byte & 0x7f);
	return byte < 0x80 ? KMAP_PRESS(key) : KMAP_RELEASE(key);
}

static void read_script(void)
{
	char word[8];
	unsigned key;

	while (scanf("%7s %u", word, &key) == 2)
		deliver(word[0] == 'u' ? KMAP_RELEASE(key) : KMAP_PRESS(key));
}

static void read_set1(void)
{
	uint16_t event;
	int byte;

	while ((byte = getchar()) != EOF) {
		if (byte == 0) {
			kmap_start(&console);
			fputs("ready", stdout);
		} else if ((event = event_of_byte(byte)) != KMAP_NO_EVENT) {
			deliver(event);
		}
		fflush(stdout);
	}
}

int main(int argc, char **argv)
{
	struct kmap_text_fault told;
	FILE *file = argc > 2 ? fopen(argv[2], "rb") : NULL;

	if (file == NULL || kmap_read_text(text, fread(text, 1, sizeof text, file), &tables, &told) != KMAP_OK) {
		fputs("usage: console FORM TEXT [FAULT]\n", stderr);
		return 2;
	}
	if (argc > 3)
		fault = argv[3];
	kmap_start(&console);
	if (strcmp(argv[1], "set1") == 0)
		read_set1();
	else
		read_script();
	return 0;
}
