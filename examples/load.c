/*
 * Does what a console's loader does: reads a keymap text, refuses one with a fault, whose place it prints, and one that
 * isn't safe, whose first such key it prints, and types what the events on standard input, by their numbers, give.
 *
 * cc load.c $(pkg-config --cflags --libs kmap) -o load
 * ./load us.kbd < line.numbers
 */
#include <kmap.h>
#include <stdio.h>
#include <stdlib.h>
#include <string.h>

/* The limit of a text that kmap reads; the library has none. */
#define TEXT_LIMIT 1048576

static uint8_t text[TEXT_LIMIT + 1];
static struct kmap_tables tables;

/* Reads the text and checks it: 0, or 1 after a line that tells why the keymap is refused. */
static int load(const char *name, size_t length)
{
	char words[KMAP_WORDS_SIZE];
	struct kmap_text_fault fault;
	struct kmap_finding finding;

	if (kmap_read_text(text, length, &tables, &fault) != KMAP_OK) {
		kmap_text_fault_words(fault.kind, words, sizeof words);
		fprintf(stderr, "load: %s: line %lu, offset %lu: %s\n", name, (unsigned long)fault.line,
		    (unsigned long)fault.offset, words);
		return 1;
	}
	if (kmap_accepts(tables.bytes, sizeof tables.bytes, &finding) != KMAP_OK) {
		kmap_finding_words(&finding, words, sizeof words);
		fprintf(stderr, "load: %s: not safe: %s\n", name, words);
		return 1;
	}
	return 0;
}

static void put_utf8(uint32_t c)
{
	if (c < 0x80) {
		putchar((int)c);
	} else if (c < 0x800) {
		putchar((int)(0xc0 | (c >> 6)));
		putchar((int)(0x80 | (c & 0x3f)));
	} else if (c < 0x10000) {
		putchar((int)(0xe0 | (c >> 12)));
		putchar((int)(0x80 | ((c >> 6) & 0x3f)));
		putchar((int)(0x80 | (c & 0x3f)));
	} else {
		putchar((int)(0xf0 | (c >> 18)));
		putchar((int)(0x80 | ((c >> 12) & 0x3f)));
		putchar((int)(0x80 | ((c >> 6) & 0x3f)));
		putchar((int)(0x80 | (c & 0x3f)));
	}
}

/* A character comes behind ESC where meta is on, and the back tab is a sequence, as the console sends them. */
static void put_answer(uint32_t answer)
{
	if (KMAP_IS_CHAR(answer)) {
		if (answer & KMAP_MKEY)
			putchar(0x1b);
		put_utf8(KMAP_CHAR(answer));
	} else if ((answer & (KMAP_SPCLKEY | KMAP_BKEY)) == (KMAP_SPCLKEY | KMAP_BKEY)) {
		fputs("\033[Z", stdout);
	}
}

/* Reads the next event, by its number: 1, or 0 where there is none, or -1 after a line that tells what stands there. */
static int next_event(uint16_t *event)
{
	char word[32];
	unsigned long number;

	if (scanf("%31s", word) != 1)
		return 0;
	if (word[strspn(word, "0123456789")] != '\0') {
		fprintf(stderr, "load: no number: %s\n", word);
		return -1;
	}
	number = strtoul(word, NULL, 10);
	if (number > KMAP_LOAD) {
		fprintf(stderr, "load: no event: %s\n", word);
		return -1;
	}
	*event = (uint16_t)number;
	return 1;
}

int main(int argc, char **argv)
{
	struct kmap_console console;
	uint32_t answer;
	uint16_t event;
	size_t length;
	FILE *file;
	int more;

	if (argc != 2) {
		fputs("usage: load TEXT < NUMBERS\n", stderr);
		return 2;
	}
	if ((file = fopen(argv[1], "rb")) == NULL) {
		fprintf(stderr, "load: %s: cannot be opened\n", argv[1]);
		return 1;
	}
	length = fread(text, 1, sizeof text, file);
	if (ferror(file) || length > TEXT_LIMIT) {
		fprintf(stderr, "load: %s: cannot be read\n", argv[1]);
		return 1;
	}
	fclose(file);
	if (load(argv[1], length) != 0)
		return 1;
	kmap_start(&console);
	while ((more = next_event(&event)) > 0) {
		if (kmap_step(tables.bytes, sizeof tables.bytes, &console, event, &answer) == KMAP_OK)
			put_answer(answer);
	}
	if (fflush(stdout) != 0 || ferror(stdout)) {
		fputs("load: cannot write\n", stderr);
		return 1;
	}
	return more == 0 ? 0 : 1;
}
