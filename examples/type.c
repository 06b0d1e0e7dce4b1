/*
 * Types on a console over the tables of a keymap: reads the numbers of events from standard input, and writes in UTF-8
 * the characters that the presses give, after ESC where meta is on.
 *
 * kmap compile us.kbd us.tables
 * cc type.c $(pkg-config --cflags --libs kmap) -o type
 * ./type us.tables < line.numbers
 */
#include <kmap.h>
#include <stdio.h>
#include <stdlib.h>
#include <string.h>

/* One byte more than a file has shows a file that is too long. */
static uint8_t tables[KMAP_TABLES_SIZE + 1];

static void put_utf8(uint32_t c)
{
	if (c < 0x80) {
		putchar((int)c);
	} else if (c < 0x800) {
		putchar((int)(0xc0 | (c >> 6)));
		putchar((int)(0x80 | (c & 0x3f)));
	} else if (c < 0x10000) {
		putchar((int)(0xe0 | (c >> 12)));
		putchar((int)(0x80 | ((c >> 6) & 0x3f)));
		putchar((int)(0x80 | (c & 0x3f)));
	} else {
		putchar((int)(0xf0 | (c >> 18)));
		putchar((int)(0x80 | ((c >> 12) & 0x3f)));
		putchar((int)(0x80 | ((c >> 6) & 0x3f)));
		putchar((int)(0x80 | (c & 0x3f)));
	}
}

static void put_answer(uint32_t answer)
{
	if (KMAP_IS_CHAR(answer)) {
		if (answer & KMAP_MKEY)
			putchar(0x1b);
		put_utf8(KMAP_CHAR(answer));
	} else if ((answer & (KMAP_SPCLKEY | KMAP_BKEY)) == (KMAP_SPCLKEY | KMAP_BKEY)) {
		fputs("\033[Z", stdout);
	}
}

/* Reads the next event, by its number: 1, or 0 where there is none, or -1 after a line that tells what stands there. */
static int next_event(uint16_t *event)
{
	char word[32];
	unsigned long number;

	if (scanf("%31s", word) != 1)
		return 0;
	if (word[strspn(word, "0123456789")] != '\0') {
		fprintf(stderr, "type: no number: %s\n", word);
		return -1;
	}
	number = strtoul(word, NULL, 10);
	if (number > KMAP_LOAD) {
		fprintf(stderr, "type: no event: %s\n", word);
		return -1;
	}
	*event = (uint16_t)number;
	return 1;
}

/* Reads a file of tables and checks it: its length, or 0 after a line that tells what is wrong with it. */
static size_t read_tables(const char *name)
{
	char words[KMAP_WORDS_SIZE];
	struct kmap_fault fault;
	size_t length;
	FILE *file = fopen(name, "rb");

	if (file == NULL) {
		fprintf(stderr, "type: %s: cannot be opened\n", name);
		return 0;
	}
	length = fread(tables, 1, sizeof tables, file);
	fclose(file);
	if (kmap_check(tables, length, &fault) != KMAP_OK) {
		kmap_fault_words(fault.kind, words, sizeof words);
		fprintf(stderr, "type: %s: offset %lu: %s\n", name, (unsigned long)fault.offset, words);
		return 0;
	}
	return length;
}

int main(int argc, char **argv)
{
	struct kmap_console console;
	uint32_t answer;
	uint16_t event;
	size_t length;
	int more;

	if (argc != 2) {
		fputs("usage: type TABLES < NUMBERS\n", stderr);
		return 2;
	}
	if ((length = read_tables(argv[1])) == 0)
		return 1;
	kmap_start(&console);
	while ((more = next_event(&event)) > 0) {
		if (kmap_step(tables, length, &console, event, &answer) == KMAP_OK)
			put_answer(answer);
	}
	if (fflush(stdout) != 0 || ferror(stdout)) {
		fputs("type: cannot write\n", stderr);
		return 1;
	}
	return more == 0 ? 0 : 1;
}
