/*
 * Feeds a console from a keyboard of Linux or FreeBSD: reads a keymap text, and on standard input the events of an input
 * device of evdev, recorded ones too, and types what the presses give.
 *
 * cc live.c $(pkg-config --cflags --libs kmap) -o live
 * ./live us.kbd < /dev/input/event3
 */
#ifdef __FreeBSD__
#include <dev/evdev/input.h>
#else
#include <linux/input.h>
#endif
#include <kmap.h>
#include <stdio.h>

/* The limit of a text that kmap reads; the library has none. */
#define TEXT_LIMIT 1048576

static uint8_t text[TEXT_LIMIT + 1];
static struct kmap_tables tables;

/* Reads the text and checks it: 0, or 1 after a line that tells why there is no keymap. */
static int load(const char *name)
{
	char words[KMAP_WORDS_SIZE];
	struct kmap_text_fault fault;
	struct kmap_finding finding;
	FILE *file = fopen(name, "rb");
	size_t length;

	if (file == NULL) {
		fprintf(stderr, "live: %s: cannot be opened\n", name);
		return 1;
	}
	length = fread(text, 1, sizeof text, file);
	if (ferror(file) || length > TEXT_LIMIT) {
		fprintf(stderr, "live: %s: cannot be read\n", name);
		return 1;
	}
	fclose(file);
	if (kmap_read_text(text, length, &tables, &fault) != KMAP_OK) {
		kmap_text_fault_words(fault.kind, words, sizeof words);
		fprintf(stderr, "live: %s: line %lu, offset %lu: %s\n", name, (unsigned long)fault.line,
		    (unsigned long)fault.offset, words);
		return 1;
	}
	if (kmap_accepts(tables.bytes, sizeof tables.bytes, &finding) != KMAP_OK) {
		kmap_finding_words(&finding, words, sizeof words);
		fprintf(stderr, "live: %s: not safe: %s\n", name, words);
		return 1;
	}
	return 0;
}

static void put_utf8(uint32_t c)
{
	if (c < 0x80) {
		putchar((int)c);
	} else if (c < 0x800) {
		putchar((int)(0xc0 | (c >> 6)));
		putchar((int)(0x80 | (c & 0x3f)));
	} else if (c < 0x10000) {
		putchar((int)(0xe0 | (c >> 12)));
		putchar((int)(0x80 | ((c >> 6) & 0x3f)));
		putchar((int)(0x80 | (c & 0x3f)));
	} else {
		putchar((int)(0xf0 | (c >> 18)));
		putchar((int)(0x80 | ((c >> 12) & 0x3f)));
		putchar((int)(0x80 | ((c >> 6) & 0x3f)));
		putchar((int)(0x80 | (c & 0x3f)));
	}
}

static void put_answer(uint32_t answer)
{
	if (KMAP_IS_CHAR(answer)) {
		if (answer & KMAP_MKEY)
			putchar(0x1b);
		put_utf8(KMAP_CHAR(answer));
	} else if ((answer & (KMAP_SPCLKEY | KMAP_BKEY)) == (KMAP_SPCLKEY | KMAP_BKEY)) {
		fputs("\033[Z", stdout);
	}
}

/*
 * The event of the console: a release, or a press or its repeat, of a key that the console has. What a device lost is
 * lost to the console too, which is told so by a reset.
 */
static uint16_t event_of(const struct input_event *input)
{
	if (input->type == EV_SYN && input->code == SYN_DROPPED)
		return KMAP_RESET;
	if (input->type != EV_KEY)
		return KMAP_NO_EVENT;
	return input->value == 0 ? KMAP_RELEASE(kmap_key_of_evdev(input->code))
	    : KMAP_PRESS(kmap_key_of_evdev(input->code));
}

int main(int argc, char **argv)
{
	struct kmap_console console;
	struct input_event input;
	uint32_t answer;

	if (argc != 2) {
		fputs("usage: live TEXT < DEVICE\n", stderr);
		return 2;
	}
	if (load(argv[1]) != 0)
		return 1;
	setvbuf(stdout, NULL, _IONBF, 0);
	kmap_start(&console);
	while (fread(&input, sizeof input, 1, stdin) == 1) {
		if (kmap_step(tables.bytes, sizeof tables.bytes, &console, event_of(&input), &answer) == KMAP_OK)
			put_answer(answer);
	}
	if (ferror(stdin)) {
		fputs("live: cannot read\n", stderr);
		return 1;
	}
	return 0;
}
