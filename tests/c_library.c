/*
 * Calls each function of the C library, and compares what it answers: events over the tables of examples/us.kbd, each
 * status, each kind of a fault, a finding in each place, who bears what, null pointers to nothing, and noise. What is
 * wanted was put together by hand from keymap(5), docs/FORMATS.md, sys/kbio.h and sys/dev/kbd/kbdreg.h.
 *
 * usage: c_library US.KBD
 */
#include <kmap.h>
#include <stdio.h>
#include <string.h>

#define NOPS7 "nop nop nop nop nop nop nop"

/* Those of the keymap, and those that other texts spell; each with its length. */
static struct kmap_tables us, made, before;
#define US us.bytes, sizeof us.bytes
#define MADE made.bytes, sizeof made.bytes
#define NARROW narrow.bytes, sizeof narrow.bytes

static unsigned passed, failed;

static void holds(const char *name, int is)
{
	if (is) {
		passed++;
	} else {
		failed++;
		printf("failed: %s\n", name);
	}
}

static int32_t read_text(const char *text, struct kmap_text_fault *fault)
{
	return kmap_read_text((const uint8_t *)text, strlen(text), &made, fault);
}

/* An event with its answer and what is on after it. */
struct step {
	uint16_t event;
	uint32_t answer;
	uint8_t modifiers, locks;
	int32_t pending;
};

/* Left shift is code 2, caps lock 4, left alt 7, left control 9, f25 51 and dgra 137. */
static const struct step steps[] = {
	{ KMAP_PRESS(30), 'a', 0, 0, -1 },
	{ KMAP_RELEASE(30), KMAP_NOKEY, 0, 0, -1 },
	{ KMAP_PRESS(42), KMAP_SPCLKEY + 2, KMAP_LSHIFT, 0, -1 },
	{ KMAP_PRESS(30), 'A', KMAP_LSHIFT, 0, -1 },
	{ KMAP_RELEASE(42), KMAP_SPCLKEY + KMAP_RELKEY + 2, 0, 0, -1 },
	{ KMAP_PRESS(56), KMAP_SPCLKEY + 7, KMAP_LALT, 0, -1 },
	{ KMAP_PRESS(41), KMAP_NOKEY, KMAP_LALT, 0, 0 },
	{ KMAP_RELEASE(41), KMAP_SPCLKEY + KMAP_RELKEY + 137, KMAP_LALT, 0, 0 },
	{ KMAP_RELEASE(56), KMAP_SPCLKEY + KMAP_RELKEY + 7, 0, 0, 0 },
	{ KMAP_PRESS(30), 0xe0, 0, 0, -1 },
	{ KMAP_PRESS(58), KMAP_SPCLKEY + 4, 0, KMAP_CLOCK, -1 },
	{ KMAP_RELEASE(58), KMAP_SPCLKEY + KMAP_RELKEY + 4, 0, KMAP_CLOCK, -1 },
	{ KMAP_PRESS(30), 'A', 0, KMAP_CLOCK, -1 },
	{ KMAP_PRESS(29), KMAP_SPCLKEY + 9, KMAP_LCTRL, KMAP_CLOCK, -1 },
	{ KMAP_PRESS(59), KMAP_SPCLKEY + KMAP_FKEY + 51, KMAP_LCTRL, KMAP_CLOCK, -1 },
	{ KMAP_RESET, KMAP_NOKEY, 0, KMAP_CLOCK, -1 },
	{ KMAP_LOAD, KMAP_NOKEY, 0, KMAP_CLOCK, -1 },
	{ KMAP_PRESS(30), 'A', 0, KMAP_CLOCK, -1 },
};

#define STEPS (sizeof steps / sizeof steps[0])

static void check_steps(void)
{
	struct kmap_console console, between, all;
	uint16_t events[STEPS];
	uint32_t answer, answers[STEPS + 1];
	char name[64];
	size_t i;

	kmap_start(&console);
	kmap_start(&between);
	kmap_start(&all);
	for (i = 0; i < STEPS; i++) {
		sprintf(name, "step %lu", (unsigned long)i);
		holds(name, kmap_step(US, &console, steps[i].event, &answer) == KMAP_OK && answer == steps[i].answer
		    && kmap_modifiers(&console) == steps[i].modifiers && kmap_locks(&console) == steps[i].locks
		    && kmap_pending(&console) == steps[i].pending);
		holds(name, kmap_step_between(US, US, &between, steps[i].event, &answer) == KMAP_OK
		    && answer == steps[i].answer);
		events[i] = steps[i].event;
	}
	answers[STEPS] = 77;
	holds("all at once", kmap_deliver(US, US, &all, events, STEPS, answers, STEPS + 1) == KMAP_OK);
	for (i = 0; i < STEPS; i++)
		holds("an answer of all at once", answers[i] == steps[i].answer);
	holds("the place past them stays", answers[STEPS] == 77);
	holds("the consoles are one", memcmp(&all, &between, sizeof all) == 0);
	holds("characters are told from marks", KMAP_IS_CHAR(KMAP_MKEY + 'a') && KMAP_CHAR(KMAP_MKEY + 'a') == 'a'
	    && !KMAP_IS_CHAR(KMAP_NOKEY) && !KMAP_IS_CHAR(KMAP_ERRKEY) && !KMAP_IS_CHAR(KMAP_SPCLKEY));
}

static void check_refusals(void)
{
	struct kmap_console console, untouched;
	uint16_t events[2] = { KMAP_PRESS(30), 258 };
	uint32_t answer = 77, answers[2] = { 77, 77 };

	memset(&console, 0x5a, sizeof console);
	untouched = console;
	holds("a key above 127 gives no event", KMAP_PRESS(128) == KMAP_NO_EVENT && KMAP_RELEASE(128) == KMAP_NO_EVENT
	    && KMAP_PRESS(-1) == KMAP_NO_EVENT && KMAP_RELEASE(4294967296 + 1) == KMAP_NO_EVENT
	    && kmap_press(256) == KMAP_NO_EVENT && kmap_release((uintmax_t)-1) == KMAP_NO_EVENT);
	holds("a key up to 127 gives its event", KMAP_PRESS(127u) == 127 && KMAP_RELEASE(0) == 128
	    && KMAP_RELEASE(127) == 255 && kmap_press(0) == 0 && kmap_release(127) == 255);
	holds("no event is refused", kmap_step(US, &console, KMAP_NO_EVENT, &answer) == KMAP_BAD_EVENT);
	holds("258 is no event", kmap_step(US, &console, 258, &answer) == KMAP_BAD_EVENT
	    && kmap_step_between(US, US, &console, 258, &answer) == KMAP_BAD_EVENT);
	holds("one byte too few", kmap_step(us.bytes, sizeof us - 1, &console, 30, &answer) == KMAP_BAD_LENGTH);
	holds("one byte too many", kmap_step_between(US, us.bytes, sizeof us + 1, &console, 30, &answer)
	    == KMAP_BAD_LENGTH);
	holds("a length is told before an event", kmap_step_between(us.bytes, sizeof us - 1, US, &console, 258, &answer)
	    == KMAP_BAD_LENGTH);
	holds("an event of two is none, and that is told before the places", kmap_deliver(US, US, &console, events, 2,
	    answers, 2) == KMAP_BAD_EVENT && kmap_deliver(US, US, &console, events, 2, answers, 1) == KMAP_BAD_EVENT);
	holds("the first tables are short", kmap_deliver(us.bytes, sizeof us - 1, US, &console, events, 2, answers, 1)
	    == KMAP_BAD_LENGTH);
	holds("the second ones are empty", kmap_deliver(US, us.bytes, 0, &console, events, 2, answers, 2)
	    == KMAP_BAD_LENGTH);
	holds("the second ones are long, and there is no event", kmap_deliver(US, us.bytes, sizeof us + 1, &console, events,
	    0, answers, 0) == KMAP_BAD_LENGTH);
	events[1] = KMAP_LOAD;
	holds("a place for one of two", kmap_deliver(US, US, &console, events, 2, answers, 1) == KMAP_NO_ROOM);
	holds("nothing was changed", memcmp(&console, &untouched, sizeof console) == 0 && answer == 77
	    && answers[0] == 77 && answers[1] == 77);
}

/* The fault of the tables with this byte in place of the one there. */
static int faulty_at(size_t place, uint8_t byte, uint32_t kind, size_t offset)
{
	struct kmap_fault fault = { 0, 0 };
	uint8_t there = us.bytes[place];
	int32_t status;

	us.bytes[place] = byte;
	status = kmap_check(US, &fault);
	us.bytes[place] = there;
	return status == KMAP_FAULTY && fault.kind == kind && fault.offset == offset;
}

static void check_table_faults(void)
{
	static const uint8_t longer[sizeof us + 1];
	struct kmap_fault fault = { 7, 7 };

	holds("the tables are good", kmap_check(US, &fault) == KMAP_OK && fault.offset == 7 && fault.kind == 7);
	holds("short", kmap_check(us.bytes, 100, &fault) == KMAP_FAULTY && fault.offset == 100
	    && fault.kind == KMAP_SHORT);
	holds("empty", kmap_check(us.bytes, 0, &fault) == KMAP_FAULTY && fault.offset == 0 && fault.kind == KMAP_SHORT);
	holds("long", kmap_check(longer, sizeof longer, &fault) == KMAP_FAULTY && fault.offset == KMAP_TABLES_SIZE
	    && fault.kind == KMAP_LONG);
	holds("a count", faulty_at(1, 2, KMAP_BAD_COUNT, 0));
	holds("a pad", faulty_at(3, 1, KMAP_BAD_PAD, 3));
	/* Slot 30 stands at 4 + 36 * 30, its marks 32 bytes on, its flag 33; slot 42 is left shift throughout. */
	holds("a flag", faulty_at(1084 + 33, 4, KMAP_BAD_FLAG, 1084 + 33));
	holds("a character", faulty_at(1084 + 2, 0x11, KMAP_BAD_CHAR, 1084));
	holds("an action", faulty_at(1516, 0xff, KMAP_BAD_ACTION, 1516));
	holds("a combined action", faulty_at(1516, 0x9b, KMAP_COMBINED, 1516));
	holds("the last byte", faulty_at(KMAP_TABLES_SIZE - 1, 1, KMAP_NOT_EMPTY, KMAP_TABLES_SIZE - 1));
}

/*
 * A cell with its number: left shift is code 2, back tab 8, f1 27, screen 11 21, dgra 137 and f25 51. That each cell is
 * what is printed of it, and each action has its name, is tested in Python.
 */
static const struct {
	uint32_t slot, column, cell;
} cells[] = {
	{ 30, 1, 'A' }, { 0, 0, KMAP_SPCLKEY }, { 42, 7, KMAP_SPCLKEY + 2 }, { 15, 1, KMAP_SPCLKEY + KMAP_BKEY + 8 },
	{ 59, 0, KMAP_SPCLKEY + KMAP_FKEY + 27 }, { 59, 2, KMAP_SPCLKEY + KMAP_FKEY + 51 }, { 59, 5, KMAP_SPCLKEY + 21 },
	{ 41, 4, KMAP_SPCLKEY + 137 }, { 255, 7, 0 },
};

static void check_cells(void)
{
	uint32_t cell;
	char name[64];
	size_t i;

	for (i = 0; i < sizeof cells / sizeof cells[0]; i++) {
		sprintf(name, "the cell of slot %lu", (unsigned long)cells[i].slot);
		cell = 77;
		holds(name, kmap_cell(US, cells[i].slot, cells[i].column, &cell) == KMAP_OK && cell == cells[i].cell);
	}
	holds("a cell is a character or an action", KMAP_IS_CHAR('a') && !KMAP_IS_ACTION('a') && KMAP_IS_ACTION(KMAP_SPCLKEY)
	    && KMAP_IS_ACTION(KMAP_SPCLKEY + KMAP_RELKEY + 2) && !KMAP_IS_ACTION(KMAP_NOKEY) && !KMAP_IS_ACTION(KMAP_ERRKEY)
	    && KMAP_CODE(KMAP_SPCLKEY + KMAP_FKEY + 27) == 27);
	cell = 77;
	holds("slot 256", kmap_cell(US, 256, 0, &cell) == KMAP_BAD_PLACE);
	holds("column 8", kmap_cell(US, 30, 8, &cell) == KMAP_BAD_PLACE);
	holds("the greatest numbers", kmap_cell(US, UINT32_MAX, UINT32_MAX, &cell) == KMAP_BAD_PLACE);
	holds("a length is told before a place", kmap_cell(us.bytes, sizeof us - 1, 256, 0, &cell) == KMAP_BAD_LENGTH);
	holds("no cell is told", cell == 77);
}

static void check_names(void)
{
	char name[KMAP_NAME_SIZE + 1];

	memset(name, 0x5a, sizeof name);
	holds("a code of no action", kmap_action_name(1, name, KMAP_NAME_SIZE) == KMAP_BAD_CODE
	    && kmap_action_name(KMAP_SPCLKEY + 2, name, KMAP_NAME_SIZE) == KMAP_BAD_CODE
	    && kmap_action_name(UINT32_MAX, name, KMAP_NAME_SIZE) == KMAP_BAD_CODE && name[0] == 0x5a);
	holds("no room for the 0 of a name", kmap_action_name(2, name, 6) == KMAP_NO_ROOM && name[0] == 0x5a);
	holds("no room at all", kmap_action_name(0, name, 0) == KMAP_NO_ROOM);
	holds("room for a short name", kmap_action_name(0, name, 4) == KMAP_OK && name[3] == 0 && name[4] == 0x5a);
	holds("room for a long name", kmap_action_name(27, name, KMAP_NAME_SIZE) == KMAP_OK
	    && strcmp(name, "fkey01") == 0 && name[KMAP_NAME_SIZE] == 0x5a);
}

/*
 * Keys by their numbers in evdev, which stand in linux/input-event-codes.h, and by the codes that sys/dev/atkbdc/atkbd.c
 * gives to their scan codes. What stands between two keys is the same in both.
 */
static const struct {
	uint32_t evdev;
	int32_t key;
} keys[] = {
	{ 0, -1 }, { 1, 1 }, { 30, 30 }, { 83, 83 }, { 84, -1 }, { 85, -1 }, { 86, 86 }, { 87, 87 }, { 88, 88 },
	{ 89, -1 }, { 95, -1 }, { 96, 0x59 }, { 97, 0x5a }, { 98, 0x5b }, { 99, 0x5c }, { 100, 0x5d }, { 101, -1 },
	{ 102, 0x5e }, { 103, 0x5f }, { 104, 0x60 }, { 105, 0x61 }, { 106, 0x62 }, { 107, 0x63 }, { 108, 0x64 },
	{ 109, 0x65 }, { 110, 0x66 }, { 111, 0x67 }, { 112, -1 }, { 118, -1 }, { 119, 0x68 }, { 120, -1 }, { 124, -1 },
	{ 125, 0x69 }, { 126, 0x6a }, { 127, 0x6b }, { 128, -1 }, { 256 + 30, -1 }, { UINT32_MAX, -1 },
};

static void check_keys(void)
{
	char which[64];
	unsigned found = 0;
	uint32_t number;
	size_t i;

	for (i = 0; i < sizeof keys / sizeof keys[0]; i++) {
		sprintf(which, "the key of number %lu", (unsigned long)keys[i].evdev);
		holds(which, kmap_key_of_evdev(keys[i].evdev) == keys[i].key);
	}
	for (number = 0; number < 1024; number++)
		found += kmap_key_of_evdev(number) != -1;
	holds("a board of 105 keys", found == 105);
	holds("no key gives no event", KMAP_PRESS(kmap_key_of_evdev(84)) == KMAP_NO_EVENT
	    && KMAP_RELEASE(kmap_key_of_evdev(97)) == KMAP_RELEASE(90));
}

/* A text, and the fault that it has. */
struct faulty {
	const char *text;
	uint32_t kind;
	uint64_t line, offset;
};

static const struct faulty faulty[] = {
	{ "030 \xff", KMAP_TEXT_BAD_BYTE, 1, 4 },
	{ "\n030 'ab", KMAP_TEXT_BAD_LITERAL, 2, 5 },
	{ "030 foo", KMAP_TEXT_BAD_WORD, 1, 4 },
	{ "nop", KMAP_TEXT_UNEXPECTED, 1, 0 },
	{ "# a comment\n\n256", KMAP_TEXT_KEY_TOO_LARGE, 3, 13 },
	{ "030 0xd800", KMAP_TEXT_BAD_CHAR, 1, 4 },
	{ "030 fkey97", KMAP_TEXT_BAD_FUNCTION, 1, 4 },
	{ "dgra '`' ( nul 'a' )", KMAP_TEXT_ZERO_BASE, 1, 11 },
	{ "030 lalta", KMAP_TEXT_COMBINED, 1, 4 },
	{ "030 'a'", KMAP_TEXT_END_INSIDE, 1, 7 },
};

#define FAULTY (sizeof faulty / sizeof faulty[0])

static void check_text_faults(void)
{
	struct kmap_text_fault fault;
	char text[64 + 16 * 53];
	size_t i;

	memset(&made, 0x5a, sizeof made);
	before = made;
	for (i = 0; i < FAULTY; i++) {
		memset(&fault, 0x5a, sizeof fault);
		holds(faulty[i].text, read_text(faulty[i].text, &fault) == KMAP_TEXT_FAULT
		    && fault.kind == faulty[i].kind && fault.line == faulty[i].line
		    && fault.offset == faulty[i].offset);
	}
	strcpy(text, "dgra '`'");
	for (i = 0; i < 53; i++)
		strcat(text, " ( 'a' 'b' )");
	holds("53 pairs", read_text(text, &fault) == KMAP_TEXT_FAULT && fault.kind == KMAP_TEXT_TOO_MANY_PAIRS
	    && fault.line == 1 && fault.offset == 8 + 12 * 52 + 1);
	holds("a fault leaves the tables", memcmp(&made, &before, sizeof made) == 0);
}

static void check_reading(void)
{
	struct kmap_text_fault fault = { 7, 7, 7 };
	struct kmap_fault table_fault;
	static const uint8_t row[36] = { 'a', 0, 0, 0, 'A', 0, 0, 0, 1, 0, 0, 0, 2, 0, 0, 0, 'a', 0, 0, 0, 0x61, 0x1f, 0, 0,
		3, 0, 0, 0, 0, 0, 0, 0, 0x12, 1, 0, 0 };

	memset(&made, 0x5a, sizeof made);
	holds("no text", kmap_read_text((const uint8_t *)"", 0, &made, &fault) == KMAP_OK);
	memset(&before, 0, sizeof before);
	holds("no text gives no keys", memcmp(&made, &before, sizeof made) == 0);
	holds("a key of eight cells", read_text("1 'a' 'A' soh lshift 'a' 0x1f61 rshift nul C", &fault) == KMAP_OK);
	before.bytes[0] = 2;
	memcpy(before.bytes + 4 + 36, row, sizeof row);
	holds("its tables", memcmp(&made, &before, sizeof made) == 0);
	holds("they have no fault", kmap_check(MADE, &table_fault) == KMAP_OK);
	holds("no fault is told", fault.offset == 7 && fault.line == 7 && fault.kind == 7);
}

/* A keymap with one character above 255, and its place as narrowing tells it. */
static const struct {
	const char *text;
	uint8_t is_accent, row, number;
} too_wide[] = {
	{ "030 0x100 'A' 1 1 'a' 'A' 1 1 C", 0, 30, 0 },
	{ "030 'a' 'A' 1 1 'a' 'A' 1 0x10ffff C\n255 0x100 1 1 1 1 1 1 1 O", 0, 30, 7 },
	{ "255 0xff 1 1 1 0x2190 1 1 1 O\ndgra 0x2190", 0, 255, 4 },
	{ "dgra 0xff ( 'a' 0xff )\ndacu 0x100", 1, 1, 0 },
	{ "dacu 0xff ( 'a' 'b' ) ( 0x1d00 'c' )", 1, 1, 3 },
	{ "dgra 0xff ( 'a' 0x1d00 )", 1, 0, 2 },
};

#define TOO_WIDE (sizeof too_wide / sizeof too_wide[0])

/* Whether each byte of narrow tables is the first byte of what stands in the tables. */
static int are_narrow(const uint8_t *narrow, const uint8_t *wide)
{
	size_t i, j;
	int same = memcmp(narrow, wide, 2) == 0 && memcmp(narrow + 2562, wide + 9220, 2) == 0;

	for (i = 0; i < 256; i++) {
		for (j = 0; j < 8; j++)
			same &= narrow[2 + 10 * i + j] == wide[4 + 36 * i + 4 * j];
		same &= memcmp(narrow + 10 + 10 * i, wide + 36 + 36 * i, 2) == 0;
	}
	for (i = 0; i < 15 * 105; i++)
		same &= narrow[2564 + i] == wide[9224 + 4 * i];
	return same;
}

static void check_narrow(void)
{
	static struct kmap_narrow_tables narrow, empty;
	struct kmap_console console, between, wide_console;
	struct kmap_text_fault text_fault;
	struct kmap_fault fault = { 7, 7 };
	struct kmap_wide wide = { 7, 7, 7 };
	uint32_t answer;
	char name[64];
	size_t i;

	memset(&narrow, 0x5a, sizeof narrow);
	memset(&made, 0x5a, sizeof made);
	holds("narrow tables", kmap_narrow(US, &narrow, &wide) == KMAP_OK && are_narrow(narrow.bytes, us.bytes)
	    && wide.is_accent == 7 && wide.row == 7 && wide.number == 7);
	holds("they have no fault", kmap_check_narrow(NARROW, &fault) == KMAP_OK && fault.offset == 7 && fault.kind == 7);
	holds("they give the tables again", kmap_widen(NARROW, &made) == KMAP_OK
	    && memcmp(&made, &us, sizeof made) == 0);
	kmap_start(&console);
	kmap_start(&between);
	kmap_start(&wide_console);
	for (i = 0; i < STEPS; i++) {
		sprintf(name, "narrow step %lu", (unsigned long)i);
		holds(name, kmap_step_narrow(NARROW, &console, steps[i].event, &answer) == KMAP_OK
		    && answer == steps[i].answer && kmap_modifiers(&console) == steps[i].modifiers
		    && kmap_locks(&console) == steps[i].locks && kmap_pending(&console) == steps[i].pending);
		holds(name, kmap_step_between_narrow(NARROW, NARROW, &between, steps[i].event, &answer) == KMAP_OK
		    && answer == steps[i].answer);
		kmap_step_between(US, US, &wide_console, steps[i].event, &answer);
	}
	holds("the consoles are those of tables", memcmp(&between, &wide_console, sizeof between) == 0);
	kmap_start(&console);
	holds("a load between narrow tables", kmap_step_between_narrow(empty.bytes, sizeof empty, NARROW, &console, 30,
	    &answer) == KMAP_OK && answer == 0 && kmap_step_between_narrow(empty.bytes, sizeof empty, NARROW, &console,
	    KMAP_LOAD, &answer) == KMAP_OK && kmap_step_between_narrow(empty.bytes, sizeof empty, NARROW, &console, 30,
	    &answer) == KMAP_OK && answer == 'a');

	memset(&empty, 0x5a, sizeof empty);
	narrow = empty;
	for (i = 0; i < TOO_WIDE; i++) {
		memset(&wide, 0x5a, sizeof wide);
		holds(too_wide[i].text, read_text(too_wide[i].text, &text_fault) == KMAP_OK
		    && kmap_narrow(MADE, &narrow, &wide) == KMAP_TOO_WIDE && wide.is_accent == too_wide[i].is_accent
		    && wide.row == too_wide[i].row && wide.number == too_wide[i].number);
	}
	before = made;
	wide.row = 77;
	holds("a length is told", kmap_narrow(us.bytes, sizeof us - 1, &narrow, &wide) == KMAP_BAD_LENGTH
	    && kmap_narrow(NARROW, &narrow, &wide) == KMAP_BAD_LENGTH && kmap_widen(US, &made) == KMAP_BAD_LENGTH
	    && kmap_widen(narrow.bytes, sizeof narrow - 1, &made) == KMAP_BAD_LENGTH);
	made.bytes[sizeof made - 1] = 1;
	holds("a fault is told before a character", kmap_narrow(MADE, &narrow, &wide) == KMAP_FAULTY && wide.row == 77);
	made.bytes[sizeof made - 1] = 0;
	holds("faulty narrow tables", kmap_widen(NARROW, &made) == KMAP_FAULTY);
	holds("what isn't made stays", memcmp(&made, &before, sizeof made) == 0
	    && memcmp(&narrow, &empty, sizeof narrow) == 0);

	kmap_narrow(US, &narrow, &wide);
	narrow.bytes[2 + 10 * 30 + 9] = 4;
	holds("a flag of narrow tables", kmap_check_narrow(NARROW, &fault) == KMAP_FAULTY && fault.kind == KMAP_BAD_FLAG
	    && fault.offset == 311);
	holds("short narrow tables", kmap_check_narrow(narrow.bytes, 100, &fault) == KMAP_FAULTY
	    && fault.kind == KMAP_SHORT && fault.offset == 100);
	holds("long narrow tables", kmap_check_narrow(US, &fault) == KMAP_FAULTY && fault.kind == KMAP_LONG
	    && fault.offset == KMAP_NARROW_SIZE);
	kmap_start(&console);
	between = console;
	answer = 77;
	holds("a step over others is refused", kmap_step_narrow(US, &console, 30, &answer) == KMAP_BAD_LENGTH
	    && kmap_step(NARROW, &console, 30, &answer) == KMAP_BAD_LENGTH
	    && kmap_step_between_narrow(NARROW, US, &console, 30, &answer) == KMAP_BAD_LENGTH
	    && kmap_step_between_narrow(US, NARROW, &console, 30, &answer) == KMAP_BAD_LENGTH);
	holds("258 is no event for narrow tables", kmap_step_narrow(NARROW, &console, 258, &answer) == KMAP_BAD_EVENT
	    && kmap_step_between_narrow(NARROW, NARROW, &console, 258, &answer) == KMAP_BAD_EVENT);
	holds("no narrow tables", kmap_narrow(NULL, 0, &narrow, &wide) == KMAP_BAD_LENGTH
	    && kmap_widen(NULL, 0, &made) == KMAP_BAD_LENGTH && kmap_check_narrow(NULL, 0, &fault) == KMAP_FAULTY
	    && fault.kind == KMAP_SHORT && fault.offset == 0
	    && kmap_step_narrow(NULL, 0, &console, 30, &answer) == KMAP_BAD_LENGTH
	    && kmap_step_between_narrow(NULL, 0, NARROW, &console, 30, &answer) == KMAP_BAD_LENGTH);
	holds("the console and the answer stay", memcmp(&console, &between, sizeof console) == 0 && answer == 77);
}

/* A keymap whose key has a modifier at one place and a character at another is refused with these. */
static void check_finding(unsigned holding, unsigned character)
{
	char text[512] = "42", name[64];
	struct kmap_text_fault fault;
	struct kmap_finding finding;
	unsigned place;

	for (place = 0; place < 16; place++) {
		if (place == 8)
			strcat(text, " O\n43 ashift ashift ashift ashift ashift ashift ashift ashift O\n170");
		strcat(text, place == holding ? " lctrl" : place == character ? " 'x'" : " nop");
	}
	strcat(text, " O\n");
	sprintf(name, "a finding at %u and %u", holding, character);
	memset(&finding, 0x5a, sizeof finding);
	holds(name, read_text(text, &fault) == KMAP_OK && kmap_accepts(MADE, &finding) == KMAP_UNSAFE
	    && finding.key == 42 && finding.holding == 2 && finding.character == 'x'
	    && finding.holding_slot == 42 + holding / 8 * 128 && finding.holding_column == holding % 8
	    && finding.character_slot == 42 + character / 8 * 128 && finding.character_column == character % 8);
}

static void check_acceptance(void)
{
	struct kmap_text_fault fault;
	struct kmap_finding finding, untold;
	unsigned holding, character;

	for (holding = 0; holding < 16; holding++) {
		for (character = 0; character < 16; character++) {
			if (character != holding)
				check_finding(holding, character);
		}
	}
	memset(&finding, 0x5a, sizeof finding);
	untold = finding;
	holds("the upper half is dead without ashift and alock", read_text("42 lctrl " NOPS7 " O 170 'x' " NOPS7 " O", &fault)
	    == KMAP_OK && kmap_accepts(MADE, &finding) == KMAP_OK);
	holds("a length", kmap_accepts(MADE - 1, &finding) == KMAP_BAD_LENGTH);
	made.bytes[2] = 1;
	holds("a length is told before a fault", kmap_accepts(MADE - 1, &finding) == KMAP_BAD_LENGTH
	    && kmap_accepts(made.bytes, 0, &finding) == KMAP_BAD_LENGTH);
	holds("a fault", kmap_accepts(MADE, &finding) == KMAP_FAULTY);
	holds("no finding is told", memcmp(&finding, &untold, sizeof finding) == 0);
}

static void check_bearers(void)
{
	struct kmap_text_fault fault;
	struct kmap_borne bearer = { 7, 7 };
	int32_t status;

	read_text("42 lshift lshift lshift lshift lshift lshift lshift lshift O 54 rshift " NOPS7 " O\n"
	    "29 lctrl " NOPS7 " O 97 lctrl " NOPS7 " O", &fault);
	kmap_bearer(MADE, 0, &bearer);
	holds("throughout", bearer.kind == KMAP_BORNE_THROUGHOUT && bearer.key == 42);
	kmap_bearer(MADE, 1, &bearer);
	holds("alone", bearer.kind == KMAP_BORNE_ALONE && bearer.key == 54);
	kmap_bearer(MADE, 2, &bearer);
	holds("several", bearer.kind == KMAP_BORNE_BY_SEVERAL && bearer.key == 0);
	bearer.key = 7;
	status = kmap_bearer(MADE, 11, &bearer);
	holds("nobody", status == KMAP_OK && bearer.kind == KMAP_BORNE_BY_NONE && bearer.key == 0);
	bearer.kind = bearer.key = 7;
	holds("12 names none", kmap_bearer(MADE, 12, &bearer) == KMAP_BAD_HOLDING);
	holds("a length", kmap_bearer(made.bytes, 0, 12, &bearer) == KMAP_BAD_LENGTH);
	holds("no bearer is told", bearer.kind == 7 && bearer.key == 7);
}

static void check_printing(void)
{
	static const char printed[] = "000 'a'    nop    nop    nop    nop    nop    nop    nop    O\n"
	    "dgra '`' ( 'a' 0x00e0 )\n";
	struct kmap_text_fault fault;
	uint8_t text[256];
	size_t size = 7;

	read_text("0 'a' " NOPS7 " O dgra '`' ('a' 0xe0)", &fault);
	memset(text, 0x5a, sizeof text);
	holds("no room", kmap_print_text(MADE, text, strlen(printed) - 1, &size) == KMAP_NO_ROOM && size == strlen(printed)
	    && text[0] == 0x5a);
	size = 7;
	holds("a text", kmap_print_text(MADE, text, sizeof text, &size) == KMAP_OK && size == strlen(printed)
	    && memcmp(text, printed, size) == 0 && text[size] == 0x5a);
	size = 7;
	holds("a length", kmap_print_text(made.bytes, 1, text, sizeof text, &size) == KMAP_BAD_LENGTH);
	made.bytes[2] = 1;
	holds("a length is told before a fault", kmap_print_text(MADE - 1, text, sizeof text, &size) == KMAP_BAD_LENGTH
	    && size == 7);
	holds("a fault is told before the room", kmap_print_text(MADE, text, 0, &size) == KMAP_FAULTY);
	holds("a fault", kmap_print_text(MADE, text, sizeof text, &size) == KMAP_FAULTY && size == 7);
	read_text("", &fault);
	holds("no keys", kmap_print_text(MADE, text, 0, &size) == KMAP_OK && size == 0);
}

static void check_words(void)
{
	static const char said[] = "key 42: lctrl at slot 170 column 3, character at slot 42 column 7";
	struct kmap_finding finding = { 'x', 42, 2, 170, 3, 42, 7 };
	char words[KMAP_WORDS_SIZE], untold[KMAP_WORDS_SIZE];
	uint32_t kind;

	for (kind = 1; kind <= KMAP_TEXT_END_INSIDE; kind++) {
		memset(words, 0x5a, sizeof words);
		holds("a sentence for each kind of a fault of a text", kmap_text_fault_words(kind, words, sizeof words) == KMAP_OK
		    && strlen(words) > 10);
	}
	for (kind = 1; kind <= KMAP_NOT_EMPTY; kind++) {
		memset(words, 0x5a, sizeof words);
		holds("a sentence for each kind of a fault of tables", kmap_fault_words(kind, words, sizeof words) == KMAP_OK
		    && strlen(words) > 10);
	}
	memset(words, 0x5a, sizeof words);
	holds("a finding", kmap_finding_words(&finding, words, sizeof said) == KMAP_OK
	    && memcmp(words, said, sizeof said) == 0 && words[sizeof said] == 0x5a);
	memset(words, 0x5a, sizeof words);
	memset(untold, 0x5a, sizeof untold);
	holds("no room for the 0", kmap_finding_words(&finding, words, sizeof said - 1) == KMAP_NO_ROOM);
	holds("no room at all", kmap_fault_words(1, words, 0) == KMAP_NO_ROOM);
	finding.holding = 12;
	holds("12 names none", kmap_finding_words(&finding, words, sizeof words) == KMAP_BAD_HOLDING);
	holds("no kind", kmap_text_fault_words(0, words, sizeof words) == KMAP_BAD_KIND
	    && kmap_text_fault_words(12, words, sizeof words) == KMAP_BAD_KIND
	    && kmap_fault_words(10, words, sizeof words) == KMAP_BAD_KIND
	    && kmap_fault_words(UINT32_MAX, words, sizeof words) == KMAP_BAD_KIND);
	holds("nothing is said", memcmp(words, untold, sizeof words) == 0);
}

/* A null pointer to nothing is as good as any other one. */
static void check_nothing(void)
{
	struct kmap_text_fault text_fault;
	struct kmap_fault fault;
	struct kmap_finding finding = { 'x', 42, 2, 170, 3, 42, 7 };
	struct kmap_borne borne;
	struct kmap_console console;
	uint16_t event = KMAP_PRESS(30);
	uint32_t answer;
	size_t size = 7;

	kmap_start(&console);
	holds("no text", kmap_read_text(NULL, 0, &made, &text_fault) == KMAP_OK && made.bytes[0] == 0);
	holds("no tables", kmap_check(NULL, 0, &fault) == KMAP_FAULTY && fault.kind == KMAP_SHORT && fault.offset == 0);
	holds("no tables to accept", kmap_accepts(NULL, 0, &finding) == KMAP_BAD_LENGTH);
	holds("no tables to print", kmap_print_text(NULL, 0, NULL, 0, &size) == KMAP_BAD_LENGTH && size == 7);
	holds("no tables with bearers", kmap_bearer(NULL, 0, 0, &borne) == KMAP_BAD_LENGTH);
	holds("no tables with cells", kmap_cell(NULL, 0, 0, 0, &answer) == KMAP_BAD_LENGTH);
	holds("no tables to step over", kmap_step(NULL, 0, &console, event, &answer) == KMAP_BAD_LENGTH
	    && kmap_step_between(NULL, 0, MADE, &console, event, &answer) == KMAP_BAD_LENGTH
	    && kmap_step_between(MADE, NULL, 0, &console, event, &answer) == KMAP_BAD_LENGTH);
	holds("no text of no keys", kmap_print_text(MADE, NULL, 0, &size) == KMAP_OK && size == 0);
	holds("no events", kmap_deliver(MADE, MADE, &console, NULL, 0, NULL, 0) == KMAP_OK);
	holds("no room for answers", kmap_deliver(MADE, MADE, &console, &event, 1, NULL, 0) == KMAP_NO_ROOM);
	holds("no tables to deliver to", kmap_deliver(NULL, 0, NULL, 0, &console, NULL, 0, NULL, 0) == KMAP_BAD_LENGTH);
	read_text("030 'a' 'A' nop nop nop nop nop nop O", &text_fault);
	holds("no room for a text", kmap_print_text(MADE, NULL, 0, &size) == KMAP_NO_ROOM && size > 7);
	holds("no room for a name", kmap_action_name(2, NULL, 0) == KMAP_NO_ROOM);
	holds("no room for words", kmap_fault_words(KMAP_SHORT, NULL, 0) == KMAP_NO_ROOM
	    && kmap_text_fault_words(KMAP_TEXT_BAD_BYTE, NULL, 0) == KMAP_NO_ROOM
	    && kmap_finding_words(&finding, NULL, 0) == KMAP_NO_ROOM);
}

/* The structs of sys/kbio.h, in this order in a table file. */
struct keyent_t {
	unsigned map[8];
	unsigned char spcl, flgs;
};

struct keymap {
	unsigned short n_keys;
	struct keyent_t key[256];
};

struct acc_t {
	unsigned accchar, map[52][2];
};

struct accentmap {
	unsigned short n_accs;
	struct acc_t acc[15];
};

/* Tables of FreeBSD's own, with anything in their pads and in what isn't in use, are those of the keymap. */
static void check_kbio(void)
{
	static struct keymap keys;
	static struct accentmap accents;
	struct kmap_text_fault text_fault;
	struct kmap_fault fault;
	unsigned accent, pair;

	holds("the structs have the bytes of a table file", sizeof keys == 9220 && sizeof accents == 6304);
	holds("a keymap with accents", read_text("30 'a' 'A' lshift nop nop nop nop nop C\n"
	    "dgra '`' ( 'a' 0xe0 ) ( 'e' 0xe8 ) dcar 'v'", &text_fault) == KMAP_OK);
	memset(&keys, 0x5a, sizeof keys);
	memset(&accents, 0x5a, sizeof accents);
	keys.n_keys = 31;
	accents.n_accs = 15;
	memset(keys.key, 0, 31 * sizeof keys.key[0]);
	memset((uint8_t *)&keys.key[30] + 34, 0x5a, 2);
	keys.key[30].map[0] = 'a';
	keys.key[30].map[1] = 'A';
	keys.key[30].map[2] = 2;
	keys.key[30].spcl = 0x3f;
	keys.key[30].flgs = 1;
	for (accent = 0; accent < 15; accent++) {
		accents.acc[accent].accchar = accent == 0 ? '`' : accent == 14 ? 'v' : 0;
		accents.acc[accent].map[accent == 0 ? 2 : 0][0] = 0;
	}
	for (pair = 0; pair < 2; pair++) {
		accents.acc[0].map[pair][0] = pair ? 'e' : 'a';
		accents.acc[0].map[pair][1] = pair ? 0xe8 : 0xe0;
	}
	kmap_from_kbio(&keys, &accents, &before);
	holds("they give the tables of the text", memcmp(&before, &made, sizeof made) == 0
	    && kmap_check(before.bytes, sizeof before.bytes, &fault) == KMAP_OK);
	memcpy(&keys, us.bytes, sizeof keys);
	memcpy(&accents, us.bytes + sizeof keys, sizeof accents);
	kmap_from_kbio(&keys, &accents, &before);
	holds("there and back", memcmp(&before, &us, sizeof us) == 0);
	keys.n_keys = accents.n_accs = 0xffff;
	kmap_from_kbio(&keys, &accents, &before);
	holds("a count that is too large is told", kmap_check(before.bytes, sizeof before.bytes, &fault) == KMAP_FAULTY
	    && fault.kind == KMAP_BAD_COUNT && fault.offset == 0);
}

/* The next of a row of numbers that look random. */
static uint32_t next(uint32_t *number)
{
	*number = *number * 1664525 + 1013904223;
	return *number;
}

/* Any bytes are safe as a text, as tables, as a finding and as a console: this only has to come back. */
static void check_noise(void)
{
	static const char words[] = "030 'a' nop lshift ( ) dgra fkey 0x O C # \n\t\xc3\xa4 '";
	static uint8_t text[4096], printed[65536];
	static char said[KMAP_WORDS_SIZE];
	struct kmap_console console;
	struct kmap_text_fault fault;
	struct kmap_finding finding;
	struct kmap_borne bearer;
	uint32_t answer, number = 1;
	size_t i, round, size, read = 0;

	for (round = 0; round < 200; round++) {
		for (i = 0; i < sizeof text; i++) {
			next(&number);
			text[i] = round % 2 ? (uint8_t)(number >> 24) : (uint8_t)words[(number >> 16) % (sizeof words - 1)];
		}
		read += kmap_read_text(text, (number >> 8) % sizeof text, &made, &fault) == KMAP_OK;
		for (i = 0; i < 4096; i++)
			made.bytes[(next(&number) >> 8) % sizeof made] = (uint8_t)(number >> 24);
		kmap_accepts(MADE, &finding);
		kmap_bearer(MADE, (uint8_t)(round % 12), &bearer);
		kmap_print_text(MADE, printed, sizeof printed, &size);
		memcpy(&finding, text, sizeof finding);
		kmap_finding_words(&finding, said, sizeof said);
		memcpy(&console, text, sizeof console);
		for (i = 0; i < 100; i++) {
			kmap_step(MADE, &console, (uint16_t)(next(&number) >> 16) % 258, &answer);
			kmap_cell(MADE, number >> 24, i % 8, &answer);
		}
		holds("noise leaves a console", kmap_pending(&console) >= -1 && kmap_pending(&console) < 15);
	}
	holds("noise comes back", read < round);
}

int main(int argc, char **argv)
{
	static uint8_t text[1 << 16];
	struct kmap_text_fault fault;
	size_t length;
	FILE *file;

	if (argc != 2 || (file = fopen(argv[1], "rb")) == NULL)
		return 2;
	length = fread(text, 1, sizeof text, file);
	fclose(file);
	holds("the text is read", kmap_read_text(text, length, &us, &fault) == KMAP_OK);
	check_steps();
	check_refusals();
	check_table_faults();
	check_cells();
	check_names();
	check_keys();
	check_text_faults();
	check_reading();
	check_acceptance();
	check_bearers();
	check_printing();
	check_words();
	check_nothing();
	check_narrow();
	check_kbio();
	check_noise();
	printf("%u passed, %u failed\n", passed, failed);
	return failed != 0;
}
