/*
 * The calls of the C library, for the programs beside it that make all of them: on a painted stack, in threads, without
 * a C library, and in C++.
 */
#include <kmap.h>

#ifndef PRINTED
#define PRINTED 4096
#endif

/* What the calls are given, and what they write. */
struct work {
	const uint8_t *text, *tables;
	size_t length, room, size;
	uint16_t events[258];
	uint32_t number, cell, answer, answers[258];
	struct kmap_tables made, widened;
	struct kmap_narrow_tables narrow;
	struct kmap_wide wide;
	struct kmap_console console;
	struct kmap_fault fault;
	struct kmap_text_fault text_fault;
	struct kmap_finding finding;
	struct kmap_borne borne;
	uint8_t printed[PRINTED];
	char words[KMAP_WORDS_SIZE];
};

#define TABLES w->tables, KMAP_TABLES_SIZE
#define NARROW w->narrow.bytes, KMAP_NARROW_SIZE

/* CALL(NAME, CALLED) for each call, in the work to which `w` points: those over a keymap, and those of a number. */
#define KEYMAP_CALLS(CALL) \
	CALL(read_text, kmap_read_text(w->text, w->length, &w->made, &w->text_fault)) \
	CALL(check, kmap_check(TABLES, &w->fault)) \
	CALL(accepts, kmap_accepts(TABLES, &w->finding)) \
	CALL(print_text, kmap_print_text(TABLES, w->printed, w->room, &w->size)) \
	CALL(narrow, kmap_narrow(TABLES, &w->narrow, &w->wide)) \
	CALL(widen, kmap_widen(NARROW, &w->widened)) \
	CALL(check_narrow, kmap_check_narrow(NARROW, &w->fault)) \
	CALL(finding_words, kmap_finding_words(&w->finding, w->words, sizeof w->words)) \
	CALL(start, (kmap_start(&w->console), 0)) \
	CALL(deliver, kmap_deliver(TABLES, TABLES, &w->console, w->events, 258, w->answers, 258)) \
	CALL(modifiers, kmap_modifiers(&w->console)) \
	CALL(locks, kmap_locks(&w->console)) \
	CALL(pending, kmap_pending(&w->console))

#define NUMBER_CALLS(CALL) \
	CALL(bearer, kmap_bearer(TABLES, (uint8_t)w->number, &w->borne)) \
	CALL(cell, kmap_cell(TABLES, w->number, w->number % 9, &w->cell)) \
	CALL(action_name, kmap_action_name(w->number, w->words, sizeof w->words)) \
	CALL(fault_words, kmap_fault_words(w->number, w->words, sizeof w->words)) \
	CALL(text_fault_words, kmap_text_fault_words(w->number, w->words, sizeof w->words)) \
	CALL(step, kmap_step(TABLES, &w->console, (uint16_t)w->number, &w->answer)) \
	CALL(step_between, kmap_step_between(TABLES, TABLES, &w->console, (uint16_t)w->number, &w->answer)) \
	CALL(step_narrow, kmap_step_narrow(NARROW, &w->console, (uint16_t)w->number, &w->answer)) \
	CALL(step_between_narrow, kmap_step_between_narrow(NARROW, NARROW, &w->console, (uint16_t)w->number, &w->answer)) \
	CALL(key_of_evdev, kmap_key_of_evdev(w->number))

/* Whether the bytes of a sentence or a name are these, with the 0 behind them. */
static inline int is_said(const char *words, const char *wanted)
{
	while (*words != 0 && *words == *wanted) {
		words++;
		wanted++;
	}
	return *words == *wanted;
}

/* Makes each call, and answers 0, or else the number of the first that doesn't answer what it should. */
static inline int wrong_call(struct work *w)
{
	static const uint8_t text[] = "030 'a' 'A' nop nop 'a' 'A' nop nop C\n"
	    "042 lshift lshift lshift lshift lshift lshift lshift lshift O\n";
	static const uint16_t events[3] = { KMAP_PRESS(30), KMAP_RELEASE(30), KMAP_RELEASE(42) };
	static const struct kmap_finding finding = { 'x', 42, 0, 42, 0, 30, 0 };
	int number = 0;

#define ANSWERS(is) do { number++; if (!(is)) return number; } while (0)
	w->tables = w->made.bytes;
	ANSWERS(kmap_read_text(text, 7, &w->made, &w->text_fault) == KMAP_TEXT_FAULT && w->text_fault.line == 1
	    && w->text_fault.kind == KMAP_TEXT_END_INSIDE);
	ANSWERS(kmap_text_fault_words(w->text_fault.kind, w->words, sizeof w->words) == KMAP_OK && w->words[0] != 0);
	ANSWERS(kmap_check(text, 7, &w->fault) == KMAP_FAULTY && w->fault.kind == KMAP_SHORT && w->fault.offset == 7);
	ANSWERS(kmap_fault_words(w->fault.kind, w->words, sizeof w->words) == KMAP_OK && w->words[0] != 0);
	ANSWERS(kmap_finding_words(&finding, w->words, sizeof w->words) == KMAP_OK
	    && is_said(w->words, "key 42: lshift at slot 42 column 0, character at slot 30 column 0"));
	ANSWERS(kmap_read_text(text, sizeof text - 1, &w->made, &w->text_fault) == KMAP_OK);
	ANSWERS(kmap_check(TABLES, &w->fault) == KMAP_OK);
	ANSWERS(kmap_accepts(TABLES, &w->finding) == KMAP_OK);
	ANSWERS(kmap_bearer(TABLES, 0, &w->borne) == KMAP_OK && w->borne.kind == KMAP_BORNE_THROUGHOUT
	    && w->borne.key == 42);
	ANSWERS(kmap_cell(TABLES, 30, 1, &w->cell) == KMAP_OK && w->cell == 'A');
	ANSWERS(kmap_cell(TABLES, 42, 0, &w->cell) == KMAP_OK && KMAP_IS_ACTION(w->cell));
	ANSWERS(kmap_action_name(KMAP_CODE(w->cell), w->words, KMAP_NAME_SIZE) == KMAP_OK && is_said(w->words, "lshift"));
	ANSWERS(kmap_print_text(TABLES, w->printed, 10, &w->size) == KMAP_NO_ROOM && w->size > 10);
	ANSWERS(kmap_print_text(TABLES, w->printed, sizeof w->printed, &w->size) == KMAP_OK && w->size <= PRINTED);
	kmap_start(&w->console);
	ANSWERS(kmap_step(TABLES, &w->console, kmap_press(42), &w->answer) == KMAP_OK && KMAP_IS_ACTION(w->answer)
	    && kmap_modifiers(&w->console) == KMAP_LSHIFT);
	ANSWERS(kmap_deliver(TABLES, TABLES, &w->console, events, 3, w->answers, 258) == KMAP_OK
	    && KMAP_IS_CHAR(w->answers[0]) && KMAP_CHAR(w->answers[0]) == 'A');
	ANSWERS(kmap_modifiers(&w->console) == 0 && kmap_locks(&w->console) == 0 && kmap_pending(&w->console) == -1);
	ANSWERS(kmap_step_between(TABLES, TABLES, &w->console, KMAP_LOAD, &w->answer) == KMAP_OK
	    && w->answer == KMAP_NOKEY);
	ANSWERS(kmap_narrow(TABLES, &w->narrow, &w->wide) == KMAP_OK && kmap_check_narrow(NARROW, &w->fault) == KMAP_OK);
	ANSWERS(kmap_widen(NARROW, &w->widened) == KMAP_OK && w->widened.bytes[0] == w->made.bytes[0]);
	ANSWERS(kmap_step_narrow(NARROW, &w->console, kmap_press(30), &w->answer) == KMAP_OK && w->answer == 'a');
	ANSWERS(kmap_step_between_narrow(NARROW, NARROW, &w->console, KMAP_LOAD, &w->answer) == KMAP_OK
	    && w->answer == KMAP_NOKEY);
	ANSWERS(KMAP_PRESS(kmap_key_of_evdev(97)) == kmap_press(90) && kmap_release(90) == KMAP_RELEASE(90)
	    && kmap_key_of_evdev(90) == -1);
	return 0;
}
