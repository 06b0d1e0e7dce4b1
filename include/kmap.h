/*
 * kmap.h: the FreeBSD console's keyboard for C and C++, over the bytes of a table file, which `kmap compile` writes and
 * kmap_read_text makes of a keymap text.
 *
 * A console lives in the memory of its caller. No call takes memory, and none keeps a pointer that it was given. What a
 * pointer to const leads to is only read. The library has no state of its own, so calls may run at once, in threads or
 * one while another is interrupted, where none writes what another one is given.
 *
 * Each comment ends with what the call needs, which calls may run at once with it, and the most that it takes of the
 * stack, with its arguments there and its return address, but without what memcpy, memmove and memset take. Bytes stand
 * anywhere, also at an odd address; all else is aligned as its C type is. What is apart has no byte in common.
 *
 * A pointer may be null where the length, number or room behind it is 0, and nowhere else. The proofs are of pointers
 * that aren't null, since in Rattle no slice begins at null, not even one without elements. That each call does the
 * same with a null pointer to nothing is tested.
 *
 * Any bytes are safe as tables and as a console. The answers are those of the keymap where the bytes are its tables,
 * which kmap_check tells, and where the console was begun by kmap_start and stepped with these tables only.
 *
 * Link with -lkmap. The library needs memcpy, memmove and memset.
 */
#ifndef KMAP_H
#define KMAP_H

#include <stddef.h>
#include <stdint.h>

#ifdef __cplusplus
extern "C" {
#endif

/* The lengths of a table file and of a narrow file in bytes. A narrow file has room for characters up to 255 alone. */
#define KMAP_TABLES_SIZE 15524
#define KMAP_NARROW_SIZE 4139

/*
 * What the calls answer. Where it isn't KMAP_OK, nothing was changed but the fault, the finding or the size that a call
 * tells.
 */
#define KMAP_OK 0
#define KMAP_BAD_LENGTH (-1) /* tables that aren't KMAP_TABLES_SIZE bytes, or narrow ones not KMAP_NARROW_SIZE */
#define KMAP_BAD_EVENT (-2) /* a number that names no event */
#define KMAP_NO_ROOM (-3) /* fewer places for answers than events, or too little room for what is put there */
#define KMAP_FAULTY (-4) /* tables with a fault */
#define KMAP_UNSAFE (-5) /* tables of a keymap that isn't safe: see kmap_accepts */
#define KMAP_TEXT_FAULT (-6) /* a text that spells no keymap */
#define KMAP_BAD_HOLDING (-7) /* a number that names no modifier or lock */
#define KMAP_BAD_KIND (-8) /* a number that names no kind of fault */
#define KMAP_BAD_CODE (-9) /* a number that is the code of no action */
#define KMAP_BAD_PLACE (-10) /* no slot or no column */
#define KMAP_TOO_WIDE (-11) /* a character above 255, for which narrow tables have no room */

/*
 * The events. Key codes are 0 to 127; any other number gives KMAP_NO_EVENT, which each call refuses. A press of a key
 * that is pressed already is a repeat. The macros are constants where the key is one, but evaluate it twice; the
 * functions evaluate it once.
 */
#define KMAP_PRESS(key) ((uint16_t)((uintmax_t)(key) < 128 ? (uint16_t)(key) : KMAP_NO_EVENT))
#define KMAP_RELEASE(key) ((uint16_t)((uintmax_t)(key) < 128 ? 128 + (uint16_t)(key) : KMAP_NO_EVENT))
#define KMAP_RESET 256 /* modifiers off, nothing remembered and nothing pending; locks stay */
#define KMAP_LOAD 257 /* a reset that puts the other keymap in force; locks that no key of it bears go off */
#define KMAP_NO_EVENT 0xffff

static inline uint16_t kmap_press(uintmax_t key)
{
	return KMAP_PRESS(key);
}

static inline uint16_t kmap_release(uintmax_t key)
{
	return KMAP_RELEASE(key);
}

/*
 * The answers are the numbers of genkbd_keyaction of sys/dev/kbd/kbd.c: a character, or one of the marks below with
 * what it says of the low bits. The code of an action is that of sys/kbio.h.
 */
#define KMAP_NOKEY UINT32_C(0x01000000) /* nothing */
#define KMAP_FKEY UINT32_C(0x02000000) /* with KMAP_SPCLKEY: the action is a function key */
#define KMAP_MKEY UINT32_C(0x04000000) /* a character while meta is on */
#define KMAP_BKEY UINT32_C(0x08000000) /* with KMAP_SPCLKEY: the back tab */
#define KMAP_ERRKEY UINT32_C(0x20000000) /* an accent that can't be used so */
#define KMAP_RELKEY UINT32_C(0x40000000) /* with KMAP_SPCLKEY: the action was released */
#define KMAP_SPCLKEY UINT32_C(0x80000000) /* the code of an action */

/* The character of an answer or a cell, where it is one. */
#define KMAP_IS_CHAR(answer) (((answer) & ~(KMAP_MKEY | UINT32_C(0x1fffff))) == 0)
#define KMAP_CHAR(answer) ((answer) & UINT32_C(0x1fffff))

/* The code of its action, where it is one: then kmap_action_name tells the name. */
#define KMAP_IS_ACTION(answer) (((answer) & KMAP_SPCLKEY) != 0)
#define KMAP_CODE(answer) ((answer) & UINT32_C(0xff))

/* The bits of kmap_modifiers. */
#define KMAP_LSHIFT 0x01
#define KMAP_RSHIFT 0x02
#define KMAP_LCTRL 0x04
#define KMAP_RCTRL 0x08
#define KMAP_LALT 0x10
#define KMAP_RALT 0x20
#define KMAP_ASHIFT 0x40
#define KMAP_META 0x80

/* The bits of kmap_locks. */
#define KMAP_CLOCK 0x01
#define KMAP_NLOCK 0x02
#define KMAP_SLOCK 0x04
#define KMAP_ALOCK 0x08

/* The kinds of faults of a table file. */
#define KMAP_SHORT 1 /* the file ends there, and is too short */
#define KMAP_LONG 2 /* the file goes on there */
#define KMAP_BAD_COUNT 3 /* more than 256 slots, or more than 15 accents */
#define KMAP_BAD_PAD 4 /* a pad that isn't 0 */
#define KMAP_BAD_FLAG 5 /* a lock flag above 3 */
#define KMAP_BAD_ACTION 6 /* a number that is no action, in a cell that is marked as one */
#define KMAP_COMBINED 7 /* an action that joins a modifier with the alt lock */
#define KMAP_BAD_CHAR 8 /* a number that is no character */
#define KMAP_NOT_EMPTY 9 /* a byte that isn't 0, in a slot, an accent or a pair that isn't in use */

/* The kinds of faults of a text. */
#define KMAP_TEXT_BAD_BYTE 1 /* a byte that begins no token */
#define KMAP_TEXT_BAD_LITERAL 2 /* an apostrophe at which no quoted character stands */
#define KMAP_TEXT_BAD_WORD 3 /* a word without a meaning, or of more than 32 bytes */
#define KMAP_TEXT_UNEXPECTED 4 /* a token that isn't wanted at its place */
#define KMAP_TEXT_KEY_TOO_LARGE 5 /* a slot above 255 */
#define KMAP_TEXT_BAD_CHAR 6 /* a number that is no character */
#define KMAP_TEXT_BAD_FUNCTION 7 /* a screen or function key that doesn't exist */
#define KMAP_TEXT_TOO_MANY_PAIRS 8 /* a pair after the 52nd of an accent */
#define KMAP_TEXT_ZERO_BASE 9 /* a pair whose base is the character 0 */
#define KMAP_TEXT_COMBINED 10 /* the name of a modifier joined with a lock */
#define KMAP_TEXT_END_INSIDE 11 /* the text ends inside a token or a definition */

/* Room for each sentence of the library and the 0 behind it, in bytes, and for each name of an action. */
#define KMAP_WORDS_SIZE 128
#define KMAP_NAME_SIZE 7

/* The tables of a keymap, as the bytes of a table file. */
struct kmap_tables {
	uint8_t bytes[KMAP_TABLES_SIZE];
};

/* The narrow tables of a keymap, as the bytes of a narrow file. */
struct kmap_narrow_tables {
	uint8_t bytes[KMAP_NARROW_SIZE];
};

/* The place of a character: a slot and a column, or an accent and the number of one of its characters. */
struct kmap_wide {
	uint8_t is_accent;
	uint8_t row; /* the slot, or the index of the accent */
	uint8_t number; /* the column; or 0 for the accent's own character, 1 + 2j the base of pair j, 2 + 2j its result */
};

/* A console between two events. Its members are the library's own. It may be copied as a whole. */
struct kmap_console {
	uint32_t word;
	uint8_t codes[128];
};

/* A fault of a table file: its offset in bytes, and its kind. */
struct kmap_fault {
	uint64_t offset;
	uint32_t kind;
};

/*
 * A key for which a keymap is refused, since both a modifier or lock and a character are among its cells: its first
 * modifier or lock, 0 for KMAP_LSHIFT to 7 for KMAP_META and 8 for KMAP_CLOCK to 11 for KMAP_ALOCK, and its first
 * character, each with its slot, 0 to 255, and its column, 0 to 7. A slot above 127 is the upper one of the key with
 * that number less 128, which is looked up while exactly one of ashift and alock is on.
 */
struct kmap_finding {
	uint32_t character;
	uint8_t key;
	uint8_t holding;
	uint8_t holding_slot;
	uint8_t holding_column;
	uint8_t character_slot;
	uint8_t character_column;
};

/* Which key bears a modifier or lock, so has it among its cells; `key` is 0 where none or several do. */
struct kmap_borne {
	uint8_t kind;
	uint8_t key;
};

/*
 * While its tables are in force, a modifier that one key bears throughout is on exactly while this key is down. Where
 * no other tables are loaded, a lock that one key bears throughout is on exactly after an odd number of presses of this
 * key that are no repeats. kmap_accepts says when a key is down.
 */
#define KMAP_BORNE_BY_NONE 0
#define KMAP_BORNE_THROUGHOUT 1 /* by this key alone, in all its cells */
#define KMAP_BORNE_ALONE 2 /* by this key alone, not in all its cells */
#define KMAP_BORNE_BY_SEVERAL 3

/* A fault of a text: its offset in bytes, its line, counted from 1, and its kind. */
struct kmap_text_fault {
	uint64_t offset;
	uint64_t line;
	uint32_t kind;
};

/* The processors that the library can be made for, and the sizes that it takes these to have. */
#if (defined __SIZEOF_POINTER__ && __SIZEOF_POINTER__ != 8) \
    || (defined __BYTE_ORDER__ && __BYTE_ORDER__ != __ORDER_LITTLE_ENDIAN__)
#error kmap: only for processors of 64 bits that are little endian
#elif defined(__cplusplus) && __cplusplus >= 201103L
static_assert(sizeof(struct kmap_console) == 132, "a console is 132 bytes");
static_assert(sizeof(struct kmap_fault) == 16, "a fault is 16 bytes");
static_assert(sizeof(struct kmap_tables) == 15524, "tables are 15,524 bytes");
static_assert(sizeof(struct kmap_narrow_tables) == 4139, "narrow tables are 4,139 bytes");
static_assert(sizeof(struct kmap_wide) == 3, "the place of a character is 3 bytes");
static_assert(sizeof(struct kmap_finding) == 12, "a finding is 12 bytes");
static_assert(sizeof(struct kmap_borne) == 2, "a bearer is 2 bytes");
static_assert(sizeof(struct kmap_text_fault) == 24, "a fault of a text is 24 bytes");
#elif defined(__STDC_VERSION__) && __STDC_VERSION__ >= 201112L
_Static_assert(sizeof(struct kmap_console) == 132, "a console is 132 bytes");
_Static_assert(sizeof(struct kmap_fault) == 16, "a fault is 16 bytes");
_Static_assert(sizeof(struct kmap_tables) == 15524, "tables are 15,524 bytes");
_Static_assert(sizeof(struct kmap_narrow_tables) == 4139, "narrow tables are 4,139 bytes");
_Static_assert(sizeof(struct kmap_wide) == 3, "the place of a character is 3 bytes");
_Static_assert(sizeof(struct kmap_finding) == 12, "a finding is 12 bytes");
_Static_assert(sizeof(struct kmap_borne) == 2, "a bearer is 2 bytes");
_Static_assert(sizeof(struct kmap_text_fault) == 24, "a fault of a text is 24 bytes");
#endif

/*
 * Checks a table file. KMAP_OK if it is the tables of a keymap, and `fault` stays as it was; else KMAP_FAULTY, and
 * `fault` is the first fault.
 *
 * Needs: `length` bytes of `tables`; `fault` aligned and apart from them.
 * At once: calls may share the tables. Stack: 1,200 bytes.
 */
int32_t kmap_check(const uint8_t *tables, size_t length, struct kmap_fault *fault);

/*
 * Makes tables of FreeBSD's own, a `struct keymap` and a `struct accentmap` of sys/kbio.h, as GIO_KEYMAP and
 * GIO_DEADKEYMAP give them: these two have the bytes of a table file, but anything may stand in their pads and in what
 * isn't in use. kmap_check then tells whether they are the tables of a keymap. Back it goes by copies: the first 9220
 * bytes are a `struct keymap`, the 6304 behind them a `struct accentmap`. It is C, so it is tested and not proved.
 *
 * Needs: 9220 bytes of `keymap` and 6304 of `accentmap`; the three apart. At once: calls may share the first two.
 */
static inline void kmap_from_kbio(const void *keymap, const void *accentmap, struct kmap_tables *tables)
{
	const uint8_t *keys = (const uint8_t *)keymap, *accents = (const uint8_t *)accentmap;
	size_t i, n_keys = keys[0] + 256u * keys[1], n_accs = accents[0] + 256u * accents[1];
	int in_use = 0;

	for (i = 0; i < 9220; i++) {
		in_use = i < 2 || (i >= 4 && (i - 4) / 36 < n_keys && (i - 4) % 36 < 34);
		tables->bytes[i] = in_use ? keys[i] : 0;
	}
	for (i = 0; i < 6304; i++) {
		/* a slot ends in two pads, and an accent at the first pair whose base is 0 */
		if (i < 4 || (i - 4) % 420 == 0)
			in_use = i < 2 || (i >= 4 && (i - 4) / 420 < n_accs);
		else if ((i - 4) % 420 % 8 == 4 && (accents[i] | accents[i + 1] | accents[i + 2] | accents[i + 3]) == 0)
			in_use = 0;
		tables->bytes[9220 + i] = in_use ? accents[i] : 0;
	}
}

/*
 * Reads a keymap text, which kmap(5) describes, of any length. KMAP_OK if it spells a keymap, and then `tables` are its
 * tables; else KMAP_TEXT_FAULT, and `fault` is the first fault.
 *
 * Needs: `length` bytes of `text`; `fault` aligned; the three apart.
 * At once: calls may share the text. Stack: 2,200 bytes.
 */
int32_t kmap_read_text(const uint8_t *text, size_t length, struct kmap_tables *tables, struct kmap_text_fault *fault);

/*
 * Prints the keymap of tables as a text, as `kmap dump` does, into `room` bytes. KMAP_OK if they are enough: then the
 * text stands in front, without a 0 behind it, and bytes past it stay. `size` is how many bytes the text has, also
 * where it is KMAP_NO_ROOM; KMAP_BAD_LENGTH, or else KMAP_FAULTY if these are no tables of a keymap.
 *
 * Needs: `length` bytes of `tables` and `room` bytes of `text`; `size` aligned; the three apart.
 * At once: calls may share the tables. Stack: 6,400 bytes.
 */
int32_t kmap_print_text(const uint8_t *tables, size_t length, uint8_t *text, size_t room, size_t *size);

/*
 * Makes narrow tables of tables. KMAP_OK if no character is above 255; else KMAP_TOO_WIDE, and `wide` is the first one
 * that is, the slots before the accents; KMAP_BAD_LENGTH, or else KMAP_FAULTY if these are no tables of a keymap.
 *
 * Narrow tables are checked and stepped over by the calls with `narrow` in their names. What else is asked of a keymap
 * is asked of its tables, which kmap_widen makes again.
 *
 * Needs: `length` bytes of `tables`; the three apart. At once: calls may share the tables.
 * Stack: 2,700 bytes.
 */
int32_t kmap_narrow(const uint8_t *tables, size_t length, struct kmap_narrow_tables *narrow, struct kmap_wide *wide);

/*
 * Makes the tables of a keymap of its narrow ones. KMAP_OK, KMAP_BAD_LENGTH, or else KMAP_FAULTY if these are no narrow
 * tables of a keymap.
 *
 * Needs: `length` bytes of `narrow`; `tables` apart from them. At once: calls may share the narrow tables.
 * Stack: 2,500 bytes.
 */
int32_t kmap_widen(const uint8_t *narrow, size_t length, struct kmap_tables *tables);

/*
 * Checks narrow tables as kmap_check checks tables.
 *
 * Needs: `length` bytes of `narrow`; `fault` aligned and apart from them.
 * At once: calls may share the narrow tables. Stack: 1,200 bytes.
 */
int32_t kmap_check_narrow(const uint8_t *narrow, size_t length, struct kmap_fault *fault);

/*
 * Checks whether a keymap is safe: no key has both a modifier or lock and a character among its cells. KMAP_OK if the
 * tables are those of a safe keymap, and `finding` stays as it was; KMAP_UNSAFE if they are those of another, and
 * `finding` is that of its least key; KMAP_BAD_LENGTH, or else KMAP_FAULTY if they are no tables of a keymap.
 *
 * It is proved that no modifier sticks where it answers KMAP_OK for the tables of a console, or for both: whatever
 * events were delivered since kmap_start, a bit of kmap_modifiers is set only while some key is down that has this
 * modifier in the tables in force. A key is down where its last press came after its last release, KMAP_RESET or
 * KMAP_LOAD. So once the release of every key that was pressed was delivered, kmap_modifiers answers 0.
 *
 * Needs: `length` bytes of `tables`; `finding` aligned and apart from them.
 * At once: calls may share the tables. Stack: 5,500 bytes.
 */
int32_t kmap_accepts(const uint8_t *tables, size_t length, struct kmap_finding *finding);

/*
 * Which key bears a modifier or lock, by its number as in kmap_finding. KMAP_OK, KMAP_BAD_LENGTH or KMAP_BAD_HOLDING;
 * the answer is that of the keymap where the tables are those of one.
 *
 * Needs: `length` bytes of `tables`; `borne` apart from them.
 * At once: calls may share the tables. Stack: 6,400 bytes.
 */
int32_t kmap_bearer(const uint8_t *tables, size_t length, uint8_t holding, struct kmap_borne *borne);

/*
 * Tells the cell of a slot, 0 to 255, and a column, 0 to 7: its character, or KMAP_SPCLKEY and the code of its action,
 * with KMAP_FKEY for a function key and KMAP_BKEY for the back tab, as in answers. Slots above 127 are those of the
 * upper half, and a slot that isn't in use has eight characters 0. KMAP_OK, KMAP_BAD_LENGTH or KMAP_BAD_PLACE; the
 * cell is that of the keymap where the tables are those of one.
 *
 * Needs: `length` bytes of `tables`; `cell` aligned and apart from them.
 * At once: calls may share the tables. Stack: 100 bytes.
 */
int32_t kmap_cell(const uint8_t *tables, size_t length, uint32_t slot, uint32_t column, uint32_t *cell);

/*
 * Puts the name of the action of a code into `room` bytes, as keymap(5) has it, and a 0 behind it. KMAP_OK;
 * KMAP_BAD_CODE if no action has the code; or KMAP_NO_ROOM. KMAP_NAME_SIZE bytes are room for each.
 *
 * Needs: `room` bytes of `name`. At once: calls with other names.
 * Stack: 100 bytes.
 */
int32_t kmap_action_name(uint32_t code, char *name, size_t room);

/*
 * Puts the sentence of a kind of fault of tables into `room` bytes, and a 0 behind it. KMAP_OK; KMAP_BAD_KIND if the
 * number names no kind; or KMAP_NO_ROOM. KMAP_WORDS_SIZE bytes are room for each.
 *
 * Needs: `room` bytes of `words`. At once: calls with other words.
 * Stack: 64 bytes.
 */
int32_t kmap_fault_words(uint32_t kind, char *words, size_t room);

/*
 * The same of a kind of fault of a text.
 *
 * Needs: `room` bytes of `words`. At once: calls with other words.
 * Stack: 64 bytes.
 */
int32_t kmap_text_fault_words(uint32_t kind, char *words, size_t room);

/*
 * The same of what a finding does, as `kmap check` says it. KMAP_BAD_HOLDING if the finding has the number of no
 * modifier or lock.
 *
 * Needs: `room` bytes of `words`; `finding` aligned and apart from them.
 * At once: calls with other words. Stack: 400 bytes.
 */
int32_t kmap_finding_words(const struct kmap_finding *finding, char *words, size_t room);

/*
 * Begins a console: nothing on, nothing pending, and the first keymap in force.
 *
 * Needs: `console` aligned. At once: calls with other consoles. Stack: 16 bytes.
 */
void kmap_start(struct kmap_console *console);

/*
 * Delivers an event to a console of one keymap, where KMAP_LOAD acts as KMAP_RESET, and puts the answer in place.
 * KMAP_OK, KMAP_BAD_LENGTH or KMAP_BAD_EVENT.
 *
 * Needs: `length` bytes of `tables`; `console` and `answer` aligned; the three apart.
 * At once: calls with other consoles and answers, also over the same tables. Stack: 400 bytes.
 */
int32_t kmap_step(const uint8_t *tables, size_t length, struct kmap_console *console, uint16_t event,
    uint32_t *answer);

/*
 * The same to a console between two keymaps. Each KMAP_LOAD puts the other one in force.
 *
 * Needs: as many bytes of the tables as their lengths say; `console` and `answer` aligned; all apart, but tables may
 * overlap each other. At once: calls with other consoles and answers, also over the same tables. Stack: 400 bytes.
 */
int32_t kmap_step_between(const uint8_t *first, size_t first_length, const uint8_t *second, size_t second_length,
    struct kmap_console *console, uint16_t event, uint32_t *answer);

/*
 * Delivers events in their order to a console between two keymaps, which may be the same bytes, and puts the answer
 * to each in place. Answers past the number of events stay. KMAP_OK, KMAP_BAD_LENGTH, KMAP_BAD_EVENT or KMAP_NO_ROOM;
 * where it isn't KMAP_OK, no event was delivered.
 *
 * Needs: as many bytes, events and places for answers as the lengths and numbers say; `console`, `events` and
 * `answers` aligned; all apart, but tables may overlap each other.
 * At once: calls with other consoles and answers, also over the same tables and events. Stack: 400 bytes.
 */
int32_t kmap_deliver(const uint8_t *first, size_t first_length, const uint8_t *second, size_t second_length,
    struct kmap_console *console, const uint16_t *events, size_t n_events, uint32_t *answers, size_t n_answers);

/*
 * Delivers an event as kmap_step does, over narrow tables: the console is left and the answer is told as it does over
 * the tables of which they were made. So these calls and those over the tables may follow each other.
 *
 * Needs: `length` bytes of `narrow`; `console` and `answer` aligned; the three apart.
 * At once: calls with other consoles and answers, also over the same tables. Stack: 400 bytes.
 */
int32_t kmap_step_narrow(const uint8_t *narrow, size_t length, struct kmap_console *console, uint16_t event,
    uint32_t *answer);

/*
 * The same as kmap_step_between does, between two keymaps whose tables are narrow.
 *
 * Needs: as many bytes of the tables as their lengths say; `console` and `answer` aligned; all apart, but tables may
 * overlap each other. At once: calls with other consoles and answers, also over the same tables. Stack: 400 bytes.
 */
int32_t kmap_step_between_narrow(const uint8_t *first, size_t first_length, const uint8_t *second,
    size_t second_length, struct kmap_console *console, uint16_t event, uint32_t *answer);

/*
 * Which modifiers are on, as KMAP_LSHIFT to KMAP_META.
 *
 * Needs: `console` aligned. At once: calls that don't write this console. Stack: 16 bytes.
 */
uint8_t kmap_modifiers(const struct kmap_console *console);

/*
 * Which locks are on, as KMAP_CLOCK to KMAP_ALOCK.
 *
 * Needs: `console` aligned. At once: calls that don't write this console. Stack: 16 bytes.
 */
uint8_t kmap_locks(const struct kmap_console *console);

/*
 * The index of the pending accent, 0 for dgra to 14, or -1 where none is pending.
 *
 * Needs: `console` aligned. At once: calls that don't write this console. Stack: 16 bytes.
 */
int32_t kmap_pending(const struct kmap_console *console);

/*
 * The code of the key that has this number in evdev, KEY_ESC to KEY_COMPOSE of linux/input-event-codes.h, or -1 where
 * no key of a board of 105 keys has it. KMAP_PRESS and KMAP_RELEASE make KMAP_NO_EVENT of -1.
 *
 * Needs: nothing. At once: all calls. Stack: 16 bytes.
 */
int32_t kmap_key_of_evdev(uint32_t code);

#ifdef __cplusplus
}
#endif

#endif
