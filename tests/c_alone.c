/*
 * Calls each function of the C library in a program without a C library, which has the three functions that the
 * library needs, and ends with status 0 where each answers what it should. It is linked for Linux and for FreeBSD, and
 * run where it is for Linux.
 */
#include "calls.h"

void *memcpy(void *to, const void *from, size_t size)
{
	size_t i;

	for (i = 0; i < size; i++)
		((uint8_t *)to)[i] = ((const uint8_t *)from)[i];
	return to;
}

void *memmove(void *to, const void *from, size_t size)
{
	size_t i;

	if ((uintptr_t)to <= (uintptr_t)from)
		return memcpy(to, from, size);
	for (i = size; i > 0; i--)
		((uint8_t *)to)[i - 1] = ((const uint8_t *)from)[i - 1];
	return to;
}

void *memset(void *to, int byte, size_t size)
{
	size_t i;

	for (i = 0; i < size; i++)
		((uint8_t *)to)[i] = (uint8_t)byte;
	return to;
}

/* Ends the program, by the call number 60 of Linux or 1 of FreeBSD. */
static void quit(long status)
{
#ifdef __linux__
	long call = 60;
#else
	long call = 1;
#endif

	__asm__ volatile("syscall" : : "a"(call), "D"(status));
	for (;;)
		;
}

static struct work work;

__attribute__((force_align_arg_pointer)) void _start(void)
{
	quit(wrong_call(&work));
}
