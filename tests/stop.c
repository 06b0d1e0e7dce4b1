/*
 * Runs a command and kills it before one of its system calls: the one behind so many of them.
 *
 * usage: stop NUMBER COMMAND WORD..
 * The status is that of the command where it ends by itself, 200 where it was killed, 201 where it can't be traced.
 */
#include <signal.h>
#include <stdio.h>
#include <stdlib.h>
#include <sys/ptrace.h>
#include <sys/types.h>
#include <sys/wait.h>
#include <unistd.h>

enum { KILLED = 200, UNTRACED = 201 };

/* What a command stops with at a system call, which it enters and leaves. */
#define AT_CALL (SIGTRAP | 0x80)

static int untraced(const char *what)
{
	perror(what);
	return UNTRACED;
}

static int run(char **words)
{
	if (ptrace(PTRACE_TRACEME, 0, NULL, NULL) != 0)
		return untraced("ptrace");
	raise(SIGSTOP);
	execvp(words[0], words);
	return untraced(words[0]);
}

/* Lets the command go on to where it stops next, with a signal if it is to get one; what it stops with, or -1 at its end. */
static int next_stop(pid_t command, int signal, int *status)
{
	if (ptrace(PTRACE_SYSCALL, command, NULL, (void *)(long)signal) != 0 || waitpid(command, status, 0) != command)
		exit(untraced("ptrace"));
	return WIFSTOPPED(*status) ? WSTOPSIG(*status) : -1;
}

/* Whether it has just become the command: calls before that are not the command's own. */
static int is_begun(int status)
{
	return status >> 8 == (SIGTRAP | PTRACE_EVENT_EXEC << 8);
}

int main(int count, char **words)
{
	long left;
	int status, stop, signal = 0, begun = 0, inside = 0;
	pid_t command;

	if (count < 3) {
		fputs("usage: stop NUMBER COMMAND WORD..\n", stderr);
		return UNTRACED;
	}
	left = atol(words[1]);
	if ((command = fork()) == 0)
		return run(words + 2);
	if (command < 0 || waitpid(command, &status, 0) != command)
		return untraced("fork");
	if (!WIFSTOPPED(status) || ptrace(PTRACE_SETOPTIONS, command, NULL,
	    (void *)(long)(PTRACE_O_TRACESYSGOOD | PTRACE_O_TRACEEXEC | PTRACE_O_EXITKILL)) != 0)
		return UNTRACED;
	while ((stop = next_stop(command, signal, &status)) >= 0) {
		signal = stop == AT_CALL || stop == SIGTRAP ? 0 : stop;
		if (is_begun(status)) {
			/* It is inside the call that began it. */
			begun = inside = 1;
		} else if (stop == AT_CALL && begun) {
			inside = !inside;
			if (inside && left-- == 0) {
				kill(command, SIGKILL);
				waitpid(command, &status, 0);
				return KILLED;
			}
		}
	}
	return WIFEXITED(status) ? WEXITSTATUS(status) : 128 + WTERMSIG(status);
}
