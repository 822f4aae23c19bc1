/* The program for a fuzzer: its main and the calls by which it writes and ends are renamed to those below (see `run` beside this file).
 *
 * An input that begins as a schedule's first line is given to `steps`, any other to `replay`. A run that ends with a status that is none of
 * FORMATS.md, or that writes anything beside a refusal, ends in a signal, so that the fuzzer takes it for a crash. */
#include <stdlib.h>
#include <string.h>
#include <unistd.h>

enum { GOOD = 0, TEXT = 3, MEMORY = 6 };

extern int umarun_main(int count, char **words);

static long written;

ssize_t umarun_write(int to, const void *bytes, size_t count)
{
	ssize_t moved = write(to, bytes, count);
	if (to == STDOUT_FILENO && moved > 0)
		__atomic_add_fetch(&written, moved, __ATOMIC_RELAXED);
	return moved;
}

static int judged(int status)
{
	long bytes = __atomic_load_n(&written, __ATOMIC_RELAXED);
	int allowed = status == GOOD ? bytes > 0 : (status == TEXT || status == MEMORY) && bytes == 0;
	if (!allowed)
		abort();
	return status;
}

_Noreturn void umarun_exit(int status)
{
	_exit(judged(status));
}

/* It is started with one word, in whose place it puts the command: the program looks there. */
int main(int count, char **words)
{
	char head[3] = "";
	ssize_t read = pread(STDIN_FILENO, head, sizeof head, 0);
	if (count == 2)
		words[1] = read == sizeof head && !memcmp(head, "smr", sizeof head) ? "steps" : "replay";
	return judged(umarun_main(count, words));
}
