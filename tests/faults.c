/* What tests/faults lays before the C library: calls that fail, or move few bytes, as FAULT says.
 *
 *     FAULT="alloc N"     request N for memory is refused, counted from 1; "from N" refuses each from there on
 *     FAULT="thread N"    no thread is to be had at request N
 *     FAULT="read N"      read N fails; "write N" the same of standard output
 *     FAULT="short N"     call N of reading or writing moves one byte
 *     FAULT="room N"      standard output has room for N bytes
 *     EACH=N              a read gives at most N bytes
 *     COUNTS=FILE         where the calls of each kind are counted
 *
 * It needs no header, so that the kit's compiler can make it. */
typedef unsigned long size;

extern void *__libc_malloc(size), *__libc_calloc(size, size), *__libc_realloc(void *, size);
extern char *getenv(const char *);
extern long strtol(const char *, char **, int);
extern int strncmp(const char *, const char *, size), open(const char *, int, ...);
extern void *mmap(void *, size, int, int, int, long), *dlsym(void *, const char *);
extern long syscall(long, ...);
extern int *__errno_location(void);

enum { SYS_READ = 0, SYS_WRITE = 1, EIO = 5, EAGAIN = 11, ENOMEM = 12, ENOSPC = 28, READ_WRITE = 2, SHARED = 1 };
enum { ALLOCS, THREADS, READS, WRITES, WRITTEN, GIVEN, KINDS };

static size unmapped[KINDS], *counts = unmapped;
static size alloc_at, alloc_from, thread_at, read_at, write_at, short_at, room = -1UL, each = -1UL;

static size number(const char *text, const char *word)
{
	size length = 0;
	while (word[length])
		length++;
	return text && !strncmp(text, word, length) ? strtol(text + length, 0, 10) : 0;
}

__attribute__((constructor)) static void begin(void)
{
	const char *fault = getenv("FAULT"), *file = getenv("COUNTS"), *least = getenv("EACH");
	void *at = file ? mmap(0, sizeof unmapped, 3, SHARED, open(file, READ_WRITE), 0) : (void *)-1;
	if (at != (void *)-1)
		counts = at;
	alloc_at = number(fault, "alloc ");
	alloc_from = number(fault, "from ");
	thread_at = number(fault, "thread ");
	read_at = number(fault, "read ");
	write_at = number(fault, "write ");
	short_at = number(fault, "short ");
	if (fault && !strncmp(fault, "room ", 5))
		room = number(fault, "room ");
	if (least)
		each = strtol(least, 0, 10);
}

static size next(int kind)
{
	return __atomic_add_fetch(&counts[kind], 1, __ATOMIC_RELAXED);
}

static int fails(int error)
{
	*__errno_location() = error;
	return -1;
}

static int refused(void)
{
	size call = next(ALLOCS);
	if (call != alloc_at && (!alloc_from || call < alloc_from))
		return 0;
	next(GIVEN);
	return fails(ENOMEM);
}

void *malloc(size bytes)
{
	return refused() ? 0 : __libc_malloc(bytes);
}

void *calloc(size count, size bytes)
{
	return refused() ? 0 : __libc_calloc(count, bytes);
}

void *realloc(void *at, size bytes)
{
	return refused() ? 0 : __libc_realloc(at, bytes);
}

int pthread_create(unsigned long *thread, const void *how, void *(*body)(void *), void *with)
{
	if (next(THREADS) == thread_at)
		return next(GIVEN), EAGAIN;
	int (*create)(unsigned long *, const void *, void *(*)(void *), void *) = dlsym((void *)-1L, "pthread_create");
	return create(thread, how, body, with);
}

static size fewer(size bytes, size most)
{
	return bytes < most ? bytes : most;
}

/* Whether this call is to move one byte; the two kinds are counted together. */
static size shortened(size bytes)
{
	if (counts[READS] + counts[WRITES] != short_at || bytes < 2)
		return bytes;
	next(GIVEN);
	return 1;
}

long read(int from, void *to, size bytes)
{
	if (next(READS) == read_at)
		return next(GIVEN), fails(EIO);
	return syscall(SYS_READ, from, to, shortened(fewer(bytes, each)));
}

long write(int to, const void *from, size bytes)
{
	if (to != 1)
		return syscall(SYS_WRITE, to, from, bytes);
	if (next(WRITES) == write_at)
		return next(GIVEN), fails(EIO);
	if (bytes && counts[WRITTEN] >= room)
		return next(GIVEN), fails(ENOSPC);
	long moved = syscall(SYS_WRITE, to, from, shortened(fewer(bytes, room - counts[WRITTEN])));
	if (moved > 0)
		counts[WRITTEN] += moved;
	return moved;
}
