/* Records each call of malloc and its kin that a program makes. record/record loads this library in front of the C library's, by LD_PRELOAD,
   and names the process and its log in UMA_RECORD. docs/RECORDING.md says how a log is read.

   The log is a file of words in shared memory. A call takes the next one or two words by one atomic addition, so the place of a record is its
   order. Two rules make that order true across threads: a free takes its record before the block is free, and a request takes its record
   after it has the block. So where an address is handed out again, its free has the lower place. A realloc is both, in two records.

   No call of this library takes a lock or memory. What was written stays in the file however the program ends. One process is recorded.
   In a child that it forks the kernel wipes `recording`, and a program that a child starts is of another process. A program that the process
   runs in its own place begins the log anew. */
#define _GNU_SOURCE
#include <dlfcn.h>
#include <errno.h>
#include <fcntl.h>
#include <malloc.h>
#include <stdatomic.h>
#include <stddef.h>
#include <stdint.h>
#include <stdlib.h>
#include <string.h>
#include <sys/mman.h>
#include <sys/resource.h>
#include <sys/single_threaded.h>
#include <unistd.h>

#define VERSION 1
#define HEADER_BYTES 4096
#define MOST_BYTES (1ull << 36)
#define LEAST_BYTES (1ull << 20)
/* So many words are brought into memory at once. */
#define CHUNK 32768ull
/* So many bytes ahead a line is fetched into the cache. */
#define AHEAD 512
/* A word: 4 bits of its kind, and then a size, or 15 bits of the thread and an address by 8. */
#define KIND_BITS 4
#define THREAD_BITS 15
#define MOST_THREADS (1u << THREAD_BITS)
#define MOST_SIZE ((1ull << 60) - 1)
#define EARLY_BYTES 65536

#ifndef MADV_POPULATE_WRITE
#define MADV_POPULATE_WRITE 23
#endif

#define ALWAYS __attribute__((always_inline)) static inline
#define LIKELY(is) __builtin_expect(!!(is), 1)

/* What a word is. A word of a request comes behind one of its size. A word without a kind isn't written yet. */
enum kind { SIZE = 1, MALLOC, CALLOC, REALLOC, ALIGNED_ALLOC, MEMALIGN, POSIX_MEMALIGN, VALLOC, FREE, REALLOC_FREES, REALLOC_KEEPS };

struct header {
    char magic[8];
    uint64_t version;
    /* So many words have room; fewer once the disk is full. */
    _Atomic uint64_t room;
    /* Words that threads write stand on cache lines of their own. */
    _Alignas(64) _Atomic uint64_t taken;
    _Alignas(64) _Atomic uint64_t threads;
    _Atomic uint64_t lost;
};

_Static_assert(offsetof(struct header, room) == 16 && offsetof(struct header, taken) == 64 && offsetof(struct header, threads) == 128 && offsetof(struct header, lost) == 136, "docs/RECORDING.md has these places");

/* What a process knows of its log, on a page that is zero in a child. */
struct recording {
    struct header *log;
    _Atomic uint64_t ready;
};

static _Atomic uint64_t *words_of(struct header *log) { return (_Atomic uint64_t *)((char *)log + HEADER_BYTES); }

static struct recording *_Atomic recording;
static _Atomic int tried;
static __thread uint32_t number __attribute__((tls_model("initial-exec")));
static __thread int finding __attribute__((tls_model("initial-exec")));

static struct {
    void *(*malloc)(size_t);
    void *(*calloc)(size_t, size_t);
    void *(*realloc)(void *, size_t);
    void *(*aligned_alloc)(size_t, size_t);
    void *(*memalign)(size_t, size_t);
    int (*posix_memalign)(void **, size_t, size_t);
    void *(*valloc)(size_t);
    void *(*pvalloc)(size_t);
    void (*free)(void *);
    _Atomic int found;
} real;

/* Says on standard error why nothing is recorded. */
static void tell(const char *why) {
    if (write(STDERR_FILENO, why, strlen(why)) < 0)
        return;
}

/* Maps the file as large as the limits of the process allow; the file is sparse, and record/record cuts it where the records end. */
static struct header *map_log(int file, uint64_t *bytes) {
    struct rlimit most;
    *bytes = MOST_BYTES;
    if (!getrlimit(RLIMIT_FSIZE, &most) && most.rlim_cur < *bytes)
        *bytes = most.rlim_cur / HEADER_BYTES * HEADER_BYTES;
    for (; *bytes >= LEAST_BYTES; *bytes = *bytes / 2 / HEADER_BYTES * HEADER_BYTES) {
        if (ftruncate(file, *bytes))
            continue;
        void *at = mmap(NULL, *bytes, PROT_READ | PROT_WRITE, MAP_SHARED | MAP_NORESERVE, file, 0);
        if (at != MAP_FAILED)
            return at;
    }
    return NULL;
}

/* Begins the log in this file. */
static void begin(int file) {
    uint64_t bytes;
    struct recording *made = mmap(NULL, HEADER_BYTES, PROT_READ | PROT_WRITE, MAP_PRIVATE | MAP_ANONYMOUS, -1, 0);
    if (made == MAP_FAILED || madvise(made, HEADER_BYTES, MADV_WIPEONFORK)) {
        tell("record: this kernel has no memory that is wiped in a child\n");
        return;
    }
    struct header *log = map_log(file, &bytes);
    if (!log) {
        tell("record: there is no room for the log\n");
        return;
    }
    madvise(log, bytes, MADV_DONTFORK);
    madvise(log, bytes, MADV_DONTDUMP);
    log->version = VERSION;
    log->room = (bytes - HEADER_BYTES) / sizeof(uint64_t) / CHUNK * CHUNK;
    memcpy(log->magic, "umarecrd", sizeof log->magic);
    made->log = log;
    atomic_store(&recording, made);
}

/* The log of this process, from UMA_RECORD, which has the number of the process that is recorded, a colon and the log's path. */
static const char *path_of_log(void) {
    for (char **entry = environ; *entry; entry++) {
        if (strncmp(*entry, "UMA_RECORD=", 11))
            continue;
        const char *at = *entry + 11;
        long process = 0;
        while (*at >= '0' && *at <= '9')
            process = process * 10 + (*at++ - '0');
        return *at == ':' && process == getpid() ? at + 1 : NULL;
    }
    return NULL;
}

/* Begins the recording, once there is an environment, in the process that is recorded. */
static void start(void) {
    if (atomic_load_explicit(&tried, memory_order_relaxed) || !environ || atomic_exchange(&tried, 1))
        return;
    int before = errno;
    const char *path = path_of_log();
    int file = path ? open(path, O_RDWR | O_CLOEXEC) : -1;
    if (file >= 0 && !ftruncate(file, 0))
        begin(file);
    else if (path)
        tell("record: the log can't be opened\n");
    if (file >= 0)
        close(file);
    errno = before;
}

__attribute__((constructor)) static void start_before_main(void) { start(); }

/* Brings the words from this one to that one into memory. It can't where the disk is full: then the log ends before them. */
__attribute__((noinline)) static int make_ready(struct recording *to, uint64_t from, uint64_t last) {
    struct header *log = to->log;
    uint64_t first = from / CHUNK * CHUNK, end = (last / CHUNK + 1) * CHUNK, room = atomic_load(&log->room);
    if (end > room)
        return 0;
    int before = errno;
    void *at = words_of(log) + first;
    int failed = madvise(at, (end - first) * sizeof(uint64_t), MADV_POPULATE_WRITE) && errno != EINVAL;
    errno = before;
    while (failed && first < room && !atomic_compare_exchange_weak(&log->room, &room, first))
        ;
    uint64_t ready = atomic_load(&to->ready);
    while (!failed && ready < end && !atomic_compare_exchange_weak(&to->ready, &ready, end))
        ;
    return !failed;
}

/* Gives this thread its number. The last number is shared by all threads that come later. */
__attribute__((noinline)) static uint32_t take_number(struct header *log) {
    uint64_t next = atomic_fetch_add(&log->threads, 1) + 1;
    return number = next < MOST_THREADS ? next : MOST_THREADS;
}

/* Takes so many words. A process of one thread needs no locked addition, and that is half of what a record costs. */
ALWAYS uint64_t take_words(struct header *log, uint64_t count) {
    if (!__libc_single_threaded)
        return atomic_fetch_add(&log->taken, count);
    uint64_t from = atomic_load_explicit(&log->taken, memory_order_relaxed);
    atomic_store_explicit(&log->taken, from + count, memory_order_relaxed);
    return from;
}

/* Writes the next record; one of a request has its size in front. */
ALWAYS void note(enum kind kind, const void *address, int has_size, size_t size) {
    struct recording *to = atomic_load_explicit(&recording, memory_order_acquire);
    if (!LIKELY(to)) {
        start();
        to = atomic_load(&recording);
    }
    struct header *log = to ? to->log : NULL;
    if (!LIKELY(log))
        return;
    uint64_t from = take_words(log, 1 + has_size), last = from + has_size;
    if (!LIKELY(last < atomic_load_explicit(&to->ready, memory_order_acquire)) && !make_ready(to, from, last)) {
        atomic_fetch_add(&log->lost, 1);
        return;
    }
    uint64_t thread = (LIKELY(number) ? number : take_number(log)) - 1;
    _Atomic uint64_t *words = words_of(log);
    __builtin_prefetch((char *)(words + from) + AHEAD, 1);
    if (has_size)
        atomic_store_explicit(words + from, (size < MOST_SIZE ? size : MOST_SIZE) << KIND_BITS | SIZE, memory_order_relaxed);
    atomic_store_explicit(words + last, (uintptr_t)address >> 3 << (KIND_BITS + THREAD_BITS) | thread << KIND_BITS | kind, memory_order_release);
}

ALWAYS void note_request(enum kind kind, const void *block, size_t size) { note(kind, block, 1, size); }

ALWAYS void note_free(enum kind kind, const void *block) { note(kind, block, 0, 0); }

/* Blocks for who looks the real calls up, which may want some meanwhile. They are never free again. */

static _Alignas(16) char early[EARLY_BYTES];
static _Atomic size_t early_used;

static void *early_block(size_t size) {
    size_t all = (size + 31) / 16 * 16, at = atomic_fetch_add(&early_used, all);
    if (size > EARLY_BYTES || at + all > EARLY_BYTES)
        return NULL;
    memcpy(early + at, &size, sizeof size);
    return early + at + 16;
}

static int is_early(const void *block) { return (const char *)block >= early && (const char *)block < early + EARLY_BYTES; }

/* Looks the real calls up. Not where this thread is at it already: then the call came from the looking up. */
__attribute__((noinline)) static int find(void) {
    if (finding)
        return 0;
    finding = 1;
    *(void **)&real.malloc = dlsym(RTLD_NEXT, "malloc");
    *(void **)&real.calloc = dlsym(RTLD_NEXT, "calloc");
    *(void **)&real.realloc = dlsym(RTLD_NEXT, "realloc");
    *(void **)&real.aligned_alloc = dlsym(RTLD_NEXT, "aligned_alloc");
    *(void **)&real.memalign = dlsym(RTLD_NEXT, "memalign");
    *(void **)&real.posix_memalign = dlsym(RTLD_NEXT, "posix_memalign");
    *(void **)&real.valloc = dlsym(RTLD_NEXT, "valloc");
    *(void **)&real.pvalloc = dlsym(RTLD_NEXT, "pvalloc");
    *(void **)&real.free = dlsym(RTLD_NEXT, "free");
    atomic_store(&real.found, 1);
    finding = 0;
    return 1;
}

ALWAYS int is_found(void) { return LIKELY(atomic_load_explicit(&real.found, memory_order_acquire)) || find(); }

void *malloc(size_t size) {
    if (!is_found())
        return early_block(size);
    void *block = real.malloc(size);
    note_request(MALLOC, block, size);
    return block;
}

void *calloc(size_t count, size_t size) {
    size_t all;
    if (__builtin_mul_overflow(count, size, &all))
        all = SIZE_MAX;
    if (!is_found())
        return early_block(all);
    void *block = real.calloc(count, size);
    note_request(CALLOC, block, all);
    return block;
}

/* A block of before the real calls were found moves to a real one. */
static void *leave_early(void *old, size_t size) {
    size_t had;
    memcpy(&had, (char *)old - 16, sizeof had);
    void *block = malloc(size);
    return block ? memcpy(block, old, had < size ? had : size) : NULL;
}

/* The old block is free before the call ends, so its record comes first. Where the call fails the old block stays, as a third record says. */
void *realloc(void *old, size_t size) {
    if (is_early(old))
        return leave_early(old, size);
    if (!is_found())
        return old ? NULL : early_block(size);
    if (old)
        note_free(REALLOC_FREES, old);
    void *block = real.realloc(old, size);
    if (!block && old && size)
        note_free(REALLOC_KEEPS, old);
    else
        note_request(REALLOC, block, size);
    return block;
}

void free(void *block) {
    if (is_early(block) || !is_found())
        return;
    note_free(FREE, block);
    real.free(block);
}

void *aligned_alloc(size_t alignment, size_t size) {
    void *block = is_found() ? real.aligned_alloc(alignment, size) : NULL;
    note_request(ALIGNED_ALLOC, block, size);
    return block;
}

void *memalign(size_t alignment, size_t size) {
    void *block = is_found() ? real.memalign(alignment, size) : NULL;
    note_request(MEMALIGN, block, size);
    return block;
}

int posix_memalign(void **block, size_t alignment, size_t size) {
    int failed = is_found() ? real.posix_memalign(block, alignment, size) : ENOMEM;
    note_request(POSIX_MEMALIGN, failed ? NULL : *block, size);
    return failed;
}

void *valloc(size_t size) {
    void *block = is_found() ? real.valloc(size) : NULL;
    note_request(VALLOC, block, size);
    return block;
}

void *pvalloc(size_t size) {
    void *block = is_found() ? real.pvalloc(size) : NULL;
    note_request(VALLOC, block, size);
    return block;
}
