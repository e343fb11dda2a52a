// Counts what a program asks the C library's allocator for, and refuses one of these. tests/allocations.py loads it before the
// C library (glibc):
//     cc -shared -fPIC -o allocations.so allocations.c
//     LD_PRELOAD=./allocations.so COUNT_INTO=FILE [REFUSED=N] PROGRAM
// At the end the number is written into FILE, on a second line the most bytes that were held at once, and on a third those that
// were held when the program last asked to read. The Nth one is refused.
#include <errno.h>
#include <fcntl.h>
#include <malloc.h>
#include <stddef.h>
#include <stdio.h>
#include <stdlib.h>
#include <sys/syscall.h>
#include <unistd.h>

void *__libc_malloc(size_t size);
void *__libc_calloc(size_t count, size_t size);
void *__libc_realloc(void *old, size_t size);
void *__libc_memalign(size_t alignment, size_t size);
void __libc_free(void *block);

static unsigned long long count;
static unsigned long long refused;
static unsigned long long held;
static unsigned long long most_held;
static unsigned long long held_at_a_read;

static int is_refused(void) {
    count++;
    if (count != refused) return 0;
    errno = ENOMEM;
    return 1;
}

// A block that is handed out. The allocator may give more bytes than were asked for.
static void *hold(void *block) {
    held += malloc_usable_size(block);
    if (held > most_held) most_held = held;
    return block;
}

void *malloc(size_t size) { return is_refused() ? NULL : hold(__libc_malloc(size)); }

void *calloc(size_t times, size_t size) { return is_refused() ? NULL : hold(__libc_calloc(times, size)); }

void *realloc(void *old, size_t size) {
    if (is_refused()) return NULL;
    size_t before = malloc_usable_size(old);
    void *block = __libc_realloc(old, size);
    if (block == NULL && size > 0) return NULL;
    held -= before;
    return hold(block);
}

void *aligned_alloc(size_t alignment, size_t size) {
    return is_refused() ? NULL : hold(__libc_memalign(alignment, size));
}

int posix_memalign(void **result, size_t alignment, size_t size) {
    if (is_refused()) return ENOMEM;
    *result = hold(__libc_memalign(alignment, size));
    return *result == NULL ? ENOMEM : 0;
}

void free(void *block) {
    held -= malloc_usable_size(block);
    __libc_free(block);
}

ssize_t read(int file, void *bytes, size_t size) {
    held_at_a_read = held;
    return syscall(SYS_read, file, bytes, size);
}

// What was asked for before the program began is not counted.
__attribute__((constructor)) static void begin(void) {
    const char *word = getenv("REFUSED");
    refused = word == NULL ? 0 : strtoull(word, NULL, 10);
    count = 0;
}

__attribute__((destructor)) static void end(void) {
    unsigned long long counted = count, most = most_held, last = held_at_a_read;
    const char *name = getenv("COUNT_INTO");
    int file = name == NULL ? -1 : open(name, O_WRONLY | O_CREAT | O_TRUNC, 0600);
    if (file < 0) return;
    dprintf(file, "%llu\n%llu\n%llu\n", counted, most, last);
    close(file);
}
