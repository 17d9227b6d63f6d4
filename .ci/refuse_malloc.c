// Preloaded to a program, refuses one of its allocations, as where memory has run out: that of the number
// REFUSED_ALLOCATION, counted from 1 on over all threads, or none where it is 0 or isn't set. Keeps the count in the
// first bytes of the file ALLOCATION_COUNT, from where it is read however the program ends.
//
// Counts from the program's own beginning, with what the C library allocates to make a thread, but without what the
// loader allocates before.
#include <errno.h>
#include <fcntl.h>
#include <stdatomic.h>
#include <stdbool.h>
#include <stdlib.h>
#include <sys/mman.h>

void *__libc_malloc(size_t size);
void *__libc_calloc(size_t count, size_t size);
void *__libc_realloc(void *old, size_t size);
void *__libc_memalign(size_t alignment, size_t size);

static atomic_ulong unshared;
static atomic_ulong *made = &unshared;
static unsigned long refused;

__attribute__((constructor)) static void begin(void) {
    const char *number = getenv("REFUSED_ALLOCATION");
    int file = open(getenv("ALLOCATION_COUNT"), O_RDWR | O_CLOEXEC);
    void *shared = mmap(NULL, sizeof *made, PROT_READ | PROT_WRITE, MAP_SHARED, file, 0);
    if (shared == MAP_FAILED)
        abort();
    made = shared;
    refused = number ? strtoul(number, NULL, 10) : 0;
}

static bool is_refused(void) {
    if (atomic_fetch_add(made, 1) + 1 != refused)
        return false;
    errno = ENOMEM;
    return true;
}

void *malloc(size_t size) { return is_refused() ? NULL : __libc_malloc(size); }
void *calloc(size_t count, size_t size) { return is_refused() ? NULL : __libc_calloc(count, size); }
void *realloc(void *old, size_t size) { return is_refused() ? NULL : __libc_realloc(old, size); }
void *memalign(size_t alignment, size_t size) { return is_refused() ? NULL : __libc_memalign(alignment, size); }
void *aligned_alloc(size_t alignment, size_t size) { return memalign(alignment, size); }

int posix_memalign(void **found, size_t alignment, size_t size) {
    void *block = memalign(alignment, size);
    if (block)
        *found = block;
    return block ? 0 : ENOMEM;
}
