/* Counts the growths of memory that a process asks for, and refuses one of them. Preloaded by scripts/growths.py.
 *
 * A growth is a call of malloc, calloc, realloc, aligned_alloc or posix_memalign after the process was set up; of these
 * d64sh calls malloc and realloc. GROWTHS names a file of four numbers of 8 bytes: how many growths were asked for, how many
 * were refused, the size of the first that was refused, and the size of the one that was asked for next. GROWTH_AT is the
 * number of the growth that is refused, from 1; 0 refuses none. Where GROWTH_ON is set, so are all that follow. Where
 * GROWTH_WITHIN is set, growths count only within a line of the standard output that is written in two pieces, between
 * the one and the other. */
#define _GNU_SOURCE
#include <dlfcn.h>
#include <errno.h>
#include <fcntl.h>
#include <stdint.h>
#include <stdlib.h>
#include <sys/mman.h>
#include <sys/syscall.h>
#include <unistd.h>

void *__libc_malloc(size_t size);
void *__libc_calloc(size_t count, size_t size);
void *__libc_realloc(void *block, size_t size);
void *__libc_memalign(size_t alignment, size_t size);

struct growths { uint64_t asked, refused, refused_size, next_size; };

static struct growths before_start, *growths = &before_start;
static uint64_t refused_at;
static int goes_on, counts = 1, is_within;
static ssize_t (*next_write)(int file, const void *bytes, size_t size);

__attribute__((constructor)) static void begin(void)
{
    const char *name = getenv("GROWTHS"), *at = getenv("GROWTH_AT");
    int file = name ? open(name, O_RDWR | O_CLOEXEC) : -1;
    void *kept = file < 0 ? MAP_FAILED : mmap(NULL, sizeof *growths, PROT_READ | PROT_WRITE, MAP_SHARED, file, 0);
    if (kept == MAP_FAILED) _exit(125);
    syscall(SYS_close, file);
    growths = kept;
    refused_at = at ? strtoull(at, NULL, 10) : 0;
    goes_on = getenv("GROWTH_ON") != NULL;
    is_within = getenv("GROWTH_WITHIN") != NULL;
    counts = !is_within;
    next_write = dlsym(RTLD_NEXT, "write");
}

ssize_t write(int file, const void *bytes, size_t size)
{
    if (is_within && file == STDOUT_FILENO) counts = !counts;
    return next_write(file, bytes, size);
}

/* Counts a growth, and says whether it is refused. */
static int is_refused(size_t size)
{
    if (!counts) return 0;
    uint64_t number = ++growths->asked;
    if (!refused_at || number < refused_at) return 0;
    if (number == refused_at) growths->refused_size = size;
    if (number == refused_at + 1) growths->next_size = size;
    if (number > refused_at && !goes_on) return 0;
    growths->refused++;
    errno = ENOMEM;
    return 1;
}

void *malloc(size_t size) { return is_refused(size) ? NULL : __libc_malloc(size); }

void *calloc(size_t count, size_t size) { return is_refused(count * size) ? NULL : __libc_calloc(count, size); }

void *realloc(void *block, size_t size) { return is_refused(size) ? NULL : __libc_realloc(block, size); }

void *aligned_alloc(size_t alignment, size_t size) { return is_refused(size) ? NULL : __libc_memalign(alignment, size); }

int posix_memalign(void **block, size_t alignment, size_t size)
{
    void *made = is_refused(size) ? NULL : __libc_memalign(alignment, size);
    if (!made) return ENOMEM;
    *block = made;
    return 0;
}
