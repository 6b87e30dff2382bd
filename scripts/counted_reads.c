/* Counts the reads of standard input, and gives each at most some bytes. Preloaded by scripts/limits.
 *
 * READS names a file of a number of 8 bytes: how many reads there were. READ_AT_MOST is the most bytes that a read gives;
 * 0 gives what is asked for. */
#include <fcntl.h>
#include <stdint.h>
#include <stdlib.h>
#include <sys/mman.h>
#include <sys/syscall.h>
#include <unistd.h>

static uint64_t *reads;
static size_t at_most;

__attribute__((constructor)) static void begin(void)
{
    const char *name = getenv("READS"), *most = getenv("READ_AT_MOST");
    int file = name ? open(name, O_RDWR | O_CLOEXEC) : -1;
    void *kept = file < 0 ? MAP_FAILED : mmap(NULL, sizeof *reads, PROT_READ | PROT_WRITE, MAP_SHARED, file, 0);
    if (kept == MAP_FAILED) _exit(125);
    close(file);
    reads = kept;
    at_most = most ? strtoull(most, NULL, 10) : 0;
}

ssize_t read(int fd, void *bytes, size_t count)
{
    if (fd == 0) ++*reads;
    if (fd == 0 && at_most && at_most < count) count = at_most;
    return syscall(SYS_read, fd, bytes, count);
}

ssize_t __read(int fd, void *bytes, size_t count) { return read(fd, bytes, count); }
