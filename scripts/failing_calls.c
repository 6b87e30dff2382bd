/* Makes calls of the system fail, or kills the process at one. Preloaded by scripts/sweep-stores, scripts/sweep-memory, scripts/sweep-faults,
 * scripts/sweep-survey-names and scripts/sweep-extract.
 *
 * A call is counted where its path is relative or its descriptor is none of the standard streams and of no file below /proc,
 * in which the system shows the process; with SWEEP_STREAMS the standard streams count too, and with SWEEP_BELOW the paths
 * that begin with it. SWEEP_LOG names the file that gets a line for each: its name and the path, or the number of a standard stream.
 * SWEEP_AT is the number of the call, from 1, and SWEEP_HOW what becomes of it: the number of an error; `short`, half of a
 * write, or one byte of a read; `full`, half of a write, and no room from then on; `gone`, an error of the device, as every
 * later call on a file has it; `kill`, the end before the call; `killed-half`, the end after half of a write;
 * `killed-after`, the end after the call. `stutter` needs no number: every other call of those that a signal may interrupt
 * is interrupted, and each read and write is short.
 *
 * SWEEP_PIECE is the most that a read of the standard input gives. SWEEP_INPUT is how many bytes the standard input gives
 * before it fails, and SWEEP_OUTPUT how many the standard output takes before it fails by the error SWEEP_FULL, or takes
 * nothing if that is 0. */
#define _GNU_SOURCE
#include <dlfcn.h>
#include <errno.h>
#include <fcntl.h>
#include <signal.h>
#include <stdarg.h>
#include <stdio.h>
#include <stdlib.h>
#include <string.h>
#include <sys/stat.h>
#include <sys/syscall.h>
#include <unistd.h>

enum { PASS, FAIL, SHORT, KILL_AFTER };
enum { MOST_FILES = 64, MOST_PATH = 256 };

static int calls;
static int is_full, is_gone, is_interrupted;
static size_t given, taken;
static char paths[MOST_FILES][MOST_PATH] = {"0", "1", "2"};

static void end(void) { kill(getpid(), SIGKILL); for (;;) pause(); }

static void log_call(const char *name, const char *path)
{
    const char *log = getenv("SWEEP_LOG");
    char line[1024];
    int length = snprintf(line, sizeof line, "%s %s\n", name, path);
    int fd = log ? syscall(SYS_openat, AT_FDCWD, log, O_WRONLY | O_APPEND | O_CREAT, 0666) : -1;
    if (fd < 0) return;
    syscall(SYS_write, fd, line, length);
    syscall(SYS_close, fd);
}

static int is_one_of(const char *name, const char *names) { return strstr(names, name) != NULL; }

/* What becomes of this call, where it is counted. */
static int turn(const char *name, const char *path, int is_on_file)
{
    const char *at = getenv("SWEEP_AT"), *how = getenv("SWEEP_HOW");
    int is_write = !strcmp(name, "write"), can_be_short = is_write || !strcmp(name, "read");
    log_call(name, path);
    calls++;
    if (is_full && is_write) { errno = ENOSPC; return FAIL; }
    if (is_gone && is_on_file) { errno = EIO; return FAIL; }
    if (how && !strcmp(how, "stutter")) {
        is_interrupted = !is_interrupted && is_one_of(name, "read write open open-to-write make fchmod fsync");
        errno = EINTR;
        return is_interrupted ? FAIL : can_be_short ? SHORT : PASS;
    }
    if (!at || !how || calls != atoi(at)) return PASS;
    if (!strcmp(how, "kill")) end();
    if (!strcmp(how, "killed-after")) return KILL_AFTER;
    if (!strcmp(how, "short")) return can_be_short ? SHORT : PASS;
    if (!strcmp(how, "full")) { is_full = is_write; return is_write ? SHORT : PASS; }
    if (!strcmp(how, "killed-half")) { is_full = -is_write; return is_write ? SHORT : PASS; }
    if (!strcmp(how, "gone")) { is_gone = 1; errno = EIO; return FAIL; }
    errno = atoi(how);
    return FAIL;
}

/* Whether a path begins with the one that is swept. */
static int is_below(const char *path)
{
    const char *top = getenv("SWEEP_BELOW");
    return top && !strncmp(path, top, strlen(top));
}

#define OF_PATH(path) ((path)[0] != '/' || is_below(path))
#define PATH_OF(fd) ((fd) >= 0 && (fd) < MOST_FILES ? paths[fd] : "")
#define OF_FILE(fd) ((fd) > 2 && (strncmp(PATH_OF(fd), "/proc/", 6) || is_below(PATH_OF(fd))))
#define REAL(name) ((__typeof__(&name))dlsym(RTLD_NEXT, #name))
#define CALL(is_counted, name, path, real)                             \
    do {                                                               \
        int what = (is_counted) ? turn(name, path, 1) : PASS, result;  \
        if (what == FAIL) return -1;                                   \
        result = (real);                                               \
        if (what == KILL_AFTER) end();                                 \
        return result;                                                 \
    } while (0)

static int opened(int fd, const char *path)
{
    if (fd >= 0 && fd < MOST_FILES) snprintf(paths[fd], MOST_PATH, "%s", path);
    return fd;
}

int open(const char *path, int flags, ...)
{
    const char *name = flags & O_CREAT ? "make" : (flags & O_ACCMODE) != O_RDONLY ? "open-to-write" : "open";
    va_list rest;
    mode_t mode = 0;
    va_start(rest, flags);
    if (flags & O_CREAT) mode = va_arg(rest, mode_t);
    va_end(rest);
    CALL(OF_PATH(path), name, path, opened(REAL(open)(path, flags, mode), path));
}

int statx(int folder, const char *restrict path, int flags, unsigned mask, struct statx *restrict into)
{
    if (!path[0]) CALL(OF_FILE(folder), "fstat", PATH_OF(folder), REAL(statx)(folder, path, flags, mask, into));
    CALL(OF_PATH(path), flags & AT_SYMLINK_NOFOLLOW ? "lstat" : "statx", path, REAL(statx)(folder, path, flags, mask, into));
}

ssize_t readlink(const char *restrict path, char *restrict into, size_t size)
{
    CALL(OF_PATH(path), "readlink", path, REAL(readlink)(path, into, size));
}

int rename(const char *from, const char *to) { CALL(OF_PATH(to), "rename", to, REAL(rename)(from, to)); }

int link(const char *from, const char *to) { CALL(OF_PATH(to), "link", to, REAL(link)(from, to)); }

int mkdir(const char *path, mode_t mode) { CALL(OF_PATH(path), "mkdir", path, REAL(mkdir)(path, mode)); }

int rmdir(const char *path) { CALL(OF_PATH(path), "rmdir", path, REAL(rmdir)(path)); }

int unlink(const char *path) { CALL(OF_PATH(path), "unlink", path, REAL(unlink)(path)); }

int fchmod(int fd, mode_t mode) { CALL(OF_FILE(fd), "fchmod", PATH_OF(fd), REAL(fchmod)(fd, mode)); }

int fchown(int fd, uid_t owner, gid_t group) { CALL(OF_FILE(fd), "fchown", PATH_OF(fd), REAL(fchown)(fd, owner, group)); }

int ftruncate(int fd, off_t length) { CALL(OF_FILE(fd), "ftruncate", PATH_OF(fd), REAL(ftruncate)(fd, length)); }

int fsync(int fd) { CALL(OF_FILE(fd), "fsync", PATH_OF(fd), REAL(fsync)(fd)); }

int close(int fd) { CALL(OF_FILE(fd), "close", PATH_OF(fd), REAL(close)(fd)); }

/* What becomes of a read or a write. */
static int turn_of(const char *name, int fd)
{
    int is_counted = fd >= 0 && (OF_FILE(fd) || (fd <= 2 && getenv("SWEEP_STREAMS")));
    return is_counted ? turn(name, PATH_OF(fd), OF_FILE(fd)) : PASS;
}

/* How many of these bytes a stream takes or gives that stops at a limit, if some were taken or given before. */
static size_t up_to(const char *limit, size_t done, size_t count)
{
    size_t most = limit ? strtoul(limit, NULL, 10) : count;
    return limit && most - done < count ? most - done : count;
}

ssize_t read(int fd, void *into, size_t count)
{
    int what = turn_of("read", fd);
    const char *input = fd == 0 ? getenv("SWEEP_INPUT") : NULL;
    ssize_t done;
    if (what == FAIL) return -1;
    if (fd == 0) count = up_to(getenv("SWEEP_PIECE"), 0, count);
    if (input && !up_to(input, given, 1)) { errno = EIO; return -1; }
    done = REAL(read)(fd, into, what == SHORT && count ? 1 : up_to(input, given, count));
    if (fd == 0 && done > 0) given += done;
    if (what == KILL_AFTER) end();
    return done;
}

ssize_t write(int fd, const void *bytes, size_t count)
{
    int what = turn_of("write", fd);
    const char *output = fd == 1 ? getenv("SWEEP_OUTPUT") : NULL, *error = getenv("SWEEP_FULL");
    ssize_t done;
    if (what == FAIL) return -1;
    if (output && count && !up_to(output, taken, 1)) {
        errno = error ? atoi(error) : ENOSPC;
        return errno ? -1 : 0;
    }
    done = REAL(write)(fd, bytes, what == SHORT ? (count + 1) / 2 : up_to(output, taken, count));
    if (fd == 1 && done > 0) taken += done;
    if (what == KILL_AFTER || is_full < 0) end();
    return done;
}

ssize_t __write(int fd, const void *bytes, size_t count) { return write(fd, bytes, count); }
