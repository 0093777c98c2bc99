/* Loaded before the C library by .ci/faults: calls of one kind fail, and reads and writes are cut short.
 *
 * FAULT=KIND:N       the N-th call of that kind fails, counted from 1; FAULT=KIND:N+ each from there on
 * PIECE=N            a read or a write moves N bytes at most
 * SEEN=PATH          where to write, at the end: how many calls failed, on what the first one did, how many bytes of the
 *                    input were taken, and how many calls of each kind came
 */
#define _GNU_SOURCE
#include <errno.h>
#include <fcntl.h>
#include <stdarg.h>
#include <stdio.h>
#include <stdlib.h>
#include <string.h>
#include <sys/syscall.h>
#include <unistd.h>

extern void *__libc_malloc(size_t);
extern void *__libc_realloc(void *, size_t);

enum kind { READ, WRITE, OPEN, CLOSE, RENAME, SYNC, MODE, OWNER, CUT, LINK, UNLINK, LOCK, SEEK, STAT, MEMORY, KINDS };

static const char *const names[KINDS] = {"read", "write", "open", "close", "rename", "sync", "mode", "owner", "cut", "link", "unlink", "lock", "seek", "stat", "memory"};

enum { FILES = 64, LONGEST = 256 };

static long counts[KINDS];
static int failing = KINDS, ever, begun, failed;
static long at, taken;
static size_t piece;
static char paths[FILES][LONGEST];
static char failed_at[LONGEST];

static int fails(enum kind kind, const char *on)
{
    if (!begun)
        return 0;
    long number = ++counts[kind];
    if (kind != (enum kind)failing || !(ever ? number >= at : number == at))
        return 0;
    if (!failed++)
        strncpy(failed_at, on, LONGEST - 1);
    errno = kind == MEMORY ? ENOMEM : EIO;
    return 1;
}

static const char *path_of(int file)
{
    return file >= 0 && file < FILES ? paths[file] : "";
}

static size_t cut(size_t most)
{
    return piece && most > piece ? piece : most;
}

ssize_t read(int file, void *to, size_t most)
{
    if (fails(READ, path_of(file)))
        return -1;
    ssize_t got = syscall(SYS_read, file, to, cut(most));
    taken += file == 0 && got > 0 ? got : 0;
    return got;
}

ssize_t write(int file, const void *from, size_t most)
{
    return fails(WRITE, path_of(file)) ? -1 : syscall(SYS_write, file, from, cut(most));
}

ssize_t __write(int file, const void *from, size_t most)
{
    return write(file, from, most);
}

int open(const char *path, int flags, ...)
{
    va_list more;
    va_start(more, flags);
    int mode = flags & O_CREAT ? va_arg(more, int) : 0;
    va_end(more);
    if (fails(OPEN, path))
        return -1;
    int file = syscall(SYS_openat, AT_FDCWD, path, flags, mode);
    if (file >= 0 && file < FILES)
        strncpy(paths[file], path, LONGEST - 1);
    return file;
}

int close(int file)
{
    int fault = fails(CLOSE, path_of(file));
    if (file >= 0 && file < FILES)
        paths[file][0] = 0;
    int done = syscall(SYS_close, file); /* closed all the same, as the system does */
    if (fault)
        errno = EIO;
    return fault ? -1 : done;
}

int rename(const char *from, const char *to)
{
    return fails(RENAME, from) ? -1 : syscall(SYS_renameat2, AT_FDCWD, from, AT_FDCWD, to, 0);
}

int fsync(int file) { return fails(SYNC, path_of(file)) ? -1 : syscall(SYS_fsync, file); }
int fdatasync(int file) { return fails(SYNC, path_of(file)) ? -1 : syscall(SYS_fdatasync, file); }
int fchmod(int file, mode_t mode) { return fails(MODE, path_of(file)) ? -1 : syscall(SYS_fchmod, file, mode); }
int chown(const char *path, uid_t user, gid_t group) { return fails(OWNER, path) ? -1 : syscall(SYS_fchownat, AT_FDCWD, path, user, group, 0); }
int ftruncate(int file, off_t size) { return fails(CUT, path_of(file)) ? -1 : syscall(SYS_ftruncate, file, size); }
int unlink(const char *path) { return fails(UNLINK, path) ? -1 : syscall(SYS_unlinkat, AT_FDCWD, path, 0); }
int flock(int file, int how) { return fails(LOCK, path_of(file)) ? -1 : syscall(SYS_flock, file, how); }
off_t lseek(int file, off_t by, int from) { return fails(SEEK, path_of(file)) ? -1 : syscall(SYS_lseek, file, by, from); }

ssize_t readlink(const char *path, char *to, size_t most)
{
    return fails(LINK, path) ? -1 : syscall(SYS_readlinkat, AT_FDCWD, path, to, most);
}

struct statx;
int statx(int folder, const char *path, int flags, unsigned mask, struct statx *to)
{
    return fails(STAT, *path ? path : path_of(folder)) ? -1 : syscall(SYS_statx, folder, path, flags, mask, to);
}

void *malloc(size_t size) { return fails(MEMORY, "") ? NULL : __libc_malloc(size); }
void *realloc(void *old, size_t size) { return fails(MEMORY, "") ? NULL : __libc_realloc(old, size); }

__attribute__((constructor)) static void begin(void)
{
    const char *fault = getenv("FAULT"), *most = getenv("PIECE");
    const char *mark = fault ? strchr(fault, ':') : NULL;
    for (int kind = 0; mark && kind < KINDS; kind++)
        if (strlen(names[kind]) == (size_t)(mark - fault) && !strncmp(names[kind], fault, mark - fault))
            failing = kind;
    if (mark) {
        at = atol(mark + 1);
        ever = strchr(mark, '+') != NULL;
    }
    piece = most ? (size_t)atol(most) : 0;
    strcpy(paths[0], "<input>");
    strcpy(paths[1], "<screen>");
    strcpy(paths[2], "<errors>");
    begun = 1;
}

__attribute__((destructor)) static void end(void)
{
    static char text[4096];
    const char *seen = getenv("SEEN");
    begun = 0;
    if (!seen)
        return;
    int length = snprintf(text, sizeof text, "%d\n%s\n%ld\n", failed, failed_at, taken);
    for (int kind = 0; kind < KINDS; kind++)
        length += snprintf(text + length, sizeof text - length, "%s %ld\n", names[kind], counts[kind]);
    int file = syscall(SYS_openat, AT_FDCWD, seen, O_WRONLY | O_CREAT | O_TRUNC, 0600);
    if (file >= 0 && syscall(SYS_write, file, text, length) == length)
        syscall(SYS_close, file);
}
