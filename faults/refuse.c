/* Refuses calls of the program that it is loaded into, as the file says that CONTROL names and that
   is shared with whoever tries it. These are allocations, calls on files by place (pread, pwrite,
   syncs, cuts), what is sent to a client, and calls on FILE-sums, which are no calls on files then.
   Of each kind `skip` calls pass, and then `many` are refused; where `many` is KILL the process is
   killed there. Calls and refusals are counted. Those of FILE-sums are refused for the reason `why`.
   The clock of the day is told so many seconds behind. */
#define _GNU_SOURCE
#include <dlfcn.h>
#include <errno.h>
#include <fcntl.h>
#include <signal.h>
#include <stdarg.h>
#include <stdio.h>
#include <stdlib.h>
#include <string.h>
#include <sys/mman.h>
#include <sys/socket.h>
#include <sys/stat.h>
#include <sys/syscall.h>
#include <time.h>
#include <unistd.h>

#define KILL (-(1L << 40))

struct refusal {
    long skip, many, calls, refused;
};

struct control {
    struct refusal memory, disk, sent, marks;
    long behind, why;
};

static struct control *control;

extern void *__libc_malloc(size_t);
extern void *__libc_calloc(size_t, size_t);
extern void *__libc_realloc(void *, size_t);
extern void *__libc_memalign(size_t, size_t);

__attribute__((constructor)) static void begin(void)
{
    const char *path = getenv("CONTROL");
    int fd = path ? open(path, O_RDWR) : -1;
    if (fd < 0)
        return;
    void *shared = mmap(NULL, sizeof *control, PROT_READ | PROT_WRITE, MAP_SHARED, fd, 0);
    close(fd);
    if (shared != MAP_FAILED)
        control = shared;
}

static int is_refused(struct refusal *refusal, int why)
{
    refusal->calls++;
    if (refusal->many <= 0 && refusal->many != KILL)
        return 0;
    if (refusal->skip > 0) {
        refusal->skip--;
        return 0;
    }
    refusal->refused++;
    if (refusal->many == KILL)
        kill(getpid(), SIGKILL);
    refusal->many--;
    errno = why;
    return 1;
}

static int no_memory(void)
{
    return control && is_refused(&control->memory, ENOMEM);
}

static int is_of_marks(int fd)
{
    char name[32], path[4096];
    snprintf(name, sizeof name, "/proc/self/fd/%d", fd);
    ssize_t len = readlink(name, path, sizeof path - 1);
    if (len < 0)
        return 0;
    path[len] = 0;
    return strstr(path, "-sums") != NULL;
}

static int no_disk(int fd)
{
    if (!control)
        return 0;
    return is_of_marks(fd) ? is_refused(&control->marks, (int)control->why)
                           : is_refused(&control->disk, EIO);
}

static int no_marks(int fd)
{
    return control && is_of_marks(fd) && is_refused(&control->marks, (int)control->why);
}

static int no_path(const char *path)
{
    return control && path && strstr(path, "-sums") &&
           is_refused(&control->marks, (int)control->why);
}

static int no_reply(int fd)
{
    (void)fd;
    return control && is_refused(&control->sent, EPIPE);
}

void *malloc(size_t size)
{
    return no_memory() ? NULL : __libc_malloc(size);
}

void *calloc(size_t count, size_t size)
{
    return no_memory() ? NULL : __libc_calloc(count, size);
}

void *realloc(void *old, size_t size)
{
    return no_memory() ? NULL : __libc_realloc(old, size);
}

void *aligned_alloc(size_t align, size_t size)
{
    return no_memory() ? NULL : __libc_memalign(align, size);
}

int posix_memalign(void **place, size_t align, size_t size)
{
    if (no_memory())
        return ENOMEM;
    *place = __libc_memalign(align, size);
    return *place ? 0 : ENOMEM;
}

/* The C library's own call of the name, and a call of the same name that may be refused. */
#define REFUSED(is_no, type, name, parameters, arguments)             \
    type name parameters                                              \
    {                                                                 \
        static type(*own) parameters;                                 \
        if (!own)                                                     \
            own = (type(*) parameters)dlsym(RTLD_NEXT, #name);        \
        return is_no(fd) ? -1 : own arguments;                        \
    }

REFUSED(no_disk, ssize_t, pread, (int fd, void *to, size_t size, off_t place),
        (fd, to, size, place))
REFUSED(no_disk, ssize_t, pread64, (int fd, void *to, size_t size, off64_t place),
        (fd, to, size, place))
REFUSED(no_disk, ssize_t, pwrite, (int fd, const void *from, size_t size, off_t place),
        (fd, from, size, place))
REFUSED(no_disk, ssize_t, pwrite64, (int fd, const void *from, size_t size, off64_t place),
        (fd, from, size, place))
REFUSED(no_disk, int, fsync, (int fd), (fd))
REFUSED(no_disk, int, fdatasync, (int fd), (fd))
REFUSED(no_disk, int, ftruncate, (int fd, off_t length), (fd, length))
REFUSED(no_disk, int, ftruncate64, (int fd, off64_t length), (fd, length))
REFUSED(no_marks, ssize_t, read, (int fd, void *to, size_t size), (fd, to, size))
REFUSED(no_marks, int, fchmod, (int fd, mode_t mode), (fd, mode))
REFUSED(no_marks, int, fchown, (int fd, uid_t owner, gid_t group), (fd, owner, group))
REFUSED(no_reply, ssize_t, send, (int fd, const void *from, size_t size, int flags),
        (fd, from, size, flags))

/* The same of calls that name a file. */
#define REFUSED_AT(name, parameters, arguments)                       \
    int name parameters                                               \
    {                                                                 \
        static int(*own) parameters;                                  \
        if (!own)                                                     \
            own = (int(*) parameters)dlsym(RTLD_NEXT, #name);         \
        return no_path(path) ? -1 : own arguments;                    \
    }

REFUSED_AT(unlink, (const char *path), (path))
REFUSED_AT(rename, (const char *path, const char *to), (path, to))
REFUSED_AT(statx, (int folder, const char *path, int flags, unsigned mask, struct statx *to),
           (folder, path, flags, mask, to))

#define OPENED(name, parameters, arguments)                           \
    int name parameters                                               \
    {                                                                 \
        static int(*own) parameters;                                  \
        if (!own)                                                     \
            own = (int(*) parameters)dlsym(RTLD_NEXT, #name);         \
        va_list more;                                                 \
        va_start(more, flags);                                        \
        mode_t mode = flags & (O_CREAT | __O_TMPFILE) ? va_arg(more, mode_t) : 0; \
        va_end(more);                                                 \
        return no_path(path) ? -1 : own arguments;                    \
    }

OPENED(open, (const char *path, int flags, ...), (path, flags, mode))
OPENED(open64, (const char *path, int flags, ...), (path, flags, mode))

int clock_gettime(clockid_t clock, struct timespec *now)
{
    int status = syscall(SYS_clock_gettime, clock, now);
    if (status == 0 && clock == CLOCK_REALTIME && control)
        now->tv_sec -= control->behind;
    return status;
}
