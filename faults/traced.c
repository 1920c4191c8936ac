/* Notes each call of the program that it is loaded into that changes a file whose path begins with
   TRACED, and each piece that is sent to a client, at the end of the file TRACE: four numbers (kind,
   file, place, length) and the bytes. It refuses nothing. */
#define _GNU_SOURCE
#include <dlfcn.h>
#include <fcntl.h>
#include <stdio.h>
#include <stdlib.h>
#include <string.h>
#include <sys/socket.h>
#include <sys/uio.h>
#include <unistd.h>

enum { WRITTEN, CUT, SYNCED, RENAMED, REMOVED, SENT };

/* The files by their ends; what is noted of the folder has the number behind them. */
static const char *const ends[] = {"", "-wal", "-sums", "-sums.part"};
enum { FILES = 4 };

static const char *traced;
static int trace = -1;

__attribute__((constructor)) static void begin(void)
{
    const char *path = getenv("TRACE");
    traced = getenv("TRACED");
    if (path && traced)
        trace = open(path, O_WRONLY | O_APPEND | O_CREAT | O_CLOEXEC, 0600);
}

static void note(long kind, long file, long place, const void *bytes, long length)
{
    long head[4] = {kind, file, place, length};
    struct iovec parts[2] = {{head, sizeof head}, {(void *)bytes, bytes ? (size_t)length : 0}};
    if (trace >= 0 && writev(trace, parts, 2) < 0)
        abort();
}

static int file_at(const char *path)
{
    size_t length = traced ? strlen(traced) : 0;
    if (trace < 0 || strncmp(path, traced, length) != 0)
        return -1;
    for (int i = 0; i < FILES; i++)
        if (strcmp(path + length, ends[i]) == 0)
            return i;
    return -1;
}

static int file_of(int fd)
{
    char name[32], path[4096];
    snprintf(name, sizeof name, "/proc/self/fd/%d", fd);
    ssize_t length = trace < 0 ? -1 : readlink(name, path, sizeof path - 1);
    if (length < 0)
        return -1;
    path[length] = 0;
    if (strncmp(path, traced, length) == 0 && traced[length] == '/' &&
        !strchr(traced + length + 1, '/'))
        return FILES;
    return file_at(path);
}

#define OWN(type, name, parameters)                                   \
    static type(*own) parameters;                                     \
    if (!own)                                                         \
        own = (type(*) parameters)dlsym(RTLD_NEXT, #name);

#define WRITES(name, offset)                                          \
    ssize_t name(int fd, const void *from, size_t size, offset place) \
    {                                                                 \
        OWN(ssize_t, name, (int, const void *, size_t, offset))       \
        ssize_t done = own(fd, from, size, place);                    \
        int file = file_of(fd);                                       \
        if (file >= 0 && done > 0)                                    \
            note(WRITTEN, file, place, from, done);                   \
        return done;                                                  \
    }

#define CUTS(name, offset)                                            \
    int name(int fd, offset length)                                   \
    {                                                                 \
        OWN(int, name, (int, offset))                                 \
        int status = own(fd, length), file = file_of(fd);             \
        if (file >= 0 && status == 0)                                 \
            note(CUT, file, length, NULL, 0);                         \
        return status;                                                \
    }

#define SYNCS(name)                                                   \
    int name(int fd)                                                  \
    {                                                                 \
        OWN(int, name, (int))                                         \
        int status = own(fd), file = file_of(fd);                     \
        if (file >= 0 && status == 0)                                 \
            note(SYNCED, file, 0, NULL, 0);                           \
        return status;                                                \
    }

WRITES(pwrite, off_t)
WRITES(pwrite64, off64_t)
CUTS(ftruncate, off_t)
CUTS(ftruncate64, off64_t)
SYNCS(fsync)
SYNCS(fdatasync)

int rename(const char *from, const char *to)
{
    OWN(int, rename, (const char *, const char *))
    int status = own(from, to);
    if (status == 0 && file_at(from) >= 0 && file_at(to) >= 0)
        note(RENAMED, file_at(from), file_at(to), NULL, 0);
    return status;
}

int unlink(const char *path)
{
    OWN(int, unlink, (const char *))
    int status = own(path);
    if (status == 0 && file_at(path) >= 0)
        note(REMOVED, file_at(path), 0, NULL, 0);
    return status;
}

ssize_t send(int fd, const void *from, size_t size, int flags)
{
    OWN(ssize_t, send, (int, const void *, size_t, int))
    note(SENT, 0, 0, from, size);
    return own(fd, from, size, flags);
}
