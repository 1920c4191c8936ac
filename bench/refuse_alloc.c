/* Refuses one allocation of the program that it is loaded into: the one whose number, counted from 1,
   is in REFUSE_ALLOC. Where the program ends before that, it says so on standard error. */
#include <errno.h>
#include <stdlib.h>
#include <unistd.h>

extern void *__libc_malloc(size_t);
extern void *__libc_calloc(size_t, size_t);
extern void *__libc_realloc(void *, size_t);
extern void *__libc_memalign(size_t, size_t);

static long left = -1;

__attribute__((constructor)) static void begin(void)
{
    const char *number = getenv("REFUSE_ALLOC");
    left = number ? atol(number) : 0;
}

static int is_refused(void)
{
    if (left <= 0 || --left != 0)
        return 0;
    errno = ENOMEM;
    return 1;
}

__attribute__((destructor)) static void end(void)
{
    static const char text[] = "none refused\n";
    if (left > 0 && write(2, text, sizeof text - 1) < 0)
        _exit(1);
}

void *malloc(size_t size)
{
    return is_refused() ? NULL : __libc_malloc(size);
}

void *calloc(size_t count, size_t size)
{
    return is_refused() ? NULL : __libc_calloc(count, size);
}

void *realloc(void *old, size_t size)
{
    return is_refused() ? NULL : __libc_realloc(old, size);
}

void *aligned_alloc(size_t align, size_t size)
{
    return is_refused() ? NULL : __libc_memalign(align, size);
}

int posix_memalign(void **place, size_t align, size_t size)
{
    if (is_refused())
        return ENOMEM;
    *place = __libc_memalign(align, size);
    return *place ? 0 : ENOMEM;
}
