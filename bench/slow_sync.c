/* Each sync of the program that it is loaded into takes SYNC_MS milliseconds longer. */
#include <stdlib.h>
#include <sys/syscall.h>
#include <time.h>
#include <unistd.h>

static void rest(void)
{
    const char *given = getenv("SYNC_MS");
    long nanoseconds = given ? (long)(atof(given) * 1e6) : 0;
    struct timespec time = {nanoseconds / 1000000000, nanoseconds % 1000000000};
    nanosleep(&time, NULL);
}

int fsync(int file)
{
    rest();
    return (int)syscall(SYS_fsync, file);
}

int fdatasync(int file)
{
    rest();
    return (int)syscall(SYS_fdatasync, file);
}
