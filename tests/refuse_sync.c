/* Fails each call that has the disk keep a regular file, as a file system does that can't keep what was written to it: the answer is the
   error EIO. Where INTERRUPTED_SYNCS tells a number, the first so many calls are interrupted instead (EINTR), and the file is kept by those behind
   them. It stands before the C library's own functions, where it is preloaded. */

#include <errno.h>
#include <stdlib.h>
#include <sys/stat.h>
#include <sys/syscall.h>
#include <unistd.h>

static int fails(int error)
{
    errno = error;
    return -1;
}

static int keep(long call, int file)
{
    static long interrupted;
    struct stat told;
    const char *times = getenv("INTERRUPTED_SYNCS");
    if (fstat(file, &told) != 0 || !S_ISREG(told.st_mode))
        return (int)syscall(call, file);
    if (!times)
        return fails(EIO);
    return interrupted++ < atol(times) ? fails(EINTR) : (int)syscall(call, file);
}

int fdatasync(int file)
{
    return keep(SYS_fdatasync, file);
}

int fsync(int file)
{
    return keep(SYS_fsync, file);
}
