/* A file system that knows no locks: each request for one fails, as ENOLCK. For LD_PRELOAD:
   cc -shared -fPIC -O2 -o refuse_locks.so refuse_locks.c */
#include <errno.h>
#include <sys/file.h>

int flock(int file, int how) {
    (void)file, (void)how;
    errno = ENOLCK;
    return -1;
}
