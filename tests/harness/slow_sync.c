/* Makes each sync take as many milliseconds longer as the variable SYNC_MS says, as a slow disk does, and hang while the
   file is there that FROZEN names. For LD_PRELOAD:
   cc -shared -fPIC -O2 -o slow_sync.so slow_sync.c */
#include <stdlib.h>
#include <sys/syscall.h>
#include <time.h>
#include <unistd.h>

static void wait_on(void) {
    long millis = getenv("SYNC_MS") ? atol(getenv("SYNC_MS")) : 0;
    struct timespec span = {millis / 1000, millis % 1000 * 1000000}, left;
    const struct timespec moment = {0, 1000000};
    const char *frozen = getenv("FROZEN");
    while (nanosleep(&span, &left)) span = left;
    while (frozen && access(frozen, F_OK) == 0) nanosleep(&moment, NULL);
}

int fdatasync(int file) {
    wait_on();
    return syscall(SYS_fdatasync, file);
}

int fsync(int file) {
    wait_on();
    return syscall(SYS_fsync, file);
}
