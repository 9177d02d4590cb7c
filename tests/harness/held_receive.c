/* Holds the program after a datagram has come, and before it does anything with it, for as long as the file is there that
   HELD names: as if it were stopped at that very moment. For LD_PRELOAD:
   cc -shared -fPIC -O2 -o held_receive.so held_receive.c */
#include <stdlib.h>
#include <sys/socket.h>
#include <sys/syscall.h>
#include <time.h>
#include <unistd.h>

ssize_t recvfrom(int at, void *to, size_t size, int flags, struct sockaddr *peer, socklen_t *length) {
    const struct timespec moment = {0, 1000000};
    const char *held = getenv("HELD");
    ssize_t came = syscall(SYS_recvfrom, at, to, size, flags, peer, length);
    while (came >= 0 && held && access(held, F_OK) == 0) nanosleep(&moment, NULL);
    return came;
}
