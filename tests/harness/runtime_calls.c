/* Calls what the compiled programs call beside the C library, and prints what comes: packaging/arm64/runtime.c and
 * the kit's own for x86-64 have to answer alike. The words that it is called with are part of that, but its own name
 * is not. */
#include <errno.h>
#include <fcntl.h>
#include <stdbool.h>
#include <stdint.h>
#include <stdio.h>
#include <string.h>
#include <sys/epoll.h>
#include <unistd.h>

extern char **environ;

struct tried {
    uint64_t ok;
    unsigned char *block;
};
struct event { /* as the programs have it */
    uint32_t events;
    uint64_t data;
};

struct tried rattle_alloc(size_t size, size_t alignment);
struct tried rattle_realloc(void *block, size_t kept, size_t size, size_t alignment);
void rattle_dealloc(void *block);
int32_t rattle_errno(void);
void rattle_set_errno(int32_t error);
size_t rattle_arg_count(void);
int64_t rattle_arg(size_t i, uint8_t *to, size_t most);
int64_t rattle_env(const char *name, uint8_t *to, size_t most);
int64_t rattle_env_at(size_t i, uint8_t *to, size_t most);
int32_t rattle_set_nonblocking(int32_t fd, bool on);
int32_t rattle_epoll_ctl(int32_t set, int32_t operation, int32_t fd, uint32_t events, uint64_t data);
int64_t rattle_epoll_wait(int32_t set, struct event *to, size_t room, int32_t milliseconds);

enum { ROOM = 40, MUCH = 1 << 20 };
static const size_t TOO_MUCH = (size_t)1 << 62;

static void memory(void)
{
    static const size_t sizes[] = {0, 1, 16, MUCH};
    for (size_t k = 0; k < sizeof sizes / sizeof *sizes; k++) {
        struct tried one = rattle_alloc(sizes[k], 16);
        memset(one.block, 0x5a, sizes[k]);
        printf("alloc %zu: %d, at a multiple of 16: %d\n", sizes[k], (int)one.ok, (uintptr_t)one.block % 16 == 0);
        struct tried none = rattle_realloc(one.block, sizes[k], TOO_MUCH, 16);
        printf("too much: %d, an address: %d\n", (int)none.ok, none.block != NULL);
        struct tried more = rattle_realloc(one.block, sizes[k], MUCH + 1, 16);
        size_t same = 0;
        while (same < sizes[k] && more.block[same] == 0x5a)
            same++;
        struct tried less = rattle_realloc(more.block, MUCH + 1, 0, 16);
        printf("more: %d, kept: %d; nothing: %d, an address: %d\n", (int)more.ok, same == sizes[k], (int)less.ok,
               less.block != NULL);
        rattle_dealloc(less.block);
    }
    struct tried none = rattle_alloc(TOO_MUCH, 8);
    printf("alloc too much: %d, an address: %d\n", (int)none.ok, none.block != NULL);
}

/* Prints the answer of one call, and all that stands in the room for it. */
static void text(const char *kind, size_t i, size_t most)
{
    static const char *const names[] = {"SHORT", "EMPTY", "LONG", "NOT_THERE", "", "SHORT=abc"};
    char room[ROOM + 1] = "########################################";
    uint8_t *to = (uint8_t *)room;
    int64_t answer = *kind == 'w' ? rattle_arg(i + 1, to, most)
        : *kind == 'v' ? rattle_env_at(i, to, most) : rattle_env(names[i], to, most);
    printf("%s %zu, room %zu: %d %s\n", kind, i, most, (int)answer, room);
}

static void texts(void)
{
    char *given[] = {"SHORT=abc", "EMPTY=", "LONG=0123456789012345678901234567", "LAST=z", NULL};
    environ = given;
    printf("words: %zu\n", rattle_arg_count());
    for (size_t most = 0; most < ROOM; most++)
        for (size_t i = 0; i < 6; i++) {
            text("word", i, most);
            text("variable", i, most);
            text("named", i, most);
        }
    environ = NULL;
    text("variable", 0, ROOM);
}

static void errors(void)
{
    for (int error = 0; error < 134; error++) {
        errno = error + 1;
        printf("error %d", rattle_errno());
        rattle_set_errno(error);
        printf(" %d\n", errno);
    }
}

static void nonblocking(int fd)
{
    char byte;
    printf("on: %d", rattle_set_nonblocking(fd, true));
    printf(", reads %d", (int)read(fd, &byte, 1));
    printf(" %d, %d", rattle_errno(), !!(fcntl(fd, F_GETFL) & O_NONBLOCK));
    printf("; off: %d", rattle_set_nonblocking(fd, false));
    printf(", %d", !!(fcntl(fd, F_GETFL) & O_NONBLOCK));
    printf("; none: %d", rattle_set_nonblocking(-1, true));
    printf(" %d\n", rattle_errno());
}

/* Waits, and prints what has come by its number, in whatever order it came. */
static void wait_for(int set, size_t room)
{
    struct event found[4] = {0};
    int64_t count = rattle_epoll_wait(set, found, room, 0);
    printf("room %zu: %d %d", room, (int)count, count < 0 ? rattle_errno() : 0);
    for (uint64_t data = 0; data < 3; data++)
        for (int64_t k = 0; k < count; k++)
            if (found[k].data == (data << 40 | data))
                printf(", %llx is ready for %x", (unsigned long long)found[k].data, found[k].events);
    printf("\n");
}

static void polled(void)
{
    int set = epoll_create1(EPOLL_CLOEXEC), ends[2][2];
    for (uint64_t k = 0; k < 2; k++) {
        if (pipe(ends[k]))
            return;
        printf("add: %d\n", rattle_epoll_ctl(set, EPOLL_CTL_ADD, ends[k][0], EPOLLIN, (k + 1) << 40 | (k + 1)));
    }
    nonblocking(ends[0][0]);
    wait_for(set, 4);
    for (size_t k = 0; k < 2; k++) {
        printf("write: %d\n", (int)write(ends[k][1], "x", 1));
        wait_for(set, 4);
    }
    wait_for(set, 0);
    printf("change: %d\n", rattle_epoll_ctl(set, EPOLL_CTL_MOD, ends[0][0], EPOLLOUT, 0));
    wait_for(set, 4);
    printf("remove: %d", rattle_epoll_ctl(set, EPOLL_CTL_DEL, ends[1][0], 0, 0));
    printf(", again: %d", rattle_epoll_ctl(set, EPOLL_CTL_DEL, ends[1][0], 0, 0));
    printf(" %d\n", rattle_errno());
    wait_for(set, 4);
    wait_for(-1, 4);
}

int main(void)
{
    memory();
    texts();
    errors();
    polled();
    return 0;
}
