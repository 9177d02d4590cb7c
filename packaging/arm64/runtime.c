/* What the compiled programs call beside the C library. The kit has it for x86-64 alone; this is the same for arm64.
 *
 * The kit's crates `os` and `libc` declare each of these functions with the contract that proofs rest on. No proof
 * reads this file: it is trusted to keep those contracts. Only Linux with glibc is meant, on a processor of 64 bits.
 */
#include <errno.h>
#include <stdbool.h>
#include <stddef.h>
#include <stdint.h>
#include <stdlib.h>
#include <string.h>
#include <sys/epoll.h>
#include <sys/ioctl.h>

extern char **environ;

/* ---- memory ---- */

/* What a request for memory gives: 1 and the block; or 0 and the address of a byte that nobody may use. */
struct tried {
    uint64_t ok;
    void *block;
};

_Static_assert(_Alignof(max_align_t) >= 16, "a block of malloc may hold a value of any alignment up to 16");

static struct tried tried(void *block)
{
    static char nothing;
    return block ? (struct tried){1, block} : (struct tried){0, &nothing};
}

/* A new block of `size` bytes. What has no bytes has an address all the same: it gets `alignment` of them. */
struct tried rattle_alloc(size_t size, size_t alignment)
{
    return tried(malloc(size ? size : alignment));
}

/* The block with `size` bytes from now on; its first bytes stay, and it may move. On 0 it is as it was. */
struct tried rattle_realloc(void *block, size_t kept, size_t size, size_t alignment)
{
    (void)kept;
    return tried(realloc(block, size ? size : alignment));
}

/* Gives back what one of the two gave. */
void rattle_dealloc(void *block)
{
    free(block);
}

/* ---- errors: C's errno, which the programs cannot name ---- */

int32_t rattle_errno(void)
{
    return errno;
}

void rattle_set_errno(int32_t error)
{
    errno = error;
}

/* ---- the words and the variables that the program is called with ---- */

enum { NONE = -1, TOO_LONG = -2 };

static int word_count;
static char **words;

/* glibc hands them to each constructor, before `main`. */
__attribute__((constructor)) static void keep_words(int count, char **given)
{
    word_count = count;
    words = given;
}

/* Puts a text to the start of `to`: its length. NONE if there is no text; TOO_LONG if it has more than `most` bytes,
 * and then its first `most` stand there. */
static int64_t put(const char *text, uint8_t *to, size_t most)
{
    if (!text)
        return NONE;
    size_t length = strlen(text);
    bool fits = length <= most;
    memcpy(to, text, fits ? length : most);
    return fits ? (int64_t)length : TOO_LONG;
}

/* How many words there are, with the program's own name. */
size_t rattle_arg_count(void)
{
    return (size_t)word_count;
}

/* Word `i`, of which the program's name is the first. */
int64_t rattle_arg(size_t i, uint8_t *to, size_t most)
{
    return put(i < (size_t)word_count ? words[i] : NULL, to, most);
}

/* The value of a variable. */
int64_t rattle_env(const char *name, uint8_t *to, size_t most)
{
    return put(getenv(name), to, most);
}

/* Variable `i` of all that there are, as NAME=VALUE. */
int64_t rattle_env_at(size_t i, uint8_t *to, size_t most)
{
    char **variable = environ;
    while (variable && *variable && i--)
        variable++;
    return put(variable ? *variable : NULL, to, most);
}

/* ---- descriptors ---- */

/* Whether reads, writes and so on of what `fd` is open on answer EAGAIN where they would wait. 0, or -1 and errno. */
int32_t rattle_set_nonblocking(int32_t fd, bool on)
{
    int value = on;
    return ioctl(fd, FIONBIO, &value);
}

/* What epoll tells of a descriptor: two fields, each in its natural place. That is how Linux has it on arm64. */
_Static_assert(sizeof(struct epoll_event) == 16 && offsetof(struct epoll_event, data) == 8,
               "Linux lays an event out as the programs do");

/* epoll_ctl, with the fields of its event. 0, or -1 and errno. */
int32_t rattle_epoll_ctl(int32_t set, int32_t operation, int32_t fd, uint32_t events, uint64_t data)
{
    struct epoll_event event = {.events = events, .data.u64 = data};
    return epoll_ctl(set, operation, fd, &event);
}

/* epoll_wait, for at most `room` events: how many came, which stand at the start of `to`; or -1 and errno. */
int64_t rattle_epoll_wait(int32_t set, struct epoll_event *to, size_t room, int32_t milliseconds)
{
    const size_t most = 1 << 24;
    return epoll_wait(set, to, (int)(room < most ? room : most), milliseconds);
}
