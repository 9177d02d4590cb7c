/* A trap for the tests: a device with positions, over the calls of cue_device.h, made from docs/DEVICES.md alone.
 *
 *     trap NUMBER PORT KEPT [ADDRESS PORT [relay]]
 *
 * Its part in a cue is one byte, the height in percent: 0 is closed, 100 is open. It travels 100 percent in a second,
 * so a cue for the height where it stands is over at once. A part that is no height, it cannot carry out. Before it
 * travels a bolt is drawn, and the bolt goes back when it is at rest or gives up. SIGUSR1 is its emergency stop, and
 * SIGUSR2 resets that. SIGHUP has it forget its number. For each motion it prints a line with `moves`. With `relay` it
 * tells that sender what it may of itself. */
#include "cue_device.h"
#include <arpa/inet.h>
#include <fcntl.h>
#include <poll.h>
#include <signal.h>
#include <stdio.h>
#include <stdlib.h>
#include <string.h>
#include <sys/socket.h>
#include <time.h>
#include <unistd.h>

enum { BOLT = 120, TRAVEL = 10, OPEN = 100 }; /* milliseconds of the bolt, and of one percent; the highest percent */

static volatile sig_atomic_t is_stopped, is_reset, is_to_forget;
static int has_relay;

static struct {
    uint32_t order;    /* what it carries out, or CUE_NO_ORDER */
    int64_t end;       /* when that is done */
    int from, at, to;  /* where the motion began, where the trap is, where it travels to */
    int64_t began;
    int is_drawn;      /* the bolt */
} trap;

/* Two records by turns, each with a count and a checksum. */
struct record {
    uint32_t count, number;
    struct cue_place from;
    uint32_t sum;
};

static int memory;
static struct record newest;

static int64_t now(void)
{
    struct timespec time;
    clock_gettime(CLOCK_MONOTONIC, &time);
    return (int64_t)time.tv_sec * 1000 + time.tv_nsec / 1000000;
}

static void stop(const char *why)
{
    perror(why);
    exit(1);
}

static uint32_t sum_of(const struct record *record)
{
    const unsigned char *bytes = (const unsigned char *)record;
    uint32_t sum = 2166136261u; /* FNV-1a */
    for (size_t i = 0; i < offsetof(struct record, sum); i++)
        sum = (sum ^ bytes[i]) * 16777619u;
    return sum;
}

static void write_record(uint32_t number, const struct cue_place *from)
{
    struct record record = {newest.count + 1, number, *from, 0};
    off_t slot = (off_t)(record.count % 2 * sizeof record);
    record.sum = sum_of(&record);
    if (pwrite(memory, &record, sizeof record, slot) != (ssize_t)sizeof record || fsync(memory) != 0)
        stop("trap: its number cannot be kept");
    newest = record;
}

static void read_records(const char *path)
{
    struct record record;
    memory = open(path, O_RDWR | O_CREAT, 0644);
    if (memory < 0)
        stop(path);
    for (int slot = 0; slot < 2; slot++) {
        ssize_t length = pread(memory, &record, sizeof record, (off_t)(slot * (int)sizeof record));
        if (length == (ssize_t)sizeof record && record.sum == sum_of(&record) && record.count > newest.count)
            newest = record;
    }
    if (newest.count == 0 && lseek(memory, 0, SEEK_END) > 0)
        stop("trap: no record is whole");
}

/* Where the part wants the trap, or -1. */
static int height_of(const struct cue_device *device)
{
    return device->bytes_length == 1 && device->bytes[0] <= OPEN ? device->bytes[0] : -1;
}

static void send_answer(int wire, const struct cue_answer *answer)
{
    struct sockaddr_in to = {.sin_family = AF_INET};
    if (answer->length == 0)
        return;
    to.sin_addr.s_addr = htonl(cue_place_address(&answer->to));
    to.sin_port = htons(cue_place_port(&answer->to));
    sendto(wire, answer->bytes, answer->length, 0, (struct sockaddr *)&to, sizeof to);
}

/* Tells the relay something: the tags, and what comes after them, in whole words of four bytes. */
static void tell(int wire, const struct cue_device *device, const char *what, const char *tags, const void *rest,
                 size_t length)
{
    unsigned char bytes[128] = {0};
    struct sockaddr_in to = {.sin_family = AF_INET};
    size_t at;
    if (!has_relay || cue_place_port(&device->controller) == 0)
        return;
    at = (size_t)sprintf((char *)bytes, "/device/%u/%s", (unsigned)device->number, what) / 4 * 4 + 4;
    strcpy((char *)bytes + at, tags);
    at += strlen(tags) / 4 * 4 + 4;
    memcpy(bytes + at, rest, length);
    to.sin_addr.s_addr = htonl(cue_place_address(&device->controller));
    to.sin_port = htons(cue_place_port(&device->controller));
    sendto(wire, bytes, at + length, 0, (struct sockaddr *)&to, sizeof to);
}

static void tell_why(int wire, const struct cue_device *device)
{
    struct { uint32_t number; char words[24]; } rest = {htonl(device->last), "restarted or stopped"};
    tell(wire, device, "why", ",is", &rest, sizeof rest);
}

/* Where it is, while it travels and once at rest; and who made it. */
static void tell_again(int wire, const struct cue_device *device)
{
    static int64_t next, who;
    static int was_moving;
    int is_moving = trap.order == CUE_MOVE;
    struct { uint32_t at, goal; char unit[8]; } rest = {htonl((uint32_t)trap.at), htonl((uint32_t)trap.to), "percent"};
    if (is_moving ? now() >= next : was_moving) {
        tell(wire, device, "at", ",iis", &rest, sizeof rest);
        next = now() + 100;
    }
    was_moving = is_moving;
    if (now() >= who && device->last > 0) {
        tell(wire, device, "who", ",s", "Trap, 4.0\0\0", 12);
        who = now() + 60000;
    }
}

/* Begins an order. The bolt of an earlier number is put back first: then it is drawn anew. */
static void begin(uint32_t order, const struct cue_device *device)
{
    if (order == CUE_NO_ORDER || order == CUE_BAD_CALL)
        return;
    trap.order = order;
    trap.began = now();
    if (order == CUE_PREPARE)
        trap.end = trap.began + (trap.is_drawn ? 2 : 1) * BOLT;
    if (order == CUE_GIVE_UP)
        trap.end = trap.began + BOLT;
    if (order == CUE_MOVE) {
        trap.from = trap.at;
        trap.to = height_of(device);
        trap.end = trap.began + (int64_t)abs(trap.to - trap.from) * TRAVEL;
        printf("trap %u attempt %u moves from %d to %d\n", (unsigned)device->number, (unsigned)device->last, trap.from,
               trap.to);
    }
}

/* Looks at the motor, and reports the end of its order. */
static void look(int wire, struct cue_device *device)
{
    struct cue_answer answer;
    uint32_t order = trap.order;
    int64_t time = now();
    answer.length = 0;
    if (order == CUE_MOVE) {
        int gone = (int)((time - trap.began) / TRAVEL), whole = abs(trap.to - trap.from);
        gone = gone < whole ? gone : whole;
        trap.at = trap.to > trap.from ? trap.from + gone : trap.from - gone;
    }
    if ((is_stopped && (order != CUE_NO_ORDER || device->phase == CUE_READY)) ||
        (order == CUE_PREPARE && height_of(device) < 0)) {
        trap.order = CUE_NO_ORDER;
        trap.is_drawn = 0;
        if (cue_cannot(device, &answer) == CUE_BAD_CALL)
            answer.length = 0;
        else
            tell_why(wire, device);
    } else if (order != CUE_NO_ORDER && time >= trap.end) {
        trap.order = CUE_NO_ORDER;
        trap.is_drawn = order == CUE_PREPARE;
        if (order == CUE_PREPARE)
            cue_prepared(device, &answer);
        else if (order == CUE_MOVE)
            cue_moved(device, &answer);
        else
            cue_gave_up(device, &answer);
    }
    send_answer(wire, &answer);
}

static void hear(int wire, struct cue_device *device)
{
    uint8_t bytes[256];
    struct sockaddr_in sender;
    socklen_t size = sizeof sender;
    struct cue_answer answer;
    ssize_t length = recvfrom(wire, bytes, sizeof bytes, MSG_DONTWAIT, (struct sockaddr *)&sender, &size);
    if (length < 0)
        return;
    struct cue_place from = cue_place_of(ntohl(sender.sin_addr.s_addr), ntohs(sender.sin_port));
    uint32_t order = cue_hear(device, &from, bytes, (size_t)length, &answer);
    if (device->last != newest.number || memcmp(&device->controller, &newest.from, sizeof from) != 0)
        write_record(device->last, &device->controller);
    begin(order, device);
    send_answer(wire, &answer);
}

static void on_signal(int number)
{
    if (number == SIGUSR1)
        is_stopped = 1;
    else if (number == SIGUSR2)
        is_reset = 1;
    else
        is_to_forget = 1;
}

static void open_device(struct cue_device *device, char **words, int count, struct cue_answer *first)
{
    uint32_t number = (uint32_t)atoi(words[1]);
    read_records(words[3]);
    if (cue_restarted(device, number, newest.number, &newest.from, first) != CUE_NO_ORDER)
        stop("trap: its number");
    if (count > 5) {
        struct cue_place only = cue_place_of(ntohl(inet_addr(words[4])), (uint16_t)atoi(words[5]));
        cue_hear_only(device, &only);
    }
}

int main(int count, char **words)
{
    struct cue_device device;
    struct cue_answer first, answer;
    struct sockaddr_in here = {.sin_family = AF_INET};
    int left, wire = socket(AF_INET, SOCK_DGRAM, 0);
    if (count < 4)
        return fprintf(stderr, "trap NUMBER PORT KEPT [ADDRESS PORT [relay]]\n"), 2;
    has_relay = count > 6;
    open_device(&device, words, count, &first);
    left = first.length > 0 ? 40 : 0;
    here.sin_port = htons((uint16_t)atoi(words[2]));
    here.sin_addr.s_addr = htonl(INADDR_LOOPBACK);
    if (wire < 0 || bind(wire, (struct sockaddr *)&here, sizeof here) != 0)
        stop("trap: its port");
    signal(SIGUSR1, on_signal);
    signal(SIGUSR2, on_signal);
    signal(SIGHUP, on_signal);
    setvbuf(stdout, NULL, _IOLBF, 0);
    for (int64_t due = now();;) {
        struct pollfd ears = {.fd = wire, .events = POLLIN};
        if (poll(&ears, 1, 5) > 0)
            hear(wire, &device);
        if (is_reset)
            is_stopped = is_reset = 0;
        look(wire, &device);
        tell_again(wire, &device);
        if (is_to_forget && trap.order == CUE_NO_ORDER && !trap.is_drawn) {
            struct cue_place only = device.only;
            is_to_forget = 0;
            cue_new(&device, device.number);
            cue_hear_only(&device, &only);
            write_record(0, &device.controller);
        }
        if (now() < due)
            continue;
        if (left > 0 && device.phase == CUE_OVER) {
            left--;
            first.to = device.controller;
            send_answer(wire, &first);
            tell_why(wire, &device);
            due += 25;
            continue;
        }
        cue_tick(&device, &answer);
        send_answer(wire, &answer);
        if (answer.length > 0)
            tell_why(wire, &device);
        due = now() + 250;
    }
}
