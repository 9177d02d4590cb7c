/* level_trap.c: a trap with four levels, over device/cue_device.c, as its maker would write it.
 *
 *     level_trap NUMBER PORT RECORD MACHINE [ADDRESS PORT]
 *
 * The one byte of its part is a level, 0 to 3; any other part is no level, and it says abort. Told to go where it
 * stands, it is there at once; else it moves at three metres a second, a metre between two levels. It prepares by
 * drawing a bolt, and gives up by setting it. RECORD is its memory for the number: a ring of sixteen records, each
 * with a count and a checksum. MACHINE is the machine itself: where it stands in millimetres, and how often it was
 * set in motion, which a restart of the box does not change. With the last two it hears that sender alone.
 *
 * SIGUSR1 opens its interlock, and SIGUSR2 closes it. */
#define _DEFAULT_SOURCE
#include "cue_device.h"
#include <arpa/inet.h>
#include <fcntl.h>
#include <poll.h>
#include <signal.h>
#include <stdbool.h>
#include <stdio.h>
#include <stdlib.h>
#include <string.h>
#include <sys/socket.h>
#include <time.h>
#include <unistd.h>

enum { BOLT_TIME = 300, BRAKE_TIME = 100, LEVEL = 1000, SPEED = 3, SLOTS = 16, TICK_TIME = 250, STEP = 10 };
enum { ANNOUNCEMENTS = 40, ANNOUNCE_TIME = 25 };

struct record {
    uint32_t count, last;
    struct cue_place controller;
    uint32_t sum;
};

struct machine {
    int32_t position; /* in millimetres */
    uint32_t motions;
};

static struct cue_device device;
static struct cue_place only;
static struct record stored; /* the newest whole record of the memory */
static struct machine machine;
static int udp, record_file, machine_file;
static uint32_t work;       /* the order that it carries out, or none */
static int64_t work_ends;   /* when a bolt is where it is to be */
static bool is_bolt_drawn;  /* it holds what it prepared */
static bool is_braking;
static int32_t target;      /* of what it prepared, in millimetres */
static volatile sig_atomic_t is_interlock_open;
static struct cue_answer announcement;
static int announcements_left;

static int64_t now(void)
{
    struct timespec time;
    clock_gettime(CLOCK_MONOTONIC, &time);
    return (int64_t)time.tv_sec * 1000 + time.tv_nsec / 1000000;
}

static void die(const char *what)
{
    perror(what);
    exit(1);
}

/* ---- the record */

static uint32_t sum_of(const struct record *record)
{
    const uint8_t *bytes = (const uint8_t *)record;
    uint32_t sum = 0xffffffffu;
    size_t i;
    int bit;
    for (i = 0; i < offsetof(struct record, sum); i++) {
        sum ^= bytes[i];
        for (bit = 0; bit < 8; bit++)
            sum = (sum >> 1) ^ (0xedb88320u & (0u - (sum & 1u)));
    }
    return ~sum;
}

/* Takes the newest whole record. Whether there is one, or the memory is blank. */
static bool load_record(void)
{
    struct record record;
    bool is_blank = true, is_found = false;
    off_t slot;
    for (slot = 0; slot < SLOTS; slot++) {
        if (pread(record_file, &record, sizeof record, slot * (off_t)sizeof record) != (ssize_t)sizeof record)
            break;
        is_blank = false;
        if (sum_of(&record) == record.sum && (!is_found || record.count > stored.count)) {
            stored = record;
            is_found = true;
        }
    }
    return is_found || is_blank;
}

/* Writes number and sender beside the newest record, and reads them back. If that fails, it is reset. */
static void keep(void)
{
    struct record record, read;
    off_t at;
    if (device.last == stored.last && memcmp(&device.controller, &stored.controller, sizeof stored.controller) == 0)
        return;
    record.count = stored.count + 1u;
    record.last = device.last;
    record.controller = device.controller;
    record.sum = sum_of(&record);
    at = (off_t)(record.count % SLOTS) * (off_t)sizeof record;
    if (pwrite(record_file, &record, sizeof record, at) != (ssize_t)sizeof record || fsync(record_file) != 0 ||
        pread(record_file, &read, sizeof read, at) != (ssize_t)sizeof read || memcmp(&read, &record, sizeof read) != 0)
        die("the record cannot be written");
    stored = record;
}

/* ---- the wire */

static void send_answer(const struct cue_answer *answer)
{
    struct sockaddr_in to = {0};
    if (answer->length == 0u)
        return;
    to.sin_family = AF_INET;
    to.sin_addr.s_addr = htonl(cue_place_address(&answer->to));
    to.sin_port = htons(cue_place_port(&answer->to));
    (void)sendto(udp, answer->bytes, answer->length, 0, (const struct sockaddr *)&to, sizeof to);
}

/* ---- the machine */

static void note_machine(void)
{
    if (pwrite(machine_file, &machine, sizeof machine, 0) != (ssize_t)sizeof machine)
        die("the machine");
}

/* It is at rest, and can do no more of what it was ordered. */
static void cannot(void)
{
    struct cue_answer answer;
    work = CUE_NO_ORDER;
    is_braking = false;
    if (cue_cannot(&device, &answer) != CUE_BAD_CALL)
        send_answer(&answer);
}

static void begin(uint32_t order)
{
    const int64_t time = now();
    if (order == CUE_PREPARE) {
        if (device.bytes_length != 1u || device.bytes[0] > 3u || is_interlock_open) {
            cannot();
            return;
        }
        target = device.bytes[0] * LEVEL;
        work_ends = time + (is_bolt_drawn ? 2 * BOLT_TIME : BOLT_TIME);
        is_bolt_drawn = true;
    } else if (order == CUE_MOVE) {
        if (machine.position != target) {
            machine.motions++;
            note_machine();
        }
    } else {
        work_ends = time + BOLT_TIME;
    }
    work = order;
}

static void end(void)
{
    struct cue_answer answer;
    const uint32_t ended = work;
    work = CUE_NO_ORDER;
    if (ended == CUE_PREPARE)
        (void)cue_prepared(&device, &answer);
    else if (ended == CUE_MOVE)
        (void)cue_moved(&device, &answer);
    else
        (void)cue_gave_up(&device, &answer);
    if (ended != CUE_PREPARE)
        is_bolt_drawn = false;
    send_answer(&answer);
}

/* Ten milliseconds of motion. Whether it has arrived. */
static bool move_on(void)
{
    const int32_t left = target - machine.position, step = SPEED * STEP;
    machine.position += left > step ? step : left < -step ? -step : left;
    note_machine();
    return machine.position == target;
}

static void work_on(int64_t time)
{
    if (is_braking) {
        if (time >= work_ends)
            cannot();
    } else if (work == CUE_MOVE) {
        if (move_on())
            end();
    } else if (work != CUE_NO_ORDER && time >= work_ends) {
        end();
    }
}

/* The interlock has been opened: the motor brakes, and what it prepared does not go. */
static void stop_for_interlock(int64_t time)
{
    if (work == CUE_MOVE) {
        is_braking = true;
        work_ends = time + BRAKE_TIME;
    } else {
        cannot();
    }
}

/* ---- the loop */

static void hear_all(void)
{
    uint8_t datagram[256];
    struct sockaddr_in from;
    struct cue_answer answer;
    for (;;) {
        socklen_t size = sizeof from;
        const ssize_t length = recvfrom(udp, datagram, sizeof datagram, MSG_DONTWAIT, (struct sockaddr *)&from, &size);
        struct cue_place place;
        uint32_t order;
        if (length < 0)
            return;
        place = cue_place_of(ntohl(from.sin_addr.s_addr), ntohs(from.sin_port));
        order = cue_hear(&device, &place, datagram, (size_t)length, &answer);
        keep();
        send_answer(&answer);
        if (order != CUE_NO_ORDER && order != CUE_BAD_CALL)
            begin(order);
    }
}

static void announce(int64_t time)
{
    static int64_t next;
    if (device.phase != CUE_OVER)
        announcements_left = 0;
    if (announcements_left == 0 || time < next)
        return;
    announcement.to = device.controller;
    send_answer(&announcement);
    next = time + ANNOUNCE_TIME;
    announcements_left--;
}

static void tick(int64_t time)
{
    static int64_t next;
    struct cue_answer answer;
    if (announcements_left > 0 || time < next)
        return;
    (void)cue_tick(&device, &answer);
    send_answer(&answer);
    next = time + TICK_TIME;
}

static void run(void)
{
    bool was_open = false;
    int64_t next_step = now();
    for (;;) {
        struct pollfd wait = {udp, POLLIN, 0};
        const bool is_open = is_interlock_open != 0;
        (void)poll(&wait, 1, STEP);
        hear_all();
        if (is_open && !was_open)
            stop_for_interlock(now());
        was_open = is_open;
        if (now() >= next_step) {
            next_step = now() + STEP;
            work_on(now());
        }
        announce(now());
        tick(now());
    }
}

static void on_signal(int number)
{
    is_interlock_open = number == SIGUSR1;
}

static void open_port(const char *port)
{
    struct sockaddr_in here = {0};
    here.sin_family = AF_INET;
    here.sin_addr.s_addr = htonl(INADDR_LOOPBACK);
    here.sin_port = htons((uint16_t)atoi(port));
    udp = socket(AF_INET, SOCK_DGRAM, 0);
    if (udp < 0 || bind(udp, (const struct sockaddr *)&here, sizeof here) != 0)
        die("the port");
}

static void start(uint32_t number)
{
    if (!load_record()) {
        fprintf(stderr, "the memory is neither blank nor whole\n");
        exit(1);
    }
    if (cue_restarted(&device, number, stored.last, &stored.controller, &announcement) == CUE_BAD_CALL) {
        fprintf(stderr, "the number, or the record, is out of range\n");
        exit(1);
    }
    if (stored.last > 0u)
        announcements_left = ANNOUNCEMENTS;
    (void)cue_hear_only(&device, &only);
}

int main(int count, char **words)
{
    if (count != 5 && count != 7) {
        fprintf(stderr, "level_trap NUMBER PORT RECORD MACHINE [ADDRESS PORT]\n");
        return 2;
    }
    if (count == 7)
        only = cue_place_of(ntohl(inet_addr(words[5])), (uint16_t)atoi(words[6]));
    signal(SIGUSR1, on_signal);
    signal(SIGUSR2, on_signal);
    record_file = open(words[3], O_RDWR | O_CREAT, 0644);
    machine_file = open(words[4], O_RDWR | O_CREAT, 0644);
    if (record_file < 0 || machine_file < 0)
        die("a file");
    (void)pread(machine_file, &machine, sizeof machine, 0);
    open_port(words[2]);
    start((uint32_t)atoi(words[1]));
    run();
    return 0;
}
