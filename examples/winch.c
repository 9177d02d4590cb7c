/* A winch for cuectl: a whole device on one socket and in one loop. Its motor is a clock, and prints a line for each
 * motion. docs/DEVICES.md shows how to build it.
 *
 *     winch NUMBER PORT KEPT [PREPARE MOVE [LET_GO [ADDRESS PORT [relay]]]]
 *
 * NUMBER is 0 to 111, PORT is its port on 127.0.0.1. In the file KEPT it keeps the highest number that it has heard of,
 * and where that came from: remove it for a new show. PREPARE, MOVE and LET_GO say how many milliseconds its motor
 * takes. ADDRESS and PORT are of the one sender that it hears (14a): give them in a show. With `relay` that sender is a
 * relay, which is told who made the winch, where it is, and why it aborts.
 *
 * On SIGUSR1 the motor finds that it cannot go on. */
#include "cue_device.h"
#include <arpa/inet.h>
#include <errno.h>
#include <fcntl.h>
#include <libgen.h>
#include <poll.h>
#include <signal.h>
#include <stdio.h>
#include <stdlib.h>
#include <string.h>
#include <sys/socket.h>
#include <time.h>
#include <unistd.h>

enum { TICK = 250 };             /* milliseconds between two calls of cue_tick */
enum { OFTEN = 100, MINUTE = 60000 }; /* milliseconds between two claims: where it is; who made it */
enum { SOON = 25, COPIES = 40 }; /* milliseconds between two copies of an abort in its first second; how many (15b) */

static volatile sig_atomic_t fault; /* the motor's own signal */

static struct {
    uint32_t order;   /* what it does; CUE_NO_ORDER while it is at rest */
    int64_t due;      /* when it is done */
    int64_t takes[4]; /* how long each order takes */
} motor;

static struct {
    int file;
    uint32_t count;  /* how many records were written; the newest one has it */
    uint32_t number; /* what the newest one holds: the highest number that the winch has heard of */
    struct cue_place from;
} kept;

static struct {
    struct cue_answer answer; /* an abort that nobody asked for: of cue_restarted or of cue_cannot */
    uint32_t number;          /* its attempt */
    int left;                 /* how many copies of it are still to send in its first second */
    int64_t due;              /* when something is said that nobody asked for */
} unasked;

static struct {
    int is_on;           /* a relay is there to be told */
    int is_moving;       /* it was told that the winch moves, and not yet that it is at rest */
    int64_t at, who;     /* when it is told next where the winch is, and who made it */
    const char *reason;  /* why the winch aborts */
} claims;

/* Ends the winch, with its motor at rest. */
static void end(const char *what)
{
    perror(what);
    exit(1);
}

/* The file is a ring of records, as a flash needs it: each goes into the slot after the last one, so that a loss of
 * power can tear only one that was not acted on. A record is a line: a count that rises, the number, the address and
 * the port in hexadecimal, and a checksum of all of that. */
enum { SLOTS = 8, SUMMED = 36, LINE = 45 };

/* The checksum: CRC-32. */
static uint32_t sum_of(const char *text, size_t length)
{
    uint32_t sum = 0xffffffffu;
    for (size_t i = 0; i < 8 * length; i++) {
        uint32_t bit = (sum ^ (uint32_t)(uint8_t)text[i / 8] >> i % 8) & 1u;
        sum = (sum >> 1) ^ (bit ? 0xedb88320u : 0u);
    }
    return ~sum;
}

/* A number that is new is on the disk before anything is done or answered for it. So no late copy from before a restart
 * moves the winch again. A winch that cannot keep it does nothing. */
static void keep(uint32_t number, struct cue_place from)
{
    char line[LINE + 20];
    off_t slot = (off_t)(kept.count % SLOTS) * LINE;
    snprintf(line, sizeof line, "%010u %010u %08x %04x ", (unsigned)kept.count + 1, (unsigned)number,
             (unsigned)cue_place_address(&from), (unsigned)cue_place_port(&from));
    snprintf(line + SUMMED, sizeof line - SUMMED, "%08x\n", (unsigned)sum_of(line, SUMMED));
    if (pwrite(kept.file, line, LINE, slot) != LINE || fsync(kept.file) != 0)
        end("winch: the number cannot be kept");
    kept.count++;
    kept.number = number;
    kept.from = from;
}

/* Takes a record if it is whole, and newer than what was found before. */
static void read_slot(const char *line)
{
    unsigned count, number, address, port, sum;
    if (sscanf(line, "%10u %10u %8x %4x %8x", &count, &number, &address, &port, &sum) != 5 ||
        sum != sum_of(line, SUMMED) || count <= kept.count)
        return;
    kept.count = count;
    kept.number = number;
    kept.from = cue_place_of(address, (uint16_t)port);
}

/* Opens the file of the number, and reads its newest whole record. If there is none, and the file is not empty, the
 * winch does not start. A new file has 0, and its folder is synced, so that the file stays. */
static void open_kept(const char *path)
{
    char lines[SLOTS * LINE + 1] = "", folder[4096];
    snprintf(folder, sizeof folder, "%s", path);
    kept.file = open(path, O_RDWR | O_CREAT, 0644);
    int around = open(dirname(folder), O_RDONLY);
    if (kept.file < 0 || around < 0 || fsync(around) != 0)
        end(path);
    close(around);
    ssize_t length = pread(kept.file, lines, SLOTS * LINE, 0);
    for (int slot = 0; slot < SLOTS; slot++)
        read_slot(lines + slot * LINE);
    errno = EINVAL; /* where the file has something else */
    if (length != 0 && kept.count == 0)
        end(path);
    if (length == 0)
        keep(0, kept.from);
}

static int64_t now(void)
{
    struct timespec time;
    clock_gettime(CLOCK_MONOTONIC, &time);
    return (int64_t)time.tv_sec * 1000 + time.tv_nsec / 1000000;
}

static void on_fault(int number)
{
    (void)number;
    fault = 1;
}

/* Starts the motor, and goes on: the loop looks for its end. */
static void carry_out(uint32_t order, const struct cue_device *device)
{
    if (order == CUE_NO_ORDER || order == CUE_BAD_CALL)
        return;
    motor.order = order;
    motor.due = now() + motor.takes[order];
    if (order == CUE_MOVE)
        printf("device %u attempt %u: the motor moves for cue %.*s\n", (unsigned)device->number,
               (unsigned)device->doing_number, (int)device->cue_length, (const char *)device->cue);
}

/* An abort that nobody asked for is said forty times in its first second, whatever comes but a higher number. */
static void say_often(struct cue_answer *answer, uint32_t number)
{
    unasked.answer = *answer;
    unasked.number = number;
    unasked.left = answer->length > 0 ? COPIES : 0;
    unasked.due = now();
    answer->length = 0; /* say_unasked says it from now on */
}

/* Reports what the motor has done. No answer while it is still at work. */
static void look_at_motor(struct cue_device *device, struct cue_answer *answer)
{
    uint32_t order = motor.order;
    answer->length = 0;
    if (fault) {
        motor.order = CUE_NO_ORDER;
        if (cue_cannot(device, answer) != CUE_BAD_CALL) {
            fault = 0; /* else it stays, and the next CUE_PREPARE is answered with abort */
            claims.reason = "the drive is too hot";
            say_often(answer, device->last);
        }
    } else if (order != CUE_NO_ORDER && now() >= motor.due) {
        motor.order = CUE_NO_ORDER;
        if (order == CUE_PREPARE)
            cue_prepared(device, answer);
        else if (order == CUE_MOVE)
            cue_moved(device, answer);
        else
            cue_gave_up(device, answer);
    }
}

static void send_to(int wire, const struct cue_place *place, const void *bytes, size_t length)
{
    struct sockaddr_in to = {.sin_family = AF_INET};
    to.sin_addr.s_addr = htonl(cue_place_address(place));
    to.sin_port = htons(cue_place_port(place));
    sendto(wire, bytes, length, 0, (const struct sockaddr *)&to, sizeof to);
}

/* Sends the answer, if there is one, to where the last order came from. */
static void say(int wire, const struct cue_answer *answer)
{
    if (answer->length > 0)
        send_to(wire, &answer->to, answer->bytes, answer->length);
}

/* Puts a text with its zeros; how many bytes that are. */
static size_t put_text(char *to, const char *text)
{
    size_t whole = strlen(text) / 4 * 4 + 4;
    memset(to, 0, whole);
    memcpy(to, text, strlen(text));
    return whole;
}

/* Tells the relay something of the winch: as many numbers as the tags have, and a text. It decides nothing. */
static void tell(int wire, const struct cue_device *device, const char *what, const char *tags, int32_t first,
                 int32_t second, const char *words)
{
    char address[24], claim[96];
    uint32_t numbers[2] = {htonl((uint32_t)first), htonl((uint32_t)second)};
    size_t count = strlen(tags) - 2, at;
    if (!claims.is_on || cue_place_port(&device->controller) == 0)
        return; /* or it has never heard an order, and knows nobody whom to tell */
    snprintf(address, sizeof address, "/device/%u/%s", (unsigned)device->number, what);
    at = put_text(claim, address);
    at += put_text(claim + at, tags);
    memcpy(claim + at, numbers, 4 * count);
    at += 4 * count;
    at += put_text(claim + at, words);
    send_to(wire, &device->controller, claim, at);
}

/* Tells what the clock asks for: where the winch is, in percent of its motion, ten times a second and once at rest; and
 * who made it. */
static void tell_again(int wire, const struct cue_device *device)
{
    int64_t takes = motor.takes[CUE_MOVE], time = now();
    int is_moving = motor.order == CUE_MOVE && motor.due > time;
    if (is_moving && time >= claims.at) {
        tell(wire, device, "at", ",iis", (int32_t)(100 - 100 * (motor.due - time) / takes), 100, "%");
        claims.at = time + OFTEN;
    } else if (!is_moving && claims.is_moving) {
        tell(wire, device, "at", ",iis", 100, 100, "%");
    }
    claims.is_moving = is_moving;
    if (time >= claims.who && cue_place_port(&device->controller) != 0) {
        tell(wire, device, "who", ",s", 0, 0, "Example winch 1, protocol 1");
        claims.who = time + MINUTE;
    }
}

static void take(int wire, struct cue_device *device)
{
    struct cue_answer answer;
    struct sockaddr_in sender;
    socklen_t size = sizeof sender;
    uint8_t datagram[4096];
    ssize_t length = recvfrom(wire, datagram, sizeof datagram, 0, (struct sockaddr *)&sender, &size);
    if (length < 0)
        return;
    struct cue_place from = cue_place_of(ntohl(sender.sin_addr.s_addr), ntohs(sender.sin_port));
    uint32_t order = cue_hear(device, &from, datagram, (size_t)length, &answer);
    if (device->last != kept.number || memcmp(&device->controller, &kept.from, sizeof from))
        keep(device->last, device->controller);
    carry_out(order, device);
    say(wire, &answer);
}

/* Says what nobody asked for, if it is due: copies of an abort in its first second, and then what cue_tick gives. */
static void say_unasked(int wire, const struct cue_device *device)
{
    struct cue_answer answer;
    if (now() < unasked.due)
        return;
    if (unasked.left > 0 && device->last == unasked.number) {
        unasked.left--;
        unasked.answer.to = device->controller;
        say(wire, &unasked.answer);
        tell(wire, device, "why", ",is", (int32_t)device->last, 0, claims.reason);
        unasked.due += SOON;
        return;
    }
    cue_tick(device, &answer);
    say(wire, &answer);
    if (answer.length > 0)
        tell(wire, device, "why", ",is", (int32_t)device->last, 0, claims.reason);
    unasked.due = now() + TICK;
}

/* No other sender is heard from now on. */
static void hear_only(struct cue_device *device, const char *address, const char *port)
{
    struct in_addr sender;
    errno = EINVAL;
    if (inet_pton(AF_INET, address, &sender) != 1)
        end(address);
    struct cue_place place = cue_place_of(ntohl(sender.s_addr), (uint16_t)atoi(port));
    cue_hear_only(device, &place);
}

int main(int count, char **words)
{
    struct cue_device device;
    struct cue_answer answer;
    struct sockaddr_in here = {.sin_family = AF_INET};
    int wire = socket(AF_INET, SOCK_DGRAM, 0);
    if (count > 3)
        open_kept(words[3]);
    if (count < 4 || (count > 9 && strcmp(words[9], "relay") != 0) ||
        cue_restarted(&device, (uint32_t)atoi(words[1]), kept.number, &kept.from, &answer) != CUE_NO_ORDER)
        return fprintf(stderr, "winch NUMBER PORT KEPT [PREPARE MOVE [LET_GO [ADDRESS PORT [relay]]]]\n"), 2;
    if (count > 8)
        hear_only(&device, words[7], words[8]);
    claims.is_on = count > 9;
    claims.reason = "restarted";
    here.sin_port = htons((uint16_t)atoi(words[2]));
    here.sin_addr.s_addr = htonl(INADDR_LOOPBACK);
    if (wire < 0 || bind(wire, (struct sockaddr *)&here, sizeof here) != 0)
        end("winch");
    motor.takes[CUE_PREPARE] = count > 4 ? atoi(words[4]) : 0;
    motor.takes[CUE_MOVE] = count > 5 ? atoi(words[5]) : 0;
    motor.takes[CUE_GIVE_UP] = count > 6 ? atoi(words[6]) : 0;
    signal(SIGUSR1, on_fault);
    setvbuf(stdout, NULL, _IOLBF, 0);
    say_often(&answer, device.last);
    for (;;) {
        struct pollfd ears = {.fd = wire, .events = POLLIN};
        int64_t next = motor.order != CUE_NO_ORDER && motor.due < unasked.due ? motor.due : unasked.due;
        next = claims.is_on && claims.is_moving && claims.at < next ? claims.at : next;
        int64_t left = next - now();
        if (poll(&ears, 1, left > 0 ? (int)left : 0) > 0)
            take(wire, &device);
        look_at_motor(&device, &answer);
        say(wire, &answer);
        say_unasked(wire, &device);
        tell_again(wire, &device);
    }
}
