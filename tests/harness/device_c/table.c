#include "table.h"
#include <stdio.h>
#include <string.h>

unsigned long cells[4][8];

/* ---- bytes */

static size_t put_text(uint8_t *out, const void *text, size_t length)
{
    size_t whole = length + 4 - length % 4;
    memset(out, 0, whole);
    memcpy(out, text, length);
    return whole;
}

static size_t put_int(uint8_t *out, uint32_t value)
{
    for (int i = 0; i < 4; i++)
        out[i] = (uint8_t)(value >> (24 - 8 * i));
    return 4;
}

static uint32_t int_at(const uint8_t *bytes)
{
    return (uint32_t)bytes[0] << 24 | (uint32_t)bytes[1] << 16 | (uint32_t)bytes[2] << 8 | bytes[3];
}

static const char *const ADDRESS[] = {"/msc/standby", "/msc/go_2pc", "/msc/cancel"};

size_t put_command(uint8_t *out, enum command command, uint32_t number, uint32_t device, const struct task *task)
{
    const char *tags = command == STANDBY ? ",iisb" : ",ii";
    size_t at = put_text(out, ADDRESS[command], strlen(ADDRESS[command]));
    at += put_text(out + at, tags, strlen(tags));
    at += put_int(out + at, number);
    at += put_int(out + at, device);
    if (command != STANDBY)
        return at;
    at += put_text(out + at, task->cue, task->cue_length);
    at += put_int(out + at, task->bytes_length);
    memcpy(out + at, task->bytes, task->bytes_length);
    at += task->bytes_length;
    while (at % 4)
        out[at++] = 0;
    return at;
}

size_t put_reply(uint8_t *out, const char *text, const uint32_t codes[4])
{
    size_t at = put_text(out, "/reply", 6);
    at += put_text(out + at, ",siiii", 6);
    at += put_text(out + at, text, strlen(text));
    for (int i = 0; i < 4; i++)
        at += put_int(out + at, codes[i]);
    return at;
}

size_t put_answer(uint8_t *out, uint32_t device, uint32_t word, uint32_t number)
{
    static const char *const WORDS[] = {"", "standing_by", "complete", "cancelled", "abort"};
    char address[40];
    size_t at = put_text(out, address, (size_t)sprintf(address, "/device/%u/%s", (unsigned)device, WORDS[word]));
    at += put_text(out + at, ",i", 2);
    return at + put_int(out + at, number);
}

/* The number of a cue: 1 to 16 bytes, runs of digits joined by single points. */
static int is_cue(const uint8_t *text, size_t length)
{
    for (size_t i = 0; i < length; i++) {
        int is_point = text[i] == '.';
        if (!is_point && (text[i] < '0' || text[i] > '9'))
            return 0;
        if (is_point && (i == 0 || i + 1 == length || text[i - 1] == '.'))
            return 0;
    }
    return length >= 1 && length <= 16;
}

/* Takes what a standby carries out of it. Whether the bytes are exactly those is seen later. */
static int take_task(struct task *task, const uint8_t *datagram, size_t length)
{
    size_t at = 32, end = at;
    while (end < length && datagram[end] != 0)
        end++;
    if (!is_cue(datagram + at, end - at) || (at = end + 4 - end % 4) + 4 > length)
        return 0;
    task->cue_length = (uint32_t)(end - 32);
    memcpy(task->cue, datagram + 32, task->cue_length);
    task->bytes_length = int_at(datagram + at);
    if (task->bytes_length > 32 || at + 4 + task->bytes_length > length)
        return 0;
    memcpy(task->bytes, datagram + at + 4, task->bytes_length);
    return 1;
}

/* A datagram is a command where it is, byte for byte, what the controller writes for what it seems to say. */
static int is_command(enum command command, const struct table *device, const uint8_t *datagram, size_t length,
                      uint32_t *number, struct task *task)
{
    uint8_t again[200];
    size_t at = command == STANDBY ? 24 : 16;
    memset(task, 0, sizeof *task);
    if (length < at + 8 || length > 120 || (command == STANDBY && !take_task(task, datagram, length)))
        return 0;
    *number = int_at(datagram + at);
    return *number >= 1 && *number <= 0x7fffffff &&
           put_command(again, command, *number, device->number, task) == length && !memcmp(again, datagram, length);
}

static int is_reply_to_abort(const struct table *device, const uint8_t *datagram, size_t length)
{
    uint8_t again[200];
    char text[40];
    uint32_t codes[4];
    if (length < 32 || length > 120)
        return 0;
    sprintf(text, "/device/%u/abort", (unsigned)device->number);
    for (int i = 0; i < 4; i++)
        codes[i] = int_at(datagram + length - 16 + 4 * i);
    return put_reply(again, text, codes) == length && !memcmp(again, datagram, length);
}

/* ---- the table */

struct cell {
    uint32_t phase, order, word;
};

/* A command of the attempt's own number, by the phase. The rows: a standby for the same task, go, cancel, and a standby
 * for another task. */
static const struct cell SAME[4][8] = {
    [STANDBY] = {
        [CUE_PREPARING] = {CUE_PREPARING, CUE_NO_ORDER, SILENCE},
        [CUE_READY] = {CUE_READY, CUE_NO_ORDER, STANDING_BY},
        [CUE_MOVING] = {CUE_MOVING, CUE_NO_ORDER, SILENCE},
        [CUE_DONE] = {CUE_DONE, CUE_NO_ORDER, SILENCE},
        [CUE_LETTING_GO] = {CUE_LETTING_GO, CUE_NO_ORDER, SILENCE},
        [CUE_LET_GO] = {CUE_LET_GO, CUE_NO_ORDER, ABORT},
        [CUE_FAILED] = {CUE_FAILED, CUE_NO_ORDER, ABORT},
    },
    [GO] = {
        [CUE_PREPARING] = {CUE_FAILED, CUE_NO_ORDER, ABORT},
        [CUE_READY] = {CUE_MOVING, CUE_MOVE, SILENCE},
        [CUE_MOVING] = {CUE_MOVING, CUE_NO_ORDER, SILENCE},
        [CUE_DONE] = {CUE_DONE, CUE_NO_ORDER, COMPLETE},
        [CUE_LETTING_GO] = {CUE_FAILED, CUE_NO_ORDER, ABORT},
        [CUE_LET_GO] = {CUE_FAILED, CUE_NO_ORDER, ABORT},
        [CUE_FAILED] = {CUE_FAILED, CUE_NO_ORDER, ABORT},
    },
    [CANCEL] = {
        [CUE_PREPARING] = {CUE_LETTING_GO, CUE_GIVE_UP, SILENCE},
        [CUE_READY] = {CUE_LETTING_GO, CUE_GIVE_UP, SILENCE},
        [CUE_MOVING] = {CUE_MOVING, CUE_NO_ORDER, SILENCE},
        [CUE_DONE] = {CUE_DONE, CUE_NO_ORDER, CANCELLED},
        [CUE_LETTING_GO] = {CUE_LETTING_GO, CUE_NO_ORDER, SILENCE},
        [CUE_LET_GO] = {CUE_LET_GO, CUE_NO_ORDER, CANCELLED},
        [CUE_FAILED] = {CUE_FAILED, CUE_NO_ORDER, CANCELLED},
    },
    [COMMANDS] = {
        [CUE_PREPARING] = {CUE_FAILED, CUE_GIVE_UP, ABORT},
        [CUE_READY] = {CUE_FAILED, CUE_GIVE_UP, ABORT},
        [CUE_MOVING] = {CUE_FAILED, CUE_NO_ORDER, ABORT},
        [CUE_DONE] = {CUE_FAILED, CUE_NO_ORDER, ABORT},
        [CUE_LETTING_GO] = {CUE_FAILED, CUE_NO_ORDER, ABORT},
        [CUE_LET_GO] = {CUE_FAILED, CUE_NO_ORDER, ABORT},
        [CUE_FAILED] = {CUE_FAILED, CUE_NO_ORDER, ABORT},
    },
};

/* A command of a higher number than it has heard of: where the machine is free, and where it is still at work. */
static const struct cell NEW[2][COMMANDS] = {
    {[STANDBY] = {CUE_PREPARING, CUE_PREPARE, SILENCE},
     [GO] = {CUE_FAILED, CUE_NO_ORDER, ABORT},
     [CANCEL] = {CUE_LET_GO, CUE_NO_ORDER, CANCELLED}},
    {[STANDBY] = {CUE_FAILED, CUE_NO_ORDER, ABORT},
     [GO] = {CUE_FAILED, CUE_NO_ORDER, ABORT},
     [CANCEL] = {CUE_LET_GO, CUE_NO_ORDER, CANCELLED}},
};

/* A command of a number that is over: nothing changes. */
static const uint32_t OVER[COMMANDS] = {[STANDBY] = ABORT, [GO] = ABORT, [CANCEL] = CANCELLED};

static struct outcome outcome(uint32_t order, uint32_t word, uint32_t number)
{
    struct outcome made = {order, word, word == SILENCE ? 0 : number};
    return made;
}

static struct outcome enter(struct table *device, struct cell cell)
{
    device->phase = cell.phase;
    if (cell.order != CUE_NO_ORDER) {
        device->doing = cell.order;
        device->doing_number = device->last;
    }
    return outcome(cell.order, cell.word, device->last);
}

static struct outcome obey(struct table *device, enum command command, uint32_t number, const struct task *task)
{
    int row = command;
    if (number < device->last || (number == device->last && device->phase == CUE_OVER))
        return outcome(CUE_NO_ORDER, OVER[command], number);
    if (number > device->last) {
        device->last = number;
        device->unheard = 0;
        device->has_task = command == STANDBY;
        device->task = *task;
        return enter(device, NEW[device->doing != CUE_NO_ORDER][command]);
    }
    if (command == STANDBY && (!device->has_task || memcmp(task, &device->task, sizeof *task)))
        row = COMMANDS;
    cells[row][device->phase]++;
    return enter(device, SAME[row][device->phase]);
}

static int is_place(struct cue_place a, struct cue_place b)
{
    return !memcmp(&a, &b, sizeof a);
}

struct outcome table_hear(struct table *device, struct cue_place from, const uint8_t *datagram, size_t length)
{
    static const struct cue_place NONE;
    uint32_t number;
    struct task task;
    if (!is_place(device->only, NONE) && !is_place(device->only, from))
        return outcome(CUE_NO_ORDER, SILENCE, 0);
    for (int command = STANDBY; command < COMMANDS; command++)
        if (is_command((enum command)command, device, datagram, length, &number, &task)) {
            device->controller = from;
            return obey(device, (enum command)command, number, &task);
        }
    if (is_reply_to_abort(device, datagram, length))
        device->unheard = 0;
    return outcome(CUE_NO_ORDER, SILENCE, 0);
}

/* The machine reports the end of an order. */
struct outcome table_told(struct table *device, uint32_t order)
{
    static const struct {
        uint32_t from, to, word;
    } END[] = {[CUE_PREPARE] = {CUE_PREPARING, CUE_READY, STANDING_BY},
               [CUE_MOVE] = {CUE_MOVING, CUE_DONE, COMPLETE},
               [CUE_GIVE_UP] = {CUE_LETTING_GO, CUE_LET_GO, CANCELLED}};
    uint32_t number = device->doing_number;
    if (device->doing != order)
        return outcome(CUE_BAD_CALL, SILENCE, 0);
    device->doing = device->doing_number = 0;
    if (number != device->last || device->phase != END[order].from)
        return outcome(CUE_NO_ORDER, SILENCE, 0);
    device->phase = END[order].to;
    return outcome(CUE_NO_ORDER, END[order].word, number);
}

/* The machine reports that it cannot go on. */
struct outcome table_cannot(struct table *device)
{
    int is_at_work = device->doing != CUE_NO_ORDER;
    uint32_t number = is_at_work ? device->doing_number : device->last;
    device->doing = device->doing_number = 0;
    if (number != device->last || device->phase == CUE_OVER || device->phase == CUE_DONE || device->phase == CUE_LET_GO)
        return outcome(is_at_work ? CUE_NO_ORDER : CUE_BAD_CALL, SILENCE, 0);
    device->phase = CUE_FAILED;
    device->unheard = 1;
    return outcome(CUE_NO_ORDER, ABORT, number);
}

struct outcome table_tick(const struct table *device)
{
    return outcome(CUE_NO_ORDER, device->unheard ? ABORT : SILENCE, device->last);
}
