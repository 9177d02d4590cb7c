/* The table of docs/DEVICES.md, "What a device makes of each order", written a second time. No line of the library
 * stands here. */
#ifndef TABLE_H
#define TABLE_H

#include "cue_device.h"

/* What a device hears, by the table's rows. */
enum command { STANDBY, GO, CANCEL, COMMANDS };

/* What it answers. */
enum word { SILENCE, STANDING_BY, COMPLETE, CANCELLED, ABORT };

struct task {
    uint32_t cue_length, bytes_length;
    uint8_t cue[17], bytes[33]; /* one more than there may be, so that too long ones can be made */
};

/* A device by the table. */
struct table {
    uint32_t number, last, phase, doing, doing_number, unheard;
    int has_task;
    struct task task;
    struct cue_place controller, only;
};

/* What comes of it; `order` is what the call gives. */
struct outcome {
    uint32_t order, word, number;
};

/* How often each cell was met: a command of its own number by the phase, with the same task or another. */
extern unsigned long cells[4][8];

size_t put_command(uint8_t *out, enum command command, uint32_t number, uint32_t device, const struct task *task);
size_t put_reply(uint8_t *out, const char *text, const uint32_t codes[4]);
size_t put_answer(uint8_t *out, uint32_t device, uint32_t word, uint32_t number);

struct outcome table_hear(struct table *device, struct cue_place from, const uint8_t *datagram, size_t length);
struct outcome table_told(struct table *device, uint32_t order);
struct outcome table_cannot(struct table *device);
struct outcome table_tick(const struct table *device);

#endif
