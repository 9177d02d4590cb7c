/* cue_device.h: a device's half of the exchange with the cue controller.
 *
 * Your program has the socket, the clock and the motor. It hands each datagram to `cue_hear`, carries out the order
 * that comes back, and reports the end of each order. After each call it sends the answer, if there is one. The calls
 * keep the duties of docs/DEVICES.md. They take no memory and wait for nothing. There are two of each: the proved ones
 * of crates/cue_device_c need memcpy and memset, and 2 KiB of stack (measured: under 1 KiB); those of
 * device/cue_device.c need nothing of a C library, and less than 0.5 KiB.
 *
 * One `struct cue_device` is one device. Give it to one call at a time: if an interrupt reports of the motor, let it
 * set a flag, and report from your loop. Each call answers a null pointer and a struct that is no device with
 * CUE_BAD_CALL, and then changes nothing and has nothing to send. A struct is no device if neither cue_new nor
 * cue_restarted of this header made it, or if one of its numbers but `last` and `doing_number` is out of its range.
 *
 * The library makes answers alone. What a device may tell a relay beside them, as why it aborts and where it is, your
 * program sends by itself, to `device.controller`: docs/DEVICES.md, "What you may tell the relay".
 *
 * Hand each call the struct as the call before left it. Then it is one device all along, and moves at most once for
 * each number (crates/cue_device_c/src/laws.rt has that as proved laws). Never put a copy back, and never keep the
 * struct itself over a restart: one from before a motion would move again. Keep `device.last` and `device.controller`,
 * and hand them to cue_restarted. */
#ifndef CUE_DEVICE_H
#define CUE_DEVICE_H

#include <stddef.h>
#include <stdint.h>

#ifdef __cplusplus
extern "C" {
#endif

/* What a call gives. */
enum cue_order {
    CUE_NO_ORDER = 0, /* the machine has nothing new to do */
    CUE_PREPARE = 1,  /* prepare for the cue in `device.cue` with `device.bytes`; then call cue_prepared. Copy from
                         there what the motion needs: a higher number writes its own there meanwhile. Give up first
                         what you still hold for an earlier number. CUE_GIVE_UP may come meanwhile, in its place */
    CUE_MOVE = 2,     /* carry out what you prepared; then call cue_moved */
    CUE_GIVE_UP = 3,  /* stop preparing, or let go of what you prepared; then call cue_gave_up */
    CUE_BAD_CALL = 4  /* a null pointer, a number out of range, a struct that is no device, or a report that is not the
                         end of what the machine was ordered: nothing has changed */
};

/* How far the device has come in the attempt of its last number. */
enum cue_phase {
    CUE_OVER = 0, /* it is in no attempt: it has just been made */
    CUE_PREPARING = 1,
    CUE_READY = 2,
    CUE_MOVING = 3,
    CUE_DONE = 4,
    CUE_LETTING_GO = 5,
    CUE_LET_GO = 6,
    CUE_FAILED = 7
};

/* Where a datagram comes from or goes to. The library compares the eight bytes and hands them on, and never looks into
 * them: cue_place_of fills them for IPv4. Eight zeros are no place. */
struct cue_place {
    uint8_t bytes[8];
};

/* A device of 104 bytes. Your program owns it, in static memory if you like, and reads it; the calls alone write it. */
struct cue_device {
    uint32_t magic;        /* CUE_MAGIC, once it was made */
    uint32_t size;         /* sizeof (struct cue_device) */
    uint32_t number;       /* the device's number, 0 to 111 */
    uint32_t last;         /* the highest number of an attempt that it has heard of, 0 at first: keep it */
    uint32_t phase;        /* enum cue_phase, of the attempt `last` */
    uint32_t doing;        /* enum cue_order: the order whose end the machine has not reported; 0 if it is free */
    uint32_t doing_number; /* the attempt of that order; 0 if it is free */
    uint32_t unheard;      /* 1 while cue_tick repeats an abort, otherwise 0 */
    uint32_t cue_length;   /* 1 to 16; 0 if it has heard no standby of its last number */
    uint32_t bytes_length; /* 0 to 32 */
    uint8_t cue[16];       /* the number of the cue, as text without a zero after it, then zeros */
    uint8_t bytes[32];     /* what the show keeps for the device in this cue, then zeros */
    struct cue_place controller; /* where the last order came from, and answers go: keep it */
    struct cue_place only;       /* the sender that is heard alone; no place: each sender is heard */
};

#define CUE_MAGIC 1668638002u

/* What to send, at once. It need not be set before a call. */
struct cue_answer {
    uint32_t length;     /* how many bytes to send, 24 to 32; 0: send nothing */
    struct cue_place to; /* where to: where the last order came from */
    uint8_t bytes[64];   /* the datagram, then zeros. It begins with its address, as /device/3/complete, and a zero */
};

/* The exports of the library. They do not look for null pointers: call those below. */
uint32_t cue_device_new(struct cue_device *device, uint32_t size, uint32_t number);
uint32_t cue_device_restarted(struct cue_device *device, uint32_t size, uint32_t number, uint32_t kept,
                              const struct cue_place *from);
uint32_t cue_device_hear_only(struct cue_device *device, const struct cue_place *sender);
uint32_t cue_device_hear(struct cue_device *device, const struct cue_place *from, const uint8_t *datagram,
                         size_t length, struct cue_answer *answer);
uint32_t cue_device_prepared(struct cue_device *device, struct cue_answer *answer);
uint32_t cue_device_moved(struct cue_device *device, struct cue_answer *answer);
uint32_t cue_device_gave_up(struct cue_device *device, struct cue_answer *answer);
uint32_t cue_device_cannot(struct cue_device *device, struct cue_answer *answer);
uint32_t cue_device_tick(const struct cue_device *device, struct cue_answer *answer);

/* The place of an IPv4 address and a port, both as numbers of your machine (ntohl, ntohs). */
static inline struct cue_place cue_place_of(uint32_t address, uint16_t port)
{
    struct cue_place place = {{0}};
    unsigned i;
    for (i = 0; i < 4u; i++)
        place.bytes[i] = (uint8_t)(address >> (24u - 8u * i));
    place.bytes[4] = (uint8_t)(port >> 8);
    place.bytes[5] = (uint8_t)port;
    return place;
}

/* The address of such a place, and its port. */
static inline uint32_t cue_place_address(const struct cue_place *place)
{
    return (uint32_t)place->bytes[0] << 24 | (uint32_t)place->bytes[1] << 16 | (uint32_t)place->bytes[2] << 8 |
           (uint32_t)place->bytes[3];
}

static inline uint16_t cue_place_port(const struct cue_place *place)
{
    return (uint16_t)((unsigned)place->bytes[4] << 8 | place->bytes[5]);
}

/* Nothing to send. */
static inline uint32_t cue_bad_call(struct cue_answer *answer)
{
    if (answer != NULL)
        answer->length = 0;
    return CUE_BAD_CALL;
}

/* Makes a device for a new store: its machine is at rest and holds nothing, and it knows no number. Call it when the
 * show is set up again, and when the store was restored from a copy. `number` is the device's, 0 to 111. Gives
 * CUE_NO_ORDER, or CUE_BAD_CALL for a number out of range or a library of another version of this header. */
static inline uint32_t cue_new(struct cue_device *device, uint32_t number)
{
    return device == NULL ? (uint32_t)CUE_BAD_CALL : cue_device_new(device, (uint32_t)sizeof *device, number);
}

/* Makes a device that was restarted: its machine is at rest and holds nothing. `kept` is the `device.last` that you
 * kept, 0 to 2147483647, and `controller` the `device.controller`; if nothing was kept yet, 0 and any place. It never
 * moves for a number up to `kept` again, whatever is still under way. Send the answer, the abort of `kept`, forty
 * times in the first second, every 25 ms, to `device.controller`, while `phase` is CUE_OVER; a /reply does not end
 * that. From then on cue_tick gives it until its /reply came or a higher number did. So a cue that waits for this
 * device is given up before anybody moves. Gives CUE_NO_ORDER, or CUE_BAD_CALL as cue_new does, and for a number
 * without its place. */
static inline uint32_t cue_restarted(struct cue_device *device, uint32_t number, uint32_t kept,
                                     const struct cue_place *controller, struct cue_answer *answer)
{
    uint32_t made;
    if (device == NULL || controller == NULL || answer == NULL)
        return cue_bad_call(answer);
    made = cue_device_restarted(device, (uint32_t)sizeof *device, number, kept, controller);
    return made == (uint32_t)CUE_BAD_CALL ? cue_bad_call(answer) : cue_device_tick(device, answer);
}

/* Names the one sender whose datagrams the device hears from now on, by its address and port; no place: it hears each
 * sender. Call it after cue_new or cue_restarted, if you know the controller's or the relay's: docs/DEVICES.md, 14a. A
 * number that a stranger makes up could otherwise keep the device from every later cue. Gives CUE_NO_ORDER. */
static inline uint32_t cue_hear_only(struct cue_device *device, const struct cue_place *sender)
{
    return device == NULL || sender == NULL ? (uint32_t)CUE_BAD_CALL : cue_device_hear_only(device, sender);
}

/* A datagram of `length` bytes has come from there: call it for each one, even while the machine works. Gives what the
 * machine is to do now, for the attempt `device.last`. If that number or `device.controller` is not what you have
 * stored (compare with that, not with the call before), write both where they survive a loss of power, before you carry
 * the order out or send the answer. If it cannot be written, neither act nor answer, and reset: the struct already
 * counts the order as heard.
 * What is no order for this device has CUE_NO_ORDER and no answer, and changes nothing; so has a datagram of a sender
 * that is not heard. A /reply to an abort ends its copies. */
static inline uint32_t cue_hear(struct cue_device *device, const struct cue_place *from, const uint8_t *datagram,
                                size_t length, struct cue_answer *answer)
{
    if (device == NULL || from == NULL || answer == NULL || (datagram == NULL && length > 0u) || length > 65535u)
        return cue_bad_call(answer);
    return cue_device_hear(device, from, datagram == NULL ? from->bytes : datagram, length, answer);
}

/* The machine has prepared: call it when the CUE_PREPARE in `device.doing` is done. If CUE_GIVE_UP came meanwhile, that
 * has taken its place, and you report that alone. The answer is standing_by; there is none if the attempt has failed or
 * a higher number came meanwhile. Gives CUE_NO_ORDER, or CUE_BAD_CALL if `device.doing` is another order. */
static inline uint32_t cue_prepared(struct cue_device *device, struct cue_answer *answer)
{
    return device == NULL || answer == NULL ? cue_bad_call(answer) : cue_device_prepared(device, answer);
}

/* The machine has carried the cue out: call it once for each CUE_MOVE, when it is at rest. The answer is complete;
 * there is none if the attempt has failed or a higher number came meanwhile. Gives what cue_prepared gives. */
static inline uint32_t cue_moved(struct cue_device *device, struct cue_answer *answer)
{
    return device == NULL || answer == NULL ? cue_bad_call(answer) : cue_device_moved(device, answer);
}

/* The machine has given up what it prepared, or was preparing: call it once for each CUE_GIVE_UP. The answer is
 * cancelled; there is none if the attempt has failed or a higher number came meanwhile. Gives what cue_prepared
 * gives. */
static inline uint32_t cue_gave_up(struct cue_device *device, struct cue_answer *answer)
{
    return device == NULL || answer == NULL ? cue_bad_call(answer) : cue_device_gave_up(device, answer);
}

/* The machine cannot go on, and is at rest: call it in place of the three above, or while the device is ready. The
 * answer is abort; there is none if the attempt has gone on meanwhile. Call it once for a fault: cue_tick repeats the
 * abort. A /reply to an earlier abort ends that, too: so better send this answer forty times in its first second, every
 * 25 ms, to `device.controller`, while `device.last` stays. Gives CUE_NO_ORDER, or CUE_BAD_CALL if the machine is free
 * and the attempt cannot be aborted any more: say it then at the next CUE_PREPARE. */
static inline uint32_t cue_cannot(struct cue_device *device, struct cue_answer *answer)
{
    return device == NULL || answer == NULL ? cue_bad_call(answer) : cue_device_cannot(device, answer);
}

/* Time has passed: call it some four times a second, and send the answer. It is the abort of cue_cannot or of
 * cue_restarted, again, until its /reply came or a higher number did. */
static inline uint32_t cue_tick(const struct cue_device *device, struct cue_answer *answer)
{
    return device == NULL || answer == NULL ? cue_bad_call(answer) : cue_device_tick(device, answer);
}

#ifdef __cplusplus
}
#endif

#endif
