/* cue_device.c: the calls of cue_device.h in C, for a microcontroller that the proved library is not built for.
 *
 * Put this file and the header into your project. It is C99, and needs no C library at all, not even memcpy. It has no
 * float, no memory of its own and no recursion.
 *
 * It is written by hand from docs/DEVICES.md, whose cells (A1 to O) stand beside its lines. The contract above each
 * function is ACSL. tests/runs/device-acsl proves them by Frama-C, with the definitions of device/acsl, whose table is
 * made of docs/device-table.csv. tests/runs/device-c compares the file with the proved library, call by call.
 *
 * How large it is, with -Os; `tests/runs/device-c --sizes` measures it:
 *
 *     ARM Cortex-M3 and up    clang 14    3.0 KiB of code, at most 230 bytes of stack
 *     ARM Cortex-M3 and up    gcc 12      2.2 KiB of code, at most 230 bytes of stack
 *     ARM Cortex-M0           clang 14    3.0 KiB of code, at most 310 bytes of stack
 *     ARM Cortex-M0           gcc 12      2.2 KiB of code, at most 280 bytes of stack
 *     RISC-V, 32 bits         clang 14    3.6 KiB of code, at most 200 bytes of stack
 *     RISC-V, 32 bits         gcc 12      2.8 KiB of code, at most 290 bytes of stack
 *     AVR                     clang 14    5.7 KiB of code, at most 130 bytes of stack; its constants are in RAM, too
 *     AVR                     gcc 5       4.4 KiB of code, at most 150 bytes of stack; its constants are in RAM, too
 *     x86-64                  gcc 12      3.4 KiB of code, at most 270 bytes of stack */
#include "cue_device.h"
#include <stdbool.h>

#define MOST_NUMBER 111u
#define MOST_CUE 16u
#define MOST_BYTES 32u
#define MOST_ATTEMPT 0x7fffffffu /* the highest number of an attempt */

/* The words of a device, and none. */
enum word { SILENT, STANDING_BY, COMPLETE, CANCELLED, ABORT };

/* The columns 1 to 4 of the tables of docs/DEVICES.md, "What a device makes of each order". */
enum column { SAME_STANDBY, OTHER_STANDBY, GO, CANCEL, NO_COLUMN };

#ifdef __FRAMAC__
#include "acsl/table.h"
#include "acsl/device.h"
#include "acsl/calls.h"
#endif

/* ---- bytes */

/* What is written is volatile in both, so that no compiler makes a call of memcpy or memset of a loop. */

/*@ requires \valid(to + (0 .. length - 1)) && \valid_read(from + (0 .. length - 1));
    requires \separated(to + (0 .. length - 1), from + (0 .. length - 1));
    terminates \true;
    assigns to[0 .. length - 1];
    ensures \forall integer k; 0 <= k < length ==> to[k] == \old(from[k]); */
static void copy(uint8_t *to, const uint8_t *from, size_t length)
{
    volatile uint8_t *out = to;
    size_t i;
    /*@ loop invariant 0 <= i <= length;
        loop invariant \forall integer k; 0 <= k < i ==> to[k] == from[k];
        loop assigns i, to[0 .. length - 1];
        loop variant length - i; */
    for (i = 0; i < length; i++) {
        out[i] = from[i];
    }
}

/*@ requires \valid(to + (0 .. length - 1));
    terminates \true;
    assigns to[0 .. length - 1];
    ensures zeros(to, 0, length); */
static void clear(uint8_t *to, size_t length)
{
    volatile uint8_t *out = to;
    size_t i;
    /*@ loop invariant 0 <= i <= length;
        loop invariant zeros(to, 0, i);
        loop assigns i, to[0 .. length - 1];
        loop variant length - i; */
    for (i = 0; i < length; i++) {
        out[i] = 0;
    }
}

/* Copies what begins there, with zeros after it. */
/*@ requires \valid(to + (0 .. most - 1)) && \valid_read(from + (at .. at + length - 1)) && length <= most <= 1000;
    requires at <= 1000 && \separated(to + (0 .. most - 1), from + (at .. at + length - 1));
    terminates \true;
    assigns to[0 .. most - 1];
    ensures IS_KEPT(to, most, from, at, length); */
static void keep(uint8_t *to, size_t most, const uint8_t *from, size_t at, size_t length)
{
    volatile uint8_t *out = to;
    size_t i;
    /*@ loop invariant 0 <= i <= most;
        loop invariant \forall integer k; 0 <= k < i ==> to[k] == (k < length ? \at(from[at + k], Pre) : 0);
        loop assigns i, to[0 .. most - 1];
        loop variant most - i; */
    for (i = 0; i < most; i++) {
        out[i] = i < length ? from[at + i] : 0u;
    }
}

/*@ requires \valid_read(a + (0 .. length - 1)) && \valid_read(b + (0 .. length - 1));
    terminates \true;
    assigns \nothing;
    ensures \result <==> \forall integer k; 0 <= k < length ==> a[k] == b[k]; */
static bool is_same(const uint8_t *a, const uint8_t *b, size_t length)
{
    size_t i;
    /*@ loop invariant 0 <= i <= length;
        loop invariant \forall integer k; 0 <= k < i ==> a[k] == b[k];
        loop assigns i;
        loop variant length - i; */
    for (i = 0; i < length; i++) {
        if (a[i] != b[i]) {
            return false;
        }
    }
    return true;
}

/*@ requires \valid_read(bytes + (from .. to - 1));
    terminates \true;
    assigns \nothing;
    ensures \result <==> zeros(bytes, from, to); */
static bool are_zeros(const uint8_t *bytes, size_t from, size_t to)
{
    size_t i;
    /*@ loop invariant from <= i && (i <= to || i == from);
        loop invariant zeros(bytes, from, i);
        loop assigns i;
        loop variant to - i; */
    for (i = from; i < to; i++) {
        if (bytes[i] != 0u) {
            return false;
        }
    }
    return true;
}

/* Whether these are the bytes of no place. */
/*@ requires \valid_read(place + (0 .. 7));
    terminates \true;
    assigns \nothing;
    ensures \result <==> zeros(place, 0, 8); */
static bool is_nowhere(const uint8_t *place)
{
    return are_zeros(place, 0, 8);
}

/* How many of these bytes are the number of a cue, as far as they go: digits, and single points after a digit. */
/*@ requires \valid_read(bytes + (0 .. most - 1));
    terminates \true;
    assigns \nothing;
    ensures 0 <= \result <= most;
    ensures \forall integer k; 0 <= k < \result ==> is_of_cue(bytes, k);
    ensures \result < most ==> !is_of_cue(bytes, \result); */
static size_t cue_bytes(const uint8_t *bytes, size_t most)
{
    bool after_digit = false;
    size_t i;
    /*@ loop invariant 0 <= i <= most;
        loop invariant after_digit <==> i > 0 && is_digit(bytes[i - 1]);
        loop invariant \forall integer k; 0 <= k < i ==> is_of_cue(bytes, k);
        loop assigns i, after_digit;
        loop variant most - i; */
    for (i = 0; i < most; i++) {
        const bool is_digit = bytes[i] >= 48u && bytes[i] <= 57u;
        if (!is_digit && !(bytes[i] == 46u && after_digit)) {
            return i;
        }
        after_digit = is_digit;
    }
    return i;
}

/* The number of a cue: 1 to 16 bytes, digits and single points between them. */
/*@ requires \valid_read(bytes + (0 .. length - 1));
    terminates \true;
    assigns \nothing;
    ensures \result <==> is_cue(bytes, length); */
static bool is_cue_number(const uint8_t *bytes, size_t length)
{
    return length > 0u && length <= MOST_CUE && cue_bytes(bytes, length) == length && bytes[length - 1u] != 46u;
}

/* ---- reading OSC */

/* An int32, big-endian. One below 0 is read as one above each number that there is. */
/*@ requires \valid_read(bytes + (0 .. 3));
    terminates \true;
    assigns \nothing;
    ensures \result == int_at(bytes); */
static uint32_t int_of(const uint8_t *bytes)
{
    return ((bytes[0] * (uint32_t)256 + bytes[1]) * 256u + bytes[2]) * 256u + bytes[3];
}

/* The length of a text with its zeros: one, and up to three more. */
/*@ requires length <= 1000;
    terminates \true;
    assigns \nothing;
    ensures \result == text_end(length); */
static size_t end_of_text(size_t length)
{
    return length + 4u - length % 4u;
}

/* The length of a blob with its zeros, up to three. */
/*@ requires length <= 1000;
    terminates \true;
    assigns \nothing;
    ensures \result == blob_end(length); */
static size_t end_of_blob(size_t length)
{
    return length + (4u - length % 4u) % 4u;
}

/* The heads of messages: an address and its tags, each with its zeros. */
static const uint8_t STANDBY_HEAD[24] = {'/', 'm', 's', 'c', '/', 's', 't', 'a', 'n', 'd', 'b', 'y',
                                         0,   0,   0,   0,   ',', 'i', 'i', 's', 'b', 0,   0,   0};
static const uint8_t GO_HEAD[16] = {'/', 'm', 's', 'c', '/', 'g', 'o', '_', '2', 'p', 'c', 0, ',', 'i', 'i', 0};
static const uint8_t CANCEL_HEAD[16] = {'/', 'm', 's', 'c', '/', 'c', 'a', 'n', 'c', 'e', 'l', 0, ',', 'i', 'i', 0};
static const uint8_t REPLY_HEAD[16] = {'/', 'r', 'e', 'p', 'l', 'y', 0, 0, ',', 's', 'i', 'i', 'i', 'i', 0, 0};

/*@ requires \valid_read(datagram + (0 .. 23));
    terminates \true;
    assigns \nothing;
    ensures \result ==> begins_standby(datagram);
    ensures begins_standby(datagram) ==> \result; */
static bool is_of_standby(const uint8_t *datagram)
{
    return is_same(datagram, STANDBY_HEAD, sizeof STANDBY_HEAD);
}

/*@ requires \valid_read(datagram + (0 .. 15));
    terminates \true;
    assigns \nothing;
    ensures \result ==> begins_go(datagram);
    ensures begins_go(datagram) ==> \result; */
static bool is_of_go(const uint8_t *datagram)
{
    return is_same(datagram, GO_HEAD, sizeof GO_HEAD);
}

/*@ requires \valid_read(datagram + (0 .. 15));
    terminates \true;
    assigns \nothing;
    ensures \result ==> begins_cancel(datagram);
    ensures begins_cancel(datagram) ==> \result; */
static bool is_of_cancel(const uint8_t *datagram)
{
    return is_same(datagram, CANCEL_HEAD, sizeof CANCEL_HEAD);
}

/*@ requires \valid_read(datagram + (0 .. 15));
    terminates \true;
    assigns \nothing;
    ensures \result ==> begins_reply(datagram);
    ensures begins_reply(datagram) ==> \result; */
static bool is_of_reply(const uint8_t *datagram)
{
    return is_same(datagram, REPLY_HEAD, sizeof REPLY_HEAD);
}

/* The attempt of two numbers, if they are those of an order for the device of this number; otherwise 0. */
/*@ requires \valid_read(numbers + (0 .. 7));
    terminates \true;
    assigns \nothing;
    ensures \result > 0 ==> has_numbers(numbers, number, \result);
    ensures \result == 0 ==> \forall integer q; !has_numbers(numbers, number, q); */
static uint32_t attempt_of(const uint8_t *numbers, uint32_t number)
{
    const uint32_t attempt = int_of(numbers);
    return attempt <= MOST_ATTEMPT && int_of(numbers + 4) == number ? attempt : 0u;
}

/* The length of the number of a cue that these bytes begin with, and its zeros; 0 if they do not. */
/*@ requires \valid_read(bytes + (0 .. length - 1)) && 8 <= length <= 65535;
    terminates \true;
    assigns \nothing;
    ensures \result > 0 ==> is_cue_text(bytes, length, \result);
    ensures \result > 0 ==> \forall integer c; is_cue_text(bytes, length, c) ==> c == \result;
    ensures \result == 0 ==> \forall integer c; !is_cue_text(bytes, length, c); */
static size_t cue_of(const uint8_t *bytes, size_t length)
{
    const size_t cue = cue_bytes(bytes, length < MOST_CUE ? length : MOST_CUE);
    /*@ assert \forall integer c; is_cue_text(bytes, length, c) ==> !(c < cue) && !(c > cue); */
    if (cue == 0u || bytes[cue - 1u] == 46u || end_of_text(cue) > length) {
        return 0;
    }
    /*@ assert is_cue(bytes, cue); */
    return are_zeros(bytes, cue, end_of_text(cue)) ? cue : 0u;
}

/* Whether the datagram ends with a blob of at most 32 bytes, and its zeros, from here on. */
/*@ requires \valid_read(datagram + (0 .. length - 1)) && at <= length <= 65535;
    terminates \true;
    assigns \nothing;
    ensures \result ==> is_blob(datagram, at, length, int_at(datagram + at));
    ensures !\result ==> \forall integer b; !is_blob(datagram, at, length, b); */
static bool is_short_blob(const uint8_t *datagram, size_t at, size_t length)
{
    size_t count;
    if (length - at < 4u || int_of(datagram + at) > MOST_BYTES) {
        return false;
    }
    count = (size_t)int_of(datagram + at);
    /*@ assert count == int_at(datagram + at); */
    return end_of_blob(count) == length - at - 4u && are_zeros(datagram, at + 4u + count, length);
}

/* ---- an order of the controller */

struct order {
    enum column column;
    uint32_t attempt;
    size_t cue_length, bytes_length; /* of a standby */
};

static const struct order NO_ORDER = {NO_COLUMN, 0, 0, 0};

/* Where the cue of a standby begins, and its bytes after a cue of this length. */
#define CUE_AT 32u

/*@ requires cue_length <= MOST_CUE;
    terminates \true;
    assigns \nothing;
    ensures \result == blob_at(cue_length) + 4; */
static size_t bytes_at(size_t cue_length)
{
    return CUE_AT + end_of_text(cue_length) + 4u;
}

/* Reads a standby for the device of this number. */
/*@ requires \valid_read(datagram + (0 .. length - 1)) && length <= 65535;
    terminates \true;
    assigns \nothing;
    ensures \result.column == OTHER_STANDBY || \result.column == NO_COLUMN;
    ensures \result.column == OTHER_STANDBY ==>
      is_standby(datagram, length, number, \result.attempt, \result.cue_length, \result.bytes_length);
    ensures \result.column == OTHER_STANDBY ==>
      blob_at(\result.cue_length) + 4 + \result.bytes_length <= length
      && \result.cue_length <= MOST_CUE && \result.bytes_length <= MOST_BYTES;
    ensures \result.column == OTHER_STANDBY ==>
      \forall integer q, c, b; is_standby(datagram, length, number, q, c, b) ==>
        q == \result.attempt && c == \result.cue_length && b == \result.bytes_length;
    ensures \result.column == OTHER_STANDBY ==> begins_standby(datagram);
    ensures \result.column == NO_COLUMN ==>
      \forall integer q, c, b; !is_standby(datagram, length, number, q, c, b); */
static struct order standby_of(const uint8_t *datagram, size_t length, uint32_t number)
{
    struct order order = NO_ORDER;
    size_t at, rest;
    if (length < 40u || !is_of_standby(datagram)) {
        return order;
    }
    rest = length - CUE_AT;
    /*@ assert rest == length - 32; */
    order.attempt = attempt_of(datagram + 24, number);
    order.cue_length = cue_of(datagram + CUE_AT, rest);
    if (order.attempt == 0u || order.cue_length == 0u) {
        /*@ assert order.attempt == 0 ==> \forall integer q; !has_numbers(datagram + 24, number, q); */
        /*@ assert order.cue_length == 0 ==> \forall integer c; !is_cue_text(datagram + 32, length - 32, c); */
        return order;
    }
    /*@ assert \forall integer c; is_cue_text(datagram + 32, length - 32, c) ==> c == order.cue_length; */
    at = CUE_AT + end_of_text(order.cue_length);
    /*@ assert at == blob_at(order.cue_length) && at <= length; */
    if (is_short_blob(datagram, at, length)) {
        order.column = OTHER_STANDBY;
        order.bytes_length = (size_t)int_of(datagram + at);
        /*@ assert is_blob(datagram, blob_at(order.cue_length), length, order.bytes_length); */
        /*@ assert \forall integer b; is_blob(datagram, blob_at(order.cue_length), length, b) ==>
              b == order.bytes_length; */
        /*@ assert \forall integer q; has_numbers(datagram + 24, number, q) ==> q == order.attempt; */
        return order;
    }
    /*@ assert \forall integer b; !is_blob(datagram, blob_at(order.cue_length), length, b); */
    return order;
}

/* Whether the device has heard this very standby: the same cue and the same bytes. */
/*@ requires \valid_read(datagram + (0 .. blob_at(order.cue_length) + 3 + order.bytes_length)) && \valid_read(device);
    requires order.cue_length <= MOST_CUE && order.bytes_length <= MOST_BYTES;
    terminates \true;
    assigns \nothing;
    ensures \result ==> is_copy(device, datagram, order.attempt, order.cue_length, order.bytes_length);
    ensures is_copy(device, datagram, order.attempt, order.cue_length, order.bytes_length) ==> \result; */
static bool is_copy_of(const struct cue_device *device, const uint8_t *datagram, struct order order)
{
    return order.attempt == device->last && order.cue_length == device->cue_length &&
           order.bytes_length == device->bytes_length &&
           is_same(datagram + CUE_AT, device->cue, order.cue_length) &&
           is_same(datagram + bytes_at(order.cue_length), device->bytes, order.bytes_length);
}

/* Reads an order for this device: exactly the bytes of the protocol, and no byte more. */
/*@ requires \valid_read(datagram + (0 .. length - 1)) && \valid_read(device) && length <= 65535;
    terminates \true;
    assigns \nothing;
    ensures SAME_STANDBY <= \result.column <= NO_COLUMN;
    ensures \result.column != NO_COLUMN ==> is_order(device, datagram, length, \result.column, \result.attempt,
                                                     \result.cue_length, \result.bytes_length);
    ensures \result.column <= OTHER_STANDBY ==> blob_at(\result.cue_length) + 4 + \result.bytes_length <= length;
    ensures GO <= \result.column <= CANCEL ==> \result.cue_length == 0 && \result.bytes_length == 0;
    ensures \result.column == SAME_STANDBY ==> \result.attempt == device->last;
    ensures \result.cue_length <= MOST_CUE && \result.bytes_length <= MOST_BYTES;
    ensures \result.column != NO_COLUMN ==>
      \forall integer k, q, c, b; is_order(device, datagram, length, k, q, c, b) ==> k == \result.column
        && q == \result.attempt && c == \result.cue_length && b == \result.bytes_length;
    ensures \result.column == NO_COLUMN ==>
      \forall integer k, q, c, b; !is_order(device, datagram, length, k, q, c, b); */
static struct order order_of(const struct cue_device *device, const uint8_t *datagram, size_t length)
{
    struct order order = standby_of(datagram, length, device->number);
    if (order.column == OTHER_STANDBY) {
        order.column = is_copy_of(device, datagram, order) ? SAME_STANDBY : OTHER_STANDBY;
        return order;
    }
    order = NO_ORDER;
    if (length != 24u) {
        return order;
    }
    order.attempt = attempt_of(datagram + 16, device->number);
    if (order.attempt > 0u && is_of_go(datagram)) {
        order.column = GO;
    } else if (order.attempt > 0u && is_of_cancel(datagram)) {
        order.column = CANCEL;
    } else {
        order.column = NO_COLUMN;
    }
    return order;
}

/* ---- writing OSC, each byte by its place */

static const uint8_t DEVICE[8] = {'/', 'd', 'e', 'v', 'i', 'c', 'e', '/'};
static const uint8_t WORDS[ABORT + 1][12] = {
    [STANDING_BY] = {'/', 's', 't', 'a', 'n', 'd', 'i', 'n', 'g', '_', 'b', 'y'},
    [COMPLETE] = {'/', 'c', 'o', 'm', 'p', 'l', 'e', 't', 'e'},
    [CANCELLED] = {'/', 'c', 'a', 'n', 'c', 'e', 'l', 'l', 'e', 'd'},
    [ABORT] = {'/', 'a', 'b', 'o', 'r', 't'},
};
static const uint8_t LENGTHS[ABORT + 1] = {[STANDING_BY] = 12, [COMPLETE] = 9, [CANCELLED] = 10, [ABORT] = 6};

/* How many digits the number of a device has. */
/*@ terminates \true;
    assigns \nothing;
    ensures \result == digits(number); */
static size_t digits_of(uint32_t number)
{
    return number >= 100u ? 3u : number >= 10u ? 2u : 1u;
}

/* A digit of the number of a device, from the first one on; tens are its tenth part, where no division is built in. */
/*@ requires number <= MOST_NUMBER && i < digits(number);
    terminates \true;
    assigns \nothing;
    ensures \result == digit(number, i); */
static uint8_t digit_of(uint32_t number, size_t i)
{
    const unsigned tens = (unsigned)number * 103u / 1024u;
    /*@ assert tens == number / 10; */
    if (i + 1u == digits_of(number)) {
        return (uint8_t)(48u + number - 10u * tens);
    }
    if (i + 2u == digits_of(number)) {
        return (uint8_t)(48u + (tens >= 10u ? tens - 10u : tens));
    }
    return 49u;
}

/* The length of an answer's address with its zeros. */
/*@ requires STANDING_BY <= word <= ABORT;
    terminates \true;
    assigns \nothing;
    ensures \result == address_end(number, word); */
static size_t address_end_of(uint32_t number, uint32_t word)
{
    return end_of_text(8u + digits_of(number) + LENGTHS[word]);
}

/* A byte of such an address, as /device/3/abort, and zeros after it. */
/*@ requires number <= MOST_NUMBER && STANDING_BY <= word <= ABORT && i <= 1000;
    terminates \true;
    assigns \nothing;
    ensures \result == address_byte(number, word, i); */
static uint8_t address_byte_of(uint32_t number, uint32_t word, size_t i)
{
    const size_t after_number = 8u + digits_of(number);
    if (i < 8u) {
        return DEVICE[i];
    }
    if (i < after_number) {
        return digit_of(number, i - 8u);
    }
    return i < after_number + 12u ? WORDS[word][i - after_number] : 0u;
}

/* A byte of the tags of one number, and of the number: an int32, big-endian. */
/*@ requires i < 8;
    terminates \true;
    assigns \nothing;
    ensures \result == number_byte(value, i); */
static uint8_t number_byte_of(uint32_t value, size_t i)
{
    if (i == 0u) {
        return 44u;
    }
    if (i == 1u) {
        return 105u;
    }
    if (i < 4u) {
        return 0u;
    }
    if (i < 6u) {
        return (uint8_t)(i == 4u ? value / 16777216u : value / 65536u % 256u);
    }
    return (uint8_t)(i == 6u ? value / 256u % 256u : value % 256u);
}

/* A byte of an answer for an attempt, and zeros after it. */
/*@ requires number <= MOST_NUMBER && STANDING_BY <= word <= ABORT && i <= 1000;
    terminates \true;
    assigns \nothing;
    ensures \result == answer_byte(number, word, attempt, i); */
static uint8_t answer_byte_of(uint32_t number, uint32_t word, uint32_t attempt, size_t i)
{
    const size_t end = address_end_of(number, word);
    if (i < end) {
        return address_byte_of(number, word, i);
    }
    return i < end + 8u ? number_byte_of(attempt, i - end) : 0u;
}

/* Whether it is the controller's reply to an abort of the device of this number; its four numbers may be any. */
/*@ requires \valid_read(datagram + (0 .. length - 1)) && length <= 65535 && number <= MOST_NUMBER;
    terminates \true;
    assigns \nothing;
    ensures \result ==> is_reply_to_abort(datagram, length, number);
    ensures is_reply_to_abort(datagram, length, number) ==> \result; */
static bool is_reply(const uint8_t *datagram, size_t length, uint32_t number)
{
    const size_t end = address_end_of(number, ABORT);
    size_t i;
    if (length != end + 32u || !is_of_reply(datagram)) {
        return false;
    }
    /*@ loop invariant 0 <= i <= end;
        loop invariant \forall integer k; 0 <= k < i ==> datagram[16 + k] == address_byte(number, ABORT, k);
        loop assigns i;
        loop variant end - i; */
    for (i = 0; i < end; i++) {
        if (datagram[16u + i] != address_byte_of(number, ABORT, i)) {
            return false;
        }
    }
    return true;
}

/* ---- what a call gives */

/* There is nothing to send. */
/*@ requires \valid(answer);
    terminates \true;
    assigns *answer;
    ensures is_silent(answer); */
static void say_nothing(struct cue_answer *answer)
{
    answer->length = 0;
    clear(answer->to.bytes, sizeof answer->to.bytes);
    clear(answer->bytes, sizeof answer->bytes);
    /*@ assert zeros(&answer->to.bytes[0], 0, 8); */
}

/* A bad call changes nothing, and has nothing to send. */
/*@ requires \valid(answer) && \valid_read(device) && \separated(answer, device);
    terminates \true;
    assigns *answer;
    ensures is_silent(answer) && same{Pre, Post}(device);
    ensures \result == CUE_BAD_CALL; */
static uint32_t refuse(const struct cue_device *device, struct cue_answer *answer)
{
    (void)device;
    say_nothing(answer);
    /*@ assert ARRAYS_STAY(device); */
    /*@ assert same_name{Pre, Here}(device) && same_heard{Pre, Here}(device) && same_controller{Pre, Here}(device); */
    /*@ assert same_work{Pre, Here}(device) && same_phase{Pre, Here}(device); */
    return CUE_BAD_CALL;
}

/* The answer of the device for an attempt, to where its last order came from; nothing to send for SILENT. */
/*@ requires \valid(answer) && \valid_read(device) && \separated(answer, device);
    requires device->number <= MOST_NUMBER && word <= ABORT;
    terminates \true;
    assigns *answer;
    ensures says(answer, device, word, attempt);
    ensures same{Pre, Post}(device); */
static void say(struct cue_answer *answer, const struct cue_device *device, uint32_t word, uint32_t attempt)
{
    const uint32_t number = device->number;
    size_t i;
    say_nothing(answer);
    /*@ assert ARRAYS_STAY(device); */
    /*@ assert same_name{Pre, Here}(device) && same_heard{Pre, Here}(device) && same_controller{Pre, Here}(device); */
    /*@ assert same_work{Pre, Here}(device) && same_phase{Pre, Here}(device); */
    /*@ assert same{Pre, Here}(device); */
    copy(answer->to.bytes, device->controller.bytes, sizeof answer->to.bytes);
    /*@ assert ARRAYS_STAY(device); */
    /*@ assert same{Pre, Here}(device); */
    /*@ assert goes_to(answer, device) && zeros(&answer->bytes[0], 0, 64); */
    if (word == (uint32_t)SILENT) {
        return;
    }
    answer->length = (uint32_t)address_end_of(number, word) + 8u;
    /*@ loop invariant 0 <= i <= 64;
        loop invariant \forall integer k; 0 <= k < i ==> answer->bytes[k] == answer_byte(number, word, attempt, k);
        loop assigns i, answer->bytes[0 .. 63];
        loop variant 64 - i; */
    for (i = 0; i < sizeof answer->bytes; i++) {
        answer->bytes[i] = answer_byte_of(number, word, attempt, i);
    }
    /*@ assert ARRAYS_STAY(device); */
    /*@ assert goes_to(answer, device); */
}

/* Answers go there from now on. */
/*@ requires \valid(device) && \valid_read(from) && \separated(device, from);
    terminates \true;
    assigns device->controller;
    ensures is_controller(device, from);
    ensures same_name{Pre, Post}(device) && same_heard{Pre, Post}(device) && same_work{Pre, Post}(device)
      && same_phase{Pre, Post}(device); */
static void answer_to(struct cue_device *device, const struct cue_place *from)
{
    copy(device->controller.bytes, from->bytes, sizeof from->bytes);
}

/* The same, and answers go there from now on. */
/*@ requires \valid(answer) && \valid(device) && \valid_read(from);
    requires \separated(answer, device) && \separated(device, from) && \separated(answer, from);
    requires device->number <= MOST_NUMBER && word <= ABORT;
    terminates \true;
    assigns *answer, device->controller;
    ensures says(answer, device, word, attempt) && is_controller(device, from);
    ensures same_name{Pre, Post}(device) && same_heard{Pre, Post}(device) && same_work{Pre, Post}(device)
      && same_phase{Pre, Post}(device); */
static void say_to(struct cue_answer *answer, struct cue_device *device, const struct cue_place *from, uint32_t word,
                   uint32_t attempt)
{
    answer_to(device, from);
    say(answer, device, word, attempt);
}

/* ---- the tables of docs/DEVICES.md, "What a device makes of each order" */

/* What is answered, what the machine begins, and the phase from then on. */
struct cell {
    uint8_t word, order, phase;
};

/* The number of the order is the highest that the device has heard of: the rows by its phase. */
static const struct cell KNOWN[CUE_FAILED + 1][CANCEL + 1] = {
    [CUE_PREPARING] = {{SILENT, CUE_NO_ORDER, CUE_PREPARING},   /* A1 */
                       {ABORT, CUE_GIVE_UP, CUE_FAILED},        /* A2 */
                       {ABORT, CUE_NO_ORDER, CUE_FAILED},       /* A3 */
                       {SILENT, CUE_GIVE_UP, CUE_LETTING_GO}},  /* A4 */
    [CUE_READY] = {{STANDING_BY, CUE_NO_ORDER, CUE_READY},      /* B1 */
                   {ABORT, CUE_GIVE_UP, CUE_FAILED},            /* B2 */
                   {SILENT, CUE_MOVE, CUE_MOVING},              /* B3: nothing else moves the machine */
                   {SILENT, CUE_GIVE_UP, CUE_LETTING_GO}},      /* B4 */
    [CUE_MOVING] = {{SILENT, CUE_NO_ORDER, CUE_MOVING},         /* C1 */
                    {ABORT, CUE_NO_ORDER, CUE_FAILED},          /* C2 */
                    {SILENT, CUE_NO_ORDER, CUE_MOVING},         /* C3 */
                    {SILENT, CUE_NO_ORDER, CUE_MOVING}},        /* C4 */
    [CUE_DONE] = {{SILENT, CUE_NO_ORDER, CUE_DONE},             /* D1 */
                  {ABORT, CUE_NO_ORDER, CUE_FAILED},            /* D2 */
                  {COMPLETE, CUE_NO_ORDER, CUE_DONE},           /* D3 */
                  {CANCELLED, CUE_NO_ORDER, CUE_DONE}},         /* D4 */
    [CUE_LETTING_GO] = {{SILENT, CUE_NO_ORDER, CUE_LETTING_GO}, /* E1 */
                        {ABORT, CUE_NO_ORDER, CUE_FAILED},      /* E2 */
                        {ABORT, CUE_NO_ORDER, CUE_FAILED},      /* E3 */
                        {SILENT, CUE_NO_ORDER, CUE_LETTING_GO}}, /* E4 */
    [CUE_LET_GO] = {{ABORT, CUE_NO_ORDER, CUE_LET_GO},          /* F1 */
                    {ABORT, CUE_NO_ORDER, CUE_FAILED},          /* F2 */
                    {ABORT, CUE_NO_ORDER, CUE_FAILED},          /* F3 */
                    {CANCELLED, CUE_NO_ORDER, CUE_LET_GO}},     /* F4 */
    [CUE_FAILED] = {{ABORT, CUE_NO_ORDER, CUE_FAILED},          /* G1 */
                    {ABORT, CUE_NO_ORDER, CUE_FAILED},          /* G2 */
                    {ABORT, CUE_NO_ORDER, CUE_FAILED},          /* G3 */
                    {CANCELLED, CUE_NO_ORDER, CUE_FAILED}},     /* G4 */
};

/* The number is higher: where the machine is free, and where it still does what a lower one asked for. No standby of a
 * new number is a copy. */
static const struct cell HIGHER[2][CANCEL + 1] = {
    {[OTHER_STANDBY] = {SILENT, CUE_PREPARE, CUE_PREPARING}, /* H1 */
     [GO] = {ABORT, CUE_NO_ORDER, CUE_FAILED},               /* H3 */
     [CANCEL] = {CANCELLED, CUE_NO_ORDER, CUE_LET_GO}},      /* H4 */
    {[OTHER_STANDBY] = {ABORT, CUE_NO_ORDER, CUE_FAILED},    /* I1 */
     [GO] = {ABORT, CUE_NO_ORDER, CUE_FAILED},               /* I3 */
     [CANCEL] = {CANCELLED, CUE_NO_ORDER, CUE_LET_GO}},      /* I4 */
};

/* The cell of a known number. */
/*@ requires CUE_PREPARING <= phase <= CUE_FAILED && column <= CANCEL;
    terminates \true;
    assigns \nothing;
    ensures \result.word == known_word(phase, column);
    ensures \result.order == known_order(phase, column);
    ensures \result.phase == known_phase(phase, column);
    ensures \result.word <= ABORT && \result.order <= CUE_GIVE_UP && 1 <= \result.phase <= CUE_FAILED; */
static struct cell known_cell(uint32_t phase, uint32_t column)
{
    return KNOWN[phase][column];
}

/* The cell of a higher number. */
/*@ requires OTHER_STANDBY <= column <= CANCEL;
    terminates \true;
    assigns \nothing;
    ensures \result.word == higher_word(is_at_work, column);
    ensures \result.order == higher_order(is_at_work, column);
    ensures \result.phase == higher_phase(is_at_work, column);
    ensures \result.word <= ABORT && \result.order <= CUE_GIVE_UP && 1 <= \result.phase <= CUE_FAILED; */
static struct cell higher_cell(bool is_at_work, uint32_t column)
{
    return HIGHER[is_at_work ? 1 : 0][column];
}

/* A higher number ends the attempt before it. */
/*@ requires \valid(device) && order.cue_length <= MOST_CUE && order.bytes_length <= MOST_BYTES;
    requires order.column <= OTHER_STANDBY ==> IS_APART(device, datagram, order.cue_length, order.bytes_length);
    requires order.column >= GO ==> order.cue_length == 0 && order.bytes_length == 0;
    terminates \true;
    assigns device->last, device->unheard, device->cue_length, device->bytes_length, device->cue[0 .. 15],
      device->bytes[0 .. 31];
    ensures device->last == order.attempt && device->unheard == 0;
    ensures device->cue_length == order.cue_length && device->bytes_length == order.bytes_length;
    ensures IS_KEPT(device->cue, 16, datagram, 32, order.cue_length);
    ensures IS_KEPT(device->bytes, 32, datagram, blob_at(order.cue_length) + 4, order.bytes_length);
    ensures STAYS(device->only.bytes, 8) && STAYS(device->controller.bytes, 8);
    ensures same_name{Pre, Post}(device);
    ensures same_work{Pre, Post}(device);
    ensures same_controller{Pre, Post}(device); */
static void begin(struct cue_device *device, const uint8_t *datagram, struct order order)
{
    device->last = order.attempt;
    device->unheard = 0;
    device->cue_length = (uint32_t)order.cue_length;
    device->bytes_length = (uint32_t)order.bytes_length;
    /*@ assert 32 + order.cue_length < blob_at(order.cue_length) <= 1000; */
    keep(device->cue, sizeof device->cue, datagram, CUE_AT, order.cue_length);
    /*@ assert STAYS(&datagram[blob_at(order.cue_length) + 4], order.bytes_length); */
    keep(device->bytes, sizeof device->bytes, datagram, bytes_at(order.cue_length), order.bytes_length);
    /*@ assert IS_KEPT(device->cue, 16, datagram, 32, order.cue_length); */
    /*@ assert STAYS(device->only.bytes, 8) && STAYS(device->controller.bytes, 8); */
}

/* An order that is late changes nothing but where answers go. */
/*@ requires \valid(device) && \valid(answer) && \valid_read(from);
    requires \separated(device, answer) && \separated(device, from) && \separated(answer, from);
    requires device->number <= MOST_NUMBER && column <= CANCEL;
    terminates \true;
    assigns *answer, device->controller;
    ensures obeys_late{Pre, Post}(device, answer, \result, column, attempt);
    ensures same_name{Pre, Post}(device) && is_controller(device, from); */
static uint32_t obey_late(struct cue_device *device, const struct cue_place *from, uint32_t column, uint32_t attempt,
                          struct cue_answer *answer)
{
    say_to(answer, device, from, column == (uint32_t)CANCEL ? (uint32_t)CANCELLED : (uint32_t)ABORT, attempt); /* J */
    return CUE_NO_ORDER;
}

/* Takes what a cell says. */
/*@ requires \valid(device) && \valid(answer) && \valid_read(from);
    requires \separated(device, answer) && \separated(device, from) && \separated(answer, from);
    requires device->number <= MOST_NUMBER && cell.word <= ABORT;
    terminates \true;
    assigns device->phase, device->doing, device->doing_number, device->controller, *answer;
    ensures takes{Pre, Post}(device, answer, \result, cell.word, cell.order, cell.phase);
    ensures STAYS(device->cue, 16) && STAYS(device->bytes, 32);
    ensures same_name{Pre, Post}(device) && is_controller(device, from); */
static uint32_t take(struct cue_device *device, const struct cue_place *from, struct cell cell,
                     struct cue_answer *answer)
{
    device->phase = cell.phase;
    if (cell.order != (uint8_t)CUE_NO_ORDER) {
        device->doing = cell.order;
        device->doing_number = device->last;
    }
    /*@ assert begins{Pre, Here}(device, cell.order); */
    /*@ assert same_name{Pre, Here}(device) && same_heard{Pre, Here}(device); */
    say_to(answer, device, from, cell.word, device->last);
    /*@ assert begins{Pre, Here}(device, cell.order); */
    /*@ assert same_name{Pre, Here}(device); */
    /*@ assert same_heard{Pre, Here}(device); */
    return cell.order;
}

/* An order of the highest number that it has heard of. */
/*@ requires \valid(device) && \valid(answer) && \valid_read(from);
    requires \separated(device, answer) && \separated(device, from) && \separated(answer, from);
    requires device->number <= MOST_NUMBER && CUE_PREPARING <= device->phase <= CUE_FAILED && column <= CANCEL;
    terminates \true;
    assigns device->phase, device->doing, device->doing_number, device->controller, *answer;
    ensures obeys_known{Pre, Post}(device, answer, \result, column);
    ensures same_name{Pre, Post}(device) && is_controller(device, from); */
static uint32_t obey_known(struct cue_device *device, const struct cue_place *from, uint32_t column,
                           struct cue_answer *answer)
{
    return take(device, from, known_cell(device->phase, column), answer);
}

/* An order of a higher number. */
/*@ requires \valid(device) && \valid(answer) && \valid_read(from);
    requires \separated(device, answer) && \separated(device, from) && \separated(answer, from);
    requires device->number <= MOST_NUMBER && OTHER_STANDBY <= order.column <= CANCEL;
    requires order.cue_length <= MOST_CUE && order.bytes_length <= MOST_BYTES;
    requires order.column <= OTHER_STANDBY ==> IS_APART(device, datagram, order.cue_length, order.bytes_length);
    requires order.column >= GO ==> order.cue_length == 0 && order.bytes_length == 0;
    terminates \true;
    assigns *device, *answer;
    ensures obeys_higher{Pre, Post}(device, datagram, answer, \result, order.column, order.attempt, order.cue_length,
                                    order.bytes_length);
    ensures same_name{Pre, Post}(device) && is_controller(device, from); */
static uint32_t obey_higher(struct cue_device *device, const struct cue_place *from, const uint8_t *datagram,
                            struct order order, struct cue_answer *answer)
{
    const struct cell cell = higher_cell(device->doing != (uint32_t)CUE_NO_ORDER, (uint32_t)order.column);
    uint32_t ordered;
    begin(device, datagram, order);
    ordered = take(device, from, cell, answer);
    /*@ assert heard_new{Pre, Here}(device, datagram, order.attempt, order.cue_length, order.bytes_length); */
    /*@ assert begins{Pre, Here}(device, ordered); */
    return ordered;
}

/*@ requires \valid(device) && \valid(answer) && \valid_read(from);
    requires \separated(device, answer) && \separated(device, from) && \separated(answer, from);
    requires device->number <= MOST_NUMBER && device->phase <= CUE_FAILED && order.column <= CANCEL;
    requires order.column == SAME_STANDBY ==> order.attempt == device->last;
    requires order.cue_length <= MOST_CUE && order.bytes_length <= MOST_BYTES;
    requires order.column <= OTHER_STANDBY ==> IS_APART(device, datagram, order.cue_length, order.bytes_length);
    requires order.column >= GO ==> order.cue_length == 0 && order.bytes_length == 0;
    terminates \true;
    assigns *device, *answer;
    ensures obeys{Pre, Post}(device, datagram, answer, \result, order.column, order.attempt, order.cue_length,
                             order.bytes_length);
    ensures is_controller(device, from); */
static uint32_t obey(struct cue_device *device, const struct cue_place *from, const uint8_t *datagram,
                     struct order order, struct cue_answer *answer)
{
    if (order.attempt < device->last ||
        (order.attempt == device->last && device->phase == (uint32_t)CUE_OVER)) {
        return obey_late(device, from, (uint32_t)order.column, order.attempt, answer);
    }
    if (order.attempt == device->last) {
        return obey_known(device, from, (uint32_t)order.column, answer);
    }
    return obey_higher(device, from, datagram, order, answer);
}

/* ---- a device */

/* The header made the struct, and each number is in its range. */
/*@ requires \valid_read(device);
    terminates \true;
    assigns \nothing;
    ensures \result ==> is_device(device);
    ensures is_device(device) ==> \result; */
static bool is_whole(const struct cue_device *device)
{
    return device->magic == CUE_MAGIC && device->size == sizeof *device && device->number <= MOST_NUMBER &&
           device->phase <= (uint32_t)CUE_FAILED && device->doing <= (uint32_t)CUE_GIVE_UP &&
           device->unheard <= 1u && device->bytes_length <= MOST_BYTES &&
           (device->cue_length == 0u ||
            (device->cue_length <= MOST_CUE && is_cue_number(device->cue, (size_t)device->cue_length)));
}

/* Makes a device that has heard of this number, and of nothing else. */
/*@ requires \valid(device) && number <= MOST_NUMBER && kept <= MOST_ATTEMPT;
    terminates \true;
    assigns *device;
    ensures is_new(device) && is_device(device) && device->number == number && device->last == kept;
    ensures device->unheard == (kept > 0 ? 1 : 0);
    ensures zeros(&device->controller.bytes[0], 0, 8); */
static void make(struct cue_device *device, uint32_t number, uint32_t kept)
{
    clear(device->cue, sizeof device->cue);
    clear(device->bytes, sizeof device->bytes);
    clear(device->controller.bytes, sizeof device->controller.bytes);
    clear(device->only.bytes, sizeof device->only.bytes);
    /*@ assert zeros(&device->cue[0], 0, 16); */
    /*@ assert zeros(&device->bytes[0], 0, 32); */
    /*@ assert zeros(&device->controller.bytes[0], 0, 8); */
    /*@ assert zeros(&device->only.bytes[0], 0, 8); */
    device->magic = CUE_MAGIC;
    device->size = (uint32_t)sizeof *device;
    device->number = number;
    device->last = kept;
    device->phase = CUE_OVER;
    device->doing = CUE_NO_ORDER;
    device->doing_number = 0;
    device->unheard = 0;
    if (kept > 0u) {
        device->unheard = 1; /* O: cue_tick says so */
    }
    device->cue_length = 0;
    device->bytes_length = 0;
}

/*@ requires \valid(device);
    terminates \true;
    assigns *device;
    ensures size != sizeof(struct cue_device) || number > MOST_NUMBER ==>
      \result == CUE_BAD_CALL && same{Pre, Post}(device);
    ensures size == sizeof(struct cue_device) && number <= MOST_NUMBER ==>
      \result == CUE_NO_ORDER && is_device(device) && device->number == number && is_new(device)
      && device->last == 0 && device->unheard == 0 && zeros(&device->controller.bytes[0], 0, 8); */
uint32_t cue_device_new(struct cue_device *device, uint32_t size, uint32_t number)
{
    if (size != sizeof *device || number > MOST_NUMBER) {
        return CUE_BAD_CALL;
    }
    make(device, number, 0);
    return CUE_NO_ORDER;
}

/*@ requires \valid(device) && \valid_read(from) && \separated(device, from);
    terminates \true;
    assigns *device;
    ensures size != sizeof(struct cue_device) || number > MOST_NUMBER || kept > MOST_ATTEMPT
      || (kept > 0 && is_no_place{Pre}(from)) ==> \result == CUE_BAD_CALL && same{Pre, Post}(device);
    ensures size == sizeof(struct cue_device) && number <= MOST_NUMBER && kept <= MOST_ATTEMPT
      && (kept == 0 || !is_no_place{Pre}(from)) ==>
      \result == CUE_NO_ORDER && is_device(device) && device->number == number && is_new(device)
      && device->last == kept && device->unheard == (kept > 0 ? 1 : 0) && is_controller(device, from); */
uint32_t cue_device_restarted(struct cue_device *device, uint32_t size, uint32_t number, uint32_t kept,
                              const struct cue_place *from)
{
    if (size != sizeof *device || number > MOST_NUMBER || kept > MOST_ATTEMPT) {
        return CUE_BAD_CALL;
    }
    if (kept > 0u && is_nowhere(from->bytes)) {
        return CUE_BAD_CALL;
    }
    make(device, number, kept);
    answer_to(device, from);
    return CUE_NO_ORDER;
}

/*@ requires \valid(device) && \valid_read(sender) && \separated(device, sender);
    terminates \true;
    assigns *device;
    ensures !is_device{Pre}(device) ==> \result == CUE_BAD_CALL && same{Pre, Post}(device);
    ensures is_device{Pre}(device) ==> \result == CUE_NO_ORDER
      && (\forall integer k; 0 <= k < 8 ==> device->only.bytes[k] == sender->bytes[k])
      && device->number == \old(device->number) && same_heard{Pre, Post}(device) && same_work{Pre, Post}(device)
      && same_phase{Pre, Post}(device) && same_controller{Pre, Post}(device); */
uint32_t cue_device_hear_only(struct cue_device *device, const struct cue_place *sender)
{
    if (!is_whole(device)) {
        return CUE_BAD_CALL;
    }
    copy(device->only.bytes, sender->bytes, sizeof sender->bytes);
    /*@ assert STAYS(device->cue, 16); */
    /*@ assert STAYS(device->bytes, 32); */
    /*@ assert STAYS(device->controller.bytes, 8); */
    return CUE_NO_ORDER;
}

/* What is no order: only a reply to its abort counts. */
/*@ requires \valid(device) && \valid(answer) && \valid_read(datagram + (0 .. length - 1));
    requires \separated(device, answer);
    requires \separated(device, datagram + (0 .. length - 1)) && \separated(answer, datagram + (0 .. length - 1));
    requires length <= 65535 && is_device(device);
    terminates \true;
    assigns device->unheard, *answer;
    ensures passes_over{Pre, Post}(device, datagram, length, answer, \result); */
static uint32_t pass_over(struct cue_device *device, const uint8_t *datagram, size_t length, struct cue_answer *answer)
{
    if (is_reply(datagram, length, device->number)) {
        device->unheard = 0;
    }
    say(answer, device, SILENT, 0);
    return CUE_NO_ORDER;
}

/* Hears a datagram of a sender that is heard. */
/*@ requires \valid(device) && \valid_read(from) && \valid(answer) && \valid_read(datagram + (0 .. length - 1));
    requires \separated(device, answer) && \separated(device, from) && \separated(answer, from);
    requires \separated(device, datagram + (0 .. length - 1)) && \separated(answer, datagram + (0 .. length - 1));
    requires length <= 65535 && is_device(device);
    terminates \true;
    assigns *device, *answer;
    ensures makes_of{Pre, Post}(device, from, datagram, length, answer, \result); */
static uint32_t hear(struct cue_device *device, const struct cue_place *from, const uint8_t *datagram, size_t length,
                     struct cue_answer *answer)
{
    const struct order order = order_of(device, datagram, length);
    if (order.column == NO_COLUMN) {
        return pass_over(device, datagram, length, answer);
    }
    return obey(device, from, datagram, order, answer);
}

/* Whether it hears this sender. */
/*@ requires \valid_read(device) && \valid_read(from);
    terminates \true;
    assigns \nothing;
    ensures \result ==> hears(device, from);
    ensures hears(device, from) ==> \result; */
static bool is_heard(const struct cue_device *device, const struct cue_place *from)
{
    return is_nowhere(device->only.bytes) || is_same(device->only.bytes, from->bytes, sizeof from->bytes);
}

/*@ requires \valid(device) && \valid_read(from) && \valid(answer) && \valid_read(datagram + (0 .. length - 1));
    requires \separated(device, answer) && \separated(device, from) && \separated(answer, from);
    requires \separated(device, datagram + (0 .. length - 1)) && \separated(answer, datagram + (0 .. length - 1));
    requires length <= 65535;
    terminates \true;
    assigns *device, *answer;
    ensures !is_device{Pre}(device) ==> \result == CUE_BAD_CALL && is_silent(answer) && same{Pre, Post}(device);
    ensures is_device{Pre}(device) && !hears{Pre}(device, from) ==>
      \result == CUE_NO_ORDER && is_silent(answer) && same{Pre, Post}(device);
    ensures is_device{Pre}(device) && hears{Pre}(device, from) ==>
      makes_of{Pre, Post}(device, from, datagram, length, answer, \result); */
uint32_t cue_device_hear(struct cue_device *device, const struct cue_place *from, const uint8_t *datagram,
                         size_t length, struct cue_answer *answer)
{
    if (!is_whole(device)) {
        return refuse(device, answer);
    }
    if (!is_heard(device, from)) {
        (void)refuse(device, answer);
        return CUE_NO_ORDER;
    }
    return hear(device, from, datagram, length, answer);
}

/* ---- reports of the machine */

/* The machine is free; the attempt is in this phase from now on. */
/*@ requires \valid(device);
    terminates \true;
    assigns device->phase, device->doing, device->doing_number, device->unheard;
    ensures is_free(device) && device->phase == phase && device->unheard == unheard;
    ensures same_but_phase{Pre, Post}(device); */
static void is_done(struct cue_device *device, uint32_t phase, uint32_t unheard)
{
    device->doing = CUE_NO_ORDER;
    device->doing_number = 0;
    device->phase = phase;
    device->unheard = unheard;
}

/* It has ended this order. The attempt may have gone on meanwhile: then it is free, and nothing is answered. */
/*@ requires \valid(device) && \valid(answer) && \separated(device, answer);
    requires end.word <= ABORT && end.order != CUE_NO_ORDER;
    terminates \true;
    assigns *device, *answer;
    ensures ends{Pre, Post}(device, answer, \result, end.order, phase, end.word, end.phase); */
static uint32_t report(struct cue_device *device, uint32_t phase, struct cell end, struct cue_answer *answer)
{
    bool is_current;
    if (!is_whole(device) || device->doing != end.order) {
        return refuse(device, answer);
    }
    is_current = device->doing_number == device->last && device->phase == phase;
    is_done(device, is_current ? end.phase : device->phase, device->unheard);
    say(answer, device, is_current ? end.word : (uint32_t)SILENT, device->last);
    return CUE_NO_ORDER;
}

/*@ requires \valid(device) && \valid(answer) && \separated(device, answer);
    terminates \true;
    assigns *device, *answer;
    ensures has_ended{Pre, Post}(device, answer, \result, CUE_PREPARE); */
uint32_t cue_device_prepared(struct cue_device *device, struct cue_answer *answer)
{
    static const struct cell END = {STANDING_BY, CUE_PREPARE, CUE_READY}; /* K */
    return report(device, CUE_PREPARING, END, answer);
}

/*@ requires \valid(device) && \valid(answer) && \separated(device, answer);
    terminates \true;
    assigns *device, *answer;
    ensures has_ended{Pre, Post}(device, answer, \result, CUE_MOVE); */
uint32_t cue_device_moved(struct cue_device *device, struct cue_answer *answer)
{
    static const struct cell END = {COMPLETE, CUE_MOVE, CUE_DONE}; /* L */
    return report(device, CUE_MOVING, END, answer);
}

/*@ requires \valid(device) && \valid(answer) && \separated(device, answer);
    terminates \true;
    assigns *device, *answer;
    ensures has_ended{Pre, Post}(device, answer, \result, CUE_GIVE_UP); */
uint32_t cue_device_gave_up(struct cue_device *device, struct cue_answer *answer)
{
    static const struct cell END = {CANCELLED, CUE_GIVE_UP, CUE_LET_GO}; /* M */
    return report(device, CUE_LETTING_GO, END, answer);
}

/*@ requires \valid(device) && \valid(answer) && \separated(device, answer);
    terminates \true;
    assigns *device, *answer;
    ensures cannot_go_on{Pre, Post}(device, answer, \result); */
uint32_t cue_device_cannot(struct cue_device *device, struct cue_answer *answer)
{
    bool is_at_work, is_abort;
    if (!is_whole(device)) {
        return refuse(device, answer);
    }
    is_at_work = device->doing != (uint32_t)CUE_NO_ORDER;
    is_abort = (!is_at_work || device->doing_number == device->last) && device->phase != (uint32_t)CUE_OVER &&
               device->phase != (uint32_t)CUE_DONE && device->phase != (uint32_t)CUE_LET_GO;
    if (!is_at_work && !is_abort) {
        return refuse(device, answer);
    }
    is_done(device, is_abort ? (uint32_t)CUE_FAILED : device->phase, is_abort ? 1u : device->unheard); /* N */
    say(answer, device, is_abort ? (uint32_t)ABORT : (uint32_t)SILENT, device->last);
    return CUE_NO_ORDER;
}

/*@ requires \valid_read(device) && \valid(answer) && \separated(device, answer);
    terminates \true;
    assigns *answer;
    ensures !is_device{Pre}(device) ==> \result == CUE_BAD_CALL && is_silent(answer);
    ensures is_device{Pre}(device) ==> \result == CUE_NO_ORDER;
    ensures is_device{Pre}(device) && \old(device->unheard) == 1 ==> says(answer, device, ABORT, \old(device->last));
    ensures is_device{Pre}(device) && \old(device->unheard) == 0 ==> says(answer, device, SILENT, \old(device->last));
    ensures same{Pre, Post}(device); */
uint32_t cue_device_tick(const struct cue_device *device, struct cue_answer *answer)
{
    if (!is_whole(device)) {
        return refuse(device, answer);
    }
    say(answer, device, device->unheard == 1u ? (uint32_t)ABORT : (uint32_t)SILENT, device->last);
    return CUE_NO_ORDER;
}
