/* What the contracts of cue_device.c say, in ACSL: bytes, messages, and what a device makes of each. Frama-C alone
 * reads this file. */

/* ---- bytes */

/*@ predicate zeros{L}(uint8_t *m, integer from, integer to) = \forall integer k; from <= k < to ==> m[k] == 0;

    // an int32, big-endian
    logic integer int_at{L}(uint8_t *m) = ((m[0] * 256 + m[1]) * 256 + m[2]) * 256 + m[3];

    // where an OSC-string of this length ends: one zero, and up to three more
    logic integer text_end(integer length) = length + 4 - length % 4;

    // where an OSC-blob of this length ends: up to three zeros
    logic integer blob_end(integer length) = length + (4 - length % 4) % 4;

    predicate is_digit(integer c) = 48 <= c <= 57;

    // a digit, or a point after a digit
    predicate is_of_cue{L}(uint8_t *m, integer k) = is_digit(m[k]) || (m[k] == 46 && k > 0 && is_digit(m[k - 1]));

    // the number of a cue: 1 to 16 bytes, digits and single points between them
    predicate is_cue{L}(uint8_t *m, integer length) =
      1 <= length <= 16 && m[length - 1] != 46 && \forall integer k; 0 <= k < length ==> is_of_cue(m, k);

    predicate is_no_place{L}(struct cue_place *p) = zeros(&p->bytes[0], 0, 8); */

/* ---- orders, each as the bytes that it is */

/*@ predicate begins_msc{L}(uint8_t *m) = m[0] == '/' && m[1] == 'm' && m[2] == 's' && m[3] == 'c' && m[4] == '/';

    predicate begins_standby{L}(uint8_t *m) = begins_msc(m)
      && m[5] == 's' && m[6] == 't' && m[7] == 'a' && m[8] == 'n' && m[9] == 'd' && m[10] == 'b' && m[11] == 'y'
      && m[12] == 0 && m[13] == 0 && m[14] == 0 && m[15] == 0
      && m[16] == ',' && m[17] == 'i' && m[18] == 'i' && m[19] == 's' && m[20] == 'b'
      && m[21] == 0 && m[22] == 0 && m[23] == 0;

    predicate begins_go{L}(uint8_t *m) = begins_msc(m)
      && m[5] == 'g' && m[6] == 'o' && m[7] == '_' && m[8] == '2' && m[9] == 'p' && m[10] == 'c' && m[11] == 0
      && m[12] == ',' && m[13] == 'i' && m[14] == 'i' && m[15] == 0;

    predicate begins_cancel{L}(uint8_t *m) = begins_msc(m)
      && m[5] == 'c' && m[6] == 'a' && m[7] == 'n' && m[8] == 'c' && m[9] == 'e' && m[10] == 'l' && m[11] == 0
      && m[12] == ',' && m[13] == 'i' && m[14] == 'i' && m[15] == 0;

    predicate begins_reply{L}(uint8_t *m) =
      m[0] == '/' && m[1] == 'r' && m[2] == 'e' && m[3] == 'p' && m[4] == 'l' && m[5] == 'y' && m[6] == 0 && m[7] == 0
      && m[8] == ',' && m[9] == 's' && m[10] == 'i' && m[11] == 'i' && m[12] == 'i' && m[13] == 'i'
      && m[14] == 0 && m[15] == 0;

    // the two numbers of an order: of an attempt, and of the device
    predicate has_numbers{L}(uint8_t *m, integer number, integer attempt) =
      int_at(m) == attempt && 1 <= attempt <= MOST_ATTEMPT && int_at(m + 4) == number;

    // they begin with the number of a cue, of c bytes, and its zeros
    predicate is_cue_text{L}(uint8_t *m, integer length, integer c) =
      is_cue(m, c) && text_end(c) <= length && zeros(m, c, text_end(c));

    // from here to its end it is a blob of b bytes, and its zeros
    predicate is_blob{L}(uint8_t *m, integer at, integer length, integer b) =
      int_at(m + at) == b && 0 <= b <= MOST_BYTES && length == at + 4 + blob_end(b) && zeros(m, at + 4 + b, length);

    // where the blob of a standby begins, after a cue of c bytes
    logic integer blob_at(integer c) = 32 + text_end(c);

    // a standby of this attempt for this device, with a cue of c bytes and a blob of b bytes
    predicate is_standby{L}(uint8_t *m, integer length, integer number, integer attempt, integer c, integer b) =
      length >= 40 && begins_standby(m) && has_numbers(m + 24, number, attempt) && is_cue_text(m + 32, length - 32, c)
      && is_blob(m, blob_at(c), length, b);

    predicate is_go{L}(uint8_t *m, integer length, integer number, integer attempt) =
      length == 24 && begins_go(m) && has_numbers(m + 16, number, attempt);

    predicate is_cancel{L}(uint8_t *m, integer length, integer number, integer attempt) =
      length == 24 && begins_cancel(m) && has_numbers(m + 16, number, attempt); */

/* ---- devices */

/*@ // the header made the struct, and each number is in its range
    predicate is_device{L}(struct cue_device *d) =
      d->magic == CUE_MAGIC && d->size == sizeof(struct cue_device) && d->number <= MOST_NUMBER
      && d->phase <= CUE_FAILED && d->doing <= CUE_GIVE_UP && d->unheard <= 1 && d->bytes_length <= MOST_BYTES
      && (d->cue_length == 0 || is_cue(&d->cue[0], d->cue_length));

    // the very standby that the device has heard: the same attempt, cue and bytes
    predicate is_copy{L}(struct cue_device *d, uint8_t *m, integer attempt, integer c, integer b) =
      attempt == d->last && c == d->cue_length && b == d->bytes_length
      && (\forall integer k; 0 <= k < c ==> m[32 + k] == d->cue[k])
      && (\forall integer k; 0 <= k < b ==> m[blob_at(c) + 4 + k] == d->bytes[k]); */

/*@ axiomatic orders {
      // an order for the device, by its column of the table
      predicate is_order{L}(struct cue_device *d, uint8_t *m, integer length, integer column, integer attempt,
                            integer c, integer b)
        reads d->number, d->last, d->cue_length, d->bytes_length, d->cue[0 .. 15], d->bytes[0 .. 31],
          m[0 .. length - 1];
      axiom is_order_is{L}: \forall struct cue_device *d, uint8_t *m, integer length, column, attempt, c, b;
        is_order{L}(d, m, length, column, attempt, c, b) <==>
          (column == SAME_STANDBY && is_standby(m, length, d->number, attempt, c, b) && is_copy(d, m, attempt, c, b))
          || (column == OTHER_STANDBY && is_standby(m, length, d->number, attempt, c, b)
              && !is_copy(d, m, attempt, c, b))
          || (column == GO && is_go(m, length, d->number, attempt) && c == 0 && b == 0)
          || (column == CANCEL && is_cancel(m, length, d->number, attempt) && c == 0 && b == 0);
    } */

/* ---- answers, each byte by its place */

/*@ // a number up to 111 in decimal, without zeros in front: how many digits it has, and which
    logic integer digits(integer n) = n >= 100 ? 3 : n >= 10 ? 2 : 1;
    logic integer digit(integer n, integer i) =
      i == digits(n) - 1 ? 48 + n % 10 : i == digits(n) - 2 ? 48 + n / 10 % 10 : 48 + n / 100;

    // a word as the end of an address, and zeros after it
    logic integer word_length(integer word) =
      word == STANDING_BY ? 12 : word == COMPLETE ? 9 : word == CANCELLED ? 10 : 6;
    logic integer standing_by_byte(integer i) =
      i == 0 ? '/' : i == 1 ? 's' : i == 2 ? 't' : i == 3 ? 'a' : i == 4 ? 'n' : i == 5 ? 'd' : i == 6 ? 'i' :
      i == 7 ? 'n' : i == 8 ? 'g' : i == 9 ? '_' : i == 10 ? 'b' : i == 11 ? 'y' : 0;
    logic integer complete_byte(integer i) =
      i == 0 ? '/' : i == 1 ? 'c' : i == 2 ? 'o' : i == 3 ? 'm' : i == 4 ? 'p' : i == 5 ? 'l' : i == 6 ? 'e' :
      i == 7 ? 't' : i == 8 ? 'e' : 0;
    logic integer cancelled_byte(integer i) =
      i == 0 ? '/' : i == 1 ? 'c' : i == 2 ? 'a' : i == 3 ? 'n' : i == 4 ? 'c' : i == 5 ? 'e' : i == 6 ? 'l' :
      i == 7 ? 'l' : i == 8 ? 'e' : i == 9 ? 'd' : 0;
    logic integer abort_byte(integer i) =
      i == 0 ? '/' : i == 1 ? 'a' : i == 2 ? 'b' : i == 3 ? 'o' : i == 4 ? 'r' : i == 5 ? 't' : 0;
    logic integer word_byte(integer word, integer i) = word == STANDING_BY ? standing_by_byte(i) :
      word == COMPLETE ? complete_byte(i) : word == CANCELLED ? cancelled_byte(i) : abort_byte(i);
    logic integer device_byte(integer i) =
      i == 0 ? '/' : i == 1 ? 'd' : i == 2 ? 'e' : i == 3 ? 'v' : i == 4 ? 'i' : i == 5 ? 'c' : i == 6 ? 'e' :
      i == 7 ? '/' : 0;

    // the address of an answer, as /device/3/abort, with its zeros
    logic integer address_end(integer number, integer word) = text_end(8 + digits(number) + word_length(word));
    logic integer address_byte(integer number, integer word, integer i) = i < 8 ? device_byte(i) :
      i < 8 + digits(number) ? digit(number, i - 8) : word_byte(word, i - (8 + digits(number)));

    // the tags of one number, and the number: an int32, big-endian
    logic integer number_byte(integer n, integer i) = i == 0 ? ',' : i == 1 ? 'i' : i == 2 ? 0 : i == 3 ? 0 :
      i == 4 ? n / 16777216 : i == 5 ? n / 65536 % 256 : i == 6 ? n / 256 % 256 : n % 256;

    // an answer for an attempt: its address and its number, and zeros after it
    logic integer answer_byte(integer number, integer word, integer attempt, integer i) =
      i < address_end(number, word) ? address_byte(number, word, i) :
      i < address_end(number, word) + 8 ? number_byte(attempt, i - address_end(number, word)) : 0;

    // there is nothing to send
    predicate is_silent{L}(struct cue_answer *a) =
      a->length == 0 && zeros(&a->to.bytes[0], 0, 8) && zeros(&a->bytes[0], 0, 64);

    // to where the last order came from
    predicate goes_to{L}(struct cue_answer *a, struct cue_device *d) =
      \forall integer k; 0 <= k < 8 ==> a->to.bytes[k] == d->controller.bytes[k];

    // this is said for an attempt, or nothing
    predicate says{L}(struct cue_answer *a, struct cue_device *d, integer word, integer attempt) =
      goes_to(a, d) && (word == SILENT ==> a->length == 0 && zeros(&a->bytes[0], 0, 64))
      && (word != SILENT ==> a->length == address_end(d->number, word) + 8
          && \forall integer k; 0 <= k < 64 ==> a->bytes[k] == answer_byte(d->number, word, attempt, k));

    // the controller's reply to an abort of this device; its four numbers may be any
    predicate is_reply_to_abort{L}(uint8_t *m, integer length, integer number) =
      length == address_end(number, ABORT) + 32 && begins_reply(m)
      && \forall integer k; 0 <= k < address_end(number, ABORT) ==> m[16 + k] == address_byte(number, ABORT, k); */

/* ---- what a device keeps */

/* The bytes that began there when the function was called, and zeros after them. */
#define IS_KEPT(to, most, from, start, length)                                                                         \
    (\forall integer k; 0 <= k < (most) ==> (to)[k] == (k < (length) ? \at((from)[(start) + k], Pre) : 0))

/*@ // the name of the device, and what it was told to hear alone
    predicate same_name{A, B}(struct cue_device *d) =
      \at(d->magic, A) == \at(d->magic, B) && \at(d->size, A) == \at(d->size, B)
      && \at(d->number, A) == \at(d->number, B)
      && \forall integer k; 0 <= k < 8 ==> \at(d->only.bytes[k], A) == \at(d->only.bytes[k], B);

    // what it has heard: the highest number, with its cue and its bytes
    predicate same_heard{A, B}(struct cue_device *d) =
      \at(d->last, A) == \at(d->last, B) && \at(d->cue_length, A) == \at(d->cue_length, B)
      && \at(d->bytes_length, A) == \at(d->bytes_length, B)
      && (\forall integer k; 0 <= k < 16 ==> \at(d->cue[k], A) == \at(d->cue[k], B))
      && (\forall integer k; 0 <= k < 32 ==> \at(d->bytes[k], A) == \at(d->bytes[k], B));

    // what the machine does
    predicate same_work{A, B}(struct cue_device *d) =
      \at(d->doing, A) == \at(d->doing, B) && \at(d->doing_number, A) == \at(d->doing_number, B);

    // where answers go
    predicate same_controller{A, B}(struct cue_device *d) =
      \forall integer k; 0 <= k < 8 ==> \at(d->controller.bytes[k], A) == \at(d->controller.bytes[k], B);
    predicate is_controller{L}(struct cue_device *d, struct cue_place *from) =
      \forall integer k; 0 <= k < 8 ==> d->controller.bytes[k] == from->bytes[k];

    predicate same_phase{A, B}(struct cue_device *d) =
      \at(d->phase, A) == \at(d->phase, B) && \at(d->unheard, A) == \at(d->unheard, B);

    // nothing has changed
    predicate same{A, B}(struct cue_device *d) = same_name{A, B}(d) && same_heard{A, B}(d) && same_work{A, B}(d)
      && same_phase{A, B}(d) && same_controller{A, B}(d); */

/* The arrays of a device are as they were when the function was called: said one by one, each is a small goal. */
#define STAYS(array, count) (\forall integer k; 0 <= k < (count) ==> (array)[k] == \at((array)[k], Pre))
#define ARRAYS_STAY(d)                                                                                                 \
    (STAYS((d)->only.bytes, 8) && STAYS((d)->cue, 16) && STAYS((d)->bytes, 32) && STAYS((d)->controller.bytes, 8))

/* ---- what a device makes of an order */

/* The bytes of a standby can be read there, and lie apart from the device. */
#define IS_APART(d, m, c, b)                                                                                           \
    (\valid_read((m) + (0 .. blob_at(c) + 3 + (b))) && \separated(d, (m) + (0 .. blob_at(c) + 3 + (b))))

/*@ // whether it hears this sender
    predicate hears{L}(struct cue_device *d, struct cue_place *from) =
      is_no_place(&d->only) || \forall integer k; 0 <= k < 8 ==> d->only.bytes[k] == from->bytes[k];

    // the number is over
    predicate is_over{L}(struct cue_device *d, integer attempt) =
      attempt < d->last || (attempt == d->last && d->phase == CUE_OVER);

    // what it has heard is of this order now, and of nothing else
    predicate heard_new{A, B}(struct cue_device *d, uint8_t *m, integer attempt, integer c, integer b) =
      \at(d->last, B) == attempt && \at(d->unheard, B) == 0
      && \at(d->cue_length, B) == c && \at(d->bytes_length, B) == b
      && (\forall integer k; 0 <= k < 16 ==> \at(d->cue[k], B) == (k < c ? \at(m[32 + k], A) : 0))
      && (\forall integer k; 0 <= k < 32 ==> \at(d->bytes[k], B) == (k < b ? \at(m[blob_at(c) + 4 + k], A) : 0));

    // the machine is ordered this, or nothing
    predicate begins{A, B}(struct cue_device *d, integer order) =
      (order == CUE_NO_ORDER ==> same_work{A, B}(d))
      && (order != CUE_NO_ORDER ==> \at(d->doing, B) == order && \at(d->doing_number, B) == \at(d->last, B));

    // a late order: nothing but where answers go
    predicate obeys_late{A, B}(struct cue_device *d, struct cue_answer *a, integer result, integer column,
                               integer attempt) =
      result == CUE_NO_ORDER && same_heard{A, B}(d) && same_work{A, B}(d) && same_phase{A, B}(d)
      && says{B}(a, d, over_word(column == SAME_STANDBY ? OTHER_STANDBY : column), attempt);

    // it takes what a cell says, and has heard nothing new
    predicate takes{A, B}(struct cue_device *d, struct cue_answer *a, integer result, integer word, integer order,
                          integer phase) =
      same_heard{A, B}(d) && \at(d->unheard, A) == \at(d->unheard, B) && \at(d->phase, B) == phase
      && result == order && begins{A, B}(d, order) && says{B}(a, d, word, \at(d->last, A));

    // an order of the highest number that it has heard of
    predicate obeys_known{A, B}(struct cue_device *d, struct cue_answer *a, integer result, integer column) =
      takes{A, B}(d, a, result, known_word(\at(d->phase, A), column), known_order(\at(d->phase, A), column),
                  known_phase(\at(d->phase, A), column));

    // an order of a higher number
    predicate obeys_higher{A, B}(struct cue_device *d, uint8_t *m, struct cue_answer *a, integer result,
                                 integer column, integer attempt, integer c, integer b) =
      heard_new{A, B}(d, m, attempt, c, b)
      && result == higher_order(\at(d->doing, A) == CUE_NO_ORDER ? 0 : 1, column) && begins{A, B}(d, result)
      && \at(d->phase, B) == higher_phase(\at(d->doing, A) == CUE_NO_ORDER ? 0 : 1, column)
      && says{B}(a, d, higher_word(\at(d->doing, A) == CUE_NO_ORDER ? 0 : 1, column), attempt);

    // an order, by the place of its number
    predicate obeys{A, B}(struct cue_device *d, uint8_t *m, struct cue_answer *a, integer result, integer column,
                          integer attempt, integer c, integer b) =
      same_name{A, B}(d)
      && (is_over{A}(d, attempt) ==> obeys_late{A, B}(d, a, result, column, attempt))
      && (!is_over{A}(d, attempt) && attempt == \at(d->last, A) ==> obeys_known{A, B}(d, a, result, column))
      && (attempt > \at(d->last, A) ==> obeys_higher{A, B}(d, m, a, result, column, attempt, c, b)); */

/*@ // what is no order: only the controller's reply to an abort ends that abort's copies
    predicate passes_over{A, B}(struct cue_device *d, uint8_t *m, integer length, struct cue_answer *a,
                                integer result) =
      result == CUE_NO_ORDER && says{B}(a, d, SILENT, 0)
      && same_name{A, B}(d) && same_heard{A, B}(d) && same_work{A, B}(d) && same_controller{A, B}(d)
      && \at(d->phase, A) == \at(d->phase, B)
      && (is_reply_to_abort{A}(m, length, \at(d->number, A)) ==> \at(d->unheard, B) == 0)
      && (!is_reply_to_abort{A}(m, length, \at(d->number, A)) ==> \at(d->unheard, A) == \at(d->unheard, B)); */

/*@ // a datagram of a sender that it hears
    predicate makes_of{A, B}(struct cue_device *d, struct cue_place *from, uint8_t *m, integer length,
                             struct cue_answer *a, integer result) =
      (\forall integer k, q, c, b; is_order{A}(d, m, length, k, q, c, b) ==>
        is_controller{B}(d, from) && obeys{A, B}(d, m, a, result, k, q, c, b))
      && ((\forall integer k, q, c, b; !is_order{A}(d, m, length, k, q, c, b)) ==>
        passes_over{A, B}(d, m, length, a, result)); */

/* ---- reports of the machine */

/*@ // it has just been made: it is in no attempt, has heard nothing, does nothing, and hears each sender
    predicate is_new{L}(struct cue_device *d) =
      d->phase == CUE_OVER && d->doing == CUE_NO_ORDER && d->doing_number == 0
      && d->cue_length == 0 && d->bytes_length == 0 && zeros(&d->cue[0], 0, 16) && zeros(&d->bytes[0], 0, 32)
      && is_no_place(&d->only);

    // the attempt of what the machine does is the one that it is in, in this phase
    predicate is_current{L}(struct cue_device *d, integer phase) = d->doing_number == d->last && d->phase == phase;

    // the machine is free
    predicate is_free{L}(struct cue_device *d) = d->doing == CUE_NO_ORDER && d->doing_number == 0;

    // nothing has changed but the phase and what the machine does
    predicate same_but_phase{A, B}(struct cue_device *d) =
      same_name{A, B}(d) && same_heard{A, B}(d) && same_controller{A, B}(d);

    // a report that an order has ended: it is answered if the attempt is in this phase
    predicate ends{A, B}(struct cue_device *d, struct cue_answer *a, integer result, integer order, integer phase,
                         integer word, integer after) =
      (!is_device{A}(d) || \at(d->doing, A) != order ==>
        result == CUE_BAD_CALL && is_silent{B}(a) && same{A, B}(d))
      && (is_device{A}(d) && \at(d->doing, A) == order ==>
        result == CUE_NO_ORDER && is_free{B}(d) && same_but_phase{A, B}(d)
        && \at(d->unheard, A) == \at(d->unheard, B)
        && (is_current{A}(d, phase) ==> \at(d->phase, B) == after && says{B}(a, d, word, \at(d->last, A)))
        && (!is_current{A}(d, phase) ==>
          \at(d->phase, B) == \at(d->phase, A) && says{B}(a, d, SILENT, \at(d->last, A))));

    // the same, as the table has it
    predicate has_ended{A, B}(struct cue_device *d, struct cue_answer *a, integer result, integer order) =
      ends{A, B}(d, a, result, order, ended_in(order), ended_word(order), ended_phase(order));

    // there is something to abort: the attempt can fail, and the machine does nothing for an earlier one
    predicate has_abort{L}(struct cue_device *d) =
      (d->doing == CUE_NO_ORDER || d->doing_number == d->last) && can_fail(d->phase);

    // a report that the machine cannot go on
    predicate cannot_go_on{A, B}(struct cue_device *d, struct cue_answer *a, integer result) =
      (!is_device{A}(d) || (\at(d->doing, A) == CUE_NO_ORDER && !has_abort{A}(d)) ==>
        result == CUE_BAD_CALL && is_silent{B}(a) && same{A, B}(d))
      && (is_device{A}(d) && (\at(d->doing, A) != CUE_NO_ORDER || has_abort{A}(d)) ==>
        result == CUE_NO_ORDER && is_free{B}(d) && same_but_phase{A, B}(d)
        && (has_abort{A}(d) ==> \at(d->phase, B) == CUE_FAILED && \at(d->unheard, B) == 1
          && says{B}(a, d, ABORT, \at(d->last, A)))
        && (!has_abort{A}(d) ==> same_phase{A, B}(d) && says{B}(a, d, SILENT, \at(d->last, A)))); */
