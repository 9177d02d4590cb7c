/* The contracts of the calls of include/cue_device.h, in ACSL: a null pointer is a bad call, and all else is what
 * device/cue_device.c does. Frama-C alone reads this file. */

/*@ // a bad call with a null pointer has nothing to send
    predicate is_refused{L}(struct cue_answer *a, integer result) =
      result == CUE_BAD_CALL && (a != \null ==> a->length == 0); */

/*@ requires answer == \null || \valid(answer);
    terminates \true;
    assigns answer->length;
    ensures is_refused(answer, \result); */
static inline uint32_t cue_bad_call(struct cue_answer *answer);

/*@ requires device == \null || \valid(device);
    terminates \true;
    assigns *device;
    ensures device == \null || number > MOST_NUMBER ==> \result == CUE_BAD_CALL;
    ensures device != \null && number > MOST_NUMBER ==> same{Pre, Post}(device);
    ensures device != \null && number <= MOST_NUMBER ==>
      \result == CUE_NO_ORDER && is_device(device) && device->number == number && is_new(device)
      && device->last == 0 && device->unheard == 0; */
static inline uint32_t cue_new(struct cue_device *device, uint32_t number);

/*@ requires device == \null || \valid(device);
    requires sender == \null || \valid_read(sender);
    requires \separated(device, sender);
    terminates \true;
    assigns *device;
    ensures device == \null || sender == \null ==> \result == CUE_BAD_CALL;
    ensures device != \null && sender != \null && is_device{Pre}(device) ==> \result == CUE_NO_ORDER
      && (\forall integer k; 0 <= k < 8 ==> device->only.bytes[k] == sender->bytes[k]); */
static inline uint32_t cue_hear_only(struct cue_device *device, const struct cue_place *sender);

/*@ requires device == \null || \valid(device);
    requires from == \null || \valid_read(from);
    requires answer == \null || \valid(answer);
    requires datagram == \null || \valid_read(datagram + (0 .. length - 1));
    requires \separated(device, answer) && \separated(device, from) && \separated(answer, from);
    requires \separated(device, datagram + (0 .. length - 1)) && \separated(answer, datagram + (0 .. length - 1));
    terminates \true;
    assigns *device, *answer;
    ensures device == \null || from == \null || answer == \null || (datagram == \null && length > 0) || length > 65535
      ==> is_refused(answer, \result);
    ensures device != \null && from != \null && answer != \null && datagram != \null && length <= 65535
      && is_device{Pre}(device) && hears{Pre}(device, from) ==>
      makes_of{Pre, Post}(device, from, datagram, length, answer, \result); */
static inline uint32_t cue_hear(struct cue_device *device, const struct cue_place *from, const uint8_t *datagram,
                                size_t length, struct cue_answer *answer);

/*@ requires device == \null || \valid(device);
    requires answer == \null || \valid(answer);
    requires \separated(device, answer);
    terminates \true;
    assigns *device, *answer;
    ensures device == \null || answer == \null ==> is_refused(answer, \result);
    ensures device != \null && answer != \null ==> has_ended{Pre, Post}(device, answer, \result, CUE_PREPARE); */
static inline uint32_t cue_prepared(struct cue_device *device, struct cue_answer *answer);

/*@ requires device == \null || \valid(device);
    requires answer == \null || \valid(answer);
    requires \separated(device, answer);
    terminates \true;
    assigns *device, *answer;
    ensures device == \null || answer == \null ==> is_refused(answer, \result);
    ensures device != \null && answer != \null ==> has_ended{Pre, Post}(device, answer, \result, CUE_MOVE); */
static inline uint32_t cue_moved(struct cue_device *device, struct cue_answer *answer);

/*@ requires device == \null || \valid(device);
    requires answer == \null || \valid(answer);
    requires \separated(device, answer);
    terminates \true;
    assigns *device, *answer;
    ensures device == \null || answer == \null ==> is_refused(answer, \result);
    ensures device != \null && answer != \null ==> has_ended{Pre, Post}(device, answer, \result, CUE_GIVE_UP); */
static inline uint32_t cue_gave_up(struct cue_device *device, struct cue_answer *answer);

/*@ requires device == \null || \valid(device);
    requires answer == \null || \valid(answer);
    requires \separated(device, answer);
    terminates \true;
    assigns *device, *answer;
    ensures device == \null || answer == \null ==> is_refused(answer, \result);
    ensures device != \null && answer != \null ==> cannot_go_on{Pre, Post}(device, answer, \result); */
static inline uint32_t cue_cannot(struct cue_device *device, struct cue_answer *answer);

/*@ requires device == \null || \valid_read(device);
    requires answer == \null || \valid(answer);
    requires \separated(device, answer);
    terminates \true;
    assigns *answer;
    ensures device == \null || answer == \null ==> is_refused(answer, \result);
    ensures device != \null && answer != \null && is_device{Pre}(device) ==> \result == CUE_NO_ORDER;
    ensures device != \null && answer != \null && is_device{Pre}(device) && \old(device->unheard) == 1 ==>
      says(answer, device, ABORT, \old(device->last));
    ensures device != \null && answer != \null && is_device{Pre}(device) && \old(device->unheard) == 0 ==>
      says(answer, device, SILENT, \old(device->last)); */
static inline uint32_t cue_tick(const struct cue_device *device, struct cue_answer *answer);

/*@ requires device == \null || \valid(device);
    requires controller == \null || \valid_read(controller);
    requires answer == \null || \valid(answer);
    requires \separated(device, answer) && \separated(device, controller) && \separated(answer, controller);
    terminates \true;
    assigns *device, *answer;
    ensures device == \null || controller == \null || answer == \null ==> is_refused(answer, \result);
    ensures device != \null && controller != \null && answer != \null && (number > MOST_NUMBER || kept > MOST_ATTEMPT)
      ==> is_refused(answer, \result);
    ensures device != \null && controller != \null && answer != \null && number <= MOST_NUMBER
      && 0 < kept <= MOST_ATTEMPT && !is_no_place{Pre}(controller) ==>
      \result == CUE_NO_ORDER && device->last == kept && says(answer, device, ABORT, kept); */
static inline uint32_t cue_restarted(struct cue_device *device, uint32_t number, uint32_t kept,
                                     const struct cue_place *controller, struct cue_answer *answer);
