/* device/cue_device.c beside the library in one program: each call of the header, by a name of its own. */
#ifndef HAND_H
#define HAND_H

#include "cue_device.h"

uint32_t hand_new(struct cue_device *device, uint32_t number);
uint32_t hand_restarted(struct cue_device *device, uint32_t number, uint32_t kept, const struct cue_place *controller,
                        struct cue_answer *answer);
uint32_t hand_hear_only(struct cue_device *device, const struct cue_place *sender);
uint32_t hand_hear(struct cue_device *device, const struct cue_place *from, const uint8_t *datagram, size_t length,
                   struct cue_answer *answer);
uint32_t hand_prepared(struct cue_device *device, struct cue_answer *answer);
uint32_t hand_moved(struct cue_device *device, struct cue_answer *answer);
uint32_t hand_gave_up(struct cue_device *device, struct cue_answer *answer);
uint32_t hand_cannot(struct cue_device *device, struct cue_answer *answer);
uint32_t hand_tick(const struct cue_device *device, struct cue_answer *answer);

/* Two of its exports. */
uint32_t hand_device_new(struct cue_device *device, uint32_t size, uint32_t number);
uint32_t hand_device_restarted(struct cue_device *device, uint32_t size, uint32_t number, uint32_t kept,
                               const struct cue_place *from);

#endif
