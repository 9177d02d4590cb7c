/* The file is taken as it stands; its exports alone have other names here. */
#define cue_device_new hand_device_new
#define cue_device_restarted hand_device_restarted
#define cue_device_hear_only hand_device_hear_only
#define cue_device_hear hand_device_hear
#define cue_device_prepared hand_device_prepared
#define cue_device_moved hand_device_moved
#define cue_device_gave_up hand_device_gave_up
#define cue_device_cannot hand_device_cannot
#define cue_device_tick hand_device_tick
#include "../../../device/cue_device.c"
#include "hand.h"

uint32_t hand_new(struct cue_device *device, uint32_t number)
{
    return cue_new(device, number);
}

uint32_t hand_restarted(struct cue_device *device, uint32_t number, uint32_t kept, const struct cue_place *controller,
                        struct cue_answer *answer)
{
    return cue_restarted(device, number, kept, controller, answer);
}

uint32_t hand_hear_only(struct cue_device *device, const struct cue_place *sender)
{
    return cue_hear_only(device, sender);
}

uint32_t hand_hear(struct cue_device *device, const struct cue_place *from, const uint8_t *datagram, size_t length,
                   struct cue_answer *answer)
{
    return cue_hear(device, from, datagram, length, answer);
}

uint32_t hand_prepared(struct cue_device *device, struct cue_answer *answer)
{
    return cue_prepared(device, answer);
}

uint32_t hand_moved(struct cue_device *device, struct cue_answer *answer)
{
    return cue_moved(device, answer);
}

uint32_t hand_gave_up(struct cue_device *device, struct cue_answer *answer)
{
    return cue_gave_up(device, answer);
}

uint32_t hand_cannot(struct cue_device *device, struct cue_answer *answer)
{
    return cue_cannot(device, answer);
}

uint32_t hand_tick(const struct cue_device *device, struct cue_answer *answer)
{
    return cue_tick(device, answer);
}
