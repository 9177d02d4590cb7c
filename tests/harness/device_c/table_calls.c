/* The exports of cue_device.h over the table, so that it plays the vectors like the others. */
#include "table.h"
#include <string.h>

static int is_device(const struct cue_device *device)
{
    return device->magic == CUE_MAGIC && device->size == sizeof *device;
}

/* What it compares byte by byte has to have zeros between its fields, too. */
static struct table taken(const struct cue_device *device)
{
    struct table table;
    memset(&table, 0, sizeof table);
    table.number = device->number;
    table.last = device->last;
    table.phase = device->phase;
    table.doing = device->doing;
    table.doing_number = device->doing_number;
    table.unheard = device->unheard;
    table.has_task = device->cue_length > 0;
    table.task.cue_length = device->cue_length;
    table.task.bytes_length = device->bytes_length;
    memcpy(table.task.cue, device->cue, sizeof device->cue);
    memcpy(table.task.bytes, device->bytes, sizeof device->bytes);
    table.controller = device->controller;
    table.only = device->only;
    return table;
}

static void put_back(struct cue_device *device, const struct table *table)
{
    device->last = table->last;
    device->phase = table->phase;
    device->doing = table->doing;
    device->doing_number = table->doing_number;
    device->unheard = table->unheard;
    device->cue_length = table->has_task ? table->task.cue_length : 0;
    device->bytes_length = table->has_task ? table->task.bytes_length : 0;
    memcpy(device->cue, table->task.cue, sizeof device->cue);
    memcpy(device->bytes, table->task.bytes, sizeof device->bytes);
    device->controller = table->controller;
}

static uint32_t give(const struct table *table, struct outcome made, struct cue_answer *answer)
{
    memset(answer, 0, sizeof *answer);
    answer->to = table->controller;
    if (made.word != SILENCE)
        answer->length = (uint32_t)put_answer(answer->bytes, table->number, made.word, made.number);
    return made.order;
}

uint32_t cue_device_new(struct cue_device *device, uint32_t size, uint32_t number)
{
    if (size != sizeof *device || number > 111)
        return CUE_BAD_CALL;
    memset(device, 0, sizeof *device);
    device->magic = CUE_MAGIC;
    device->size = size;
    device->number = number;
    return CUE_NO_ORDER;
}

uint32_t cue_device_restarted(struct cue_device *device, uint32_t size, uint32_t number, uint32_t kept,
                              const struct cue_place *from)
{
    uint32_t made = cue_device_new(device, size, number);
    device->last = kept;
    device->unheard = kept > 0;
    device->controller = *from;
    return made;
}

uint32_t cue_device_hear_only(struct cue_device *device, const struct cue_place *sender)
{
    device->only = *sender;
    return is_device(device) ? CUE_NO_ORDER : CUE_BAD_CALL;
}

uint32_t cue_device_hear(struct cue_device *device, const struct cue_place *from, const uint8_t *datagram,
                         size_t length, struct cue_answer *answer)
{
    struct table table = taken(device);
    struct outcome made = table_hear(&table, *from, datagram, length);
    put_back(device, &table);
    return give(&table, made, answer);
}

static uint32_t ends(struct cue_device *device, uint32_t order, struct cue_answer *answer)
{
    struct table table = taken(device);
    struct outcome made = order == CUE_NO_ORDER ? table_cannot(&table) : table_told(&table, order);
    put_back(device, &table);
    return give(&table, made, answer);
}

uint32_t cue_device_prepared(struct cue_device *device, struct cue_answer *answer)
{
    return ends(device, CUE_PREPARE, answer);
}

uint32_t cue_device_moved(struct cue_device *device, struct cue_answer *answer)
{
    return ends(device, CUE_MOVE, answer);
}

uint32_t cue_device_gave_up(struct cue_device *device, struct cue_answer *answer)
{
    return ends(device, CUE_GIVE_UP, answer);
}

uint32_t cue_device_cannot(struct cue_device *device, struct cue_answer *answer)
{
    return ends(device, CUE_NO_ORDER, answer);
}

uint32_t cue_device_tick(const struct cue_device *device, struct cue_answer *answer)
{
    struct table table = taken(device);
    return give(&table, table_tick(&table), answer);
}
