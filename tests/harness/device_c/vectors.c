/* vectors FILE: plays docs/vectors.txt to whatever has the exports of cue_device.h: the proved library,
 * device/cue_device.c or the table. It ends with 1 where one differs, and prints it. */
#include "cue_device.h"
#include <stdio.h>
#include <stdlib.h>
#include <string.h>

static const char *const PHASES[] = {"over", "preparing", "ready", "moving", "done", "letting_go", "let_go", "failed"};
static const char *const ORDERS[] = {"-", "prepare", "move", "give_up", "bad_call"};

enum { LINES = 6, WIDTH = 1024 };
static const char *const BEGIN[LINES] = {"vector ", "before ", "event ", "order ", "answer ", "after "};
static char line[LINES][WIDTH]; /* of one vector, without those words */
static unsigned read_lines;

static void wrong(const char *what)
{
    printf("FAIL line %u, %s: %s\n", read_lines, line[0], what);
    exit(1);
}

static uint32_t index_of(const char *const *names, size_t count, const char *name)
{
    for (size_t i = 0; i < count; i++)
        if (!strcmp(names[i], name))
            return (uint32_t)i;
    wrong(name);
    return 0;
}

/* The bytes of a text in hexadecimal, - for none; how many. */
static size_t bytes_of(const char *text, uint8_t *out, size_t most)
{
    size_t length = strcmp(text, "-") ? strlen(text) / 2 : 0;
    if (length > most)
        wrong("too long");
    for (size_t i = 0; i < length; i++) {
        char pair[3] = {text[2 * i], text[2 * i + 1], 0};
        out[i] = (uint8_t)strtoul(pair, NULL, 16);
    }
    return length;
}

static struct cue_device device_of(const char *text)
{
    char phase[16], doing[32], cue[32], bytes[80], controller[32], only[32];
    unsigned long number, last, unheard, doing_number = 0;
    struct cue_device made;
    memset(&made, 0, sizeof made);
    if (!strcmp(text, "-")) /* it is not made: bytes of anything */
        return memset(&made, 0xa5, sizeof made), made;
    if (sscanf(text, "%lu %lu %15s %31s %lu %31s %79s %31s %31s", &number, &last, phase, doing, &unheard, cue, bytes,
               controller, only) != 9)
        wrong("no state");
    char *colon = strchr(doing, ':');
    if (colon) {
        *colon = 0;
        doing_number = strtoul(colon + 1, NULL, 10);
    }
    made.magic = CUE_MAGIC;
    made.size = sizeof made;
    made.number = (uint32_t)number;
    made.last = (uint32_t)last;
    made.phase = index_of(PHASES, 8, phase);
    made.doing = index_of(ORDERS, 4, doing);
    made.doing_number = (uint32_t)doing_number;
    made.unheard = (uint32_t)unheard;
    if (strcmp(cue, "-")) {
        made.cue_length = (uint32_t)strlen(cue);
        memcpy(made.cue, cue, strlen(cue));
    }
    made.bytes_length = (uint32_t)bytes_of(bytes, made.bytes, sizeof made.bytes);
    bytes_of(controller, made.controller.bytes, 8);
    bytes_of(only, made.only.bytes, 8);
    return made;
}

static uint32_t hears(struct cue_device *device, const char *sender, const char *text, struct cue_answer *answer)
{
    static uint8_t datagram[WIDTH];
    struct cue_place from = {{0}};
    size_t length = bytes_of(text, datagram, sizeof datagram);
    uint8_t *exact = malloc(length); /* no byte more, so that a sanitizer sees what is read behind it */
    if (length > 0)
        memcpy(exact, datagram, length);
    bytes_of(sender, from.bytes, 8);
    uint32_t order = cue_hear(device, &from, exact, length, answer);
    free(exact);
    return order;
}

/* What the call of this event gives. */
static uint32_t happens(struct cue_device *device, const char *text, struct cue_answer *answer)
{
    char event[16] = "", first[WIDTH] = "", second[WIDTH] = "", third[32] = "";
    struct cue_place from = {{0}};
    sscanf(text, "%15s %1023s %1023s %31s", event, first, second, third);
    if (!strcmp(event, "hear"))
        return hears(device, first, second, answer);
    if (!strcmp(event, "new"))
        return cue_new(device, (uint32_t)strtoul(first, NULL, 10));
    if (!strcmp(event, "restarted")) {
        bytes_of(third, from.bytes, 8);
        return cue_restarted(device, (uint32_t)strtoul(first, NULL, 10), (uint32_t)strtoul(second, NULL, 10), &from,
                             answer);
    }
    if (!strcmp(event, "prepared"))
        return cue_prepared(device, answer);
    if (!strcmp(event, "moved"))
        return cue_moved(device, answer);
    if (!strcmp(event, "gave_up"))
        return cue_gave_up(device, answer);
    if (!strcmp(event, "cannot"))
        return cue_cannot(device, answer);
    if (!strcmp(event, "tick"))
        return cue_tick(device, answer);
    wrong("no event");
    return 0;
}

static void play(void)
{
    struct cue_device device = device_of(line[1]), after = device_of(line[5]);
    struct cue_answer answer;
    uint8_t wanted[64];
    memset(&answer, 0, sizeof answer);
    size_t length = bytes_of(line[4], wanted, sizeof wanted);
    if (happens(&device, line[2], &answer) != index_of(ORDERS, 5, line[3]))
        wrong("another order");
    if (answer.length != length || memcmp(answer.bytes, wanted, length))
        wrong("another answer");
    if (length > 0 && memcmp(&answer.to, &after.controller, sizeof answer.to))
        wrong("an answer to another place");
    if (memcmp(&device, &after, sizeof device))
        wrong("another state");
}

int main(int count, char **words)
{
    static char text[WIDTH];
    FILE *file = count == 2 ? fopen(words[1], "r") : NULL;
    unsigned played = 0, at = 0;
    if (!file)
        return fprintf(stderr, "vectors FILE\n"), 2;
    while (fgets(text, sizeof text, file)) {
        read_lines++;
        text[strcspn(text, "\n")] = 0;
        if (text[0] == '#' || text[0] == 0)
            continue;
        if (strncmp(text, BEGIN[at], strlen(BEGIN[at])))
            wrong("a line is missing");
        strcpy(line[at], text + strlen(BEGIN[at]));
        if (++at < LINES)
            continue;
        play();
        played++;
        at = 0;
    }
    fclose(file);
    printf("%u vectors, and none differs\n", played);
    return at != 0 || played == 0;
}
