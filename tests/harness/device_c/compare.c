/* compare COUNT SEED: so many random datagrams and reports of the machine, to the library, to device/cue_device.c and to
 * the table. It prints progress, and ends with 1 at the first difference. tests/runs/device-c builds and runs it. */
#include "hand.h"
#include "table.h"
#include <stdio.h>
#include <stdlib.h>
#include <string.h>

static uint64_t seed;

/* A random number below this one. */
static uint32_t below(uint32_t end)
{
    seed ^= seed << 13;
    seed ^= seed >> 7;
    seed ^= seed << 17;
    return (uint32_t)((seed * 0x2545f4914f6cdd1dULL) >> 33) % end;
}

static struct cue_device device, hand;   /* by the library, and by device/cue_device.c */
static struct cue_answer answer, answered; /* the same */
static struct table table;
static uint8_t datagram[200];
static size_t length;
static unsigned long orders, answers, refused, passed_over, count, seed_given;

static void differ(const char *what, const char *call)
{
    printf("FAIL %s of %s differs: event %lu of seed %lu; device %u, last %u, phase %u by the library and %u by the "
           "table\n    ", what, call, count, seed_given, (unsigned)device.number, (unsigned)device.last,
           (unsigned)device.phase, (unsigned)table.phase);
    for (size_t i = 0; i < length; i++)
        printf("%02x", datagram[i]);
    printf("\n");
    exit(1);
}

/* The struct that stands for the state of the table. */
static struct cue_device state_of(const struct table *table)
{
    struct cue_device state = {CUE_MAGIC, sizeof state, table->number, table->last, table->phase, table->doing,
                               table->doing_number, table->unheard, 0, 0, {0}, {0}, table->controller, table->only};
    if (table->has_task) {
        state.cue_length = table->task.cue_length;
        state.bytes_length = table->task.bytes_length;
        memcpy(state.cue, table->task.cue, 16);
        memcpy(state.bytes, table->task.bytes, 32);
    }
    return state;
}

/* The whole state and the whole answer are those of the table, and the same by hand. */
static void compare(const char *call, uint32_t order, uint32_t by_hand, struct outcome wanted)
{
    struct cue_device state = state_of(&table);
    struct cue_answer said = {0, {{0}}, {0}};
    if (order != by_hand || memcmp(&device, &hand, sizeof hand) || memcmp(&answer, &answered, sizeof answer))
        differ("device/cue_device.c", call);
    if (wanted.word != SILENCE) {
        said.length = (uint32_t)put_answer(said.bytes, table.number, wanted.word, wanted.number);
        said.to = table.controller;
    } else {
        answer.to = said.to; /* it says nothing */
    }
    if (order != wanted.order)
        differ("the order", call);
    if (memcmp(&state, &device, sizeof state))
        differ("the state", call);
    if (memcmp(&said, &answer, sizeof said))
        differ("the answer", call);
    orders += order != CUE_NO_ORDER && order != CUE_BAD_CALL;
    refused += order == CUE_BAD_CALL;
    answers += said.length > 0;
}

/* ---- random events */

/* One of three senders. */
static struct cue_place place(void)
{
    return cue_place_of(0x7f000001, (uint16_t)(9100 + below(below(2) ? 1 : 3)));
}

static struct task task(void)
{
    static const char *const CUES[] = {"1", "1.5", "12", "123", "1234567890.12345", "12345678901234567", "", "1.", "a"};
    static const uint32_t LENGTHS[] = {0, 1, 2, 3, 4, 31, 32, 33};
    struct task made;
    memset(&made, 0, sizeof made);
    if (table.has_task && below(4))
        return table.task;
    made.cue_length = (uint32_t)strlen(strcpy((char *)made.cue, CUES[below(below(8) ? 5 : 9)])) % 18;
    made.bytes_length = LENGTHS[below(below(8) ? 7 : 8)];
    for (uint32_t i = 0; i < made.bytes_length; i++)
        made.bytes[i] = (uint8_t)below(3);
    return made;
}

/* Whether it may stand in a standby: of the cues of `task` two end with no digit, and two are too short or too long. */
static int is_task(const struct task *task)
{
    uint32_t length = task->cue_length;
    return length >= 1 && length <= 16 && task->cue[length - 1] >= '0' && task->cue[length - 1] <= '9' &&
           task->bytes_length <= 32;
}

/* Any phase, and an order that the machine may then be at work with, or one that does not belong to it. */
static void any_state(void)
{
    static const uint32_t ITS[] = {[CUE_PREPARING] = CUE_PREPARE, [CUE_MOVING] = CUE_MOVE,
                                   [CUE_LETTING_GO] = CUE_GIVE_UP, [CUE_FAILED] = CUE_NO_ORDER};
    table.phase = below(8);
    table.last += 2 + below(3);
    table.doing = ITS[table.phase];
    table.doing_number = table.doing ? table.last : 0;
    if (table.phase >= CUE_LET_GO && below(2)) { /* or with what a lower number asked for */
        table.doing = 1 + below(3);
        table.doing_number = table.last - (table.phase == CUE_LET_GO || below(2));
    }
    if (below(6) == 0) { /* no call leaves that: a bit has flipped, and each number is still in its range */
        table.doing = below(4);
        table.doing_number = table.doing ? table.last + below(3) - 1 : 0;
    }
    table.unheard = (table.phase == CUE_OVER || table.phase == CUE_FAILED) && below(2);
    table.controller = place();
    table.task = task();
    table.has_task = table.phase != CUE_OVER && is_task(&table.task);
    device = hand = state_of(&table);
}

static void begin(void)
{
    static const uint32_t NUMBERS[] = {0, 3, 9, 10, 99, 100, 111}, LAST[] = {0, 0, 0, 1, 7, 300, 0x7ffffff0};
    memset(&table, 0, sizeof table);
    table.number = NUMBERS[below(7)];
    table.last = LAST[below(7)];
    memset(&device, 0xa5, sizeof device);
    hand = device;
    answer = answered = (struct cue_answer){0, {{0}}, {0}};
    if (table.last == 0 && below(2)) {
        compare("cue_new", cue_new(&device, table.number), hand_new(&hand, table.number), (struct outcome){0, 0, 0});
    } else {
        table.controller = place();
        table.unheard = table.last > 0;
        compare("cue_restarted", cue_restarted(&device, table.number, table.last, &table.controller, &answer),
                hand_restarted(&hand, table.number, table.last, &table.controller, &answered), table_tick(&table));
    }
    if (below(4) == 0 && table.last < 0x7fffff00)
        any_state();
    if (below(3) == 0) {
        table.only = place();
        answer = answered = (struct cue_answer){0, {{0}}, {0}};
        compare("cue_hear_only", cue_hear_only(&device, &table.only), hand_hear_only(&hand, &table.only),
                (struct outcome){0, 0, 0});
    }
}

/* Mostly the number of the attempt, or one near it. */
static uint32_t number(void)
{
    static const uint32_t ODD[] = {0, 1, 0x7fffffff, 0x80000000, 0xffffffff};
    uint32_t chance = below(100);
    if (chance < 62)
        return table.last + (table.phase == CUE_OVER);
    if (chance < 82)
        return table.last + 1;
    if (chance < 88)
        return table.last + 1 + below(300);
    if (chance < 99)
        return table.last - below(3);
    return ODD[below(5)];
}

/* Changes a whole datagram a little. */
static void change(void)
{
    switch (below(5)) {
    case 0:
        datagram[below((uint32_t)length)] ^= (uint8_t)(1u << below(8));
        break;
    case 1:
        length = below((uint32_t)length + 1);
        break;
    case 2:
        for (uint32_t more = 1 + below(8); more > 0; more--)
            datagram[length++] = (uint8_t)below(2);
        break;
    case 3:
        datagram[below((uint32_t)length)] = (uint8_t)below(256);
        break;
    default:
        length -= length < 4 ? length : 4;
    }
}

static void hear(void)
{
    uint32_t chance = below(100), to = below(20) ? table.number : below(113);
    struct task its = task();
    if (chance < 12) {
        static const char *const WORDS[] = {"abort", "abort", "complete", "abort1"};
        uint32_t codes[4] = {1, 0, 0, below(256)};
        char text[40];
        sprintf(text, "/device/%u/%s", (unsigned)to, WORDS[below(4)]);
        length = put_reply(datagram, text, codes);
    } else if (chance < 15) {
        for (length = 0; length < 60 && below(40); length++)
            datagram[length] = (uint8_t)below(256);
    } else {
        uint32_t of = number();
        length = put_command(datagram, (enum command)below(COMMANDS), of, to, &its);
    }
    if (length > 0 && below(6) == 0)
        change();
    struct table before = table;
    struct cue_place from = place();
    struct outcome wanted = table_hear(&table, from, datagram, length);
    passed_over += wanted.order == 0 && wanted.word == 0 && !memcmp(&before, &table, sizeof table);
    compare("cue_hear", cue_hear(&device, &from, datagram, length, &answer),
            hand_hear(&hand, &from, datagram, length, &answered), wanted);
}

/* The machine reports something: mostly the end of what it was ordered. */
static void report(void)
{
    uint32_t order = table.doing && below(8) ? table.doing : 1 + below(3);
    length = 0;
    uint32_t chance = below(12);
    if (chance == 0)
        compare("cue_cannot", cue_cannot(&device, &answer), hand_cannot(&hand, &answered), table_cannot(&table));
    else if (chance == 1)
        compare("cue_tick", cue_tick(&device, &answer), hand_tick(&hand, &answered), table_tick(&table));
    else if (order == CUE_PREPARE)
        compare("cue_prepared", cue_prepared(&device, &answer), hand_prepared(&hand, &answered), table_told(&table, order));
    else if (order == CUE_MOVE)
        compare("cue_moved", cue_moved(&device, &answer), hand_moved(&hand, &answered), table_told(&table, order));
    else
        compare("cue_gave_up", cue_gave_up(&device, &answer), hand_gave_up(&hand, &answered), table_told(&table, order));
}

/* ---- calls that are none */

static void wants_bad_call(const char *what, struct cue_device bad)
{
    static const uint8_t GO_1[] = "/msc/go_2pc\0,ii\0\0\0\0\1\0\0\0\3";
    struct cue_device before = bad;
    struct cue_place from = place();
    answer.length = answered.length = 1;
    uint32_t given[] = {
        cue_hear(&bad, &from, GO_1, 24, &answer), hand_hear(&bad, &from, GO_1, 24, &answered),
        cue_prepared(&bad, &answer), hand_prepared(&bad, &answered), cue_moved(&bad, &answer),
        hand_moved(&bad, &answered), cue_gave_up(&bad, &answer), hand_gave_up(&bad, &answered),
        cue_cannot(&bad, &answer), hand_cannot(&bad, &answered), cue_tick(&bad, &answer),
        hand_tick(&bad, &answered), cue_hear_only(&bad, &from), hand_hear_only(&bad, &from)};
    for (size_t i = 0; i < sizeof given / sizeof *given; i++)
        if (given[i] != CUE_BAD_CALL || answer.length + answered.length != 0 || memcmp(&before, &bad, sizeof bad)) {
            printf("FAIL call %u of a state with %s is answered with %u\n", (unsigned)i, what, (unsigned)given[i]);
            exit(1);
        }
}

static void bad_states(void)
{
    struct cue_device good, bad;
    cue_new(&good, 3);
#define BAD(field, value) bad = good; bad.field = value; wants_bad_call(#field " " #value, bad)
    BAD(magic, 0);
    BAD(size, sizeof bad + 4);
    BAD(number, 112);
    BAD(number, 0xffffffff);
    BAD(phase, 8);
    BAD(phase, 0xffffffff);
    BAD(doing, CUE_BAD_CALL);
    BAD(unheard, 2);
    BAD(cue_length, 17);
    BAD(cue_length, 1);
    BAD(bytes_length, 33);
    memset(&bad, 0xff, sizeof bad);
    wants_bad_call("ones", bad);
    memset(&bad, 0, sizeof bad);
    wants_bad_call("zeros", bad);
}

static void bad_calls(void)
{
    struct cue_device good, bad;
    struct cue_place from = place(), none = {{0}};
    uint8_t byte = 0;
    cue_new(&good, 3);
    memset(&bad, 0, sizeof bad);
    int refused_calls =
        cue_new(NULL, 3) == CUE_BAD_CALL && cue_new(&bad, 112) == CUE_BAD_CALL && bad.magic == 0 &&
        cue_device_new(&bad, 80, 3) == CUE_BAD_CALL && cue_device_restarted(&bad, 80, 3, 1, &from) == CUE_BAD_CALL &&
        cue_restarted(&bad, 3, 0x80000000, &from, &answer) == CUE_BAD_CALL &&
        cue_restarted(&bad, 3, 1, &none, &answer) == CUE_BAD_CALL && answer.length == 0 &&
        cue_restarted(&bad, 3, 1, NULL, &answer) == CUE_BAD_CALL && bad.magic == 0 &&
        cue_restarted(&bad, 3, 0, &none, &answer) == CUE_NO_ORDER && answer.length == 0 &&
        cue_hear(NULL, &from, &byte, 1, &answer) == CUE_BAD_CALL &&
        cue_hear(&good, NULL, &byte, 1, &answer) == CUE_BAD_CALL &&
        cue_hear(&good, &from, NULL, 1, &answer) == CUE_BAD_CALL &&
        cue_hear(&good, &from, &byte, 1, NULL) == CUE_BAD_CALL &&
        cue_hear(&good, &from, &byte, 65536, &answer) == CUE_BAD_CALL && cue_tick(NULL, &answer) == CUE_BAD_CALL &&
        cue_moved(&good, NULL) == CUE_BAD_CALL && cue_hear_only(&good, NULL) == CUE_BAD_CALL &&
        cue_hear(&good, &from, NULL, 0, &answer) == CUE_NO_ORDER;
    memset(&bad, 0, sizeof bad);
    refused_calls = refused_calls && hand_new(&bad, 112) == CUE_BAD_CALL && bad.magic == 0 &&
                    hand_device_new(&bad, 80, 3) == CUE_BAD_CALL &&
                    hand_device_restarted(&bad, 80, 3, 1, &from) == CUE_BAD_CALL &&
                    hand_restarted(&bad, 112, 1, &from, &answered) == CUE_BAD_CALL &&
                    hand_restarted(&bad, 3, 0x80000000, &from, &answered) == CUE_BAD_CALL &&
                    hand_restarted(&bad, 3, 1, &none, &answered) == CUE_BAD_CALL && bad.magic == 0 &&
                    hand_restarted(&bad, 3, 0, &none, &answered) == CUE_NO_ORDER && answered.length == 0 &&
                    hand_hear(&good, &from, NULL, 0, &answered) == CUE_NO_ORDER;
    int is_place = cue_place_address(&from) == 0x7f000001 && cue_place_port(&from) >= 9100;
    printf("%s null pointers, states and numbers out of range are answered\n", refused_calls ? "ok  " : "FAIL");
    if (!refused_calls || !is_place)
        exit(1);
}

/* Each cell of the table was met. */
static void all_cells(void)
{
    static const char *const ROWS[] = {"standby", "go", "cancel", "another standby"};
    unsigned long least = count;
    for (int row = 0; row < 4; row++)
        for (int phase = CUE_PREPARING; phase <= CUE_FAILED; phase++) {
            if (cells[row][phase] == 0 && count >= 100000)
                printf("FAIL %s in phase %d was never met\n", ROWS[row], phase), exit(1);
            least = cells[row][phase] < least ? cells[row][phase] : least;
        }
    printf("ok   each of 28 cells was met, at least %lu times\n", least);
}

int main(int words, char **word)
{
    unsigned long wanted = words > 1 ? strtoul(word[1], NULL, 10) : 1000000;
    seed_given = words > 2 ? strtoul(word[2], NULL, 10) : 1;
    seed = seed_given * 0x9e3779b97f4a7c15ULL + 1;
    bad_states();
    bad_calls();
    begin();
    for (count = 1; count <= wanted; count++) {
        if (below(200) == 0)
            begin();
        if (below(3))
            hear();
        else
            report();
        if (count % 250000 == 0)
            printf("     %lu of %lu\n", count, wanted), fflush(stdout);
    }
    count--;
    all_cells();
    printf("ok   %lu events of seed %lu: %lu orders, %lu answers, %lu reports refused, %lu datagrams passed over, and "
           "none differs\n", count, seed_given, orders, answers, refused, passed_over);
    return 0;
}
