/* A board's main loop: stamped pieces in, replies out, orders to the drive, the time reported when nothing comes, and the drive's position
   when it has moved. Then its settings, looked at and over a restart. */
#include "rivertosku.h"

#include <inttypes.h>
#include <stdio.h>
#include <stdlib.h>

struct arrival {
    uint32_t stamp;
    size_t length;
    uint8_t bytes[RIVERTOSKU_FRAME];
};

/* What the serial port would bring. A length of 0: a turn of the loop at which nothing came. */
static const struct arrival line[] = {
    /* A good set of brk: t1 is 65535. */
    {1000, 25, {'s', 'b', 'r', 'k', 0xFF, 0xFF}},
    {1010, 4, {'g', 'b', 'r', 'k'}},
    /* The same with t1 65534 and its CRC as it was: damaged. */
    {1020, 25, {'s', 'b', 'r', 'k', 0xFE, 0xFF}},
    /* An order with zeros behind it. */
    {1030, 7, {'s', 't', 'o', 'p', 0, 0, 0}},
    /* A move to step 2 and microstep -5. The stepper makes a step at each turn, and the second comes between the halves of gpos. */
    {1040, 18, {'m', 'o', 'v', 'e', 2, 0, 0, 0, 0xFB, 0xFF, 0, 0, 0, 0, 0, 0, 0xDC, 0x3D}},
    {1050, 2, {'g', 'p'}},
    {1060, 2, {'o', 's'}},
    /* Where it stands is step 0 from now on. */
    {1070, 4, {'z', 'e', 'r', 'o'}},
    /* The pendant: a second speed of 9216 while the first and its part are zero, which ctl's rule refuses; then a first speed of 65535. */
    {1080, RIVERTOSKU_CTL_FRAME, {'s', 'c', 't', 'l', 0, 0, 0, 0, 0x00, 0x24}},
    {1090, RIVERTOSKU_CTL_FRAME, {'s', 'c', 't', 'l', 0xFF, 0xFF}},
    /* And its joystick, from 1000 over 5000 to 9000. */
    {1100, RIVERTOSKU_JOY_FRAME, {'s', 'j', 'o', 'y', 0xE8, 0x03, 0x88, 0x13, 0x28, 0x23, 100, 50, 1, 0, 0, 0, 0, 0, 0, 0, 0x0A, 0x46}},
    /* Half a command; the rest comes 401 ms later and is read as a new unit. */
    {2000, 2, {'l', 'e'}},
    {2401, 2, {'f', 't'}},
    /* Half a command; the rest comes 2^32 + 100 ms later, which looks like 100. Four of the turns between; the second drops the half. */
    {3000, 2, {'l', 'e'}},
    {3400, 0, {0}},
    {3401, 0, {0}},
    {4294967295, 0, {0}},
    {0, 0, {0}},
    {3100, 2, {'f', 't'}},
};

/* A pretended stepper: whether it goes, and where to. */
struct stepper {
    int goes;
    int32_t steps;
    int16_t microsteps;
};

static void accepted(uint8_t number)
{
    if (number != RIVERTOSKU_ACCEPTED) {
        printf("refused %u\n", (unsigned)number);
        exit(1);
    }
}

/* It goes by order 8 and stands still by any other. */
static void drive(struct stepper *stepper, const struct rivertosku_answer *answer)
{
    stepper->goes = answer->order == RIVERTOSKU_MOVE;
    stepper->steps = answer->steps;
    stepper->microsteps = answer->microsteps;
    printf("drive order %u", (unsigned)answer->order);
    if (stepper->goes) {
        printf(" to %" PRId32 ":%" PRId16, stepper->steps, stepper->microsteps);
    }
    printf("\n");
}

/* A step nearer, from where the board has it: a spos or a zero may have said so. The microsteps come with the last step. */
static struct rivertosku_position step(struct stepper *stepper, struct rivertosku_position at)
{
    const int way = (at.steps < stepper->steps) - (at.steps > stepper->steps);
    at.steps += way;
    at.count += 4 * way; /* the encoder's */
    if (at.steps == stepper->steps) {
        at.microsteps = stepper->microsteps;
        stepper->goes = 0;
    }
    return at;
}

static void send_reply(const uint8_t *reply, size_t length)
{
    if (length == 0) {
        return;
    }
    printf("send ");
    for (size_t i = 0; i < length; i++) {
        printf("%02x", (unsigned)reply[i]);
    }
    printf("\n");
}

/* A field of the settings. */
static unsigned t1_of(const struct rivertosku_board *board)
{
    return rivertosku_brk_of(board->memory.settings.bytes, sizeof board->memory.settings.bytes).t1;
}

/* What an errv refused last, and the pendant's settings. */
static void tell_pendant(const struct rivertosku_memory *memory)
{
    const struct rivertosku_ctl ctl = rivertosku_ctl_of(memory->settings.bytes, sizeof memory->settings.bytes);
    const struct rivertosku_joy joy = rivertosku_joy_of(memory->settings.bytes, sizeof memory->settings.bytes);
    printf("refused block %" PRIu64 " for %s\n", memory->notes.block, memory->notes.field == RIVERTOSKU_RULE ? "its rule" : "a field");
    printf("speeds %" PRIu32 ", %" PRIu32 "; joystick %u, %u, %u, dead zone %u\n", ctl.max_speed[0], ctl.max_speed[1],
           (unsigned)joy.joy_low_end, (unsigned)joy.joy_center, (unsigned)joy.joy_high_end, (unsigned)joy.dead_zone);
}

/* A start with what flash has: its settings, or fresh ones where it is refused. */
static void start(const uint8_t *flash, size_t length)
{
    const struct rivertosku_report back = rivertosku_take_back(flash, length);
    printf("from flash: %u, t1 %u, compared with a fresh board %u\n", (unsigned)back.number, t1_of(&back.board),
           (unsigned)rivertosku_same(back.board, rivertosku_fresh()));
}

/* The settings kept in flash over a restart. */
static void restart(const struct rivertosku_board *board)
{
    static uint8_t flash[RIVERTOSKU_TABLE];
    accepted(rivertosku_hand_out(*board, flash, sizeof flash));
    start(flash, sizeof flash);
    /* The writer was cut off before its last byte. */
    start(flash, sizeof flash - 1);
    /* A bit of the last byte has tipped over, which is a reserved one. */
    flash[sizeof flash - 1] ^= 0x10;
    start(flash, sizeof flash);
}

/* The time, when nothing came. */
static void report_clock(struct rivertosku_board *board, uint32_t now)
{
    struct rivertosku_report report = rivertosku_report_clock(*board, now);
    accepted(report.number);
    if (report.board.count < board->count) {
        printf("dropped %" PRIu64 "\n", board->count);
    }
    *board = report.board;
}

/* Where the drive is, when it has moved. */
static void report_position(struct rivertosku_board *board, struct rivertosku_position at)
{
    struct rivertosku_report report = rivertosku_report_position(*board, at);
    accepted(report.number);
    *board = report.board;
}

/* A piece, offered until all of it is taken. */
static void offer(struct rivertosku_board *board, const struct arrival *came, struct stepper *stepper)
{
    const uint8_t *piece = came->bytes;
    size_t left = came->length;
    while (left > 0) {
        uint8_t reply[RIVERTOSKU_ROOM];
        const struct rivertosku_answer answer = rivertosku_receive(board, piece, left, came->stamp, reply, sizeof reply);
        accepted(answer.number);
        send_reply(reply, answer.written);
        if (answer.order != RIVERTOSKU_NO_ORDER) {
            drive(stepper, &answer);
        }
        piece += answer.taken;
        left -= answer.taken;
    }
}

int main(void)
{
    struct rivertosku_board board = rivertosku_fresh();
    struct stepper stepper = {0, 0, 0};
    for (size_t i = 0; i < sizeof line / sizeof line[0]; i++) {
        if (line[i].length == 0) {
            report_clock(&board, line[i].stamp);
        }
        offer(&board, &line[i], &stepper);
        if (stepper.goes) {
            report_position(&board, step(&stepper, board.memory.position));
        }
    }
    printf("t1 %u, flags %" PRIu64 ", unfinished %" PRIu64 ", stamp %" PRIu32 "\n", t1_of(&board), board.memory.notes.flags, board.count,
           board.stamp);
    const struct rivertosku_position at = board.memory.position;
    printf("position %" PRId32 ":%" PRId16 ", count %" PRId64 "\n", at.steps, at.microsteps, at.count);
    tell_pendant(&board.memory);
    restart(&board);
    return 0;
}
