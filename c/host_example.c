/* The optimiser's loop: requests out as frames, answers in. At the line's other end stands the library's own board. */
#include "rivertosku.h"

#include <stdio.h>
#include <stdlib.h>

/* A refusal that the loop does not expect: nothing goes on behind it. */
static void stop(const char *refused, uint8_t number)
{
    fprintf(stderr, "%s: %u\n", refused, (unsigned)number);
    exit(EXIT_FAILURE);
}

static void tell_refusals(const struct rivertosku_blocks *good)
{
    uint8_t frame[RIVERTOSKU_HOST_FRAME];
    struct rivertosku_blocks bad = *good;
    bad.mov.accel = 0;
    printf("accel 0: %u\n", (unsigned)rivertosku_write_set(RIVERTOSKU_MOV, bad, frame, sizeof frame).number);
    printf("a byte too little room: %u\n", (unsigned)rivertosku_write_set(RIVERTOSKU_MOV, *good, frame, RIVERTOSKU_MOV_FRAME - 1).number);
    printf("block 8: %u\n", (unsigned)rivertosku_write_get(8, frame, sizeof frame).number);

    /* 5 and 7 ask for more bytes; behind 6 and 8 the line has to be brought into step again. */
    const uint8_t damaged[RIVERTOSKU_BRK_FRAME] = {'g', 'b', 'r', 'k', 0xFE, 0xFF};
    printf("three bytes: %u\n", (unsigned)rivertosku_read((const uint8_t *)"err", 3).number);
    printf("errx: %u\n", (unsigned)rivertosku_read((const uint8_t *)"errx", 4).number);
    printf("data cut short: %u\n", (unsigned)rivertosku_read(damaged, sizeof damaged - 1).number);
    printf("data damaged: %u\n", (unsigned)rivertosku_read(damaged, sizeof damaged).number);
}

/* The set of each block, of fresh values, in a buffer that it just fits and in one a byte shorter. */
static void tell_lengths(void)
{
    static const size_t frames[] = {RIVERTOSKU_MOV_FRAME, RIVERTOSKU_ENG_FRAME, RIVERTOSKU_PWR_FRAME, RIVERTOSKU_EDS_FRAME,
                                    RIVERTOSKU_HOM_FRAME, RIVERTOSKU_BRK_FRAME, RIVERTOSKU_PID_FRAME};
    uint8_t frame[RIVERTOSKU_HOST_FRAME];
    /* A refused reading has fresh values in all blocks. */
    struct rivertosku_blocks fresh = rivertosku_read(NULL, 0).blocks;
    printf("sets of");
    for (uint8_t block = RIVERTOSKU_MOV; block <= RIVERTOSKU_PID; block++) {
        size_t length = frames[block - RIVERTOSKU_MOV];
        struct rivertosku_written written = rivertosku_write_set(block, fresh, frame, length);
        struct rivertosku_written shorter = rivertosku_write_set(block, fresh, frame, length - 1);
        if (written.number != RIVERTOSKU_WRITTEN || written.length != length || shorter.number != RIVERTOSKU_TOO_SHORT) {
            stop("another length, block", block);
        }
        printf(" %zu", length);
    }
    printf(" bytes\n");
}

static void tell(const struct rivertosku_reading *reading)
{
    const struct rivertosku_mov *mov = &reading->blocks.mov;
    switch (reading->kind) {
    case RIVERTOSKU_ZERO:
        printf("zero\n");
        break;
    case RIVERTOSKU_SET_ECHO:
        printf("set of block %u done\n", (unsigned)reading->what);
        break;
    case RIVERTOSKU_ORDER_ECHO:
        printf("order %u given\n", (unsigned)reading->what);
        break;
    case RIVERTOSKU_DATA:
        printf("data of block %u: speed %lu %u, accel %u, decel %u, antiplay speed %lu %u\n", (unsigned)reading->what,
               (unsigned long)mov->speed, (unsigned)mov->u_speed, (unsigned)mov->accel, (unsigned)mov->decel,
               (unsigned long)mov->antiplay_speed, (unsigned)mov->u_antiplay_speed);
        break;
    case RIVERTOSKU_ERRC:
        printf("errc\n");
        break;
    case RIVERTOSKU_ERRD:
        printf("errd\n");
        break;
    case RIVERTOSKU_ERRV:
        printf("errv\n");
        break;
    }
}

/* Tells every answer in what came back. */
static void read_answers(const uint8_t *bytes, size_t length)
{
    while (length > 0) {
        struct rivertosku_reading reading = rivertosku_read(bytes, length);
        if (reading.number != RIVERTOSKU_READ) {
            stop("not read", reading.number);
        }
        tell(&reading);
        bytes += reading.length;
        length -= reading.length;
    }
}

/* Sends bytes over the line and reads what comes back. What the board does not take is offered again. */
static void send_bytes(struct rivertosku_board *board, const uint8_t *bytes, size_t length)
{
    printf("send ");
    for (size_t i = 0; i < length; i++) {
        printf("%02x", (unsigned)bytes[i]);
    }
    printf("\n");

    while (length > 0) {
        uint8_t reply[RIVERTOSKU_ROOM];
        const struct rivertosku_answer call = rivertosku_receive(board, bytes, length, 1000, reply, sizeof reply);
        if (call.number != RIVERTOSKU_ACCEPTED) {
            stop("not accepted", call.number);
        }
        read_answers(reply, call.written);
        bytes += call.taken;
        length -= call.taken;
    }
}

static void ask(struct rivertosku_board *board, const uint8_t *frame, struct rivertosku_written written)
{
    if (written.number != RIVERTOSKU_WRITTEN) {
        stop("not written", written.number);
    }
    send_bytes(board, frame, written.length);
}

int main(void)
{
    struct rivertosku_board board = rivertosku_fresh();
    uint8_t frame[RIVERTOSKU_HOST_FRAME];
    struct rivertosku_blocks wanted = {.mov = {.speed = 100000, .u_speed = 7, .accel = 2000, .decel = 3000, .antiplay_speed = 50}};

    ask(&board, frame, rivertosku_write_set(RIVERTOSKU_MOV, wanted, frame, sizeof frame));
    ask(&board, frame, rivertosku_write_get(RIVERTOSKU_MOV, frame, sizeof frame));
    ask(&board, frame, rivertosku_write_order(RIVERTOSKU_LEFT, frame, sizeof frame));
    /* A name that no board knows, and a zero: two answers in one reply. */
    send_bytes(&board, (const uint8_t *)"xxxx", 5);
    tell_refusals(&wanted);
    tell_lengths();
    return 0;
}
