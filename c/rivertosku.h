/* The proved receiver of a stepper board, and the optimiser's end of its link. tools/archives builds them into target/staticlib/libboard.a and
   liboptimiser.a, the comparison of two boards into libsame.a and what reads the fields of a board's settings into libviews.a, for x86-64; a
   program links what it needs of them. Needs C11 or C++11. */
#ifndef RIVERTOSKU_H
#define RIVERTOSKU_H

#ifdef __cplusplus
#if __cplusplus < 201103L
#error "rivertosku.h needs C++11"
#endif
#elif !defined(__STDC_VERSION__) || __STDC_VERSION__ < 201112L
#error "rivertosku.h needs C11"
#endif

#include <assert.h>
#include <stddef.h>
#include <stdint.h>

#ifdef __cplusplus
extern "C" {
#endif

/* The layouts of the structs below: the board's and the optimiser's. A function's name in the archive ends in its layout's number, so that a
   header and an archive of different layouts do not link, whichever function is used. */
#define RIVERTOSKU_LAYOUT 4
#define RIVERTOSKU_HOST_LAYOUT 1
#define RIVERTOSKU_GLUE(name, number) name##number
#define RIVERTOSKU_NUMBERED(name, number) RIVERTOSKU_GLUE(name, number)
#define rivertosku_fresh RIVERTOSKU_NUMBERED(rivertosku_fresh_, RIVERTOSKU_LAYOUT)
#define rivertosku_judge RIVERTOSKU_NUMBERED(rivertosku_judge_, RIVERTOSKU_LAYOUT)
#define rivertosku_same RIVERTOSKU_NUMBERED(rivertosku_same_, RIVERTOSKU_LAYOUT)
#define rivertosku_receive_lent RIVERTOSKU_NUMBERED(rivertosku_receive_, RIVERTOSKU_LAYOUT)
#define rivertosku_report_clock RIVERTOSKU_NUMBERED(rivertosku_report_clock_, RIVERTOSKU_LAYOUT)
#define rivertosku_report_position RIVERTOSKU_NUMBERED(rivertosku_report_position_, RIVERTOSKU_LAYOUT)
#define rivertosku_hand_out RIVERTOSKU_NUMBERED(rivertosku_hand_out_, RIVERTOSKU_LAYOUT)
#define rivertosku_take_back RIVERTOSKU_NUMBERED(rivertosku_take_back_, RIVERTOSKU_LAYOUT)
#define rivertosku_mov_of RIVERTOSKU_NUMBERED(rivertosku_mov_, RIVERTOSKU_LAYOUT)
#define rivertosku_eng_of RIVERTOSKU_NUMBERED(rivertosku_eng_, RIVERTOSKU_LAYOUT)
#define rivertosku_pwr_of RIVERTOSKU_NUMBERED(rivertosku_pwr_, RIVERTOSKU_LAYOUT)
#define rivertosku_eds_of RIVERTOSKU_NUMBERED(rivertosku_eds_, RIVERTOSKU_LAYOUT)
#define rivertosku_hom_of RIVERTOSKU_NUMBERED(rivertosku_hom_, RIVERTOSKU_LAYOUT)
#define rivertosku_brk_of RIVERTOSKU_NUMBERED(rivertosku_brk_, RIVERTOSKU_LAYOUT)
#define rivertosku_pid_of RIVERTOSKU_NUMBERED(rivertosku_pid_, RIVERTOSKU_LAYOUT)
#define rivertosku_ctl_of RIVERTOSKU_NUMBERED(rivertosku_ctl_, RIVERTOSKU_LAYOUT)
#define rivertosku_joy_of RIVERTOSKU_NUMBERED(rivertosku_joy_, RIVERTOSKU_LAYOUT)
#define rivertosku_write_get RIVERTOSKU_NUMBERED(rivertosku_write_get_, RIVERTOSKU_HOST_LAYOUT)
#define rivertosku_write_order RIVERTOSKU_NUMBERED(rivertosku_write_order_, RIVERTOSKU_HOST_LAYOUT)
#define rivertosku_write_set RIVERTOSKU_NUMBERED(rivertosku_write_set_, RIVERTOSKU_HOST_LAYOUT)
#define rivertosku_read RIVERTOSKU_NUMBERED(rivertosku_read_, RIVERTOSKU_HOST_LAYOUT)

/* The longest frame that a board takes, which is also its longest answer; and the optimiser's, whose end knows the blocks 1 to 7 only. */
#define RIVERTOSKU_FRAME 93
#define RIVERTOSKU_HOST_FRAME 48

/* The longest piece and the least room for replies that a call accepts: the room is that of the longest answer. */
#define RIVERTOSKU_PIECE 250
#define RIVERTOSKU_ROOM RIVERTOSKU_FRAME

/* The bytes of all settings: the blocks 1 to 7, 11 and 12, each as its get sends it without name and CRC. */
#define RIVERTOSKU_TABLE 277

/* The number of a call's answer, and of a report's: of the time 0 or 3, of the position 0, 3 or 5. A refused call takes and writes nothing;
   the board stays as it is. */
enum {
    RIVERTOSKU_ACCEPTED = 0,
    RIVERTOSKU_PIECE_TOO_LONG = 1,         /* piece over RIVERTOSKU_PIECE bytes */
    RIVERTOSKU_ROOM_TOO_SMALL = 2,         /* reply room under RIVERTOSKU_ROOM bytes */
    RIVERTOSKU_UNSOUND = 3,                /* no board can be in this state */
    RIVERTOSKU_MICROSTEPS_OUT_OF_RANGE = 5 /* a position with microsteps outside -255..255 */
};

/* The number of a table handed out or taken back, besides RIVERTOSKU_ACCEPTED and RIVERTOSKU_UNSOUND. */
enum {
    RIVERTOSKU_ANOTHER_LENGTH = 1, /* taken back: not RIVERTOSKU_TABLE bytes */
    RIVERTOSKU_OUT_TOO_SMALL = 2   /* handed out: a buffer under RIVERTOSKU_TABLE bytes */
};

/* Blocks. 8 to 10 are no settings: they stand in the notes. The optimiser's end knows 1 to 7 only. */
enum {
    RIVERTOSKU_MOV = 1,
    RIVERTOSKU_ENG = 2,
    RIVERTOSKU_PWR = 3,
    RIVERTOSKU_EDS = 4,
    RIVERTOSKU_HOM = 5,
    RIVERTOSKU_BRK = 6,
    RIVERTOSKU_PID = 7,
    RIVERTOSKU_MOVE = 8,
    RIVERTOSKU_MOVR = 9,
    RIVERTOSKU_SPOS = 10,
    RIVERTOSKU_CTL = 11,
    RIVERTOSKU_JOY = 12
};

/* How long a block's frame is: its set, and the answer to its get, or to gpos. A get, zero, an order without steps, an echo and an error
   have 4 bytes. */
enum {
    RIVERTOSKU_MOV_FRAME = 30,
    RIVERTOSKU_ENG_FRAME = 34,
    RIVERTOSKU_PWR_FRAME = 20,
    RIVERTOSKU_EDS_FRAME = 26,
    RIVERTOSKU_HOM_FRAME = 33,
    RIVERTOSKU_BRK_FRAME = 25,
    RIVERTOSKU_PID_FRAME = 48,
    RIVERTOSKU_MOVE_FRAME = 18,
    RIVERTOSKU_MOVR_FRAME = 18,
    RIVERTOSKU_SPOS_FRAME = 26,
    RIVERTOSKU_CTL_FRAME = 93,
    RIVERTOSKU_JOY_FRAME = 22
};

/* Orders. RIVERTOSKU_MOVE and RIVERTOSKU_MOVR, as above, are orders too and carry steps and microsteps. */
enum {
    RIVERTOSKU_NO_ORDER = 0,
    RIVERTOSKU_STOP = 1,
    RIVERTOSKU_SSTP = 2,
    RIVERTOSKU_PWOF = 3,
    RIVERTOSKU_LEFT = 4,
    RIVERTOSKU_RIGT = 5,
    RIVERTOSKU_HOME = 6,
    RIVERTOSKU_LOFT = 7
};

/* Flags: errors since the board was fresh. */
enum {
    RIVERTOSKU_COMMAND_ERROR = 1, /* errc: a name that nobody knows */
    RIVERTOSKU_DATA_ERROR = 2,    /* errd: a set with a wrong CRC */
    RIVERTOSKU_VALUE_ERROR = 4    /* errv: a set with a field out of range, or with its block's rule broken */
};

/* In the notes, instead of a field's number: every field was in its range, but the rule over the block's fields was broken. */
enum {
    RIVERTOSKU_RULE = 99
};

/* The blocks, as the functions below read them out of a board's table and as the optimiser writes and reads the first seven. A flag field with
   a bit set besides its known bits is out of range. */

/* Block 1: speeds 0..100000, accel and decel 1..65535. */
struct rivertosku_mov {
    uint32_t speed;
    uint8_t u_speed;
    uint16_t accel;
    uint16_t decel;
    uint32_t antiplay_speed;
    uint8_t u_antiplay_speed;
};

/* Block 2: nom_current 15..8000, nom_speed 1..100000, microstep_mode 1..9, steps_per_rev 1..65535. */
struct rivertosku_eng {
    uint16_t nom_voltage;
    uint16_t nom_current;
    uint32_t nom_speed;
    uint8_t u_nom_speed;
    uint16_t engine_flags; /* known bits 0xFF */
    int16_t antiplay;
    uint8_t microstep_mode;
    uint16_t steps_per_rev;
};

/* Block 3: hold_current 0..100. */
struct rivertosku_pwr {
    uint8_t hold_current;
    uint16_t curr_reduct_delay;
    uint16_t power_off_delay;
    uint16_t current_set_time;
    uint8_t power_flags; /* known bits 0x07 */
};

/* Block 4: microsteps -255..255. */
struct rivertosku_eds {
    uint8_t border_flags; /* known bits 0x0F */
    uint8_t ender_flags;  /* known bits 0x07 */
    int32_t left_border;
    int16_t u_left_border;
    int32_t right_border;
    int16_t u_right_border;
};

/* Block 5: speeds 0..100000, u_home_delta -255..255. */
struct rivertosku_hom {
    uint32_t fast_home;
    uint8_t u_fast_home;
    uint32_t slow_home;
    uint8_t u_slow_home;
    int32_t home_delta;
    int16_t u_home_delta;
    uint16_t home_flags; /* known bits 0x1FF */
};

/* Block 6. */
struct rivertosku_brk {
    uint16_t t1;
    uint16_t t2;
    uint16_t t3;
    uint16_t t4;
    uint8_t brake_flags; /* known bits 0x03 */
};

/* Block 7: the floats are finite. */
struct rivertosku_pid {
    uint16_t kp_u;
    uint16_t ki_u;
    uint16_t kd_u;
    float kpf;
    float kif;
    float kdf;
};

/* Block 11: speeds 0..100000, u_delta_position -255..255. Each element of an array is a field of its own: the speeds are the fields 1 to 10,
   their parts 11 to 20, the timeouts 21 to 29. Its rule: max_speed[0] and u_max_speed[0] are not both zero. */
struct rivertosku_ctl {
    uint32_t max_speed[10];
    uint8_t u_max_speed[10];
    uint16_t timeout[9];
    uint16_t max_click_time;
    uint16_t flags; /* known bits 0x0F */
    int32_t delta_position;
    int16_t u_delta_position;
};

/* Block 12: ends and centre 0..10000. Its rule: joy_low_end <= joy_center <= joy_high_end. */
struct rivertosku_joy {
    uint16_t joy_low_end;
    uint16_t joy_center;
    uint16_t joy_high_end;
    uint8_t exp_factor;
    uint8_t dead_zone;
    uint8_t joy_flags; /* known bit 0x01 */
};

/* A board's settings: the blocks in number order, one behind the other, reserved bytes zero. rivertosku_mov_of and so on read the fields. */
struct rivertosku_settings {
    uint8_t bytes[RIVERTOSKU_TABLE];
};

/* Flags, and the block and field that an errv refused last (0 and 0: none; a field RIVERTOSKU_RULE: the block's rule). */
struct rivertosku_notes {
    uint64_t flags;
    uint64_t block;
    uint64_t field;
};

/* Where the drive stands: microsteps -255..255, and its encoder's count. */
struct rivertosku_position {
    int32_t steps;
    int16_t microsteps;
    int64_t count;
};

/* What a board remembers of the units that have ended, and the position. */
struct rivertosku_memory {
    struct rivertosku_settings settings;
    struct rivertosku_notes notes;
    struct rivertosku_position position;
};

/* What a board keeps between calls. Read it between them as you like; change it by rivertosku_receive and the reports only. The gaps of
   the structs are not set: two boards that are the same need not be the same bytes. Compare by rivertosku_same, and keep in flash what
   rivertosku_hand_out gives and not the struct's bytes. */
struct rivertosku_board {
    struct rivertosku_memory memory;
    uint8_t held[RIVERTOSKU_FRAME]; /* the bytes of the unfinished unit stand in front; behind them zeros, after each call that takes a byte */
    uint64_t count;                 /* how many they are */
    uint32_t stamp;                 /* of the last byte taken */
};

/* A board but for its two arrays, which are lent to a call. */
struct rivertosku_rest {
    struct rivertosku_notes notes;
    struct rivertosku_position position;
    uint64_t count;
    uint32_t stamp;
};

struct rivertosku_answer {
    struct rivertosku_rest rest; /* of the board; rivertosku_receive has stored it there */
    uint64_t taken;              /* bytes of the piece; offer those behind them again with their stamp */
    uint64_t written;            /* reply bytes, to be sent */
    int32_t steps;               /* where RIVERTOSKU_MOVE goes to, or how far RIVERTOSKU_MOVR goes; 0 with any other order */
    int16_t microsteps;          /* and these, -255..255 */
    uint8_t number;              /* 0 accepted, else the refusal */
    uint8_t order;               /* to be carried out now, 0 for none */
};

struct rivertosku_report {
    uint8_t number; /* 0 accepted, else the refusal */
    struct rivertosku_board board;
};

/* A board that has taken nothing yet. */
struct rivertosku_board rivertosku_fresh(void);

/* 0, or RIVERTOSKU_UNSOUND where no board can be in this state; does nothing else. For a board that something else may have written to. */
uint8_t rivertosku_judge(struct rivertosku_board board);

/* Whether two boards are the same: stamp, notes, position, unfinished bytes, and the table byte for byte, so minus zero is not zero.
   Spare bytes and gaps play no part. RIVERTOSKU_SAME, RIVERTOSKU_ANOTHER, or RIVERTOSKU_UNSOUND where one of the two is. In libsame.a. */
enum {
    RIVERTOSKU_SAME = 0,
    RIVERTOSKU_ANOTHER = 1
};
uint8_t rivertosku_same(struct rivertosku_board a, struct rivertosku_board b);

/* One call: a piece of bytes that share a stamp in milliseconds, and room for the replies. An accepted call stops when the piece ends,
   behind an order, or before a byte whose reply does not fit; of a piece that is not empty it takes at least one byte. Here and below a null
   pointer is fine where the length is 0.
   The board's arrays are lent and changed where they stand: table points at RIVERTOSKU_TABLE bytes, held at RIVERTOSKU_FRAME. The rest of
   the board is handed over, and the answer has it as it is then. Table, held, piece and reply must not overlap, and until the call returns
   no other thread and no interrupt may use any of them. */
struct rivertosku_answer rivertosku_receive_lent(uint8_t *table, uint8_t *held, struct rivertosku_rest rest, const uint8_t *piece,
                                                 size_t piece_len, uint32_t stamp, uint8_t *reply, size_t reply_len);

/* The same call on a board where it stands; a refused one leaves it. Board, piece and reply must not overlap, and until the call returns no
   other thread and no interrupt may use any of them. */
static inline struct rivertosku_answer rivertosku_receive(struct rivertosku_board *board, const uint8_t *piece, size_t piece_len,
                                                          uint32_t stamp, uint8_t *reply, size_t reply_len)
{
    struct rivertosku_memory *memory = &board->memory;
    const struct rivertosku_rest rest = {memory->notes, memory->position, board->count, board->stamp};
    const struct rivertosku_answer answer =
        rivertosku_receive_lent(memory->settings.bytes, board->held, rest, piece, piece_len, stamp, reply, reply_len);
    memory->notes = answer.rest.notes;
    memory->position = answer.rest.position;
    board->count = answer.rest.count;
    board->stamp = answer.rest.stamp;
    return answer;
}

/* A report of the time, by the counter that stamps the bytes. Unfinished bytes are dropped, without reply or flag, if the last byte came
   over 400 ms ago; nothing else changes, the last stamp neither, so a report does not restart the wait.
   A call looks at the clock only when a byte comes. While something is unfinished, the main loop has to report at least every 2^32 - 401 ms
   (some 49.7 days), counted from the last byte or report, or half a command may be resumed when the counter has come round; once a second
   or once a minute is plenty. Bytes that came earlier and are not yet taken may be offered behind a report, with their own stamp.
   Never report a time from before the last stamp handed over: it reads as a wait of 49 days, and drops a live command. */
struct rivertosku_report rivertosku_report_clock(struct rivertosku_board board, uint32_t now);

/* A report of the drive's position. It becomes the board's, which gpos sends; nothing else changes, an unfinished unit stays, and the last
   stamp. RIVERTOSKU_MICROSTEPS_OUT_OF_RANGE changes nothing. Report the position whenever the drive has moved. */
struct rivertosku_report rivertosku_report_position(struct rivertosku_board board, struct rivertosku_position position);

/* A block of the settings, from the RIVERTOSKU_TABLE bytes of a board's table. Nothing is judged; zeros stand behind the end of a table that
   is shorter. A gain that is no number comes as some NaN. In libviews.a. */
struct rivertosku_mov rivertosku_mov_of(const uint8_t *table, size_t table_len);
struct rivertosku_eng rivertosku_eng_of(const uint8_t *table, size_t table_len);
struct rivertosku_pwr rivertosku_pwr_of(const uint8_t *table, size_t table_len);
struct rivertosku_eds rivertosku_eds_of(const uint8_t *table, size_t table_len);
struct rivertosku_hom rivertosku_hom_of(const uint8_t *table, size_t table_len);
struct rivertosku_brk rivertosku_brk_of(const uint8_t *table, size_t table_len);
struct rivertosku_pid rivertosku_pid_of(const uint8_t *table, size_t table_len);
struct rivertosku_ctl rivertosku_ctl_of(const uint8_t *table, size_t table_len);
struct rivertosku_joy rivertosku_joy_of(const uint8_t *table, size_t table_len);

/* For the flash writer: the board's table at the front of out, RIVERTOSKU_TABLE bytes; bytes past them are kept. RIVERTOSKU_OUT_TOO_SMALL,
   tested first, or RIVERTOSKU_UNSOUND, and out is as it was. */
uint8_t rivertosku_hand_out(struct rivertosku_board board, uint8_t *out, size_t out_len);

/* A board with the settings of a table that was handed out, and everything else fresh. RIVERTOSKU_ANOTHER_LENGTH, tested first, or
   RIVERTOSKU_UNSOUND where a field is out of its range, a block's rule is broken or a reserved byte is not zero; the board is then a fresh
   one. */
struct rivertosku_report rivertosku_take_back(const uint8_t *bytes, size_t bytes_len);

/* The optimiser's end, in liboptimiser.a. */

/* The blocks as a request or an answer brings them. */
struct rivertosku_blocks {
    struct rivertosku_mov mov;
    struct rivertosku_eng eng;
    struct rivertosku_pwr pwr;
    struct rivertosku_eds eds;
    struct rivertosku_hom hom;
    struct rivertosku_brk brk;
    struct rivertosku_pid pid;
};

/* The number of a written request, tested in the sequence 9, 3, 4. A refused one writes nothing. */
enum {
    RIVERTOSKU_WRITTEN = 0,
    RIVERTOSKU_OUT_OF_RANGE = 3, /* a value that the board would refuse */
    RIVERTOSKU_TOO_SHORT = 4,    /* a buffer shorter than the frame */
    RIVERTOSKU_NOBODY = 9        /* a number of no block or order: nothing else is looked at */
};

/* The number of a read answer. */
enum {
    RIVERTOSKU_READ = 0,
    RIVERTOSKU_NO_NAME = 5,   /* fewer bytes than a name needs */
    RIVERTOSKU_NO_ANSWER = 6, /* a name that no answer has */
    RIVERTOSKU_CUT = 7,       /* fewer bytes than that answer needs */
    RIVERTOSKU_DAMAGED = 8    /* a wrong CRC */
};

/* Kinds of answers. */
enum {
    RIVERTOSKU_NO_KIND = 0, /* refused */
    RIVERTOSKU_ZERO = 1,
    RIVERTOSKU_SET_ECHO = 2,
    RIVERTOSKU_ORDER_ECHO = 3,
    RIVERTOSKU_DATA = 4,
    RIVERTOSKU_ERRC = 5,
    RIVERTOSKU_ERRD = 6,
    RIVERTOSKU_ERRV = 7
};

struct rivertosku_written {
    uint8_t number;  /* 0 written, else the refusal */
    uint64_t length; /* of the frame, to be sent; 0 if refused */
};

struct rivertosku_reading {
    uint8_t number; /* 0 read, else the refusal */
    uint8_t kind;
    uint8_t what;                    /* the block of an echoed set or of data, the order of an echo; 0 otherwise */
    uint64_t length;                 /* of the answer; 0 if refused */
    struct rivertosku_blocks blocks; /* data stands in its block, all else is fresh; in range or not */
};

/* A request's frame at the front of out, for which RIVERTOSKU_HOST_FRAME bytes are enough. Bytes past the frame are kept. */
struct rivertosku_written rivertosku_write_get(uint8_t block, uint8_t *out, size_t out_len);
struct rivertosku_written rivertosku_write_order(uint8_t order, uint8_t *out, size_t out_len);

/* A set of one block, with its fields among the blocks; the other blocks there are not looked at. */
struct rivertosku_written rivertosku_write_set(uint8_t block, struct rivertosku_blocks blocks, uint8_t *out, size_t out_len);

/* One answer from the front of what the board sent. A gain that is no number comes as some NaN. */
struct rivertosku_reading rivertosku_read(const uint8_t *bytes, size_t bytes_len);

/* The sizes, as Rust has them (rust/src/blocks.rs, position.rs, board.rs and host.rs, tests sizes), and the field behind each gap. */
#define RIVERTOSKU_AT(name, field, place) static_assert(offsetof(struct rivertosku_##name, field) == place, #name "." #field)
static_assert(sizeof(size_t) == 8, "the archives are for a 64-bit machine");
static_assert(sizeof(struct rivertosku_mov) == 20, "mov");
RIVERTOSKU_AT(mov, accel, 6);
RIVERTOSKU_AT(mov, antiplay_speed, 12);
static_assert(sizeof(struct rivertosku_eng) == 20, "eng");
RIVERTOSKU_AT(eng, engine_flags, 10);
RIVERTOSKU_AT(eng, steps_per_rev, 16);
static_assert(sizeof(struct rivertosku_pwr) == 10, "pwr");
RIVERTOSKU_AT(pwr, curr_reduct_delay, 2);
static_assert(sizeof(struct rivertosku_eds) == 20, "eds");
RIVERTOSKU_AT(eds, left_border, 4);
RIVERTOSKU_AT(eds, right_border, 12);
static_assert(sizeof(struct rivertosku_hom) == 24, "hom");
RIVERTOSKU_AT(hom, slow_home, 8);
RIVERTOSKU_AT(hom, home_delta, 16);
static_assert(sizeof(struct rivertosku_brk) == 10, "brk");
static_assert(sizeof(struct rivertosku_pid) == 20, "pid");
RIVERTOSKU_AT(pid, kpf, 8);
static_assert(sizeof(struct rivertosku_ctl) == 80, "ctl");
static_assert(sizeof(struct rivertosku_joy) == 10, "joy");
static_assert(sizeof(struct rivertosku_settings) == RIVERTOSKU_TABLE, "settings");
static_assert(RIVERTOSKU_TABLE == RIVERTOSKU_MOV_FRAME + RIVERTOSKU_ENG_FRAME + RIVERTOSKU_PWR_FRAME + RIVERTOSKU_EDS_FRAME +
                                      RIVERTOSKU_HOM_FRAME + RIVERTOSKU_BRK_FRAME + RIVERTOSKU_PID_FRAME + RIVERTOSKU_CTL_FRAME +
                                      RIVERTOSKU_JOY_FRAME - 9 * 6,
              "each block's frame less its name and CRC");
static_assert(RIVERTOSKU_FRAME == RIVERTOSKU_CTL_FRAME && RIVERTOSKU_HOST_FRAME == RIVERTOSKU_PID_FRAME, "the longest frames");
static_assert(sizeof(struct rivertosku_notes) == 24, "notes");
static_assert(sizeof(struct rivertosku_position) == 16, "position");
RIVERTOSKU_AT(position, count, 8);
/* The table and the held bytes fill whole words; notes and position follow the one, count and stamp the other. */
static_assert(sizeof(struct rivertosku_memory) == 320, "memory");
RIVERTOSKU_AT(memory, notes, (RIVERTOSKU_TABLE + 7) / 8 * 8);
static_assert(sizeof(struct rivertosku_board) == 432, "board");
RIVERTOSKU_AT(board, count, 320 + (RIVERTOSKU_FRAME + 7) / 8 * 8);
static_assert(sizeof(struct rivertosku_rest) == 56, "rest");
RIVERTOSKU_AT(rest, position, 24);
RIVERTOSKU_AT(rest, count, 40);
RIVERTOSKU_AT(rest, stamp, 48);
static_assert(sizeof(struct rivertosku_answer) == 80, "answer");
RIVERTOSKU_AT(answer, taken, 56);
RIVERTOSKU_AT(answer, steps, 72);
RIVERTOSKU_AT(answer, number, 78);
static_assert(sizeof(struct rivertosku_report) == 8 + sizeof(struct rivertosku_board), "report");
RIVERTOSKU_AT(report, board, 8);
static_assert(sizeof(struct rivertosku_blocks) == 128, "blocks");
RIVERTOSKU_AT(blocks, eds, 52);
RIVERTOSKU_AT(blocks, pid, 108);
static_assert(sizeof(struct rivertosku_written) == 16, "written");
RIVERTOSKU_AT(written, length, 8);
static_assert(sizeof(struct rivertosku_reading) == 16 + sizeof(struct rivertosku_blocks), "reading");
RIVERTOSKU_AT(reading, length, 8);
#undef RIVERTOSKU_AT

#ifdef __cplusplus
}
#endif

#endif
