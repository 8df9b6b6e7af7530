/* Riksamoe for firmware: units that agree by forward bounding on the cheapest lotting, from C (C99 or later) and C++.
 *
 * Link target/staticlib/libcabi.a, which `scripts/library` makes for x86-64 with SSE and System V calls; of a C library it
 * needs memcpy, memmove and memset alone. Each function below is a proved one of crates/cabi: what it promises stands there
 * beside it, for all inputs. This header is kept by hand; its layouts are held by the assertions at the end, and scripts/differential
 * compares every call with a second implementation. examples/ has a shed of such boxes in C and in Rust, and one box as a process.
 *
 * What a box does
 *
 *   1. At start, from the stored table: riksamoe_start, then riksamoe_start_block for each of its blocks, one after the other, with
 *      RIKSAMOE_COSTS bytes for the costs. Behind the last block n and the sizes stand in the state, and the costs that touch this unit
 *      where they were lent. Keep n, sizes and costs; no more than a block of the table is ever held. (riksamoe_table_read, _units,
 *      _sizes and _costs give the same out of a whole file, for whom it fits.)
 *   2. riksamoe_unit_make gives the unit's first state and, for unit 1, its first packets. Send these.
 *   3. When a packet arrives, call riksamoe_unit_step_in_place with the kept state, n, sizes, costs, the bytes as they came and an
 *      output of RIKSAMOE_SENDING bytes. If the refusal is 0, send the first `sent` packets of 64 bytes from the output, in their
 *      order; byte 2 of each says to which unit. If it is not 0, nothing has changed and there is nothing to send: drop the packet.
 *   4. Once `stopped` is 1 the box is done, and every later packet that reads well is refused by 12. `bound` is then the least total and
 *      `best` the value of each unit (unit k's at best[k - 1]), the same in every box: of the assignments with that total the first in the
 *      order in which the boxes try their values, unit 1's first; ascending, what riksamoe_branch_and_bound gives. Where every assignment has
 *      a forbidden pair, `bound` is RIKSAMOE_NONE and `best` all 0; box 1 may then have stopped when made.
 *
 * All boxes come to this, in whatever order the packets arrive, and a box that has not stopped refuses no packet that another sent to it.
 * This is proved of boxes that are made of one table with one order of values, where no packet is lost, changed or heard twice.
 *
 * A stored table has one of two forms, told by the first byte of its stream. Form one: n, 1 to 16; the n sizes; the pair costs. Form two:
 * RIKSAMOE_FORM_TWO; n; the sizes; what each value of each unit costs alone, unit by unit (unary costs, 0 to 60,000); the pair costs. Costs
 * are 16-bit numbers, the low byte first. Every call takes both; in form one all unary costs are 0. A stream is written in its own form.
 *
 * A box tries its values by rising h (the lookahead bound of the AFB paper: the least that the later units must still add), the lower number
 * first on a tie, values without an h last. The calls with `_by` in their name are told an order of values, RIKSAMOE_ASCENDING or
 * RIKSAMOE_CHEAPEST_FIRST; the same calls without it take the cheapest first. A state doesn't keep the order: all calls of one run must name the
 * same. Two runs may differ in theirs: both come to the least total, though maybe to another assignment that has it.
 *
 * A stale packet is accepted, changes nothing and sends nothing. Packets may come in any order; none may be lost. Where a newer one of the same
 * kind waits from the same box, the older can go: see riksamoe_newer.
 *
 * Buffers. A pointer and the length after it are lent for the call alone: nothing keeps them. Lend no buffer twice in one call. Each
 * pointer must be valid for its length, one to a struct aligned for it; with length 0 a pointer may be any but null. `const` bytes are
 * read; of the others only those named are written, and none where the call is refused. No call allocates, blocks, or keeps anything between
 * calls, so calls on buffers of their own may run at the same time.
 *
 * Any bytes may be lent, in structs too: a state read back from flash needs no check of the caller's. One that is out of range, as where
 * `stopped` is neither 0 nor 1, is refused by 5, and stays as lent.
 *
 * Stack. Bytes that a call needs at most, its return address counted, beside what the three functions of the C library use; structs that
 * pass by value stand in the caller's own frame (a core has 2,272 bytes, a network 2,280, their answers 8 more). scripts/stack reads these off
 * the machine code.
 *
 *   riksamoe_checksum                   256
 *   riksamoe_block_refusal              256
 *   riksamoe_table_read                 512
 *   riksamoe_table_write                512
 *   riksamoe_to_form_one              2,304
 *   riksamoe_to_form_two              2,304
 *   riksamoe_readings_stream            256
 *   riksamoe_tiny_stream                256
 *   riksamoe_units                      256
 *   riksamoe_sizes                      256
 *   riksamoe_costs                    1,024
 *   riksamoe_start                      256
 *   riksamoe_start_block                512
 *   riksamoe_message_parse              768
 *   riksamoe_message_write              768
 *   riksamoe_unit_make                2,816
 *   riksamoe_unit_make_by             2,816
 *   riksamoe_unit_in_range            1,280
 *   riksamoe_unit_in_range_by         1,280
 *   riksamoe_unit_step                5,888
 *   riksamoe_unit_step_by             5,632
 *   riksamoe_unit_step_in_place       6,144
 *   riksamoe_unit_step_in_place_by    5,888
 *   riksamoe_network_make            13,312
 *   riksamoe_network_make_by         13,312
 *   riksamoe_network_deliver         40,704
 *   riksamoe_network_deliver_by      38,400
 *   riksamoe_network_echo            40,704
 *   riksamoe_network_echo_by         38,400
 *   riksamoe_network_settle         161,280
 *   riksamoe_network_settle_by      161,280
 *   riksamoe_slots_make              14,336
 *   riksamoe_slots_make_by           14,336
 *   riksamoe_slots_deliver           47,616
 *   riksamoe_slots_deliver_by        45,312
 *   riksamoe_slots_replay            47,616
 *   riksamoe_slots_replay_by         45,312
 *   riksamoe_slots_settle            40,960
 *   riksamoe_slots_settle_by         40,960
 *   riksamoe_slot_of                    256
 *   riksamoe_newer                    1,024
 *   riksamoe_newer_refusal            1,024
 *   riksamoe_search                   7,424
 *   riksamoe_branch_and_bound         7,424
 *   riksamoe_ends                       256
 *   riksamoe_hold_costs                 768
 *   riksamoe_project                    512
 *   riksamoe_project_unary              512
 *   riksamoe_extend                     512
 *   riksamoe_project_all                768
 *   riksamoe_lower_bound              1,024
 */
#ifndef RIKSAMOE_H
#define RIKSAMOE_H

#include <stddef.h>
#include <stdint.h>

#ifdef __cplusplus
extern "C" {
#endif

#define RIKSAMOE_VERSION 13        /* raised where a call, a struct or a promise below changes */

#define RIKSAMOE_UNITS 16          /* places in every array: unit k's is k - 1 */
#define RIKSAMOE_NONE 4294967295u  /* the bound *none*; the estimate of a unit that has no value left */
#define RIKSAMOE_FORBIDDEN 65535u  /* the 16-bit pair cost of two values that may not meet: no assignment has both */
#define RIKSAMOE_BARRED 4294967295u /* the same among costs held in 32 bits */
#define RIKSAMOE_HELD 30976        /* most costs held in 32 bits: lend so many numbers */
#define RIKSAMOE_PACKET 64         /* bytes of a packet */
#define RIKSAMOE_SENDING 1024      /* bytes to lend for what a step sends: 16 packets */
#define RIKSAMOE_COSTS 7712        /* most bytes of the costs that touch one unit: unary costs first, then pair costs */
#define RIKSAMOE_BLOCK 512         /* bytes of a block of a stored table */
#define RIKSAMOE_STREAM 61970      /* bytes to lend for a stream */
#define RIKSAMOE_FILE 62976        /* most bytes of a stored table */
#define RIKSAMOE_FORM_TWO 200      /* the first byte of a stream of form two */
#define RIKSAMOE_POOL 65536        /* bytes to lend for a network's pool: 1,024 cells of a packet */
#define RIKSAMOE_SLOTS 300         /* cells that 16 units use over slots, and the number that stands for no cell */
#define RIKSAMOE_SLOT_POOL 19200   /* bytes to lend for the pool of a network over slots */

/* Orders in which a unit tries its values. Any other number is taken as RIKSAMOE_CHEAPEST_FIRST. */
enum { RIKSAMOE_ASCENDING = 0 /* by number */, RIKSAMOE_CHEAPEST_FIRST = 1 /* by rising h, the lower number first on a tie, those without an h last */ };

/* Kinds of message, with the words of the format's paper. */
enum { RIKSAMOE_CPA = 1 /* paper */, RIKSAMOE_REQUEST = 2 /* copy */, RIKSAMOE_ESTIMATE = 3, RIKSAMOE_SOLUTION = 4 /* news */, RIKSAMOE_STOP = 5 };

/* Refusals. The order in which a call checks them stands with it; the first that applies is returned. */
enum {
    RIKSAMOE_ACCEPTED = 0,
    RIKSAMOE_BAD_FILE = 1,        /* table bytes: 0, no multiple of 512, or over 62,976; a block not of 512 bytes, or after 123 */
    RIKSAMOE_BAD_BLOCK = 2,       /* block number wrong */
    RIKSAMOE_BAD_PAYLOAD = 3,     /* payload count or unused bytes wrong */
    RIKSAMOE_BAD_BLOCK_CHECK = 4, /* block check wrong */
    RIKSAMOE_OUT_OF_RANGE = 5,    /* n or a size not 1 to 16; a state out of range, or a pool count over 1,024 */
    RIKSAMOE_BAD_LENGTH = 6,      /* stream, or a unit's costs, shorter or longer than n and the sizes need */
    RIKSAMOE_BAD_COST = 7,        /* a unary cost above 60,000; a pair cost above 60,000 that is not RIKSAMOE_FORBIDDEN */
    RIKSAMOE_DAMAGED = 8,         /* packet not 64 bytes, or its check wrong: it was damaged on the way */
    RIKSAMOE_BAD_FIELD = 9,       /* a message field against its kind */
    RIKSAMOE_BAD_UNIT = 10,       /* unit number, sender or receiver not 1 to n; packet for another unit */
    RIKSAMOE_NOT_OUT = 11,        /* CPA or estimate not of the CPA this unit has out */
    RIKSAMOE_STOPPED = 12,        /* the unit (in a network: unit 1, or the receiver) has stopped */
    RIKSAMOE_NO_ROOM = 13,        /* output too short */
    RIKSAMOE_POOL_FULL = 14,      /* what is sent doesn't fit the pool */
    RIKSAMOE_NO_MESSAGE = 15,     /* no message at that cell */
    RIKSAMOE_TOO_MANY = 16,       /* more than 1,048,576 assignments (riksamoe_search only) */
    RIKSAMOE_BAD_READING = 17,    /* a reading not 100 to 400 */
    RIKSAMOE_HAS_UNARY = 18,      /* a table with a unary cost above 0 has no form one */
    RIKSAMOE_TOO_LARGE = 19,      /* an own cost or the floor lent barred; an extension above the own cost, or a cost or the floor taken above 4,294,967,294 */
    RIKSAMOE_PAST_LIMIT = 20,     /* an old or new cost above 60,000, RIKSAMOE_FORBIDDEN too; a total above 8,160,000 that is not RIKSAMOE_NONE */
    RIKSAMOE_NO_SUCH_TABLE = 21,  /* a tiny table's number past the last, or a unit count other than 2 or 3 */
    RIKSAMOE_ODD_LIST = 22        /* a list of cells to replay of odd length */
};

/* ---- Structs. All pass by value; offsets and sizes in bytes. */

/* How many values each unit has, 1 to 16 for units 1 to n and 0 after. Size 16. */
typedef struct {
    uint8_t places[16];
} riksamoe_sizes_t;

/* A refusal and 0, or 0 and how many bytes were written. Size 16. */
typedef struct {
    uint8_t refusal; /*  0 */
    size_t length;   /*  8 */
} riksamoe_length_t;

/* How far a box is with the blocks of its table: hand it on from block to block, and change nothing in it. Any bytes have a meaning. n and
 * sizes are for the caller once the last block is in. Size 32, alignment 4; the byte of padding at the end is not read, and may come back as
 * any. */
typedef struct {
    uint8_t own;            /*  0 the unit's number */
    uint8_t stage;          /*  1 what the stream's next byte is, 0 to 7; any other number stands for 7 */
    uint16_t blocks;        /*  2 how many are in: the number of the next */
    uint32_t count;         /*  4 bytes of costs that were gathered */
    uint8_t n;              /*  8 how many units there are */
    riksamoe_sizes_t sizes; /*  9 */
    uint8_t row;            /* 25 the two units of the costs that come next */
    uint8_t unit;           /* 26 */
    uint8_t low;            /* 27 the low byte of the next cost, where it is in */
    uint16_t left;          /* 28 how many costs of these two units are to come */
    uint8_t refusal;        /* 30 7 once a cost was refused */
} riksamoe_start_t;

/* What a block gives: refused, the refusal, 0 and the state as lent; else 0, with the last block how many bytes of costs there are, and the
 * state. Size 48. */
typedef struct {
    uint8_t refusal;        /*  0 */
    size_t length;          /*  8 */
    riksamoe_start_t start; /* 16 */
} riksamoe_started_t;

/* The fields of a message; those that its kind lacks are 0. An estimate's cost may be RIKSAMOE_NONE. Size 60. */
typedef struct {
    uint8_t sender;     /*  0 */
    uint8_t receiver;   /*  1 */
    uint8_t stamp[16];  /*  2 */
    uint8_t values[16]; /* 18 */
    uint32_t cost;      /* 36 */
    uint32_t bound;     /* 40 */
    uint8_t best[16];   /* 44 */
} riksamoe_message_t;

/* What reading a packet gives; all zero but the refusal where it is refused. Size 64. */
typedef struct {
    uint8_t refusal;            /*  0 */
    uint8_t kind;               /*  1 */
    riksamoe_message_t message; /*  4 */
} riksamoe_parsed_t;

/* A unit's whole state: keep it between packets, and change nothing in it. One that is out of range is refused by 5, such as one with a CPA
 * out whose own value is forbidden beside one before it. Size 140, alignment 4; the two bytes of padding at the end are not read, and may
 * come back as any. */
typedef struct {
    uint8_t threshold[16];  /*   0 the highest stamp seen */
    uint32_t bound;         /*  16 the best total known, RIKSAMOE_NONE at first */
    uint8_t best[16];       /*  20 the assignment of that total */
    uint32_t estimates[16]; /*  36 of later units, for the CPA out */
    uint8_t stamp[16];      /* 100 of the CPA out */
    uint8_t values[16];     /* 116 of the CPA out; own value 0: none is out */
    uint32_t cost;          /* 132 of the CPA out */
    uint8_t counter;        /* 136 how many values were tried */
    uint8_t stopped;        /* 137 0 or 1; with any other byte the state is out of range */
} riksamoe_unit_t;

/* What making and a step by value give. Refused: nothing sent, no record; a step's unit as lent, a making's all zero. Size 148. */
typedef struct {
    uint8_t refusal;      /*   0 */
    riksamoe_unit_t unit; /*   4 */
    uint8_t sent;         /* 144 packets written to the front of the output */
    uint8_t records;      /* 145 values written down in this step */
} riksamoe_outcome_t;

/* What a step in place gives. Size 3. */
typedef struct {
    uint8_t refusal; /* 0 */
    uint8_t sent;    /* 1 */
    uint8_t records; /* 2 */
} riksamoe_report_t;

/* What a search gives: a refusal and zeros, or 0, the least total and its first assignment in ascending order, RIKSAMOE_NONE and zeros
 * where every assignment has a forbidden pair. Size 24. */
typedef struct {
    uint8_t refusal;    /* 0 */
    uint32_t total;     /* 4 */
    uint8_t values[16]; /* 8 */
} riksamoe_found_t;

/* How far the least total may go when one cost changes: a refusal and zeros, or 0, the lowest and the highest that it can become. Size 12. */
typedef struct {
    uint8_t refusal; /* 0 */
    uint32_t lower;  /* 4 */
    uint32_t upper;  /* 8 */
} riksamoe_range_t;

/* What a move of held costs gives: the refusal, or 0, and the floor as the move left it; refused, as it was lent. Size 8. */
typedef struct {
    uint8_t refusal; /* 0 */
    uint32_t floor;  /* 4 */
} riksamoe_moved_t;

/* A number of two words: low + 2^64 times high. Size 16. */
typedef struct {
    uint64_t low;  /* 0 */
    uint64_t high; /* 8 */
} riksamoe_count_t;

/* All units of a table, with the counts: values written down, and deliveries accepted, echoes among them. Size 2,272. */
typedef struct {
    riksamoe_unit_t units[16];   /*    0 */
    riksamoe_count_t records;    /* 2240 */
    riksamoe_count_t deliveries; /* 2256 */
} riksamoe_core_t;

/* A network; its waiting packets stand in the pool, which is lent beside it. Size 2,280. */
typedef struct {
    riksamoe_core_t core; /*    0 */
    uint64_t used;        /* 2272 cells of the pool in use, from cell 0 on */
} riksamoe_network_t;

/* What a network's calls give. Refused: the network as lent, a making's all zero. Size 2,288. */
typedef struct {
    uint8_t refusal;            /* 0 */
    riksamoe_network_t network; /* 8 */
} riksamoe_answer_t;

/* What the calls of a network over slots give. Refused: the core as lent, a making's all zero, a replay's as its last delivery left it. Size
 * 2,280. */
typedef struct {
    uint8_t refusal;      /* 0 */
    riksamoe_core_t core; /* 8 */
} riksamoe_slots_answer_t;

/* ---- The stored table */

/* The check of blocks and packets: the sum of (k + 1) times byte k, modulo 65,521. */
uint32_t riksamoe_checksum(const uint8_t *bytes, size_t length);

/* A block read alone, which must have this number, and be the table's last (any `last` but 0) or not (0): 1, 4, 2, 3. Where it gives 0, the payload is the
 * part of the block from byte 4 on whose length the 16-bit number at byte 2 says. */
uint8_t riksamoe_block_refusal(const uint8_t *block, size_t length, uint16_t number, uint8_t last);

/* A stored table's stream, to the front of `stream` (lend RIKSAMOE_STREAM bytes): 13, 1, then each block 4, 2, 3, then 5, 6, 7. */
riksamoe_length_t riksamoe_table_read(const uint8_t *file, size_t length, uint8_t *stream, size_t room);

/* The stored table of a stream, to the front of `file` (RIKSAMOE_FILE bytes are always enough): 5, 6, 7, 13. */
riksamoe_length_t riksamoe_table_write(const uint8_t *stream, size_t length, uint8_t *file, size_t room);

/* A stored table in form one, or in form two, to the front of `out` (RIKSAMOE_FILE bytes are always enough): 1, each block 4, 2, 3, then
 * 5, 6, 7, 13 (fewer bytes than the blocks needed), 18 (to form one, with a unary cost above 0). One that is in that form comes out as it
 * went in. Proved: there and back gives the first file's bytes. */
riksamoe_length_t riksamoe_to_form_one(const uint8_t *file, size_t length, uint8_t *out, size_t room);
riksamoe_length_t riksamoe_to_form_two(const uint8_t *file, size_t length, uint8_t *out, size_t room);

/* The stream of a table made of readings, the mean fibre diameter of each of n lines in tenths of a micron, 100 to 400: 16-bit numbers, the
 * low byte first, one a line, in `readings`. In the same lot two lines cost what the gap between their readings says, half of it where the
 * later one is finer; in different lots nothing. To the front of `stream` (lend RIKSAMOE_STREAM bytes): 5, 6 (not 2 bytes a line), 17, 13.
 * Proved: riksamoe_table_write and riksamoe_network_make accept it. */
riksamoe_length_t riksamoe_readings_stream(uint8_t n, riksamoe_sizes_t sizes, const uint8_t *readings, size_t length, uint8_t *stream,
                                           size_t room);

/* The stream, in form one, of a tiny table: n units, 2 or 3, of two values each, every pair cost 0 or 1. There are 16 of two units and 4,096 of
 * three; `number` counts them from 0: it is the table's list of pair costs read as a binary number, the first cost as the top digit. To the front of
 * `stream` (lend RIKSAMOE_STREAM bytes): 21, 13. Proved: each such table comes once, and the network, riksamoe_search and
 * riksamoe_branch_and_bound give the same total of it. */
riksamoe_length_t riksamoe_tiny_stream(uint8_t n, uint32_t number, uint8_t *stream, size_t room);

/* How many units a stream says there are, 0 where it is too short to say. It is not checked. */
uint8_t riksamoe_units(const uint8_t *stream, size_t length);

/* The sizes in a stream: the n bytes behind n, 0 past n and past the stream's end. They are not checked; of an n above 16, which every other
 * call refuses by 5, it gives the first 16. */
riksamoe_sizes_t riksamoe_sizes(const uint8_t *stream, size_t length);

/* The costs that touch unit `own`: what each of its values costs alone, 0 in a table of form one, then its pair costs; to the front of `out`
 * (RIKSAMOE_COSTS bytes are always enough): 5, 10, 6, 7, 13. */
riksamoe_length_t riksamoe_costs(const uint8_t *stream, size_t length, uint8_t own, uint8_t *out, size_t room);

/* ---- A box's start from the blocks of its stored table. Lend to every call the state as the call before gave it, and the same
 * RIKSAMOE_COSTS bytes as `costs`. */

/* Unit `own`, before the first block. */
riksamoe_start_t riksamoe_start(uint8_t own);

/* The next block, which is the table's last (any `last` but 0) or not (0). What of it touches the unit is written behind what came before:
 * as riksamoe_costs has it, once the last block is in, and of no use until then. 13 (fewer than RIKSAMOE_COSTS bytes), 1 (not 512 bytes, or
 * 123 blocks are in), 4, 2, 3; with the last block 5, 6, 7 of the whole stream, then 10 (the unit's number). A refused block changes
 * nothing, so it can be read and handed over again. Proved: a file's blocks are refused as riksamoe_table_read and then riksamoe_costs
 * refuse the file, and else give what these give. */
riksamoe_started_t riksamoe_start_block(riksamoe_start_t start, const uint8_t *block, size_t length, uint8_t last, uint8_t *costs,
                                        size_t room);

/* ---- Messages. A box needs neither: making and steps read and write packets themselves. They are for tools that watch the radio. */

/* A packet's kind and fields: 5, 8, 10, 9. */
riksamoe_parsed_t riksamoe_message_parse(uint8_t n, riksamoe_sizes_t sizes, const uint8_t *bytes, size_t length);

/* A packet of 64 bytes to the front of `out`: 5, 10, 9 (no such kind, too), 13. */
uint8_t riksamoe_message_write(uint8_t n, riksamoe_sizes_t sizes, uint8_t kind, riksamoe_message_t message, uint8_t *out, size_t room);

/* ---- One unit. Lend RIKSAMOE_SENDING bytes as `out`; what is sent stands at its front, the bytes behind it stay. With `_by`, values are tried in
 * the order named; without, the cheapest first. */

/* Unit `own` of n, new: 5, 10, 6, 7, 13. Unit 1 sends; for n = 1 it has stopped, and so it has where each of its values is forbidden
 * beside all values of some other unit. */
riksamoe_outcome_t riksamoe_unit_make(uint8_t own, uint8_t n, riksamoe_sizes_t sizes, const uint8_t *costs, size_t costs_length,
                                      uint8_t *out, size_t room);
riksamoe_outcome_t riksamoe_unit_make_by(uint8_t order, uint8_t own, uint8_t n, riksamoe_sizes_t sizes, const uint8_t *costs,
                                         size_t costs_length, uint8_t *out, size_t room);

/* Whether a state is in range, as one that was read back from flash may not be: 5 (n, sizes), 10 (own), 6, 7, 5 (state). A step checks the
 * same before it reads its packet. It depends on the order: a state's counter is at most its own value's place in it. */
uint8_t riksamoe_unit_in_range(riksamoe_unit_t unit, uint8_t own, uint8_t n, riksamoe_sizes_t sizes, const uint8_t *costs,
                               size_t costs_length);
uint8_t riksamoe_unit_in_range_by(uint8_t order, riksamoe_unit_t unit, uint8_t own, uint8_t n, riksamoe_sizes_t sizes,
                                  const uint8_t *costs, size_t costs_length);

/* The unit after a packet: 13, 5 (n, sizes), 10 (own), 6, 7, 5 (state), 8, 10, 9, 12, 11. */
riksamoe_outcome_t riksamoe_unit_step(riksamoe_unit_t unit, uint8_t own, uint8_t n, riksamoe_sizes_t sizes, const uint8_t *costs,
                                      size_t costs_length, const uint8_t *packet, size_t packet_length, uint8_t *out, size_t room);
riksamoe_outcome_t riksamoe_unit_step_by(uint8_t order, riksamoe_unit_t unit, uint8_t own, uint8_t n, riksamoe_sizes_t sizes,
                                         const uint8_t *costs, size_t costs_length, const uint8_t *packet, size_t packet_length,
                                         uint8_t *out, size_t room);

/* The same step, the new state written where the old one was lent: the call for a box. */
riksamoe_report_t riksamoe_unit_step_in_place(riksamoe_unit_t *unit, uint8_t own, uint8_t n, riksamoe_sizes_t sizes,
                                              const uint8_t *costs, size_t costs_length, const uint8_t *packet,
                                              size_t packet_length, uint8_t *out, size_t room);
riksamoe_report_t riksamoe_unit_step_in_place_by(uint8_t order, riksamoe_unit_t *unit, uint8_t own, uint8_t n, riksamoe_sizes_t sizes,
                                                 const uint8_t *costs, size_t costs_length, const uint8_t *packet,
                                                 size_t packet_length, uint8_t *out, size_t room);

/* ---- A network: all units of a table at one place, for tests and trials, where a run can be ordered at will. Lend RIKSAMOE_POOL bytes as
 * `pool`, and to every delivery or echo the same stream and order, the network as the call before gave it and the pool as it left it. */

/* All units, new, and what unit 1 sends in the pool: 5, 6, 7, 13. */
riksamoe_answer_t riksamoe_network_make(const uint8_t *stream, size_t length, uint8_t *pool, size_t room);
riksamoe_answer_t riksamoe_network_make_by(uint8_t order, const uint8_t *stream, size_t length, uint8_t *pool, size_t room);

/* The packet at a cell goes to its unit; later cells move down one, and what the unit sends is added at the end: 13, 5 (n, sizes), 6, 7,
 * 5 (states of units 1 to n, cells in use), 12 (unit 1), 15, 8, 10, 9, 12 (the receiver), 11, 14. Units past n are not looked at and come
 * back as lent. */
riksamoe_answer_t riksamoe_network_deliver(riksamoe_network_t network, const uint8_t *stream, size_t length, uint8_t *pool, size_t room,
                                           uint64_t cell);
riksamoe_answer_t riksamoe_network_deliver_by(uint8_t order, riksamoe_network_t network, const uint8_t *stream, size_t length,
                                              uint8_t *pool, size_t room, uint64_t cell);

/* A packet that was sent is heard again: it goes to its unit; nothing leaves the pool, and what the unit sends is added at the end: 13,
 * 5 (n, sizes), 6, 7, 5 (states of units 1 to n, cells in use), 12 (unit 1), 8, 10, 9, 12 (the receiver), 11, 14. Lend bytes of your own,
 * not a cell of the pool. Units past n are not looked at and come back as lent. The call can't tell an echo from a forgery. */
riksamoe_answer_t riksamoe_network_echo(riksamoe_network_t network, const uint8_t *stream, size_t length, uint8_t *pool, size_t room,
                                        const uint8_t *packet, size_t count);
riksamoe_answer_t riksamoe_network_echo_by(uint8_t order, riksamoe_network_t network, const uint8_t *stream, size_t length,
                                           uint8_t *pool, size_t room, const uint8_t *packet, size_t count);

/* Making, then cell 0 again and again until unit 1 has stopped: 5, 6, 7, 13, as making; proved: it comes to that end, and no delivery on
 * the way is refused. The answer is in unit 1. How long it takes is not bounded by anything short. It keeps the costs of every unit on the stack. */
riksamoe_answer_t riksamoe_network_settle(const uint8_t *stream, size_t length, uint8_t *pool, size_t room);
riksamoe_answer_t riksamoe_network_settle_by(uint8_t order, const uint8_t *stream, size_t length, uint8_t *pool, size_t room);

/* ---- A network over slots: the pool has one cell for each kind, sender and receiver that the rules allow, in that order, and a packet that is sent
 * takes the place of an older one in its cell. n units use the first (n - 1) * (n + 4) cells; a cell is empty where it is all zero. Lend
 * RIKSAMOE_SLOT_POOL bytes as `pool`, and to every delivery the same stream and order, the core as the call before gave it and the pool as it
 * left it.
 *
 * Proved of every run, although an overwritten packet never arrives: until unit 1 has stopped a packet waits, and every one that waits can be
 * delivered; no run goes on for ever; in the end unit 1 has the total and, by the same order of values, the assignment that it has in a
 * network as above; 14 never occurs. */

/* All units, new; the cells that n units use are filled with zeros, then each packet that unit 1 sends goes to its cell: 5, 6, 7, 13. */
riksamoe_slots_answer_t riksamoe_slots_make(const uint8_t *stream, size_t length, uint8_t *pool, size_t room);
riksamoe_slots_answer_t riksamoe_slots_make_by(uint8_t order, const uint8_t *stream, size_t length, uint8_t *pool, size_t room);

/* The packet at a cell goes to its unit; the cell is filled with zeros, then each packet that the unit sends goes to its cell: 13,
 * 5 (n, sizes), 6, 7, 5 (states of units 1 to n), 12 (unit 1), 15 (the cell is empty, or not one of those that n units use), 8, 10, 9 (also a
 * packet in a cell not its own), 12 (the receiver), 11. Units past n are not looked at and come back as lent. */
riksamoe_slots_answer_t riksamoe_slots_deliver(riksamoe_core_t core, const uint8_t *stream, size_t length, uint8_t *pool, size_t room,
                                               uint64_t cell);
riksamoe_slots_answer_t riksamoe_slots_deliver_by(uint8_t order, riksamoe_core_t core, const uint8_t *stream, size_t length,
                                                  uint8_t *pool, size_t room, uint64_t cell);

/* A recorded run, replayed: `list` names cells in the order delivered, two bytes each, the low byte first. They are delivered one after another, up
 * to the first delivery that is refused, whose number is the refusal; the core and the pool are as the deliveries before it left them, and the
 * core's count tells how many these were. An odd `count` is 22, before any other check; an empty list is never refused, whatever else is lent.
 * A list of whole pairs that is cut between two of them, its parts replayed in turn, comes to the same as the whole, if no part before the last is
 * refused; so one that comes slowly, or is too long for the memory, can be replayed as it arrives. `list` with count 0 may be any pointer
 * but null, as above. */
riksamoe_slots_answer_t riksamoe_slots_replay(riksamoe_core_t core, const uint8_t *stream, size_t length, uint8_t *pool, size_t room,
                                              const uint8_t *list, size_t count);
riksamoe_slots_answer_t riksamoe_slots_replay_by(uint8_t order, riksamoe_core_t core, const uint8_t *stream, size_t length,
                                                 uint8_t *pool, size_t room, const uint8_t *list, size_t count);

/* Making, then the lowest cell that is not empty, again and again until unit 1 has stopped: 5, 6, 7, 13, as making; proved: it comes to that
 * end, and no delivery on the way is refused. The answer is in unit 1. How long it takes is not bounded by anything short. */
riksamoe_slots_answer_t riksamoe_slots_settle(const uint8_t *stream, size_t length, uint8_t *pool, size_t room);
riksamoe_slots_answer_t riksamoe_slots_settle_by(uint8_t order, const uint8_t *stream, size_t length, uint8_t *pool, size_t room);

/* The cell of a message of this kind, sender and receiver of n units, n from 1 to 16; RIKSAMOE_SLOTS where the rules allow no such message, or no
 * kind has the number. */
uint64_t riksamoe_slot_of(uint8_t n, uint8_t kind, uint8_t sender, uint8_t receiver);

/* Which of two packets of the same sender, receiver and kind is the newer: 1 for the first, 2 for the second, 0 where they are refused. It is the
 * one with the bigger stamp, of two solutions that with the lower bound; the first on a tie, as two stops are. The refusal, by a call of its
 * own: 5; 8, 10, 9 of the first; 8, 10, 9 of the second; 9 where sender, receiver or kind differ. C can't be handed a part of a
 * buffer, so it gets a number; slots::newer hands Rattle the part.
 *
 * With it a box that can't step at once needs no queue, only a slot for each sender and kind, 19 at most:
 *
 *   1. When a packet arrives, riksamoe_message_parse gives its kind, sender and receiver. Drop it where that refuses it, or it is for another box.
 *   2. If its slot is empty, it goes in. If not, call riksamoe_newer with the packet first and the slot second: 1, it takes the place of the one
 *      there; 2, drop it. It is not 0 here.
 *   3. To step, copy a packet out of its slot, empty the slot, and go on as in 3 at the top.
 *
 * The older of the two is never needed. This is proved of a network over slots, as above, where a packet is overwritten when a fresh one is sent:
 * of these two riksamoe_newer, lent the fresh one first, gives 1. */
uint8_t riksamoe_newer(uint8_t n, riksamoe_sizes_t sizes, const uint8_t *first, size_t first_length, const uint8_t *second,
                       size_t second_length);
uint8_t riksamoe_newer_refusal(uint8_t n, riksamoe_sizes_t sizes, const uint8_t *first, size_t first_length, const uint8_t *second,
                               size_t second_length);

/* ---- The bench: every assignment of a stream's table is tried, so lend it 1,048,576 of them at most, those with a forbidden pair counted
 * too: 5, 6, 7, 16. */
riksamoe_found_t riksamoe_search(const uint8_t *stream, size_t length);

/* The same of any number of assignments, by synchronous branch and bound: values ascending, one dropped as soon as the cost so far reaches the
 * best total: 5, 6, 7. Proved: it ends, and where riksamoe_search takes the table both give the same. How long it takes is not bounded by
 * anything short. */
riksamoe_found_t riksamoe_branch_and_bound(const uint8_t *stream, size_t length);

/* A retest: of a table with this least total, RIKSAMOE_NONE where it has no assignment, one cost, of a value alone or of a pair, becomes `new_cost`
 * where it was `old_cost`: 20. Proved: the new least total, as either search above gives it, lies between the ends, both of them RIKSAMOE_NONE where
 * the old one is. Of several costs that change the lowerings add up for the lower end, which is never below 0, and the raises for the upper one, as
 * long as n, the sizes and the forbidden pairs stay. The upper end may be above 8,160,000. */
riksamoe_range_t riksamoe_ends(uint32_t total, uint32_t old_cost, uint32_t new_cost);

/* ---- Costs pushed forward, before a hard shed: equivalence-preserving transformations. Costs are held in 32 bits, own (unary) costs unit by unit,
 * then the pair costs in the stream's order, RIKSAMOE_BARRED where two values may not meet; beside them a floor, which starts at 0. `length` is
 * how many there are, just as many as n and the sizes need. Units and values count from 1.
 * Proved of each move: for every assignment floor plus total is the same before and after, and no cost is barred or freed. */

/* A table's costs, to the front of `costs` (RIKSAMOE_HELD numbers are always enough): 5, 6, 7, 13. Gives how many. */
riksamoe_length_t riksamoe_hold_costs(const uint8_t *stream, size_t length, uint32_t *costs, size_t room);

/* Binary projection: the least permitted cost of a unit's value with another unit is taken off all these and added to the value's own cost; where all
 * are barred nothing moves: 5, 6, 10 (a unit or value that isn't there, a unit with itself), 19. */
riksamoe_moved_t riksamoe_project(uint32_t *costs, size_t length, uint8_t n, riksamoe_sizes_t sizes, uint32_t floor, uint8_t unit, uint8_t value,
                                  uint8_t other);

/* Unary projection: the least own cost of a unit is taken off all its values and added to the floor: 5, 6, 10, 19. */
riksamoe_moved_t riksamoe_project_unary(uint32_t *costs, size_t length, uint8_t n, riksamoe_sizes_t sizes, uint32_t floor, uint8_t unit);

/* Extension: a part of the own cost of a unit's value goes into all its costs with another unit; barred ones stay: 5, 6, 10, 19. */
riksamoe_moved_t riksamoe_extend(uint32_t *costs, size_t length, uint8_t n, riksamoe_sizes_t sizes, uint32_t floor, uint8_t unit, uint8_t value,
                                 uint8_t other, uint32_t part);

/* Every value of every unit projected with every other unit, then each unit's own costs: 5, 6, 19. It ends at the first move that is refused, and
 * those before it stand, with their floor. */
riksamoe_moved_t riksamoe_project_all(uint32_t *costs, size_t length, uint8_t n, riksamoe_sizes_t sizes, uint32_t floor);

/* The same of a table's costs, which it holds first, and a floor of 0: 5, 6, 7, 13; with these the floor is 0. Proved: no table comes to a 19, and the
 * floor is at most the least total, as riksamoe_branch_and_bound finds it. */
riksamoe_moved_t riksamoe_lower_bound(const uint8_t *stream, size_t length, uint32_t *costs, size_t room);

/* ---- The layouts above, held */

#if defined(__cplusplus) && __cplusplus >= 201103L
#define RIKSAMOE_HOLDS(test) static_assert(test, #test)
#elif defined(__STDC_VERSION__) && __STDC_VERSION__ >= 201112L
#define RIKSAMOE_HOLDS(test) _Static_assert(test, #test)
#else
#define RIKSAMOE_JOIN(a, b) a##b
#define RIKSAMOE_NAME(line) RIKSAMOE_JOIN(riksamoe_holds_, line)
#define RIKSAMOE_HOLDS(test) extern char RIKSAMOE_NAME(__LINE__)[(test) ? 1 : -1]
#endif
RIKSAMOE_HOLDS(sizeof(riksamoe_sizes_t) == 16);
RIKSAMOE_HOLDS(sizeof(riksamoe_length_t) == 16 && offsetof(riksamoe_length_t, length) == 8);
RIKSAMOE_HOLDS(sizeof(riksamoe_start_t) == 32 && offsetof(riksamoe_start_t, stage) == 1 && offsetof(riksamoe_start_t, blocks) == 2);
RIKSAMOE_HOLDS(offsetof(riksamoe_start_t, count) == 4 && offsetof(riksamoe_start_t, n) == 8 && offsetof(riksamoe_start_t, sizes) == 9);
RIKSAMOE_HOLDS(offsetof(riksamoe_start_t, row) == 25 && offsetof(riksamoe_start_t, left) == 28 && offsetof(riksamoe_start_t, refusal) == 30);
RIKSAMOE_HOLDS(sizeof(riksamoe_started_t) == 48 && offsetof(riksamoe_started_t, length) == 8 && offsetof(riksamoe_started_t, start) == 16);
RIKSAMOE_HOLDS(sizeof(riksamoe_message_t) == 60 && offsetof(riksamoe_message_t, stamp) == 2);
RIKSAMOE_HOLDS(offsetof(riksamoe_message_t, values) == 18 && offsetof(riksamoe_message_t, cost) == 36);
RIKSAMOE_HOLDS(offsetof(riksamoe_message_t, bound) == 40 && offsetof(riksamoe_message_t, best) == 44);
RIKSAMOE_HOLDS(sizeof(riksamoe_parsed_t) == 64 && offsetof(riksamoe_parsed_t, message) == 4);
RIKSAMOE_HOLDS(sizeof(riksamoe_unit_t) == 140 && offsetof(riksamoe_unit_t, threshold) == 0);
RIKSAMOE_HOLDS(offsetof(riksamoe_unit_t, bound) == 16 && offsetof(riksamoe_unit_t, best) == 20);
RIKSAMOE_HOLDS(offsetof(riksamoe_unit_t, estimates) == 36 && offsetof(riksamoe_unit_t, stamp) == 100);
RIKSAMOE_HOLDS(offsetof(riksamoe_unit_t, values) == 116 && offsetof(riksamoe_unit_t, cost) == 132);
RIKSAMOE_HOLDS(offsetof(riksamoe_unit_t, counter) == 136 && offsetof(riksamoe_unit_t, stopped) == 137);
RIKSAMOE_HOLDS(sizeof(riksamoe_outcome_t) == 148 && offsetof(riksamoe_outcome_t, unit) == 4);
RIKSAMOE_HOLDS(offsetof(riksamoe_outcome_t, sent) == 144 && offsetof(riksamoe_outcome_t, records) == 145);
RIKSAMOE_HOLDS(sizeof(riksamoe_report_t) == 3);
RIKSAMOE_HOLDS(sizeof(riksamoe_moved_t) == 8 && offsetof(riksamoe_moved_t, floor) == 4);
RIKSAMOE_HOLDS(sizeof(riksamoe_count_t) == 16 && sizeof(riksamoe_core_t) == 2272);
RIKSAMOE_HOLDS(offsetof(riksamoe_core_t, records) == 2240 && offsetof(riksamoe_core_t, deliveries) == 2256);
RIKSAMOE_HOLDS(sizeof(riksamoe_network_t) == 2280 && offsetof(riksamoe_network_t, used) == 2272);
RIKSAMOE_HOLDS(sizeof(riksamoe_answer_t) == 2288 && offsetof(riksamoe_answer_t, network) == 8);
RIKSAMOE_HOLDS(sizeof(riksamoe_slots_answer_t) == 2280 && offsetof(riksamoe_slots_answer_t, core) == 8);
RIKSAMOE_HOLDS(sizeof(riksamoe_found_t) == 24 && offsetof(riksamoe_found_t, total) == 4 && offsetof(riksamoe_found_t, values) == 8);
RIKSAMOE_HOLDS(sizeof(riksamoe_range_t) == 12 && offsetof(riksamoe_range_t, lower) == 4 && offsetof(riksamoe_range_t, upper) == 8);

#ifdef __cplusplus
}
#endif

#endif
