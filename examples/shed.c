/* A shed of boxes in C: every box is one unit, all it knows of the others is the packets that reach it.
 *
 *     shed FILE      FILE: a stored table, as harness/vectors/t.table
 *
 * The radio is a queue here: what was sent first arrives first. The calls are told no order of values, so the boxes try the cheapest first, and
 * it prints what the shed program prints with the argument `cheapest`: the least total, each unit's value, and how many records were written and
 * packets accepted by the time box 1 stopped. scripts/examples builds and runs it. */
#include "../include/riksamoe.h"

#include <stdio.h>
#include <stdlib.h>
#include <string.h>

/* ---- the radio */

#define WAITING 1024
static uint8_t air[WAITING][RIKSAMOE_PACKET];
static size_t first, waiting;

static void fail(const char *what, unsigned number)
{
    fprintf(stderr, "%s %u\n", what, number);
    exit(1);
}

static void transmit(const uint8_t *packet)
{
    if (waiting == WAITING)
        fail("packets waiting:", WAITING);
    memcpy(air[(first + waiting) % WAITING], packet, RIKSAMOE_PACKET);
    waiting++;
}

/* ---- a box: what it is lent at start, and the state that it keeps */

struct box {
    uint8_t own, n;
    riksamoe_sizes_t sizes;
    uint8_t costs[RIKSAMOE_COSTS];
    size_t costs_length;
    riksamoe_unit_t unit;
};

static struct box boxes[RIKSAMOE_UNITS];
static unsigned records, accepted;

static void transmit_all(const uint8_t *out, unsigned sent)
{
    for (unsigned k = 0; k < sent; k++)
        transmit(out + RIKSAMOE_PACKET * k);
}

/* Power on: the box takes its part of the table, and unit 1 sends its first packets. */
static void start(struct box *box, uint8_t own, const uint8_t *stream, size_t length)
{
    uint8_t out[RIKSAMOE_SENDING];
    box->own = own;
    box->n = riksamoe_units(stream, length);
    box->sizes = riksamoe_sizes(stream, length);
    riksamoe_length_t costs = riksamoe_costs(stream, length, own, box->costs, sizeof box->costs);
    if (costs.refusal != 0)
        fail("refused", costs.refusal);
    box->costs_length = costs.length;
    riksamoe_outcome_t made =
        riksamoe_unit_make(own, box->n, box->sizes, box->costs, box->costs_length, out, sizeof out);
    if (made.refusal != RIKSAMOE_ACCEPTED)
        fail("refused", made.refusal);
    box->unit = made.unit;
    records += made.records;
    transmit_all(out, made.sent);
}

/* A packet has arrived: this is all that a box does from then on. */
static void receive(struct box *box, const uint8_t *packet, size_t length)
{
    uint8_t out[RIKSAMOE_SENDING];
    riksamoe_report_t report = riksamoe_unit_step_in_place(&box->unit, box->own, box->n, box->sizes, box->costs,
                                                           box->costs_length, packet, length, out, sizeof out);
    if (report.refusal == RIKSAMOE_STOPPED)
        return; /* a late packet to a box that has stopped */
    if (report.refusal != RIKSAMOE_ACCEPTED)
        fail("refused", report.refusal);
    records += report.records;
    accepted++;
    transmit_all(out, report.sent);
}

/* Takes the packet that was sent first to the box that it is for. */
static void carry(void)
{
    uint8_t packet[RIKSAMOE_PACKET];
    if (waiting == 0)
        fail("nothing waits, and box 1 has not stopped: packets accepted", accepted);
    memcpy(packet, air[first], RIKSAMOE_PACKET);
    first = (first + 1) % WAITING;
    waiting--;
    receive(&boxes[packet[2] - 1], packet, sizeof packet);
}

/* ---- the shed */

static size_t load(const char *path, uint8_t *stream)
{
    static uint8_t file[RIKSAMOE_FILE + 1]; /* one more, so that a longer file is refused */
    FILE *in = fopen(path, "rb");
    if (in == NULL) {
        perror(path);
        exit(1);
    }
    size_t length = fread(file, 1, sizeof file, in);
    fclose(in);
    riksamoe_length_t read = riksamoe_table_read(file, length, stream, RIKSAMOE_STREAM);
    if (read.refusal != RIKSAMOE_ACCEPTED)
        fail("refused", read.refusal);
    return read.length;
}

int main(int count, char **words)
{
    static uint8_t stream[RIKSAMOE_STREAM];
    if (count != 2) {
        fprintf(stderr, "usage: shed FILE\n");
        return 2;
    }
    size_t length = load(words[1], stream);
    uint8_t n = riksamoe_units(stream, length);
    for (uint8_t own = 1; own <= n; own++)
        start(&boxes[own - 1], own, stream, length);
    while (!boxes[0].unit.stopped)
        carry();
    if (boxes[0].unit.bound == RIKSAMOE_NONE)
        printf("total none\n"); /* every assignment has a forbidden pair */
    else
        printf("total %u\n", (unsigned)boxes[0].unit.bound);
    for (uint8_t own = 1; own <= n; own++)
        printf("unit %u value %u\n", own, boxes[0].unit.best[own - 1]);
    printf("records %u deliveries %u\n", records, accepted);

    /* What box 1 sent last tells the others: in the end all have the same answer. */
    while (waiting > 0)
        carry();
    for (uint8_t own = 2; own <= n; own++) {
        const riksamoe_unit_t *unit = &boxes[own - 1].unit;
        if (!unit->stopped || unit->bound != boxes[0].unit.bound || memcmp(unit->best, boxes[0].unit.best, 16) != 0)
            fail("another answer in box", own);
    }
    return 0;
}
