/* One box in C: this process is one unit, and all it knows of the others is the datagrams that reach it.
 *
 *     box NUMBER TABLE FOLDER [cheapest]      TABLE: a stored table, as harness/vectors/t.table
 *
 * The radio is a socket of Unix datagrams: the box listens at FOLDER/NUMBER, and what it sends goes to FOLDER/air, which carries it to the box
 * that byte 2 names. Values are tried ascending, or the cheapest first. The box prints a line when it has stopped, goes on listening, as
 * late packets are refused by 12, until its standard input ends (that is its switch), and prints what it counted:
 *
 *     box 2 total 2 values 2 1
 *     box 2 heard 9 accepted 5 sent 6 records 3 refused 8:3 12:1
 *
 * scripts/radio builds it, and runs it among others. */
#define _POSIX_C_SOURCE 200809L
#include "../include/riksamoe.h"

#include <errno.h>
#include <fcntl.h>
#include <poll.h>
#include <stdio.h>
#include <stdlib.h>
#include <string.h>
#include <sys/socket.h>
#include <sys/un.h>
#include <time.h>
#include <unistd.h>

static void fail(const char *what)
{
    perror(what);
    exit(1);
}

static void accept_only(uint8_t refusal)
{
    if (refusal == RIKSAMOE_ACCEPTED)
        return;
    fprintf(stderr, "refused %u\n", refusal);
    exit(1);
}

/* ---- the box: what it keeps of the table, its state, and what it counts */

static struct {
    uint8_t own, n, order;
    riksamoe_sizes_t sizes;
    uint8_t costs[RIKSAMOE_COSTS];
    size_t costs_length;
    riksamoe_unit_t unit;
} box;

static struct {
    unsigned long heard, accepted, sent, records, refused[256];
} counted;

/* ---- the stored table */

/* The next block of the file, straight into `block`: no library keeps a part of it in a buffer. At the end of the file it is shorter. */
static size_t read_block(int in, const char *path, uint8_t *block)
{
    size_t length = 0;
    ssize_t more;
    while (length < RIKSAMOE_BLOCK && (more = read(in, block + length, RIKSAMOE_BLOCK - length)) != 0) {
        if (more < 0)
            fail(path);
        length += (size_t)more;
    }
    return length;
}

/* Overwrites bytes that nobody reads again, which a compiler would leave out. */
static void wipe(volatile uint8_t *bytes, size_t length)
{
    while (length > 0)
        bytes[--length] = 0;
}

/* Out of the stored table the box keeps n, the sizes and the costs that touch it. It takes the file's blocks one after the other, and the last
 * two that it holds are gone when this returns. */
static void keep_own(const char *path)
{
    uint8_t blocks[2][RIKSAMOE_BLOCK]; /* one that is handed over, and the next, which tells whether it is the last */
    riksamoe_started_t now = {.start = riksamoe_start(box.own)};
    int in = open(path, O_RDONLY);
    if (in < 0)
        fail(path);
    size_t length = read_block(in, path, blocks[0]), next;
    for (unsigned k = 0;; k ^= 1, length = next) {
        next = read_block(in, path, blocks[k ^ 1]);
        now = riksamoe_start_block(now.start, blocks[k], length, next == 0, box.costs, sizeof box.costs);
        accept_only(now.refusal);
        if (next == 0)
            break;
    }
    close(in);
    box.n = now.start.n;
    box.sizes = now.start.sizes;
    box.costs_length = now.length;
    wipe(blocks[0], sizeof blocks);
}

/* ---- the radio */

static struct sockaddr_un address(const char *folder, const char *name)
{
    struct sockaddr_un it = {.sun_family = AF_UNIX};
    int length = snprintf(it.sun_path, sizeof it.sun_path, "%s/%s", folder, name);
    if (length < 0 || (size_t)length >= sizeof it.sun_path) {
        errno = ENAMETOOLONG;
        fail(folder);
    }
    return it;
}

static void nap(void)
{
    struct timespec moment = {.tv_nsec = 5000000};
    nanosleep(&moment, NULL);
}

/* The box's own socket, which hears the air alone. The air may come up later than the box: it is waited for, ten seconds at most. */
static int tune(const char *folder, const char *own)
{
    struct sockaddr_un here = address(folder, own), air = address(folder, "air");
    int radio = socket(AF_UNIX, SOCK_DGRAM, 0);
    if (radio < 0 || bind(radio, (struct sockaddr *)&here, sizeof here) != 0)
        fail(here.sun_path);
    for (int tries = 0; connect(radio, (struct sockaddr *)&air, sizeof air) != 0; tries++) {
        if ((errno != ENOENT && errno != ECONNREFUSED) || tries == 2000)
            fail(air.sun_path);
        nap();
    }
    return radio;
}

/* Sends what a call has put into `out`. Where the air takes no more, sending waits; nothing is dropped. */
static void transmit(int radio, const uint8_t *out, unsigned packets)
{
    for (const uint8_t *packet = out; packet < out + RIKSAMOE_PACKET * packets;) {
        if (send(radio, packet, RIKSAMOE_PACKET, 0) == RIKSAMOE_PACKET)
            packet += RIKSAMOE_PACKET;
        else if (errno == ENOBUFS)
            nap(); /* some systems don't wait by themselves */
        else if (errno != EINTR)
            fail("send");
    }
    counted.sent += packets;
}

/* ---- what a box does */

/* The box's answer, told once, by when its last packets have been sent. */
static void tell_if_stopped(void)
{
    static int told;
    if (told || !box.unit.stopped)
        return;
    told = 1;
    printf("box %u total ", box.own);
    if (box.unit.bound == RIKSAMOE_NONE)
        printf("none values"); /* every assignment has a forbidden pair */
    else
        printf("%lu values", (unsigned long)box.unit.bound);
    for (unsigned k = 0; k < box.n; k++)
        printf(" %u", box.unit.best[k]);
    printf("\n");
    fflush(stdout);
}

/* Power on: unit 1 sends its first packets. */
static void start(int radio)
{
    uint8_t out[RIKSAMOE_SENDING];
    riksamoe_outcome_t made = riksamoe_unit_make_by(box.order, box.own, box.n, box.sizes, box.costs, box.costs_length, out, sizeof out);
    accept_only(made.refusal);
    box.unit = made.unit;
    counted.records += made.records;
    transmit(radio, out, made.sent);
    tell_if_stopped();
}

/* A datagram has arrived, and is lent as it came, however long. A refused one changes nothing, which is looked at here although it is proved. */
static void receive(int radio, const uint8_t *datagram, size_t length)
{
    uint8_t out[RIKSAMOE_SENDING];
    riksamoe_unit_t before = box.unit;
    riksamoe_report_t report = riksamoe_unit_step_in_place_by(box.order, &box.unit, box.own, box.n, box.sizes, box.costs,
                                                              box.costs_length, datagram, length, out, sizeof out);
    counted.heard++;
    if (report.refusal != RIKSAMOE_ACCEPTED) {
        counted.refused[report.refusal]++;
        if (memcmp(&before, &box.unit, offsetof(riksamoe_unit_t, stopped) + 1) != 0) {
            fprintf(stderr, "box %u is changed by a packet that it refuses by %u\n", box.own, report.refusal);
            exit(1);
        }
        return;
    }
    counted.accepted++;
    counted.records += report.records;
    transmit(radio, out, report.sent);
    tell_if_stopped();
}

/* Listens until the box is switched off and nothing waits any more. */
static void listen_on(int radio)
{
    uint8_t datagram[128]; /* what is longer is cut, and is still no packet */
    uint8_t byte;
    for (;;) {
        struct pollfd either[2] = {{.fd = radio, .events = POLLIN}, {.fd = STDIN_FILENO, .events = POLLIN}};
        if (poll(either, 2, -1) < 0 && errno != EINTR)
            fail("poll");
        if (either[0].revents != 0) {
            ssize_t length = recv(radio, datagram, sizeof datagram, 0);
            if (length < 0)
                fail("recv");
            receive(radio, datagram, (size_t)length);
        } else if (either[1].revents != 0 && read(STDIN_FILENO, &byte, 1) <= 0)
            return;
    }
}

/* What the words ask for: 1 where the box understands them, else 0. */
static int asked(int count, char **words)
{
    char *end;
    if (count < 4 || count > 5 || (count == 5 && strcmp(words[4], "cheapest") != 0))
        return 0;
    unsigned long own = strtoul(words[1], &end, 10);
    if (*end != '\0' || own > 255)
        return 0;
    box.own = (uint8_t)own;
    box.order = count == 5 ? RIKSAMOE_CHEAPEST_FIRST : RIKSAMOE_ASCENDING;
    return 1;
}

int main(int count, char **words)
{
    if (!asked(count, words)) {
        fprintf(stderr, "usage: box NUMBER TABLE FOLDER [cheapest]\n");
        return 2;
    }
    keep_own(words[2]);
    int radio = tune(words[3], words[1]);
    start(radio);
    listen_on(radio);

    printf("box %u heard %lu accepted %lu sent %lu records %lu refused", box.own, counted.heard, counted.accepted, counted.sent, counted.records);
    for (unsigned number = 0; number < 256; number++)
        if (counted.refused[number] != 0)
            printf(" %u:%lu", number, counted.refused[number]);
    printf("\n");
    return 0;
}
