/* The archive's KISS calls and the plain C in one process, on the same packets, data and lines, in turns. A time is the best of many
   short rounds. Prints a table; the times are measured and not judged, but both have to give the same answers.
   usage: kiss_speed ROUNDS [JSON]: so many rounds of each, and for a line one for each five of them; the file JSON gets the table's
   figures */
#define _GNU_SOURCE
#include <stdio.h>
#include <stdlib.h>
#include <string.h>

#include "ax25.h"
#include "clock.h"
#include "draw.h"
#include "plain_kiss.h"
#include "plain_stream.h"

enum { MOST = 65536, PACKET = 2 * MOST + 3, ROUND_NS = 200000, LINE = 1000000, LINE_DATA = 256 };

static const size_t sizes[] = {64, 256, 1024, 4096, 16384, MOST};
static const struct {
    enum filling filling;
    const char *name;
} kinds[] = {{TEXT, "text"}, {ANY_OCTETS, "random octets"}, {ALL_C0, "all C0"}};

/* What a line gives: packets of LINE_DATA octets of data with this type octet, or noise; and whether any are given out or dropped. */
static const size_t pieces[] = {1, 7, 64, 4096};
static const struct {
    enum filling filling;
    const char *name;
    int noise;
    uint8_t type;
    int given, dropped;
} line_kinds[] = {{TEXT, "text", 0, 0x50, 1, 0},
                  {ANY_OCTETS, "random octets", 0, 0x50, 1, 0},
                  {ALL_C0, "all C0", 0, 0x50, 1, 0},
                  {TEXT, "text, dropped", 0, 0x01, 0, 1},
                  {ANY_OCTETS, "noise, no C0", 1, 0, 0, 0}};
#define COUNT(list) (sizeof(list) / sizeof *(list))

/* Two calls of the same name: [0] the archive's, [1] the plain C's. */
static uint32_t (*const reads[2])(const uint8_t *, size_t, uint8_t *, size_t, uint8_t *, size_t *) = {ax25_kiss_read, plain_kiss_read};
static uint32_t (*const writes[2])(uint8_t, const uint8_t *, size_t, uint8_t *, size_t, size_t *) = {ax25_kiss_write, plain_kiss_write};

static size_t (*const feeds[2])(struct ax25_kiss_stream *, const uint8_t *, size_t, struct ax25_kiss_packet *) = {ax25_kiss_feed, plain_kiss_feed};

static uint8_t data[MOST], packet[PACKET], out[2][PACKET], line[LINE];
static struct ax25_kiss_stream streams[2];

/* One of the calls on one input, and what it gives. */
enum call { READ, WRITE, FEED };
static const char *const call_names[] = {"read", "write", "feed"};
struct job {
    enum call call;
    const char *kind;
    size_t octets, piece; /* of the data or of the line, and of each piece; 0 where it is whole */
    const uint8_t *in;
    size_t len;
};

struct answer {
    uint32_t number;
    uint8_t port;
    size_t length;
};

/* All of a line, as its owner reads it; gives how many packets there are. */
static size_t feed_all(const struct job *job, int which) {
    struct ax25_kiss_packet given;
    size_t packets = 0;
    memset(&streams[which], 0, sizeof streams[which]);
    for (size_t at = 0; at < job->len;) {
        size_t end = job->len - at < job->piece ? job->len : at + job->piece;
        while (at < end) {
            at += feeds[which](&streams[which], job->in + at, end - at, &given);
            packets += given.ready;
        }
    }
    return packets;
}

static struct answer run(const struct job *job, int which) {
    struct answer a = {0, 0, 0};
    if (job->call == FEED) a.length = feed_all(job, which);
    else if (job->call == WRITE) a.number = writes[which](5, job->in, job->len, out[which], PACKET, &a.length);
    else a.number = reads[which](job->in, job->len, out[which], PACKET, &a.port, &a.length);
    return a;
}

/* Both side by side, call by call: the packets, their data, and all of the state. */
static int same_feeding(const struct job *job) {
    struct ax25_kiss_packet given[2];
    memset(streams, 0, sizeof streams);
    for (size_t at = 0; at < job->len;) {
        size_t end = job->len - at < job->piece ? job->len : at + job->piece;
        while (at < end) {
            size_t taken[2];
            for (int which = 0; which < 2; which++) taken[which] = feeds[which](&streams[which], job->in + at, end - at, &given[which]);
            if (taken[0] != taken[1] || taken[0] == 0 || memcmp(&given[0], &given[1], sizeof given[0]) != 0) return 0;
            if (given[0].ready && memcmp(streams[0].data, streams[1].data, given[0].length) != 0) return 0;
            at += taken[0];
        }
    }
    return memcmp(&streams[0], &streams[1], sizeof streams[0]) == 0;
}

static int same_answers(const struct job *job) {
    if (job->call == FEED) return same_feeding(job);
    memset(out, 0x5A, sizeof out);
    struct answer a = run(job, 0), b = run(job, 1);
    return a.number == 0 && b.number == 0 && a.port == b.port && a.length == b.length && memcmp(out[0], out[1], PACKET) == 0;
}

/* The nanoseconds of one call, over a round of `calls`. */
static double time_round(const struct job *job, int which, unsigned long calls) {
    double start = now();
    for (unsigned long n = calls; n > 0; n--) run(job, which);
    return (now() - start) / (double)calls;
}

static void time_both(const struct job *job, unsigned long rounds, double best[2]) {
    double once = time_round(job, 1, 3);
    unsigned long calls = once < ROUND_NS ? 1 + (unsigned long)(ROUND_NS / (once + 1)) : 1;
    best[0] = best[1] = 1e18;
    for (unsigned long n = 0; n < 2 * rounds; n++) {
        int which = (int)((n + n / 2) % 2); /* each goes first as often as the other */
        double took = time_round(job, which, calls);
        if (took < best[which]) best[which] = took;
    }
}

/* One row. `json` is NULL where no file is asked for. */
static int measure(const struct job *job, unsigned long rounds, FILE *json) {
    static int row;
    double best[2];
    const char *call = call_names[job->call];
    if (!same_answers(job)) {
        printf("FAILED: the archive and the plain C do not give the same: %s, %s, %zu octets in pieces of %zu\n", call, job->kind, job->octets, job->piece);
        return 0;
    }
    time_both(job, rounds, best);
    printf("%-6s %-14s %8zu %6zu %12.0f %12.0f %8.2f\n", call, job->kind, job->octets, job->piece, best[0], best[1], best[1] / best[0]);
    if (json)
        fprintf(json, "%s\n  {\"call\": \"%s\", \"data\": \"%s\", \"octets\": %zu, \"piece\": %zu, \"port_ns\": %.1f, \"plain_ns\": %.1f, \"ratio\": %.3f}",
                row++ ? "," : "", call, job->kind, job->octets, job->piece, best[0], best[1], best[1] / best[0]);
    return 1;
}

static int measure_packets(unsigned long rounds, FILE *json) {
    int held = 1;
    for (size_t k = 0; k < COUNT(kinds); k++)
        for (size_t s = 0; s < COUNT(sizes); s++) {
            fill(data, sizes[s], kinds[k].filling);
            struct job job = {WRITE, kinds[k].name, sizes[s], 0, data, sizes[s]};
            held &= measure(&job, rounds, json);
            struct job back = {READ, kinds[k].name, sizes[s], 0, packet, 0};
            plain_kiss_write(5, data, sizes[s], packet, PACKET, &back.len);
            held &= measure(&back, rounds, json);
        }
    return held;
}

/* What is left behind the last packet is filled with C0. */
static void make_line(size_t kind) {
    size_t at = 0, length;
    memset(line, 0xC0, LINE);
    if (line_kinds[kind].noise) fill(line, LINE, line_kinds[kind].filling);
    for (size_t i = 0; line_kinds[kind].noise && i < LINE; i++)
        if (line[i] == 0xC0) line[i] = 0xDB;
    while (!line_kinds[kind].noise && LINE - at >= 2 * LINE_DATA + 3) {
        fill(data, LINE_DATA, line_kinds[kind].filling);
        plain_kiss_write(5, data, LINE_DATA, line + at, LINE - at, &length);
        line[at + 1] = line_kinds[kind].type;
        at += length;
    }
}

static int measure_lines(unsigned long rounds, FILE *json) {
    int held = 1;
    for (size_t k = 0; k < COUNT(line_kinds); k++) {
        make_line(k);
        for (size_t p = 0; p < COUNT(pieces); p++) {
            struct job job = {FEED, line_kinds[k].name, LINE, pieces[p], line, LINE};
            held &= measure(&job, (rounds + 4) / 5, json);
            if ((feed_all(&job, 1) > 0) != line_kinds[k].given || (streams[1].dropped > 0) != line_kinds[k].dropped) {
                printf("FAILED: the line is not what its name says: %s\n", line_kinds[k].name);
                held = 0;
            }
        }
    }
    return held;
}

int main(int argc, char **argv) {
    unsigned long rounds = argc > 1 ? strtoul(argv[1], NULL, 10) : 0;
    FILE *json = argc > 2 ? fopen(argv[2], "w") : NULL;
    if (rounds == 0 || argc > 3 || (argc == 3 && !json)) {
        fprintf(stderr, "usage: kiss_speed ROUNDS [JSON]\n");
        return 2;
    }
    draw_from(0xA25);
    if (json) fprintf(json, "{\"compiler\": \"%s\", \"rows\": [", COMPILER);
    printf("%-6s %-14s %8s %6s %12s %12s %8s\n", "call", "data", "octets", "piece", "port ns", "plain C ns", "C / port");
    int held = measure_packets(rounds, json);
    held &= measure_lines(rounds, json);
    if (json) fprintf(json, "\n]}\n");
    if (json && fclose(json) != 0) held = 0;
    if (held) printf("ok: the archive and the plain C give the same on all of these\n");
    return held ? 0 : 1;
}
