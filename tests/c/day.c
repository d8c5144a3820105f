/* A day's captures (document 02, M-111): one call of ax25_captures, and a loop in C that calls ax25_decode and ax25_canonical for each part and
   stores what they give, in one process on the same records, in turns, in the short mode. The loop looks whether a part is inside the
   buffer, as any caller of the two has to; it does without the kind, which no single call gives. A time is the best of several rounds. Prints
   a table; the times are measured and not judged, but before that both have to give the same number, canonical or not, of every record.
   usage: day RECORDS ROUNDS [JSON]: so many records in a call, and so many rounds of each; the file JSON gets the table's figures */
#define _GNU_SOURCE
#include <stdio.h>
#include <stdlib.h>
#include <string.h>

#include "ax25.h"
#include "callsigns.h"
#include "clock.h"
#include "draw.h"
#include "say.h"

#define COUNT(list) (sizeof(list) / sizeof *(list))

/* Address fields with 0, 1, 2 and 8 repeaters, and with one more than there may be. */
#define PEERS GAUGE "E0 " BOX12 "67 "
#define ONE GAUGE "E0 " BOX12 "66 " HILL1 "E5 "
#define TWO GAUGE "E0 " BOX12 "66 " HILL1 "E4 " HILL2 "63 "
#define FOUR HILL1 "E4 " HILL2 "E2 " HILL5 "E2 " HILL6 "E2 "
#define EIGHT GAUGE "E0 " BOX12 "66 " FOUR HILL1 "64 " HILL2 "62 " HILL5 "62 " HILL6 "63 "
#define NINE GAUGE "E0 " BOX12 "66 " FOUR FOUR HILL1 "65 "
#define UI_CONTENT "03 F0 4F 4B "
#define TEN_OCTETS "4C 45 56 45 4C 20 33 2E 32 30 "

static const char *const fields[] = {PEERS, ONE, TWO, EIGHT};
/* Content of every kind, of frames that are not canonical, and of refusals; then inputs that are refused before their content. */
static const char *const contents[] = {"00 F0 4F 4B", "01", "05", "09", "0D", "2F", "6F", "43", "0F", "63", "87 01 02 44", UI_CONTENT, "AF 82 80",
                                       "E3 4F 4B", "01 AA", "87 F1 03 44", "", "03", "07", "87 01 02"};
static const char *const refused[] = {"", "00 00", GAUGE, "8F " BOX12, NINE "01", "00 " PEERS UI_CONTENT};

/* A day of parts that repeat, so that the buffer stays small: copies of one frame, in their order, or where there is none the mix of all
   that stands above and of parts outside the buffer, in an order that is drawn. */
static const struct {
    const char *name, *frame;
    unsigned kind;
} days[] = {
    {"UI of 18 octets", PEERS UI_CONTENT, AX25_KIND_UI},
    {"UI of 25 octets, 1 repeater", ONE UI_CONTENT, AX25_KIND_UI},
    {"I of 100 octets, 8 repeaters", EIGHT "00 F0 " TEN_OCTETS TEN_OCTETS "41 42 43 44 45 46 47 48", AX25_KIND_I},
    {"a mix of all kinds and refusals", NULL, 0},
};

enum { COPIES = 64, MOST_PARTS = 128, CHUNK = 4096, KINDS = 14 };
static uint8_t buffer[16384];
static size_t buffer_len, part_count;
static struct ax25_capture parts[MOST_PARTS], *records;
static size_t count;

static void by_loop(const uint8_t *in, size_t in_len, struct ax25_capture *of, size_t many) {
    for (size_t i = 0; i < many; i++) {
        size_t start = of[i].start, length = of[i].length;
        if (start > in_len || length > in_len - start) {
            of[i].number = AX25_PART_OUTSIDE;
            of[i].canonical = 0;
        } else {
            of[i].number = ax25_decode(in + start, length);
            of[i].canonical = (uint16_t)ax25_canonical(in + start, length);
        }
    }
}

static void put_part(const char *field, const char *content) {
    size_t start = buffer_len;
    buffer_len += from_hex(field, buffer + buffer_len);
    buffer_len += from_hex(content, buffer + buffer_len);
    parts[part_count++] = (struct ax25_capture){start, buffer_len - start, 0, 0, 0};
}

static void make_mix(void) {
    for (size_t f = 0; f < COUNT(fields); f++)
        for (size_t c = 0; c < COUNT(contents); c++) put_part(fields[f], contents[c]);
    for (size_t i = 0; i < COUNT(refused); i++) put_part(refused[i], "");
    parts[part_count++] = (struct ax25_capture){buffer_len, 18, 0, 0, 0};
    parts[part_count++] = (struct ax25_capture){SIZE_MAX, 18, 0, 0, 0};
}

static void make_day(size_t which) {
    buffer_len = part_count = 0;
    if (!days[which].frame) make_mix();
    else
        for (size_t i = 0; i < COPIES; i++) put_part(days[which].frame, "");
    draw_from(0x111);
    for (size_t i = 0; i < count; i++) records[i] = parts[days[which].frame ? i % part_count : below((unsigned)part_count)];
}

/* Whether the records are what the name of the day says: all of them one frame, canonical, of its length and kind; or each kind, frames that
   are not canonical, and refusals, parts outside among them. */
static int is_as_named(size_t which) {
    size_t met[KINDS] = {0}, accepted = 0, canonical = 0, outside = 0, kinds = 0;
    for (size_t i = 0; i < count; i++) {
        if (records[i].kind >= KINDS) return 0;
        accepted += records[i].number == AX25_ACCEPTED;
        canonical += records[i].canonical;
        outside += records[i].number == AX25_PART_OUTSIDE;
        met[records[i].kind] += records[i].number == AX25_ACCEPTED;
    }
    for (size_t kind = 0; kind < KINDS; kind++) kinds += met[kind] > 0;
    if (days[which].frame)
        return canonical == count && met[days[which].kind] == count && parts[0].length == strtoul(strpbrk(days[which].name, "0123456789"), NULL, 10);
    return kinds == KINDS && canonical > 0 && canonical < accepted && accepted + outside < count && outside > 0;
}

/* All that the call gave, beside what the loop gives of the same parts: it is run on copies, a chunk at a time. */
static int gives_the_same(void) {
    static struct ax25_capture chunk[CHUNK];
    for (size_t i = 0; i < count; i++) records[i].number = records[i].canonical = records[i].kind = 0xA5A5;
    ax25_captures(buffer, buffer_len, 0, records, count);
    for (size_t at = 0; at < count; at += CHUNK) {
        size_t many = count - at < CHUNK ? count - at : CHUNK;
        memcpy(chunk, records + at, many * sizeof *chunk);
        for (size_t i = 0; i < many; i++) chunk[i].number = chunk[i].canonical = 0x5A5A;
        by_loop(buffer, buffer_len, chunk, many);
        for (size_t i = 0; i < many; i++)
            if (chunk[i].number != records[at + i].number || chunk[i].canonical != records[at + i].canonical) return 0;
    }
    return 1;
}

/* The nanoseconds by record, of the call and of the loop. */
static void time_both(unsigned long rounds, double best[2]) {
    best[0] = best[1] = 1e18;
    for (unsigned long n = 0; n < 2 * rounds; n++) {
        double start = now();
        if (n % 2) by_loop(buffer, buffer_len, records, count);
        else ax25_captures(buffer, buffer_len, 0, records, count);
        double took = (now() - start) / (double)count;
        if (took < best[n % 2]) best[n % 2] = took;
    }
}

/* One row. `json` is NULL where no file is asked for. */
static int measure(size_t which, unsigned long rounds, FILE *json) {
    double best[2];
    make_day(which);
    if (!gives_the_same()) {
        printf("FAILED: the call and the loop do not give the same: %s\n", days[which].name);
        return 0;
    }
    if (!is_as_named(which)) {
        printf("FAILED: the records are not what their name says: %s\n", days[which].name);
        return 0;
    }
    time_both(rounds, best);
    printf("%-32s %10zu %10.2f %10.2f %8.2f\n", days[which].name, buffer_len, best[0], best[1], best[1] / best[0]);
    if (json)
        fprintf(json, "%s\n  {\"parts\": \"%s\", \"buffer\": %zu, \"port_ns\": %.3f, \"loop_ns\": %.3f, \"ratio\": %.3f}", which ? "," : "",
                days[which].name, buffer_len, best[0], best[1], best[1] / best[0]);
    return 1;
}

int main(int argc, char **argv) {
    unsigned long rounds = argc > 2 ? strtoul(argv[2], NULL, 10) : 0;
    FILE *json = argc > 3 ? fopen(argv[3], "w") : NULL;
    count = argc > 2 ? strtoul(argv[1], NULL, 10) : 0;
    if (rounds == 0 || count == 0 || argc > 4 || (argc == 4 && !json)) {
        fprintf(stderr, "usage: day RECORDS ROUNDS [JSON]\n");
        return 2;
    }
    records = calloc(count, sizeof *records);
    if (!records) {
        fprintf(stderr, "day: there is no memory for %zu records of %zu octets\n", count, sizeof *records);
        return 2;
    }
    int held = 1;
    if (json) fprintf(json, "{\"compiler\": \"%s\", \"records\": %zu, \"rounds\": %lu, \"rows\": [", COMPILER, count, rounds);
    printf("%zu records in a call\n%-32s %10s %10s %10s %8s\n", count, "parts", "buffer", "port ns", "C loop ns", "C / port");
    for (size_t which = 0; which < COUNT(days); which++) held &= measure(which, rounds, json);
    if (json) fprintf(json, "\n]}\n");
    if (json && fclose(json) != 0) held = 0;
    free(records);
    if (held) printf("ok: the call and the loop give the same on all of these\n");
    return held ? 0 : 1;
}
