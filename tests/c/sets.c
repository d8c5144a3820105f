#define _GNU_SOURCE
#include "sets.h"

#include <signal.h>
#include <stdio.h>
#include <string.h>
#include <unistd.h>

#include "say.h"

static const char *const names[CHECKS] = {
    "ax25_decode gives the number",
    "ax25_decode_old_capture gives the number",
    "ax25_canonical gives 1 or 0",
    "ax25_reason gives the reason, the number and the place",
    "ax25_captures gives the number, canonical or not, and the kind of each part",
    "ax25_reencoded_length gives the length",
    "ax25_reencode gives the number and the octets",
    "ax25_relay gives the number and the octets",
    "ax25_kiss_read gives the number, the port, the length and the data",
    "ax25_kiss_write gives the number, the length and the packet",
    "octets beyond the written length stay",
    "a refusal leaves the output alone, and the frame to be relayed",
    "a refusal gives port 0 and length 0",
    "guard octets stay",
    "the input, the callsign, the piece and the frame that is offered stay",
    "starts, lengths and the order of the records stay",
    "the nine calls on frames agree",
    "reading and writing undo each other",
    "the plain C gives the same",
    "ax25_kiss_feed takes the piece through a packet's end, else the whole",
    "ax25_kiss_feed gives out the packet, its data included, or none",
    "ax25_kiss_read reads the same of that packet's own octets",
    "dropped packets are counted where that is owed",
    "an empty piece changes nothing",
    "the state is the same however the octets are cut, each octet of it",
    "ax25_link_offer gives the number",
    "ax25_link_offer leaves the record as the frame makes it, each octet of it",
    "a refused record stays, and a refused frame changes the number offered alone",
    "decoding gives the number",
    "decoding gives start, end, length and info's place",
    "decoding gives the record",
    "decoding an old capture gives the number",
    "decoding an old capture gives start, end, length and info's place",
    "decoding an old capture gives the record",
    "content alone gives the number",
    "content alone gives its part of the record",
    "canonical is 1 or 0 as it should be",
    "re-encoding gives the number",
    "re-encoding gives the length",
    "re-encoding gives the octets",
    "writing a record gives the number",
    "writing a record gives the length",
    "writing a record gives the octets",
    "writing content alone gives the number",
    "writing content alone gives the length",
    "writing content alone gives the octets",
    "too little room for a record, its details or a length is 24, and nothing is touched",
    "what is written of a record is decoded as that record, its numbers modulo 8 or 128",
    "a changed bit of a canonical frame shows, in the frame or in its info, just where it is not excepted",
    "the fields are as they were told",
};

static const char *set = "start";
static unsigned long inputs, looked[CHECKS], missed[CHECKS], owed_by_number[80];
static const uint8_t *current;
static size_t current_len;
static void (*show_beside)(void), (*last_of_set)(void);

static void show_input(void) {
    size_t shown = current_len < 400 ? current_len : 400;
    printf("  input of %zu octets:", current_len);
    for (size_t i = 0; i < shown; i++) printf(" %02X", current[i]);
    printf(shown < current_len ? " ..\n" : "\n");
    if (show_beside) show_beside();
}

/* Not safe in a handler by the letter, but the program is at its end and nothing else of it runs. */
static void on_stray(int signal_number) {
    printf("FAILED: %s: a call stopped with signal %d: it touched memory that was not lent, or worse\n", set, signal_number);
    show_input();
    fflush(stdout);
    _exit(1);
}

void sets_begin(void) {
    setvbuf(stdout, NULL, _IOLBF, 0);
    signal(SIGSEGV, on_stray);
    signal(SIGBUS, on_stray);
    signal(SIGILL, on_stray);
    signal(SIGFPE, on_stray);
}

void set_begin(const char *name) {
    set = name;
    inputs = 0;
    memset(looked, 0, sizeof looked);
    memset(missed, 0, sizeof missed);
    memset(owed_by_number, 0, sizeof owed_by_number);
}

void at_set_end(void (*last)(void)) { last_of_set = last; }

void set_end_brief(void) {
    char line[200];
    if (last_of_set) last_of_set();
    unsigned long all = 0, wrong = 0;
    for (int c = 0; c < CHECKS; c++) {
        all += looked[c];
        wrong += missed[c];
    }
    snprintf(line, sizeof line, "%s: all that is owed (%lu of %lu looks failed)", set, wrong, all);
    say(all > 0 && wrong == 0, line);
}

void set_end(void) {
    char line[200];
    if (last_of_set) last_of_set();
    for (int c = 0; c < CHECKS; c++) {
        if (missed[c]) snprintf(line, sizeof line, "%s: %s (%lu of %lu failed)", set, names[c], missed[c], looked[c]);
        else snprintf(line, sizeof line, "%s: %s (%lu inputs, %lu looks)", set, names[c], inputs, looked[c]);
        if (looked[c]) say(missed[c] == 0, line);
    }
    snprintf(line, sizeof line, "%s: there are inputs", set);
    if (inputs == 0) say(0, line);
}

void count_input(void) { inputs++; }

void look_from(const uint8_t *octets, size_t len, void (*beside)(void)) {
    current = octets;
    current_len = len;
    show_beside = beside;
}

int look(enum check c, int holds, unsigned long want, unsigned long got) {
    looked[c]++;
    if (holds) return 1;
    if (missed[c]++ < 3) {
        printf("  %s: %s: wanted %lu, got %lu\n", set, names[c], want, got);
        show_input();
    }
    return 0;
}

void owe(unsigned number) { owed_by_number[number]++; }
unsigned long owed(unsigned number) { return owed_by_number[number]; }

void say_met(const unsigned *numbers, size_t count, unsigned long least) {
    char line[200];
    int all = 1;
    int at = snprintf(line, sizeof line, "each number is met in these calls, %lu or more of each:", least);
    for (size_t i = 0; i < count; i++) {
        all = all && owed(numbers[i]) >= least;
        at += snprintf(line + at, sizeof line - (size_t)at, " %u: %lu%s", numbers[i], owed(numbers[i]), i + 1 < count ? "," : "");
    }
    say(all, line);
}

void for_every(const uint8_t *letters, size_t count, size_t longest, void (*each)(const uint8_t *octets, size_t len)) {
    uint8_t octets[8];
    size_t strings = 1;
    for (size_t len = 0; len <= longest; len++, strings *= count)
        for (size_t n = 0; n < strings; n++) {
            size_t rest = n;
            for (size_t i = 0; i < len; i++, rest /= count) octets[i] = letters[rest % count];
            each(octets, len);
        }
}
