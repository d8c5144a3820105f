/* Answers lines by calls of the archive, for tests/outside.py, tests/digipeater.py and tests/modem.py, each line by `NUMBER HEX`:
   `reencode HEX`               ax25_reencode's number, and the frame as it is written anew
   `relay CALLSIGN SSID HEX`    ax25_relay's number, and the frame as the call leaves it
   `read HEX`                   ax25_kiss_read's number, and the port as an octet before the data
   `write PORT HEX`             ax25_kiss_write's number, and the packet
   `feed HEX`                   how many packets ax25_kiss_feed gives out of this piece of a line, and of each the port as an octet,
                                the data's length in two, the higher first, and the data
   `state`                      the count of what was dropped, and the state that the pieces left; the next one is of a fresh line */
#include <stdio.h>
#include <string.h>
#include "ax25.h"

static char hex[131073];
static uint8_t octets[sizeof hex / 2], packet[sizeof hex + 3];
static struct ax25_kiss_stream stream;

/* The value of a hex digit in lower case. */
static int digit(char c) { return c <= '9' ? c - '0' : c - 'a' + 10; }

/* Reads hex digits, and gives the number of octets. */
static size_t read_octets(void)
{
    size_t len = 0;
    if (scanf("%131072s", hex) == 1)
        for (; hex[2 * len] && hex[2 * len + 1]; len++)
            octets[len] = (uint8_t)(digit(hex[2 * len]) << 4 | digit(hex[2 * len + 1]));
    return len;
}

static void answer(uint32_t number, const uint8_t *left, size_t len)
{
    printf("%u ", (unsigned)number);
    for (size_t place = 0; place < len; place++)
        printf("%02X", left[place]);
    putchar('\n');
}

static void reencode(void)
{
    size_t len = read_octets();
    uint32_t number = ax25_reencode(octets, len, packet, sizeof packet);
    answer(number, packet, ax25_reencoded_length(octets, len));
}

static void relay(void)
{
    char callsign[17] = "";
    unsigned ssid = 0;
    if (scanf("%16s %u", callsign, &ssid) != 2)
        return;
    size_t len = read_octets();
    uint32_t number = ax25_relay((const uint8_t *)callsign, strlen(callsign), (uint8_t)ssid, octets, len);
    answer(number, octets, len);
}

static void read_packet(void)
{
    size_t len = read_octets(), length = 0;
    uint32_t number = ax25_kiss_read(octets, len, packet + 1, sizeof packet - 1, packet, &length);
    answer(number, packet, 1 + length);
}

static void write_packet(void)
{
    unsigned port = 0;
    if (scanf("%u", &port) != 1)
        return;
    size_t len = read_octets(), length = 0;
    uint32_t number = ax25_kiss_write((uint8_t)port, octets, len, packet, sizeof packet, &length);
    answer(number, packet, length);
}

/* What no call may answer ends it, so that something is lacking. */
static void feed(void)
{
    size_t len = read_octets(), out = 0, taken;
    uint32_t ready = 0;
    for (size_t at = 0; at < len; at += taken) {
        struct ax25_kiss_packet given;
        taken = ax25_kiss_feed(&stream, octets + at, len - at, &given);
        if (taken == 0 || taken > len - at || given.length > sizeof stream.data || out + 3 + given.length > sizeof packet)
            break;
        if (given.ready) {
            ready++;
            packet[out++] = (uint8_t)given.port;
            packet[out++] = (uint8_t)(given.length >> 8);
            packet[out++] = (uint8_t)given.length;
            memcpy(packet + out, stream.data, given.length);
            out += given.length;
        }
    }
    answer(ready, packet, out);
}

static void state(void)
{
    answer(stream.dropped, (const uint8_t *)&stream, sizeof stream);
    memset(&stream, 0, sizeof stream);
}

int main(void)
{
    char call[9];
    while (scanf("%8s", call) == 1)
        if (strcmp(call, "reencode") == 0)
            reencode();
        else if (strcmp(call, "relay") == 0)
            relay();
        else if (strcmp(call, "read") == 0)
            read_packet();
        else if (strcmp(call, "write") == 0)
            write_packet();
        else if (strcmp(call, "feed") == 0)
            feed();
        else if (strcmp(call, "state") == 0)
            state();
        else
            return 1;
    return 0;
}
