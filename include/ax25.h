/* AX.25 frames for the relay box: the calls of libax25frame.a, for x86-64.

   Twelve calls on octets that the caller lends: seven on a frame, one on many frames at once, one on the frames of a recorded link, one
   after the other, two on the KISS packets that carry frames to a modem and back, and one on a serial line, which gives such packets in
   pieces. Each is proved to give exactly the answer that its contract states, for every input, to read and write nothing but what is lent
   to it, and to return. It is a port of the Rust crate ax25 0.4.0, under the licence Apache-2.0: the file NOTICE has its text, and says
   whose work this is.

   What a frame is here: the octets between the flags, from the destination's first to the last of the info, as they are before bits are
   stuffed. It has no flags (7E), no check sequence (FCS) and nothing of KISS. Whoever takes octets off a line removes these first: no
   call can tell what was left on, and most of it is accepted.
   - A flag before the frame is read as the destination's first character, so that every address begins one octet early. A KISS packet's
     C0 and type octet shift them by two. What can be read so is accepted, as a frame with wrong addresses, in which ax25_relay looks
     for our own station in the wrong octets. If the frame itself was canonical, what is given is not: an octet or two are left over in
     its address field, which is AX25_REASON_LEFTOVER. The type octet alone shifts by one; that of port 0 is AX25_LEADING_NULL_BYTES.
   - The escapes of a KISS packet, DB DC for C0 and DB DD for DB, are two octets each where they are left in. In info that is all; in
     an address DB ends the address field, since its low bit is set.
   - A check sequence, a flag or a C0 behind the frame is more info of an I, UI, XID or TEST frame, which is as canonical as it was
     without. Of an FRMR it is AX25_WRONG_SIZE_FRMR_INFO. Of any other kind it is a tail, AX25_REASON_TAIL: ignored, dropped by
     re-encoding, and not canonical. ax25_relay leaves it where it is, so that a check sequence no longer fits what was marked.

   What every call asks of its caller:
   - `in`, `callsign` and `piece` point to `in_len`, `callsign_len` and `piece_len` octets that may be read, `out` to `out_len`
     octets that may be written, `frame` to `frame_len` octets that may be read and, by ax25_relay, written. `port`, where it is a
     pointer, points to one uint8_t, `number` to one uint32_t, `length` and `place` to one size_t each and `packet` to one struct, all
     of which may be written; what they held does not matter. `stream` and `link` point to one struct each and `records` to `count`
     structs, which may be read and written. No octet is kept or looked at after the return, and `in`, `callsign`, `piece` and the
     `frame` of ax25_link_offer are never written.
   - No pointer is null. Where a length or the count is 0, any pointer that is not null will do.
   - No two of the things that are lent to one call overlap, not even in part.
   - `number`, `length`, `place`, `stream`, `packet`, `records` and `link` are aligned as C aligns a uint32_t, a size_t and the structs.
     No other alignment is asked, and no length is too long or too short: whatever can't be read as a frame or as a packet gets a
     number, or is passed over.
   - The calling convention is that of System V for x86-64: a stack aligned to 16 octets, and SSE2 usable.

   What every call leaves alone: there is no heap, no state but what is lent, no input or output and no lock. So any call may run at
   the same time as any other, in another thread or in an interrupt, as long as nobody writes what is lent meanwhile, or reads
   what that call may write. Whoever links the archive gives it memcpy and memset.
   It asks for nothing else, and this version for memcpy alone.

   What an interrupt handler has to know. No call uses x87, MMX or AVX registers; which use SSE registers (xmm), which keep something in
   the red zone, the 128 octets below the stack pointer, and which call memcpy or memset:

       call                      SSE   red zone   memcpy, memset
       ax25_decode               yes   no         no
       ax25_decode_old_capture   yes   no         no
       ax25_canonical            yes   no         no
       ax25_reason               yes   no         no
       ax25_captures             yes   no         no
       ax25_link_offer           yes   no         no
       ax25_relay                yes   no         no
       ax25_reencoded_length     yes   no         no
       ax25_reencode             yes   no         yes
       ax25_kiss_read            yes   no         no
       ax25_kiss_write           yes   no         no
       ax25_kiss_feed            no    no         no

   - A handler that calls one with SSE first saves the xmm registers of what it interrupted, and gives them back before it returns.
     memcpy and memset are those of whoever links the archive, and may use them too.
   - Where interrupts are served on the stack of what they interrupt, as on a machine without an operating system, they overwrite the
     red zone: keep them out during a call that uses it, or give each a stack of its own (IST). An operating system's signal handlers
     keep clear of it.
   - The table is of this version. It follows from the code that the compiler makes, so that any other version may have another table:
     read it again with each. */
#ifndef AX25_H
#define AX25_H

#include <stddef.h>
#include <stdint.h>

#ifdef __cplusplus
extern "C" {
#endif

/* The version of the component: header and archive belong together. A step of the first number changes an answer of a call, one of
   the second adds something, one of the third does neither. */
#define AX25_VERSION "2.3.0"
#define AX25_VERSION_MAJOR 2
#define AX25_VERSION_MINOR 3
#define AX25_VERSION_PATCH 0

/* No call uses more stack than this, in octets, its return address included. What memcpy and memset use comes on top. */
#define AX25_STACK 1024

/* Every number that the component gives. The calls give 0 to 5, 7 to 12, 22, 24, 41 to 43, 51 to 56, 61 and 71 to 73; the others belong
   to parts that C does not reach: writing records, text and the dumper. A frame is of the short mode, in which sequence numbers are taken
   modulo 8, or of the long one, which takes them modulo 128. ax25_reason and ax25_captures read in the mode that they are told, and give
   11 and 12 in the long one; the other calls read and write frames in the short mode alone. */
enum ax25_number {
    AX25_ACCEPTED = 0,

    /* Reading a frame. The end is the first octet with its low bit set, and the span is how many octets there are up to it, itself
       included. The first of 1, 10, 2, 3, 4, 9 that holds is given, and where none does, the one of 5, 7, 8 that does; in the long mode
       the first of 12, 5, 7, 11 that does. 6 is no longer given: every supervisory frame is known. */
    AX25_ONLY_NULL_BYTES = 1,          /* no nonzero octet; the empty input too */
    AX25_NO_END_TO_ADDRESS_FIELD = 2,  /* no octet with its low bit set */
    AX25_ADDRESS_FIELD_TOO_SHORT = 3,  /* the span is below 14 */
    AX25_FRAME_TOO_SHORT = 4,          /* nothing after the end */
    AX25_MISSING_PID_FIELD = 5,        /* an I or UI frame without its PID octet */
    AX25_UNRECOGNISED_S_FIELD = 6,     /* no longer given; it was SREJ */
    AX25_UNRECOGNISED_U_FIELD = 7,     /* an unnumbered frame other than SABM, SABME, DISC, DM, UA, FRMR, UI, XID, TEST */
    AX25_WRONG_SIZE_FRMR_INFO = 8,     /* an FRMR whose content is not four octets */
    AX25_TOO_MANY_REPEATERS = 9,       /* nine or more repeaters */
    AX25_LEADING_NULL_BYTES = 10,      /* the first octet is zero, and not all are */
    AX25_FRMR_IN_LONG_MODE = 11,       /* an FRMR in the long mode, whatever its size; read, or to be written */
    AX25_MISSING_CONTROL_OCTET = 12,   /* an I or supervisory frame of the long mode without its second control octet */

    /* Writing a frame, printing an address, our own address when relaying, and the two stations of a link; 24 also of KISS packets and
       their data. */
    AX25_ROUTE_TOO_LONG = 21,          /* a route count over 8 */
    AX25_NOT_ENCODABLE = 22,           /* an address in use has a character of 128 or more, an SSID over 15, or reserved bits
                                          over 3; our own address also where its callsign has more than six octets */
    AX25_INFO_NOT_ALLOWED = 23,        /* info for a kind that has none */
    AX25_NO_ROOM = 24,                 /* the output is shorter than needed */
    AX25_PID_OUTSIDE_CLASS = 25,       /* a layer 3 identifier with an octet outside its class: bits 5 and 4 are not 01 or 10 */

    /* Reading an address from text, or from a callsign and an SSID. */
    AX25_CALLSIGN_TOO_LONG = 31,       /* more than six characters */
    AX25_INVALID_FORMAT = 32,          /* two or more hyphens, an empty callsign, or a character that is no letter or digit */
    AX25_INVALID_SSID = 33,            /* the SSID's text is no 8-bit number */
    AX25_SSID_OUT_OF_RANGE = 34,       /* an SSID of 16 to 255 */
    AX25_NOT_ASCII = 35,               /* an octet of 128 or more */

    /* Relaying a frame. */
    AX25_ROUTE_USED_UP = 41,           /* every repeater is marked; a frame without a repeater too */
    AX25_ANOTHER_STATION = 42,         /* the repeater at the due place is another station */
    AX25_BROKEN_MARKS = 43,            /* a repeater after the first unmarked one is marked */

    /* The dumper alone. */
    AX25_INPUT_TOO_LONG = 50,          /* more than 4,096 octets */

    /* Reading a KISS packet, and the last also writing one. */
    AX25_KISS_NO_OPENING = 51,         /* the first octet is not C0; the empty input too */
    AX25_KISS_BAD_ESCAPE = 52,         /* a DB that is not followed by DC or DD */
    AX25_KISS_NO_CLOSING = 53,         /* no C0 at the end, or octets after it */
    AX25_KISS_NOT_DATA = 54,           /* a command other than 0 */
    AX25_KISS_EMPTY = 55,              /* nothing between the two C0 */
    AX25_KISS_PORT_TOO_HIGH = 56,      /* a port over 11 */

    /* A part of a buffer of captures. */
    AX25_PART_OUTSIDE = 61,            /* the part is not inside the buffer: its start and its length together are over the buffer's
                                          length */

    /* Following a recorded link; 22 comes first, and 72, 73, 71 in this order behind it. */
    AX25_LINK_FULL = 71,               /* 65,535 frames or more were offered already */
    AX25_EQUAL_STATIONS = 72,          /* the two stations have the same callsign and the same SSID; so have those of a struct of zeros */
    AX25_LINK_UNSOUND = 73             /* the four counts add up to more than was offered, or a number over 7 is expected */
};

/* Whether the input can be read as a frame, of the short mode: AX25_ACCEPTED, or the first of 1, 10, 2, 3, 4, 9, 5, 7, 8 that holds.
   What is a frame in the long mode is accepted too, but I and S frames are taken for other ones: nothing in a frame tells its mode. */
uint32_t ax25_decode(const uint8_t *in, size_t in_len);

/* The same of a frame from an old capture, one that was taken while the box skipped null octets before a frame: they are skipped here,
   and the answer, a number and no more, is that of ax25_decode for the octets that are left. So AX25_LEADING_NULL_BYTES is never
   given; an input of nulls alone, and an empty one, is AX25_ONLY_NULL_BYTES; and an input that does not begin with a null is answered
   as by ax25_decode.

   NOT FOR LIVE TRAFFIC. Nulls before a frame are the sign of a stuck line driver, which AX25_LEADING_NULL_BYTES shows and this call
   hides. No other call skips them: what this one accepts behind nulls can't be re-encoded or relayed. */
uint32_t ax25_decode_old_capture(const uint8_t *in, size_t in_len);

/* 1 where the input is canonical, else 0. Canonical means: accepted, and exactly what re-encoding it would give. There is
   one such spelling of each frame. Why an input is not canonical is said by ax25_reason. */
uint32_t ax25_canonical(const uint8_t *in, size_t in_len);

/* Why an input is not canonical: what ax25_reason gives. */
enum ax25_reason_code {
    AX25_REASON_NONE = 0,     /* it is canonical */
    AX25_REASON_LEFTOVER = 1, /* octets are left over between the last whole address and the end: the span is no multiple of seven */
    AX25_REASON_MARKS = 2,    /* the command/response mark is absent: the highest bits of in[6] and in[13] are equal */
    AX25_REASON_TAIL = 3,     /* octets stand after the control field of RR, RNR, REJ, SREJ, SABM, SABME, DISC, DM or UA */
    AX25_REASON_FIXED = 4,    /* a bit is set that reading ignores and writing clears: in FRMR the high four of the first info octet or
                                 the low one of the second; in RR, RNR, REJ and SREJ of the long mode the high four of the control
                                 field's first octet */
    AX25_REASON_REFUSED = 5   /* it can't be read as a frame */
};

/* Why the input is not canonical, in the short mode where `mode` is 0, and in the long one where it is any other number. Nothing in a
   frame tells its mode: it is that of the link on which the frame was sent. Canonical in the long mode means: accepted in that mode, and
   exactly what re-encoding in it would give, for which there is no call.

   AX25_REASON_NONE is given exactly where the input is canonical; in the short mode that is where ax25_canonical gives 1. Of any other
   input that is accepted the first of 1 to 4 that holds is given. In all these cases *number and *place are 0.

   AX25_REASON_REFUSED is given where the input is refused. Then *number is what decoding in that mode gives: in the short one the number
   of ax25_decode, in the long one the first of 1, 10, 2, 3, 4, 9, 12, 5, 7, 11 that holds. And *place is a place in the input, from 0 on:
   - 0 for AX25_ONLY_NULL_BYTES, AX25_NO_END_TO_ADDRESS_FIELD and AX25_LEADING_NULL_BYTES;
   - the end of the address field for AX25_ADDRESS_FIELD_TOO_SHORT and AX25_FRAME_TOO_SHORT;
   - 70, where a ninth repeater starts, for AX25_TOO_MANY_REPEATERS;
   - the control octet, which is the one after the end, for all others.
   So in[*place] is an octet of the input, unless that is empty. */
uint32_t ax25_reason(const uint8_t *in, size_t in_len, uint32_t mode, uint32_t *number, size_t *place);

/* The kinds of frames: what ax25_captures gives. There are no others. */
enum ax25_kind {
    AX25_KIND_I = 0,
    AX25_KIND_RR = 1,
    AX25_KIND_RNR = 2,
    AX25_KIND_REJ = 3,
    AX25_KIND_SREJ = 4,
    AX25_KIND_SABM = 5,
    AX25_KIND_SABME = 6,
    AX25_KIND_DISC = 7,
    AX25_KIND_DM = 8,
    AX25_KIND_UA = 9,
    AX25_KIND_FRMR = 10, /* of the short mode alone: the long one refuses it, by AX25_FRMR_IN_LONG_MODE */
    AX25_KIND_UI = 11,   /* also where there is no frame, because the part was refused */
    AX25_KIND_XID = 12,
    AX25_KIND_TEST = 13
};

/* One of many captures: a part of a buffer, of which the caller gives the first two fields, and ax25_captures fills the others. It has no
   padding and points nowhere. */
struct ax25_capture {
    size_t start;       /* where the part begins in the buffer, from 0 on */
    size_t length;      /* how many octets it has */
    uint32_t number;    /* AX25_ACCEPTED, the number by which decoding refuses the part, or AX25_PART_OUTSIDE */
    uint16_t canonical; /* 1 where the part is canonical, else 0 */
    uint16_t kind;      /* one of enum ax25_kind: the frame's, where the number is AX25_ACCEPTED, else AX25_KIND_UI */
};

/* A day's captures in one call: `in` holds the octets of all of them, and each of the `count` records names a part of it, the
   `length` octets from in[start] on. Each record gets what the single calls give for its part, in the short mode where `mode` is 0, and
   in the long one where it is any other number. The mode is that of the link on which the frames were sent, and one call has one: the
   frames of a link that counts modulo 128 go into a call of their own.
   - number is what decoding the part in that mode gives: in the short one the number of ax25_decode, in the long one the *number of
     ax25_reason.
   - canonical is 1 exactly where ax25_reason gives AX25_REASON_NONE for the part in that mode, else 0: in the short one it is what
     ax25_canonical gives.
   - kind is the kind of the frame that decoding the part in that mode gives.
   LOOK AT THE NUMBER FIRST. Where it is not AX25_ACCEPTED there is no frame: canonical is 0 and kind is AX25_KIND_UI, which many frames
   have too. Nulls before a frame are AX25_LEADING_NULL_BYTES here, as in ax25_decode.

       struct ax25_capture day[] = {{0, 18, 0, 0, 0}, {18, 25, 0, 0, 0}};    two frames of a buffer of 43 octets
       ax25_captures(in, 43, 0, day, 2);
       for (size_t i = 0; i < 2; i++)
           if (day[i].number == AX25_ACCEPTED)
               use(in + day[i].start, day[i].length, day[i].kind);

   A part is inside the buffer where start + length, as a sum that does not wrap, is at most in_len; any start and any length may be
   given. Of a part that is not inside no octet is read: its number is AX25_PART_OUTSIDE, its canonical 0 and its kind AX25_KIND_UI. An
   empty part is inside up to the end, the very end (start == in_len) included, and is AX25_ONLY_NULL_BYTES; with a start beyond that it
   is not inside.

   Parts may overlap, repeat, leave octets out and stand in any order. What a record gets depends on its own part and the mode alone: not
   on other records, and not on what its number, canonical and kind held before, which need not be set. Starts, lengths and the order of
   the records stay, and so do all octets of `in` and the memory behind the last record. Where `count` is 0 nothing is touched. The
   stack that is used does not depend on `count`. */
void ax25_captures(const uint8_t *in, size_t in_len, uint32_t mode, struct ax25_capture *records, size_t count);

/* One of the two stations of a recorded link. */
struct ax25_station {
    uint8_t callsign[6]; /* its six characters, each below 128, padded with spaces; a NUL is a character like any other and pads nothing */
    uint8_t ssid;        /* 0 to 15 */
    uint8_t reserved;    /* the two reserved bits as a number, 0 to 3; whatever it is, the station is the same */
};

/* How a recorded link stands: what its `state` is. */
enum ax25_link_state {
    AX25_LINK_IDLE = 0,       /* there is no link */
    AX25_LINK_ASKED_BY_A = 1, /* a asked for one by SABM, and b's UA is awaited */
    AX25_LINK_ASKED_BY_B = 2, /* b asked for one by SABM, and a's UA is awaited */
    AX25_LINK_UP = 3          /* the UA came: from here on the numbers of I frames are held to what is expected */
};

/* How far a recorded link has been followed. Its owner keeps one for each pair of stations. A fresh one is zeros with the two stations
   filled in; from then on only calls change it, and none changes the stations. It may be copied, stored and compared octet by octet: its
   56 octets have no padding and point nowhere. */
struct ax25_link {
    struct ax25_station a, b;                  /* the two stations, which differ; which of them is a is for the owner to say */
    uint32_t state;                            /* one of enum ax25_link_state */
    uint32_t expected_from_a, expected_from_b; /* the N(S), 0 to 7, that the next I frame in order has, of those that a sends, and b */
    uint32_t moved_from_a, moved_from_b;       /* the memory: 1 once an I frame of that station came in order since the UA, else 0 */
    uint32_t in_order;                         /* how many I frames had the number that was expected, */
    uint32_t repeated;                         /* the number before it, so that they came once more, */
    uint32_t gaps;                             /* or any other number; */
    uint32_t outside;                          /* and how many came while the link was not up */
    uint32_t offered;                          /* how many frames were offered, of every kind and of all stations, 0 to 65,535 */
};

/* Where a recorded link lost data: the frames of a recording, read in the short mode, are offered one after the other, in the order in
   which they were recorded. A gap is an I frame that is neither the expected one nor that before it once more: others of its sender are
   missing before it, or it is an older one that was sent again.

       struct ax25_link link = {0};                     once, before the first frame
       memcpy(link.a.callsign, "BOX12 ", 6);            six characters, padded with a space
       link.a.ssid = 3;
       memcpy(link.b.callsign, "GAUGE ", 6);            its SSID is 0
       for (size_t i = 0; i < count; i++) {             for each frame of the recording
           uint32_t gaps = link.gaps;
           if (ax25_link_offer(&link, octets[i], lengths[i]) == AX25_LINK_FULL)
               break;
           if (link.gaps != gaps)
               data_is_missing_before(i);
       }

   The answer is the first of these that holds, else AX25_ACCEPTED:
   - AX25_NOT_ENCODABLE: a or b has a character of 128 or more, an SSID over 15, or reserved bits over 3;
   - AX25_EQUAL_STATIONS: a and b have the same six characters and the same SSID, whatever their reserved bits are. So it is given for a
     struct of zeros into which no station was filled;
   - AX25_LINK_UNSOUND: in_order, repeated, gaps and outside add up, in a sum that does not wrap, to more than offered; or
     expected_from_a or expected_from_b is over 7, whatever the state is;
   - AX25_LINK_FULL: offered is 65,535 or more;
   - the number of ax25_decode(frame, frame_len), where that is not 0.
   The first four change nothing, whatever the frame is. In every other case offered becomes one more, also for a frame that decoding
   refuses, which changes nothing else.

   A frame is from a where its source is a and its destination is b, and from b where its source is b and its destination is a. Stations
   are compared by their six characters and their SSID, whatever the reserved bits are. Repeaters and their marks, the command/response
   mark, P/F, N(R), the PID and the info play no part. A frame that is neither from a nor from b, as one to a third station, changes
   nothing but offered. What a frame from one of the two does:
   - SABM: the link is asked for by its sender, whatever the state was, AX25_LINK_UP too;
   - UA: where the link is asked for by the other station, it is up; both expected numbers and both memories become 0. In any other
     state, and from the station that asked, it changes nothing;
   - DISC, DM or SABME: the link is idle, whatever the state was;
   - I, while the link is not up: outside becomes one more;
   - I, while the link is up, with the N(S) that is expected from its sender: in_order becomes one more, the number that is expected from
     its sender becomes the next one, which behind 7 is 0, and the memory of its sender becomes 1;
   - I, while the link is up, with any other N(S): repeated becomes one more where the memory of its sender is 1 and the N(S) is the one
     before the expected number, which before 0 is 7; else gaps does. What is expected stays in both cases: so those that follow a gap
     are not in order either, until the frame comes that is expected;
   - RR, RNR, REJ, SREJ, FRMR, UI, XID or TEST: nothing.
   What is not named stays as it was. So expected numbers, memories and counts outlive the link, until a UA sets the first two anew.

   From a fresh record on, the four counts add up to the number of I frames that the two stations sent to each other among the first
   65,535 frames of the recording, however many follow. To follow the link through those, go on with a copy of the record in which the
   four counts and offered are 0.

   A record that no call made is answered too. A state over 3 is read as AX25_LINK_IDLE, and a memory over 1 as 1; what the frame does not
   change stays in either as it was. */
uint32_t ax25_link_offer(struct ax25_link *link, const uint8_t *frame, size_t frame_len);

/* THIS IS THE CALL FOR FORWARDING A FRAME; ax25_reencode is not. Where the repeater that is due is our own station, its mark is set
   in `frame` and the answer is AX25_ACCEPTED. That one bit, the highest of frame[20 + 7 * due place], is all that changes: everything
   else stays as received, so that the frame_len octets can be sent as they now are. Decoding them gives the same frame with that one
   mark set.

   Our own station is `callsign`, 0 to 6 octets below 128, and `ssid`, 0 to 15. The octets are taken as they are, lower case too,
   and padded with spaces to six. The due place, counted from 0, is the first repeater that is not marked, or the number of
   repeaters where all are. The repeater there is our own station where its six characters and its SSID are ours, whatever its reserved
   bits are. A frame with broken marks, one of them after a repeater without, is never relayed, whoever is due. The mode of a frame does
   not matter: whatever is a frame in the long mode is accepted here too, with the same stations and marks, and stays as received.

   Otherwise the answer is the first of these that holds, and all of `frame` stays as it was:
   - AX25_NOT_ENCODABLE: our own address has more than six octets, or one of 128 or more, or an SSID over 15, whatever the frame is;
   - the number of ax25_decode(frame, frame_len), where that is not 0: so AX25_LEADING_NULL_BYTES where nulls stand before the frame;
   - AX25_ROUTE_USED_UP: the due place is the number of repeaters;
   - AX25_BROKEN_MARKS: a repeater after the due place is marked;
   - AX25_ANOTHER_STATION: the repeater at the due place is not our own station. */
uint32_t ax25_relay(const uint8_t *callsign, size_t callsign_len, uint8_t ssid, uint8_t *frame, size_t frame_len);

/* How many octets re-encoding gives; 0 where the input is refused, and never 0 otherwise. It is never more than in_len. */
size_t ax25_reencoded_length(const uint8_t *in, size_t in_len);

/* Writes the frame anew, in its canonical spelling, to the start of `out`. Gives the number of ax25_decode where that is not 0;
   AX25_NO_ROOM where out_len is below ax25_reencoded_length(in, in_len); else AX25_ACCEPTED. The octets of `out` beyond
   that length stay as they were, and a refusal leaves all of them as they were. Room of in_len octets is always enough.

   RE-ENCODED FRAMES ARE NOT FOR FORWARDING. A relay that sends what it re-encoded changes the frame. Forward the octets that were
   received, by ax25_relay. Re-encoding
   - drops octets left over between the last whole address and the end of the address field,
   - writes an absent command/response mark (both bits equal) as Command,
   - drops the octets after the control octet of RR, RNR, REJ, SREJ, SABM, SABME, DISC, DM and UA frames; so the second control octet of
     such frames of the long mode,
   - clears FRMR's unnamed bits: the high four of its first info octet and the low one of its second.
   All else is kept, every PID and the two reserved bits of every address too. A canonical frame has none of these and re-encodes as
   itself; of any other ax25_reason, in the short mode, names the first of these. */
uint32_t ax25_reencode(const uint8_t *in, size_t in_len, uint8_t *out, size_t out_len);

/* KISS packets: how a modem is given a frame, and how it gives one. A packet is C0; a type octet with the port, 0 to 11, in its
   high half and the command in its low half, which is 0 for data; the data, in which C0 is written as DB DC and DB as DB DD; and
   C0. So no C0 stands inside, and each packet has one spelling. The data is a frame, or any other octets, or none: the calls do not
   look what it is.

   The next two calls are on one packet, whole, from its opening C0 to its closing one. A C0 that closes one packet and opens the
   next is not accepted there: each packet has its own two. A serial line, which gives pieces and several packets in a row, is read
   by ax25_kiss_feed, below them. */

/* Reads one packet. Where it is accepted, the answer is AX25_ACCEPTED, *port is its port, *length is how many octets of data it
   has, and those stand at the start of `out`; the octets of `out` beyond them stay as they were.

   Otherwise *port and *length are 0, all of `out` stays as it was, and the answer is the first of these that is met from the
   first octet to the last. What follows the closing C0, which is the first C0 after the opening one, is not looked at.
   - AX25_KISS_NO_OPENING: the first octet is not C0, or there is none;
   - AX25_KISS_EMPTY: the second octet is C0, whatever follows;
   - AX25_KISS_BAD_ESCAPE: a DB is not followed by DC or DD, or is the last octet;
   - AX25_KISS_NOT_DATA: the low half of the type octet is not 0;
   - AX25_KISS_PORT_TOO_HIGH: its low half is 0, and its high half is over 11;
   - AX25_KISS_NO_CLOSING: the octets end without a closing C0, or go on after it, whatever follows;
   - AX25_NO_ROOM: none of these is met, and out_len is below the number of data octets.
   The type octet is looked at after its escape is removed, so that DB DC there is port 12, and DB DD is a command other than 0.
   Room of in_len octets is always enough; a packet that is accepted has in_len - 3 octets of data or fewer. */
uint32_t ax25_kiss_read(const uint8_t *in, size_t in_len, uint8_t *out, size_t out_len, uint8_t *port, size_t *length);

/* Writes one packet with `in` as its data. Where it is accepted, the answer is AX25_ACCEPTED, *length is the packet's length, and the
   packet stands at the start of `out`; the octets of `out` beyond it stay as they were. Its length is in_len + 3 and one more
   for each C0 and each DB of the data. Reading that packet gives the port and the data, and writing what was read
   gives the packet.

   Otherwise *length is 0, all of `out` stays as it was, and the answer is the first of these that holds:
   - AX25_KISS_PORT_TOO_HIGH: the port is over 11;
   - AX25_NO_ROOM: out_len is below the packet's length.
   Room of 2 * in_len + 3 octets is always enough. */
uint32_t ax25_kiss_write(uint8_t port, const uint8_t *in, size_t in_len, uint8_t *out, size_t out_len, size_t *length);

/* How far a serial line has been read. Its owner keeps one for each line, sets it to zeros before the first octet, and lends it to
   each call; only calls change it. It may be copied and compared octet by octet: it has no padding and points nowhere, and what it
   holds depends on the octets that were taken since it was zeros, and not on how they were cut. */
struct ax25_kiss_stream {
    uint8_t data[1024]; /* the packet's data, escapes removed: its first `length` octets; the others mean nothing */
    uint16_t length;    /* how many octets of data there are */
    uint8_t port;       /* the packet's port, 0 to 11 */
    uint8_t phase;      /* what was read last: 0 no C0 yet, 1 a C0, 2 the type octet or data, 3 a DB in the data, 4 something that makes
                           the packet one to drop, 5 a DB in the type octet's place */
    uint16_t dropped;   /* how many packets were dropped; it stops at 65,535 */
};

/* What a call gives out: a packet, or none. */
struct ax25_kiss_packet {
    uint32_t ready;  /* 1 where a packet is given out, else 0 */
    uint32_t port;   /* its port, 0 to 11; 0 where there is none */
    size_t length;   /* how many octets of data it has, 0 to 1,024; 0 where there is none */
};

/* Reads a piece of what a line gave, of any length. It takes the piece through the first octet that completes a packet, else the
   whole, and gives the number of octets taken: call again with the rest, until all are taken. Where a packet is complete,
   packet->ready is 1 and its data is the first packet->length octets of stream->data, until the next call with that stream.

       struct ax25_kiss_stream line = {0};              once, before the first octet
       struct ax25_kiss_packet packet;
       for (size_t at = 0; at < piece_len;) {           for each piece that the line gives
           at += ax25_kiss_feed(&line, piece + at, piece_len - at, &packet);
           if (packet.ready)
               use(packet.port, line.data, packet.length);
       }

   What is given out, the count of what was dropped and the state do not depend on how the line was cut into pieces. An empty piece
   takes 0, gives out nothing and changes nothing of a state that calls made, the data of a packet just given out included.

   - A packet is given out exactly where ax25_kiss_read accepts it, from its opening C0 to its closing one, and it has at most
     1,024 octets of data. A packet with none is given out too.
   - One C0 may close a packet and open the next. Octets before the first C0, and nothing between two C0, are passed over and not
     counted.
   - A packet with a DB that is not followed by DC or DD, a type octet that ax25_kiss_read refuses, or more than 1,024 octets of data
     is dropped up to the next C0 and counted once in stream->dropped, at the octet that shows it. That is the octet behind
     the DB, the octet that completes the type octet, or the one that completes the 1,025th of the data: an escape is complete with
     its second octet. Where a C0 stands behind the DB, the next packet starts there. While a packet is dropped, DB means nothing.
   - There are no refusals. A state that no call can have made, with a length over 1,024, a port over 11 or a phase over 5, is read
     as a fresh one with its count kept; an empty piece leaves it as that. */
size_t ax25_kiss_feed(struct ax25_kiss_stream *stream, const uint8_t *piece, size_t piece_len, struct ax25_kiss_packet *packet);

#ifdef __cplusplus
}
#endif

#endif
