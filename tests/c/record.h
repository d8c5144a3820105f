/* A frame as 102 octets, the flat record of the test support: how the calls of the crate `probe` take and give a frame. A call that takes
   one reads octets past its end as 0, any flag but 0 as set, and a number past the last case as that case. */
#ifndef RECORD_H
#define RECORD_H

/* Where things stand: two addresses, eight places of an address and its mark, then these. An address is six characters, the SSID, and
   the reserved bits as a number. Content alone is the last twelve octets. */
enum {
    ADDRESS = 8, DESTINATION = 0, SOURCE = 8, ROUTE = 16, ENTRY = 9, ROUTE_COUNT = 88, MARK = 89, KIND = 90, PID_CASE = 91, PID_OCTET = 92,
    POLL = 93, RECEIVE = 94, SEND = 95, FLAG_Z = 96, FLAG_Y = 97, FLAG_X = 98, FLAG_W = 99, REJECTED_RESPONSE = 100,
    REJECTED_CONTROL = 101, RECORD = 102, CONTENT = RECORD - KIND
};

enum kind { I, RR, RNR, REJ, SREJ, SABM, SABME, DISC, DM, UA, FRMR, UI, XID, TEST, UNKNOWN_KIND, KINDS };
enum mark { COMMAND, RESPONSE, ABSENT };
enum { LAYER_3 = 0, OTHER_PID = 15 }; /* the cases of the PID that have an octet beside them; those between are the named ones */

/* What a decoder tells beside the record. */
enum { START, END, LENGTH_OF_INPUT, INFO_START, INFO_LENGTH, DETAILS };

#endif
