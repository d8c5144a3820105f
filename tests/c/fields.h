/* Address fields in hex that the examples of several tests stand behind. */
#ifndef FIELDS_H
#define FIELDS_H

#include "callsigns.h"

/* Document 01's 14 address octets; the same without a mark, with both, with one octet left over, and with that and without a mark. */
#define PEERS GAUGE "E0 " BOX12 "67 "
#define UNMARKED GAUGE "60 " BOX12 "67 "
#define TWICE_MARKED GAUGE "E0 " BOX12 "E7 "
#define LEFT_OVER GAUGE "E0 " BOX12 "66 61 "
#define UNMARKED_LEFT_OVER GAUGE "60 " BOX12 "66 61 "
/* The address octets with the repeater HILL1-2, and with nine of it. */
#define ROUTED GAUGE "E0 " BOX12 "66 " HILL1 "65 "
#define FOUR HILL1 "64 " HILL1 "64 " HILL1 "64 " HILL1 "64 "
#define NINE GAUGE "E0 " BOX12 "66 " FOUR FOUR HILL1 "65 "

#endif
