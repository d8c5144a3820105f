//! Deliberate faults, for `compare/faults` alone: each call of the port is wrapped, and spoils what the proved code answered by the
//! fault that COMPARE_FAULT names. The linker puts these in the calls' places (`--wrap`) and leaves the port's own under `__real_`.
//! Some faults are the Rust's: in its writing it is held to an octet, and to bits, that the port does not owe, and in its reading to what
//! its frame lacks, to skipping nulls, and to refusing the kinds that it does not know. Two are of the comparison's own words, for reasons
//! and for the counts of a link. A fault of the call over many parts, or of links, may also be one that the laboratory's reading of a
//! capture has to find.

use crate::check::{padded, with_plain_addresses};
use crate::domain::{self, RESERVED_BITS, RUST_LAYER_3};
use crate::flat::{self, Flat, FlatAddress, ABSENT, COMMAND, COUNT, KIND, MARK, POLL, RECEIVE, RNR, RR, SSID, UI, UNKNOWN_CONTENT};
use crate::flat::{ENTRY, GROUP, ONES, PID, PID_LAYER_3, PID_OCTET, PID_UNKNOWN, REJECTED_CONTROL, REPEATERS, RESERVED, ROUTE, SOURCE};
use crate::flat::{DISC, DM, FRMR, I, REJ, RESPONSE, SABM, SABME, SEND, SREJ, TEST, UA, XID};
use crate::kiss::{FEND, FESC, LONGEST, PORTS, TFEND, TFESC};
use crate::links::{self, Verdict, ASKED_BY, IDLE, MOST, NUMBERS, UP};
use crate::parts::{Inside, Outside, Part, NOT_INSIDE};
use crate::port::{CaptureRecord, Link, Packet, State, LINK};
use crate::reasons::{self, Reason, REASONS};
use ax25::frame::{Ax25Frame, FrameContent, FrameParseError, ProtocolIdentifier};
use std::slice::{from_raw_parts, from_raw_parts_mut};
use std::sync::atomic::{AtomicUsize, Ordering};

/// What each fault does, from 1 on, and words in the name of a class that has to find it.
const FAULTS: [(&str, &str); 433] = [
    ("re-encoding writes the address field, then answers 24", "every prefix"),
    ("re-encoding writes the address field, then refuses the content", "every prefix"),
    ("re-encoding into no room at all answers 0", "every prefix"),
    ("re-encoding answers 24 before 9", "side by side"),
    ("a refused re-encoding writes into an output close by", "side by side"),
    ("nine repeaters: writes into an output close by", "side by side"),
    ("too little room: writes into an output close by", "side by side"),
    ("a search passes over 01 at the last place of an eight", "search by eights"),
    ("a search passes over the first odd octet at place 15", "search by eights"),
    ("writing UnknownContent touches room that is short", "records: every kind"),
    ("writing RR with N(R) over 7 touches room that is short", "records: every kind"),
    ("writing RR with N(R) over 7 goes on after its end", "records: every kind"),
    ("writing an absent mark touches room that is short", "records: every kind"),
    ("23 touches an output close by", "records: those that the Rust can't hold"),
    ("printing touches room that is short", "printing"),
    ("a refused decode leaves a record", "every prefix"),
    ("a refused text leaves an address", "text: every SSID"),
    ("a refused callsign leaves an SSID", "from_parts"),
    ("hops of a count over 8 are none", "hops"),
    ("the due place is the number of marks", "hops"),
    ("same station whatever the SSID", "same station"),
    ("same station whatever the case", "same station"),
    ("empty content is 5", "content alone"),
    ("refused content leaves its kind", "content alone"),
    ("writing content touches room that is short", "content written alone"),
    ("writing RNR's content with N(R) over 7 goes on after its end", "content written alone"),
    ("the relay marks the next place", "relay: every way to mark"),
    ("the relay sets the end bit", "relay: every way to mark"),
    ("the relay does not compare SSIDs", "relay: every way to mark"),
    ("the relay answers 42 for 41", "relay: every way to mark"),
    ("the relay answers 42 for 43", "relay: every way to mark"),
    ("the relay passes broken marks on", "relay: every way to mark"),
    ("the relay looks for marks beyond the route", "relay: every way to mark"),
    ("the relay looks at the frame before our own address", "relay: leading nulls"),
    ("the KISS reader takes DC and DD for each other", "KISS: every octet"),
    ("the KISS reader examines the type before its escape is removed", "KISS: every octet"),
    ("the KISS reader answers 56 before 54", "KISS: every octet"),
    ("the KISS reader takes port 12", "KISS: every octet"),
    ("the KISS reader passes over a doubled C0", "KISS: every string"),
    ("the KISS reader takes octets after the closing C0", "KISS: every string"),
    ("the KISS reader answers 53 where the last octet is DB", "KISS: every string"),
    ("the KISS reader looks for the closing C0 before the type", "KISS: every string"),
    ("the KISS reader answers 55 where there is no data", "KISS: every string"),
    ("the KISS reader answers 53 to nothing at all", "KISS: every string"),
    ("the KISS reader answers 24 before 53", "KISS: damaged copies"),
    ("the KISS reader drops data beyond 1,024 octets", "KISS: written"),
    ("a KISS packet refused by 53 touches the output", "KISS: damaged copies"),
    ("a refused KISS packet leaves the port", "KISS: every string"),
    ("a refused KISS packet leaves the length", "KISS: every string"),
    ("too little room for a KISS packet's data: touches it", "KISS: seeded packets"),
    ("too little room for a KISS packet's data: gives its port", "KISS: seeded packets"),
    ("the KISS reader goes on after the data", "KISS: seeded packets"),
    ("the KISS reader goes on after data close to the packet", "KISS: packet and data side by side"),
    ("the KISS writer does not escape DB", "KISS: written"),
    ("the KISS writer takes DC and DD for each other", "KISS: written"),
    ("the KISS writer takes port 12", "KISS: written"),
    ("the KISS writer puts the port into the low half", "KISS: written"),
    ("the KISS writer answers 24 before 56", "KISS: written"),
    ("a refused KISS packet is written with a length", "KISS: written"),
    ("the KISS writer touches room that is short", "KISS: written"),
    ("the KISS writer goes on after its end", "KISS: written"),
    ("the state of a KISS stream is reset at a piece's end", "KISS streams: packets of every sort"),
    ("a KISS stream forgets an escape across two pieces", "KISS streams: packets of every sort"),
    ("a KISS stream counts every octet while it drops", "KISS streams: packets of every sort"),
    ("a KISS stream takes a shared C0 for the closing one alone", "KISS streams: packets of every sort"),
    ("a KISS stream has room for 1,023 octets", "KISS streams: data around 1,024"),
    ("a KISS stream counts an escaped 1,025th octet at its DB", "KISS streams: data around 1,024"),
    ("the count of a KISS stream goes on at 0", "KISS streams: data around 1,024"),
    ("a KISS stream gives out nothing between two C0", "KISS streams: every string"),
    ("a KISS stream drops a packet without data", "KISS streams: every string"),
    ("a KISS stream counts octets before the first C0", "KISS streams: every string"),
    ("a KISS stream counts DB before C0 while it drops", "KISS streams: every string"),
    ("a KISS stream starts no packet at a C0 that shows a bad escape", "KISS streams: every string"),
    ("a KISS stream that drops keeps the port", "KISS streams: packets of every sort"),
    ("a KISS stream takes the octet after the closing C0", "KISS streams: packets of every sort"),
    ("a KISS stream takes the whole piece", "KISS streams: packets of every sort"),
    ("an empty piece ends the packet that a KISS stream gave out", "KISS streams: packets of every sort"),
    ("a KISS stream without a packet leaves its port as it was", "KISS streams: every string"),
    ("a KISS stream without a packet leaves its length as it was", "KISS streams: every string"),
    ("the room of a KISS stream shows how it was cut", "KISS streams: packets of every sort"),
    ("a KISS stream writes behind its state", "KISS streams: every string"),
    ("a KISS stream writes into the piece", "KISS streams: every string"),
    ("a KISS state that no call made is read as it is", "KISS streams: from states"),
    ("a KISS state that no call made loses its count", "KISS streams: from states"),
    ("the Rust writes 12 for every octet of the layer 3 class", "example's addresses"),
    ("re-encoding writes 10 for every octet of the layer 3 class", "example's addresses"),
    ("re-encoding into an output close by writes 10 for every octet of the layer 3 class", "input and output side by side"),
    ("re-encoding a layer 3 frame changes the octet before its control", "example's addresses"),
    ("re-encoding a layer 3 frame changes its control", "example's addresses"),
    ("re-encoding a layer 3 frame changes its first info octet", "octets: every control octet"),
    ("layer 3 is canonical as 10 alone", "example's addresses"),
    ("layer 3 is canonical whatever else", "octets: every bit of good"),
    ("a decoded layer 3 identifier carries 10", "example's addresses"),
    ("a record read again forgets its layer 3 octet", "records: every PID"),
    ("writing a record writes 10 for every octet of the layer 3 class", "records: every PID"),
    ("writing a layer 3 record changes the octet before its control", "records: every PID"),
    ("writing a layer 3 record changes its control", "records: every PID"),
    ("writing a layer 3 record changes its first info octet", "records: every PID"),
    ("24 comes before 25", "records: every PID"),
    ("25 comes before 21", "records: those that the Rust can't hold"),
    ("25 comes before 22", "records: those that the Rust can't hold"),
    ("the layer 3 octet EF is refused by 25", "records: every PID"),
    ("the layer 3 octet F0 is written", "records: every PID"),
    ("an unknown PID of the layer 3 class is refused by 25", "records: every PID"),
    ("25 refuses RR by an octet that is not in use", "records: seeded"),
    ("25 touches the output", "records: every PID"),
    ("25 touches an output close by", "records: those that the Rust can't hold, info"),
    ("25 gives a length", "records: every PID"),
    ("layer 3 content carries 10", "content alone: every content"),
    ("writing layer 3 content writes 10", "content written alone"),
    ("24 comes before 25 for content", "content written alone"),
    ("layer 3 content is written with the octet 30", "content written alone"),
    ("the Rust leaves a reserved bit of the last group clear", "octets: every setting"),
    ("re-encoding exchanges the two reserved bits", "octets: every setting"),
    ("re-encoding keeps the reserved bits of the destination alone", "octets: every setting"),
    ("re-encoding sets the reserved bits", "octets: every setting"),
    ("re-encoding into an output close by sets the reserved bits", "input and output side by side"),
    ("re-encoding changes the mark beside reserved bits that are not ones", "octets: every setting"),
    ("re-encoding changes the SSID beside reserved bits that are not ones", "octets: every setting"),
    ("reserved bits that are not ones are not canonical", "octets: every setting"),
    ("reserved bits that are not ones are canonical whatever else", "octets: every pair"),
    ("decoding exchanges the two reserved bits", "octets: every setting"),
    ("decoding keeps the reserved bits of the destination alone", "octets: every setting"),
    ("decoding sets the reserved bits", "octets: every setting"),
    ("decoding leaves reserved bits of 0 where a place is not in use", "octets: every setting"),
    ("a record read again forgets its reserved bits", "records: every number"),
    ("writing a record exchanges the two reserved bits", "records: every number"),
    ("writing a record keeps the reserved bits of the destination alone", "records: every number"),
    ("writing a record sets the reserved bits", "records: every number"),
    ("writing a record changes the mark beside reserved bits that are not ones", "records: every number"),
    ("writing a record changes the SSID beside reserved bits that are not ones", "records: every number"),
    ("reserved bits over 3 are written, cut to two bits", "records: every number"),
    ("reserved bits over 3 are written in the eighth repeater, cut to two bits", "records: every number"),
    ("22 refuses reserved bits over 3 where a place is not in use", "records: every number"),
    ("24 comes before 22 for reserved bits over 3", "records: every number"),
    ("22 for reserved bits over 3 comes before 21", "records: those that the Rust can't hold"),
    ("23 comes before 22 for reserved bits over 3", "records: those that the Rust can't hold"),
    ("22 for reserved bits over 3 touches the output", "records: every number"),
    ("text leaves reserved bits of 0", "text: every SSID"),
    ("from_parts leaves reserved bits of 0", "from_parts"),
    ("printing takes reserved bits over 3", "printing"),
    ("printing refuses reserved bits that are not ones", "printing"),
    ("same station by the reserved bits too", "same station"),
    ("new_simple_ui_frame sets the reserved bits", "new_simple_ui_frame"),
    ("the default frame has reserved bits of 0", "records: default"),
    ("the relay compares reserved bits", "relay: every setting"),
    ("the relay sets the reserved bits of the place that it marks", "relay: every setting"),
    ("the relay sets the reserved bits of the destination", "relay: every setting"),
    ("a relay refused by 42 sets the reserved bits of the source", "relay: every setting"),
    ("decoding passes over the lowest bit of the source's last character", "unseen: every bit"),
    ("decoding sets the reserved bits of the eighth repeater", "unseen: every bit"),
    ("decoding passes over UI's P/F", "unseen: every bit"),
    ("a decoded layer 3 identifier carries the high half of its octet", "unseen: every bit"),
    ("decoding leaves out info's first octet", "unseen: every bit"),
    ("decoding gives info's place one octet late", "unseen: every bit"),
    ("decoding shows bit 5 of FRMR's first info octet", "unseen: every bit"),
    ("decoding refuses FRMR where the low bit of its second info octet is set", "unseen: every bit"),
    ("decoding places info in FRMR where bit 4 of its first info octet is set", "unseen: every bit"),
    ("decoding refuses RNR, which is canonical", "unseen: every bit"),
    ("FRMR is canonical whatever bit 4 of its first info octet is", "unseen: every bit"),
    ("a frame with eight repeaters is not canonical", "unseen: every bit"),
    ("the Rust's frame has the octet of a layer 3 identifier", "unseen: every bit"),
    ("the Rust's frame lacks the mark of the last repeater", "unseen: every bit"),
    ("decoding takes equal marks for a Command", "unseen: canonical frames"),
    ("decoding leaves out zeros at the end of info", "unseen: canonical frames"),
    ("decoding puts the first two repeaters in order", "unseen: canonical frames"),
    ("a frame with a tail is canonical", "unseen: canonical frames"),
    ("decoding answers 10 to nulls alone", "octets: leading nulls"),
    ("decoding answers 2 before 10", "octets: every string"),
    ("decoding answers 10 after all other refusals", "octets: leading nulls"),
    ("decoding answers 1 where 80 stands among nulls at the fifth place of an eight", "search by eights"),
    ("decoding skips one null", "octets: leading nulls"),
    ("decoding gives a start with 10", "octets: leading nulls"),
    ("decoding leaves a record with 10", "octets: leading nulls"),
    ("the loader's decode skips nulls", "octets: leading nulls"),
    ("a frame behind nulls is canonical", "octets: leading nulls"),
    ("the length of a frame behind nulls is the frame's", "octets: leading nulls"),
    ("re-encoding skips nulls", "octets: leading nulls"),
    ("re-encoding answers 24 before 10", "octets: leading nulls"),
    ("re-encoding refused by 10 touches the output", "octets: leading nulls"),
    ("re-encoding refused by 10 writes into an output close by", "input and output side by side"),
    ("the relay skips nulls", "relay: leading nulls"),
    ("the relay answers 10 before 22", "relay: leading nulls"),
    ("the relay looks at the route before 10", "relay: leading nulls"),
    ("the relay marks a frame that it refuses by 10", "relay: leading nulls"),
    ("an old capture is read by the decoder", "octets: leading nulls"),
    ("the nulls of an old capture are a part of its first address", "octets: leading nulls"),
    ("only one null of an old capture is skipped", "octets: leading nulls"),
    ("an old capture of nulls alone is refused by 10", "octets: leading nulls"),
    ("3's start in an old capture is counted from its frame", "octets: every string"),
    ("3's end in an old capture is counted from its frame", "octets: every string"),
    ("4's length of an old capture is its frame's", "octets: spans"),
    ("info's start in an old capture is counted from its frame", "octets: leading nulls"),
    ("info is moved in an old capture of a kind that has none", "octets: leading nulls"),
    ("info is moved in a refused old capture", "octets: leading nulls"),
    ("every refusal of an old capture gives a start", "octets: leading nulls"),
    ("a refused old capture leaves a record", "octets: leading nulls"),
    ("a short record is written for an old capture", "records: buffers too short"),
    ("the loader's call for old captures is its decode", "octets: leading nulls"),
    ("the loader's call for old captures skips eight nulls at most", "octets: leading nulls"),
    ("the loader's call for old captures passes over 01 at the last place of an eight", "search by eights"),
    ("the loader's call for old captures passes over the end at place 15 behind nulls", "search by eights"),
    ("the Rust reads the last of nine repeaters otherwise behind nulls", "octets: long inputs"),
    ("decoding answers 6 to SREJ, as the Rust does", "example's addresses"),
    ("decoding answers 7 to SABME, as the Rust does", "example's addresses"),
    ("decoding answers 7 to XID, as the Rust does", "example's addresses"),
    ("decoding answers 7 to TEST, as the Rust does", "example's addresses"),
    ("decoding answers 6 to SREJ behind nine repeaters", "octets: kinds that the Rust does not know"),
    ("decoding answers 7 to a null before SABME", "octets: kinds that the Rust does not know"),
    ("decoding reads SREJ as REJ", "example's addresses"),
    ("decoding reads SABME as SABM", "example's addresses"),
    ("decoding reads XID as TEST", "example's addresses"),
    ("decoding reads TEST as XID where P/F is set", "example's addresses"),
    ("decoding passes over SREJ's P/F", "example's addresses"),
    ("decoding passes over SREJ's highest N(R)", "octets: kinds that the Rust does not know"),
    ("decoding shows N(R) in SABME", "example's addresses"),
    ("decoding passes over a PID in XID: info one octet late", "octets: kinds that the Rust does not know"),
    ("decoding gives TEST no info", "octets: kinds that the Rust does not know"),
    ("decoding gives XID's info 255 octets at most", "octets: kinds that the Rust does not know"),
    ("decoding gives SREJ its tail as info", "octets: kinds that the Rust does not know"),
    ("decoding gives XID without info no place for it", "octets: kinds that the Rust does not know"),
    ("decoding refuses XID without info by 5", "octets: kinds that the Rust does not know"),
    ("decoding refuses SABME with a tail by 7", "octets: kinds that the Rust does not know"),
    ("the loader's decode answers 6 to SREJ", "example's addresses"),
    ("the loader's decode answers 7 to TEST with info", "octets: kinds that the Rust does not know"),
    ("an old capture of SREJ is refused by 6", "octets: kinds that the Rust does not know"),
    ("an old capture of XID behind nulls is refused by 7", "octets: kinds that the Rust does not know"),
    ("XID's info in an old capture is counted from its frame", "octets: kinds that the Rust does not know"),
    ("the loader's call for old captures answers 7 to SABME", "octets: kinds that the Rust does not know"),
    ("content alone answers 6 to SREJ", "content alone: every content"),
    ("content alone answers 7 to TEST without info", "content alone: kinds that the Rust does not know"),
    ("content alone reads XID as TEST", "content alone: every content"),
    ("SREJ is not canonical", "octets: kinds that the Rust does not know"),
    ("SREJ with a tail is canonical", "example's addresses"),
    ("SABME with a tail is canonical", "example's addresses"),
    ("XID with info is not canonical", "example's addresses"),
    ("TEST without info is not canonical", "octets: kinds that the Rust does not know"),
    ("TEST is canonical where both marks are set", "octets: every bit of good"),
    ("the length of XID is that without its info", "example's addresses"),
    ("the length of SREJ is that with its tail", "example's addresses"),
    ("re-encoding answers 6 to SREJ", "example's addresses"),
    ("re-encoding writes SREJ as REJ", "example's addresses"),
    ("re-encoding writes SABME without P/F", "example's addresses"),
    ("re-encoding changes XID's first info octet", "example's addresses"),
    ("re-encoding into an output close by changes TEST's last info octet", "input and output side by side"),
    ("writing SREJ writes REJ", "records: every kind"),
    ("writing SREJ takes 7 for N(R) over 7", "records: every kind"),
    ("writing SABME writes N(R)", "records: every kind"),
    ("writing XID writes a PID", "records: every kind"),
    ("writing TEST refuses info by 23", "records: every kind"),
    ("writing SABME takes info", "records: those that the Rust can't hold"),
    ("writing SREJ with info answers 24 before 23", "records: those that the Rust can't hold"),
    ("writing TEST touches room that is short", "records: every kind"),
    ("writing XID goes on after its end", "records: every kind"),
    ("writing XID writes its info alone", "records: every kind"),
    ("content written alone: TEST refuses info by 23", "content written alone"),
    ("content written alone: SREJ writes REJ", "content written alone"),
    ("content written alone: SABME takes info", "content written alone"),
    ("a record of XID is read as unknown content", "records: every kind"),
    ("a record of kind 14 is read as TEST", "records: every kind"),
    ("a record read again forgets SREJ's N(R)", "records: every kind"),
    ("a record read again keeps N(R) beside SABME", "records: every kind"),
    ("the relay refuses SREJ by 6", "relay: kinds that the Rust does not know"),
    ("the relay refuses XID by 7 where it is not ours", "relay: kinds that the Rust does not know"),
    ("the relay changes SABME's tail", "relay: kinds that the Rust does not know"),
    ("the relay looks at the route before 10, of TEST alone", "relay: kinds that the Rust does not know"),
    ("decoding leaves out XID's last info octet", "unseen: every bit"),
    ("decoding passes over SABME's P/F", "unseen: every bit"),
    ("decoding shows REJ where SREJ's N(R) is 0", "unseen: every bit"),
    ("the Rust reads SREJ as RR", "example's addresses"),
    ("the Rust refuses SREJ by 7", "example's addresses"),
    ("the Rust refuses TEST by 6", "example's addresses"),
    ("the Rust reads XID as UI", "octets: kinds that the Rust does not know"),
    ("the Rust refuses SABME behind nulls by 6", "octets: kinds that the Rust does not know"),
    ("the Rust refuses XID by 6 in content alone", "content alone: every content"),
    ("the Rust reads TEST as RR on its way", "relay: kinds that the Rust does not know"),
    ("the Rust reads SREJ in a pair", "unseen: every bit"),
    ("a tail comes before absent marks as the reason", "octets: every bit of good"),
    ("absent marks come before leftover octets as the reason", "octets: every pair"),
    ("leftover octets are told by the place of the end", "example's addresses"),
    ("marks that are both set are no reason", "octets: every pair"),
    ("a tail is no reason", "example's addresses"),
    ("a tail is no reason, nor by the comparison's words", "example's addresses"),
    ("XID's info is a tail", "octets: kinds that the Rust does not know"),
    ("the low bit of FRMR's second info octet is no reason", "octets: FRMR"),
    ("the highest bit of FRMR's first info octet is no reason", "octets: FRMR"),
    ("reserved bits that are not ones are a reason", "octets: every setting"),
    ("the reason is that of the long mode", "example's addresses"),
    ("the reason passes over nulls", "octets: leading nulls"),
    ("the reason of a refused input is its number", "every prefix"),
    ("the reason of a refused input leaves the number as it was", "every prefix"),
    ("the reason of an accepted input leaves the place as it was", "example's addresses"),
    ("the reason writes behind the number", "example's addresses"),
    ("the place of 3 is the start", "octets: every bit of good"),
    ("the place of 4 is that of the control octet", "every prefix"),
    ("the place of 5 is that of the PID", "every prefix"),
    ("the place of 7 is that behind whole addresses", "octets: every bit of good"),
    ("the place of 9 is that of the control octet", "octets: every octet at every address place"),
    ("the place of 10 is that of the first octet that is no null", "octets: leading nulls"),
    ("one call leaves the first record as it was", "parts: lists of 0 to 100"),
    ("one call leaves the last record as it was", "parts: lists of 0 to 100"),
    ("one call leaves a lone record as it was", "parts: lists of 0 to 100"),
    ("one call leaves the second of two records as it was", "parts: lists of 0 to 100"),
    ("one call leaves the records behind the sixteenth as they were", "parts: lists of 0 to 100"),
    ("one call leaves the records behind a refused one as they were", "parts: lists of 0 to 100"),
    ("one call leaves the records behind one that is not inside as they were", "parts: lists of 0 to 100"),
    ("one call leaves a part that it has read before as it was", "parts: seeded"),
    ("one call leaves a record that holds a number as it was", "parts: lists of 0 to 100"),
    ("one call takes the count for one of eight bits", "parts: lists of 0 to 100"),
    ("one call takes the count for one of sixteen bits", "parts: lists of 0 to 100"),
    ("one call takes a start for one of sixteen bits", "parts: lists of 0 to 100"),
    ("one call takes a start for one of 32 bits", "parts: every start and length"),
    ("one call puts the records in the order of their starts", "parts: every start and length"),
    ("one call fills a record behind the last", "parts: lists of 0 to 100"),
    ("one call fills a record where there is none", "parts: lists of 0 to 100"),
    ("one call fills the records in reverse order", "parts: lists of 0 to 100"),
    ("one call changes the start of a record", "parts: every start and length"),
    ("one call changes the length of a record", "parts: every start and length"),
    ("one call changes the start of a record that is not inside", "parts: every start and length"),
    ("one call writes into the buffer", "parts: lists of 0 to 100"),
    ("one call reads in the long mode", "example's addresses"),
    ("one call passes over the start of a part", "parts: every start and length"),
    ("one call passes over the length of a part", "parts: every start and length"),
    ("one call starts a part one octet late", "parts: every start and length"),
    ("one call takes one octet more than the part, where there is one", "parts: every start and length"),
    ("one call passes over nulls", "octets: leading nulls"),
    ("one call takes a length for one of sixteen bits", "octets: long inputs"),
    ("one call takes a part that begins before the end of the last one for none", "parts: seeded"),
    ("one call takes a sum that wraps for one that is inside", "parts: every start and length"),
    ("one call takes a start beyond the end for the end", "parts: every start and length"),
    ("one call takes an empty part one octet behind the end for an empty one", "parts: every start and length"),
    ("one call cuts a part that is one octet too long", "parts: every start and length"),
    ("one call gives 61 to an empty part at the very end", "parts: every start and length"),
    ("one call gives 61 to an empty part of an empty buffer", "parts: every start and length"),
    ("one call gives 61 to a part up to the very end", "parts: every start and length"),
    ("one call gives 61 to the whole buffer", "parts: every start and length"),
    ("one call gives 61 to a part of no octets", "parts: every start and length"),
    ("one call gives the number of the whole buffer", "parts: seeded"),
    ("one call gives the canonical of the whole buffer", "parts: seeded"),
    ("one call gives the kind of the whole buffer", "parts: seeded"),
    ("one call gives the number of the record before", "parts: lists of 0 to 100"),
    ("one call gives the canonical of the record before", "parts: lists of 0 to 100"),
    ("one call gives the kind of the record before", "parts: lists of 0 to 100"),
    ("one call gives a refused part the kind of the record before", "parts: lists of 0 to 100"),
    ("one call gives a part that is not inside the kind of the record before", "parts: lists of 0 to 100"),
    ("one call gives a refused part kind 0", "every prefix"),
    ("one call gives a refused part the kind of its control octet", "octets: every control octet"),
    ("one call leaves the number of a refused part as it was", "every prefix"),
    ("one call leaves the canonical of a refused part as it was", "every prefix"),
    ("one call leaves the kind of a refused part as it was", "every prefix"),
    ("one call leaves the number of a part that is not inside as it was", "parts: every start and length"),
    ("one call leaves the canonical of a part that is not inside as it was", "parts: every start and length"),
    ("one call leaves the kind of a part that is not inside as it was", "parts: every start and length"),
    ("one call gives canonical 1 to a part that is not inside", "parts: every start and length"),
    ("one call gives kind 0 to a part that is not inside", "parts: every start and length"),
    ("one call gives canonical 1 to every accepted part", "octets: every bit of good"),
    ("one call gives canonical 0 to every part", "octets: every bit of good"),
    ("one call keeps a canonical that is not 0", "octets: every bit of good"),
    ("one call exchanges I and UI", "octets: every control octet"),
    ("one call exchanges RR and RNR", "octets: every control octet"),
    ("one call exchanges REJ and SREJ", "octets: every control octet"),
    ("one call exchanges SABM and SABME", "octets: every control octet"),
    ("one call exchanges DISC and DM", "octets: every control octet"),
    ("one call exchanges UA and FRMR", "octets: every control octet"),
    ("one call exchanges XID and TEST", "octets: every control octet"),
    ("one call counts the kinds from 1", "octets: every control octet"),
    ("one call takes the kind from the octet behind whole addresses", "octets: spans 1 to 100"),
    ("one call answers 6 to SREJ", "octets: kinds that the Rust does not know"),
    ("one call answers 7 to TEST with info", "octets: kinds that the Rust does not know"),
    ("one call answers 1 to a refused part whatever the number", "every prefix"),
    ("a link counts a frame as repeated without a memory", "links: every state"),
    ("a link takes a memory over 1 for none", "links: every state"),
    ("a link takes a state over 3 for up", "links: every state"),
    ("a link never counts a frame as repeated", "links: every state"),
    ("a link counts a number two less than expected as repeated", "links: every state"),
    ("a link moves on by a gap", "links: every state"),
    ("a link moves on by a repeated frame", "links: every state"),
    ("a link moves both directions on", "links: every state"),
    ("a link expects 8 behind 7", "links: every state"),
    ("a link counts a frame as a gap while it is asked", "links: every state"),
    ("a link counts UI as outside", "links: every state"),
    ("a link is made up by UA of the asker", "links: every state"),
    ("a link is made up by UA while idle", "links: every state"),
    ("a link starts anew by UA while up", "links: every state"),
    ("a link keeps what it expects at UA", "links: seeded recordings"),
    ("a link keeps its memories at UA", "links: seeded recordings"),
    ("a link passes over SABM while up", "links: every state"),
    ("a link passes over SABM of the other while asked", "links: every state"),
    ("a link passes over SABM that is a response", "links: every state"),
    ("a link passes over SABME", "links: every state"),
    ("a link passes over DM while asked", "links: every state"),
    ("a link passes over DISC from b", "links: every state"),
    ("a link passes over an I frame with P", "links: every state"),
    ("a link passes over a frame with repeaters", "links: every state"),
    ("a link passes over a frame with leftover octets", "links: octets off the air"),
    ("a link is made idle by FRMR", "links: every state"),
    ("a link is made idle by XID", "links: every state"),
    ("a link expects 0 at SABM", "links: every state"),
    ("a link loses its memories at DISC", "links: every state"),
    ("a link compares reserved bits", "links: every state"),
    ("a link compares no SSIDs", "links: every state"),
    ("a link looks at the destination alone", "links: every state"),
    ("a link takes a null for a space", "links: seeded recordings"),
    ("a link takes small letters for capital ones", "links: seeded recordings"),
    ("a link skips nulls before a frame", "links: seeded recordings"),
    ("a link counts no frame of others as offered", "links: every state"),
    ("a link counts no refused frame as offered", "links: seeded recordings"),
    ("a link counts a refused frame as a gap", "links: seeded recordings"),
    ("a link answers 0 to a refused frame", "links: seeded recordings"),
    ("a link adds its counts in 32 bits", "links: records that no call made"),
    ("a link is unsound where its counts come to what was offered", "links: records that no call made"),
    ("a link may expect 8", "links: records that no call made"),
    ("a link is unsound only while up", "links: records that no call made"),
    ("a link is full at 65,534", "links: seeded recordings"),
    ("a link takes the 65,536th frame", "links: seeded recordings"),
    ("a link takes its offered for one of sixteen bits", "links: records that no call made"),
    ("a link gives 71 before 73", "links: records that no call made"),
    ("a link gives 73 before 72", "links: records that no call made"),
    ("a link gives 72 before 22", "links: records that no call made"),
    ("a link gives decoding's number before 71", "links: records that no call made"),
    ("a link takes equal stations with other reserved bits for two", "links: records that no call made"),
    ("a link does not look whether b is encodable", "links: records that no call made"),
    ("a link takes reserved bits over 3", "links: records that no call made"),
    ("a link refused by 22 gets its second station blank", "links: records that no call made"),
    ("a link refused by 72 counts the frame as offered", "links: records that no call made"),
    ("a link refused by 73 counts the frame as offered", "links: records that no call made"),
    ("a link refused by 71 is made idle", "links: records that no call made"),
    ("a link stores a state over 3 as 0", "links: every state"),
    ("a link stores a memory over 1 as 1", "links: every state"),
    ("a link takes the reserved bits of a frame", "links: every state"),
    ("a link writes into the frame", "links: every state"),
    ("a link writes behind its record", "links: every state"),
    ("a link leaves frames outside uncounted, as by the comparison's words", "links of"),
];

/// Those of them that the laboratory's reading of a capture has to find too, in which all frames stand in one buffer and one list.
const IN_ONE_CALL: [&str; 22] = [
    "one call leaves the first record as it was",
    "one call leaves the last record as it was",
    "one call leaves the records behind the sixteenth as they were",
    "one call leaves the records behind a refused one as they were",
    "one call fills a record behind the last",
    "one call fills the records in reverse order",
    "one call changes the start of a record",
    "one call changes the length of a record",
    "one call writes into the buffer",
    "one call reads in the long mode",
    "one call passes over the start of a part",
    "one call passes over the length of a part",
    "one call passes over nulls",
    "one call gives 61 to a part up to the very end",
    "one call gives the number of the whole buffer",
    "one call gives the canonical of the whole buffer",
    "one call gives the kind of the record before",
    "one call gives a refused part kind 0",
    "one call gives canonical 1 to every accepted part",
    "one call exchanges RR and RNR",
    "one call exchanges XID and TEST",
    "one call answers 6 to SREJ",
];

/// The same of links, which are followed through all frames of a capture.
const OF_LINKS: [&str; 18] = [
    "a link counts a frame as repeated without a memory",
    "a link never counts a frame as repeated",
    "a link moves on by a gap",
    "a link moves both directions on",
    "a link is made up by UA of the asker",
    "a link is made up by UA while idle",
    "a link keeps its memories at UA",
    "a link passes over SABM while up",
    "a link passes over SABME",
    "a link passes over DISC from b",
    "a link passes over a frame with repeaters",
    "a link compares reserved bits",
    "a link compares no SSIDs",
    "a link looks at the destination alone",
    "a link skips nulls before a frame",
    "a link counts no frame of others as offered",
    "a link counts no refused frame as offered",
    "a link writes into the frame",
];

/// A line for each fault: its number, the words, and what it does; then one for each that a capture has to find too.
pub fn list() {
    let found_in = |faults: &'static [&str], class: &'static str| {
        FAULTS.iter().map(move |&(what, _)| (what, class)).enumerate().filter(move |(_, (what, _))| faults.contains(what))
    };
    let of_captures = found_in(&IN_ONE_CALL, "in one call").chain(found_in(&OF_LINKS, "links of"));
    for (i, (what, class)) in FAULTS.iter().copied().enumerate().chain(of_captures) {
        println!("{}\t{}\t{}", i + 1, class, what);
    }
}

static FAULT: AtomicUsize = AtomicUsize::new(usize::MAX);

fn is(what: &str) -> bool {
    if FAULT.load(Ordering::Relaxed) == usize::MAX {
        let number = std::env::var("COMPARE_FAULT").ok().and_then(|number| number.parse().ok()).unwrap_or(0);
        FAULT.store(number, Ordering::Relaxed);
    }
    let fault = FAULT.load(Ordering::Relaxed);
    fault > 0 && FAULTS[fault - 1].0 == what
}

extern "C" {
    fn __real_ax25_decode(input: *const u8, input_len: usize) -> u32;
    fn __real_ax25_decode_old_capture(input: *const u8, input_len: usize) -> u32;
    fn __real_ax25_canonical(input: *const u8, input_len: usize) -> u32;
    fn __real_ax25_reason(input: *const u8, input_len: usize, mode: u32, number: *mut u32, place: *mut usize) -> u32;
    fn __real_ax25_captures(input: *const u8, input_len: usize, mode: u32, records: *mut CaptureRecord, count: usize);
    fn __real_ax25_reencoded_length(input: *const u8, input_len: usize) -> usize;
    fn __real_ax25_reencode(input: *const u8, input_len: usize, out: *mut u8, out_len: usize) -> u32;
    fn __real_ax25_relay(callsign: *const u8, callsign_len: usize, ssid: u8, frame: *mut u8, frame_len: usize) -> u32;
    fn __real_ax25_kiss_read(input: *const u8, input_len: usize, out: *mut u8, out_len: usize, port: *mut u8, length: *mut usize) -> u32;
    fn __real_ax25_kiss_write(port: u8, input: *const u8, input_len: usize, out: *mut u8, out_len: usize, length: *mut usize) -> u32;
    fn __real_ax25_kiss_feed(stream: *mut State, piece: *const u8, piece_len: usize, packet: *mut Packet) -> usize;
    fn __real_ax25_link_offer(link: *mut Link, frame: *const u8, frame_len: usize) -> u32;
    fn __real_probe_decode(mode: u32, input: *const u8, input_len: usize, record: *mut u8, record_len: usize, places: *mut usize, places_len: usize) -> u32;
    fn __real_probe_decode_old(mode: u32, input: *const u8, input_len: usize, record: *mut u8, record_len: usize, places: *mut usize, places_len: usize) -> u32;
    fn __real_probe_encode(mode: u32, record: *const u8, record_len: usize, info: *const u8, info_len: usize, out: *mut u8, out_len: usize, length: *mut usize, length_len: usize) -> u32;
    fn __real_probe_again(given: *const u8, given_len: usize, record: *mut u8, record_len: usize) -> u32;
    fn __real_probe_from_parts(callsign: *const u8, callsign_len: usize, ssid: u8, address: *mut u8, address_len: usize) -> u32;
    fn __real_probe_from_str(text: *const u8, text_len: usize, address: *mut u8, address_len: usize) -> u32;
    fn __real_probe_simple_ui(source: *const u8, source_len: usize, destination: *const u8, destination_len: usize, record: *mut u8, record_len: usize) -> u32;
    fn __real_probe_default(record: *mut u8, record_len: usize) -> u32;
    fn __real_probe_print(address: *const u8, address_len: usize, out: *mut u8, out_len: usize, length: *mut usize, length_len: usize) -> u32;
    fn __real_probe_hops(record: *const u8, record_len: usize, numbers: *mut usize, numbers_len: usize) -> u32;
    fn __real_probe_same_station(one: *const u8, one_len: usize, other: *const u8, other_len: usize) -> u32;
    fn __real_probe_content(mode: u32, input: *const u8, input_len: usize, content: *mut u8, content_len: usize) -> u32;
    fn __real_probe_content_encode(mode: u32, content: *const u8, content_len: usize, info: *const u8, info_len: usize, out: *mut u8, out_len: usize, length: *mut usize, length_len: usize) -> u32;
}

/// Whether two buffers stand side by side, as `port::Beside` places them.
fn close(one: &[u8], other: &[u8]) -> bool {
    let (a, b) = (one.as_ptr() as usize, other.as_ptr() as usize);
    if a <= b { b - a <= one.len() + 40 } else { a - b <= other.len() + 40 }
}

/// Spoils the first octet, if there is one.
fn spoil(out: &mut [u8]) {
    if let Some(octet) = out.first_mut() {
        *octet ^= 0x55;
    }
}

fn octet(record: &[u8], at: usize) -> u8 {
    record.get(at).copied().unwrap_or(0)
}

/// A kind that the Rust does not know: which one, by its control octet, and how many octets stand behind that. Another input has none.
struct Unknown {
    kind: u8,
    control: u8,
    behind: usize,
}

impl Unknown {
    fn of_content(content: &[u8]) -> Unknown {
        let known = Unknown { kind: UNKNOWN_CONTENT, control: 0, behind: 0 };
        let (&control, rest) = match content.split_first() {
            Some(parts) => parts,
            None => return known,
        };
        domain::added(control).map_or(known, |added| Unknown { kind: added.kind, control, behind: rest.len() })
    }

    fn of(input: &[u8]) -> Unknown {
        match (domain::added_in(input), domain::control_of(input)) {
            (Some(_), Some((at, _))) => Unknown::of_content(&input[at..]),
            _ => Unknown::of_content(&[]),
        }
    }

    /// The number of the first of these faults that is on and is of this kind.
    fn refused(&self, faults: &[(&str, u8, u32)]) -> Option<u32> {
        faults.iter().find(|(fault, kind, _)| *kind == self.kind && is(fault)).map(|&(_, _, number)| number)
    }
}

/// A control octet of no kind, by which a faulty reader may take one that it does not know: the port refuses it by 7.
const NO_KIND: u8 = 0x07;

/// An input as a reader takes it that refuses this kind.
fn not_known(input: &[u8], refused: Option<u32>) -> Vec<u8> {
    let mut taken = input.to_vec();
    if let (Some(_), Some((at, _))) = (refused, domain::control_of(input)) {
        taken[at] = NO_KIND;
    }
    taken
}

/// The number that it then gives.
fn numbered(number: u32, refused: Option<u32>) -> u32 {
    refused.filter(|_| number == 7).unwrap_or(number)
}

/// The faults of writing a layer 3 frame, by their names: 10 for its PID, and a bit changed in the octet before its control, in its
/// control and in its first info octet.
fn misspell(frame: &mut [u8], [ten, before, control, info]: [&str; 4]) {
    let at = match domain::layer_3_at(frame) {
        Some(at) => at,
        None => return,
    };
    if is(ten) {
        frame[at] = RUST_LAYER_3;
    }
    for (fault, place) in [(before, at - 2), (control, at - 1), (info, at + 1)] {
        if is(fault) {
            frame.get_mut(place).into_iter().for_each(|octet| *octet ^= 0x40);
        }
    }
}

/// What the Rust wrote for a layer 3 identifier and for reserved bits, otherwise than it does.
pub fn misspell_rust(octets: &mut [u8], record: &Flat) {
    if is("the Rust writes 12 for every octet of the layer 3 class") && flat::is_layer_3(record) {
        octets[domain::pid_at(octets)] = 0x12;
    }
    if is("the Rust leaves a reserved bit of the last group clear") {
        octets[domain::seventh(0, flat::places(record).count() - 1)] &= 0xDF;
    }
}

/// The faults of keeping reserved bits, by their names: the two exchanged, those of the first address alone kept, all of them set.
fn miskept(reserved: u8, address: usize, [exchanged, first, none]: [&str; 3]) -> u8 {
    if is(none) || is(first) && address > 0 {
        return ONES;
    }
    if is(exchanged) { reserved >> 1 | reserved << 1 & 2 } else { reserved }
}

/// The same in a frame as writing gives it; and, beside bits that are not ones, the mark and the highest bit of the SSID changed.
fn misspell_reserved(frame: &mut [u8], names: [&str; 3], [mark, ssid]: [&str; 2]) {
    let field = frame.iter().position(|&octet| octet % 2 == 1).map_or(0, |end| end + 1);
    for group in 0..field / GROUP {
        let seventh = &mut frame[domain::seventh(0, group)];
        let reserved = domain::reserved_in(*seventh);
        *seventh = domain::with_reserved(*seventh, miskept(reserved, group, names));
        for (fault, bit) in [(mark, 0x80), (ssid, 0x10)] {
            *seventh ^= if is(fault) && reserved != ONES { bit } else { 0 };
        }
    }
}

/// What the Rust read or refused, otherwise than it does.
pub fn misread_by_rust(read: Result<Ax25Frame, FrameParseError>, input: &[u8]) -> Result<Ax25Frame, FrameParseError> {
    let with = |control: u8| {
        let mut other = input.to_vec();
        other[domain::control_of(input).map_or(0, |(at, _)| at)] = control;
        Ax25Frame::from_bytes(&other)
    };
    let Unknown { kind, control, behind } = Unknown::of(input);
    match kind {
        SREJ if is("the Rust reads SREJ as RR") || is("the Rust reads SREJ in a pair") => with(control & 0xF1),
        SREJ if is("the Rust refuses SREJ by 7") => Err(FrameParseError::UnrecognisedUFieldType),
        TEST if is("the Rust refuses TEST by 6") => Err(FrameParseError::UnrecognisedSFieldType),
        TEST if is("the Rust reads TEST as RR on its way") && domain::repeaters(input) > 0 => with(0x01),
        XID if is("the Rust reads XID as UI") && behind > 0 => with(0x03),
        XID if is("the Rust refuses XID by 6 in content alone") => Err(FrameParseError::UnrecognisedSFieldType),
        SABME if is("the Rust refuses SABME behind nulls by 6") && domain::is_nulled(input) => Err(FrameParseError::UnrecognisedSFieldType),
        _ => read.map(|frame| misframed_by_rust(frame, input)),
    }
}

/// A frame of the Rust's, with something that it does not have, or without something that it has.
fn misframed_by_rust(mut frame: Ax25Frame, input: &[u8]) -> Ax25Frame {
    let pid = match &mut frame.content {
        FrameContent::Information(i) => Some(&mut i.pid),
        FrameContent::UnnumberedInformation(u) => Some(&mut u.pid),
        _ => None,
    };
    if let (Some(pid @ ProtocolIdentifier::Layer3Impl), true) = (pid, is("the Rust's frame has the octet of a layer 3 identifier")) {
        *pid = ProtocolIdentifier::Unknown(domain::pid_of(input));
    }
    if let (Some(last), true) = (frame.route.last_mut(), is("the Rust's frame lacks the mark of the last repeater")) {
        last.has_repeated = false;
    }
    let nine = frame.route.len() > REPEATERS && domain::is_nulled(input);
    if let (Some(last), true) = (frame.route.last_mut(), nine && is("the Rust reads the last of nine repeaters otherwise behind nulls")) {
        last.has_repeated = !last.has_repeated;
    }
    frame
}

/// Whether one of these excepted bits is set, in FRMR's first info octet or in its second.
fn has_excepted(frame: &[u8], which: usize, bits: u8) -> bool {
    domain::excepted(frame).get(which).map_or(false, |&(at, excepted)| octet(frame, at) & excepted & bits != 0)
}

/// An input without its nulls, by this fault; one of nulls alone stays as it is.
fn skipped<'a>(input: &'a [u8], fault: &str) -> &'a [u8] {
    if is(fault) && domain::is_nulled(input) { &input[domain::nulls(input)..] } else { input }
}

/// A frame as a faulty check might look at it: without a bit of FRMR, without the tail of a kind that has no info, without one of two marks,
/// or without its nulls.
fn looked_at(input: &[u8]) -> Vec<u8> {
    let input = skipped(input, "a frame behind nulls is canonical");
    let mut looked_at = input.to_vec();
    let (_, end) = domain::field(input).unwrap_or((0, 0));
    let control = octet(input, end + 1);
    if is("FRMR is canonical whatever bit 4 of its first info octet is") && has_excepted(input, 0, 0x10) {
        looked_at[end + 2] &= 0xEF;
    }
    if is("a frame with a tail is canonical") && control % 2 == 1 && ![0x03, 0x87, 0xAF, 0xE3].contains(&(control & 0xEF)) {
        looked_at.truncate(end + 2);
    }
    match Unknown::of(input).kind {
        SREJ if is("SREJ with a tail is canonical") => looked_at.truncate(end + 2),
        SABME if is("SABME with a tail is canonical") => looked_at.truncate(end + 2),
        TEST if is("TEST is canonical where both marks are set") && looked_at[6] & 0x80 != 0 => looked_at[13] &= 0x7F,
        _ => {}
    }
    looked_at
}

/// Whether an input is accepted that has reserved bits which are not ones.
unsafe fn has_clear(input: &[u8]) -> bool {
    __real_ax25_decode(input.as_ptr(), input.len()) == 0 && domain::reserved_of(input).any(|reserved| reserved != ONES)
}

/// An input as faulty searches might pass over it, by their names: 01 at the last place of an eight, and the first odd octet at place 15,
/// counted from the first nonzero octet.
fn passed_over(input: &[u8], [first, end]: [&str; 2]) -> Vec<u8> {
    let mut passed = input.to_vec();
    let (start, odd) = match domain::field(input) {
        Some(field) => field,
        None => return passed,
    };
    if is(first) && start % 8 == 7 && input[start] == 1 {
        passed[start] = 0;
    }
    if is(end) && odd - start == 15 {
        passed[odd] ^= 1;
    }
    passed
}

#[no_mangle]
unsafe extern "C" fn __wrap_ax25_decode(input: *const u8, input_len: usize) -> u32 {
    let octets = skipped(from_raw_parts(input, input_len), "the loader's decode skips nulls");
    let passed = passed_over(octets, [
        "a search passes over 01 at the last place of an eight",
        "a search passes over the first odd octet at place 15",
    ]);
    let unknown = Unknown::of(&passed);
    let something = if unknown.behind > 0 { "the loader's decode answers 7 to TEST with info" } else { "" };
    let refused = unknown.refused(&[("the loader's decode answers 6 to SREJ", SREJ, 6), (something, TEST, 7)]);
    let taken = not_known(&passed, refused);
    numbered(__real_ax25_decode(taken.as_ptr(), taken.len()), refused)
}

#[no_mangle]
unsafe extern "C" fn __wrap_ax25_decode_old_capture(input: *const u8, input_len: usize) -> u32 {
    let octets = from_raw_parts(input, input_len);
    let many = is("the loader's call for old captures skips eight nulls at most") && domain::nulls(octets) > 8;
    if is("the loader's call for old captures is its decode") || many {
        return __real_ax25_decode(input, input_len);
    }
    let end = if domain::is_nulled(octets) { "the loader's call for old captures passes over the end at place 15 behind nulls" } else { "" };
    let passed = passed_over(octets, ["the loader's call for old captures passes over 01 at the last place of an eight", end]);
    let taken = not_known(&passed, Unknown::of(&passed).refused(&[("the loader's call for old captures answers 7 to SABME", SABME, 7)]));
    __real_ax25_decode_old_capture(taken.as_ptr(), taken.len())
}

#[no_mangle]
unsafe extern "C" fn __wrap_ax25_canonical(input: *const u8, input_len: usize) -> u32 {
    let octets = from_raw_parts(input, input_len);
    if is("reserved bits that are not ones are not canonical") && has_clear(octets) {
        return 0;
    }
    if is("reserved bits that are not ones are canonical whatever else") && has_clear(octets) {
        return 1;
    }
    match Unknown::of(octets) {
        Unknown { kind: SREJ, .. } if is("SREJ is not canonical") => return 0,
        Unknown { kind: XID, behind: 1.., .. } if is("XID with info is not canonical") => return 0,
        Unknown { kind: TEST, behind: 0, .. } if is("TEST without info is not canonical") => return 0,
        _ => {}
    }
    match domain::layer_3_at(octets) {
        Some(at) if is("layer 3 is canonical as 10 alone") && octets[at] != RUST_LAYER_3 => 0,
        Some(_) if is("layer 3 is canonical whatever else") => u32::from(__real_ax25_decode(input, input_len) == 0),
        _ if is("a frame with eight repeaters is not canonical") && domain::repeaters(octets) == REPEATERS => 0,
        _ => {
            let looked_at = looked_at(octets);
            __real_ax25_canonical(looked_at.as_ptr(), looked_at.len())
        }
    }
}

/// The reason that a faulty call might give to an accepted input in the place of this one.
unsafe fn misreasoned(input: &[u8], reason: Reason) -> Reason {
    let told_by_end = if is("leftover octets are told by the place of the end") { (reasons::span(input) - 1) % GROUP } else { 0 };
    match reason {
        _ if told_by_end > 0 => Reason::Leftover,
        Reason::Leftover if is("absent marks come before leftover octets as the reason") && Reason::Marks.holds(input) => Reason::Marks,
        Reason::Marks if is("a tail comes before absent marks as the reason") && Reason::Tail.holds(input) => Reason::Tail,
        Reason::Marks if is("marks that are both set are no reason") && octet(input, domain::seventh(0, 0)) & 0x80 != 0 => Reason::None,
        Reason::Tail if is("a tail is no reason") => Reason::None,
        Reason::None if is("XID's info is a tail") && matches!(Unknown::of(input), Unknown { kind: XID, behind: 1.., .. }) => Reason::Tail,
        Reason::Fixed if is("the low bit of FRMR's second info octet is no reason") && !has_excepted(input, 0, 0xF0) => Reason::None,
        Reason::Fixed if is("the highest bit of FRMR's first info octet is no reason") && !has_excepted(input, 0, 0x70) => {
            if has_excepted(input, 1, 0x01) { Reason::Fixed } else { Reason::None }
        }
        Reason::None if is("reserved bits that are not ones are a reason") && has_clear(input) => Reason::Fixed,
        reason => misworded(reason),
    }
}

/// The same of what the comparison's words say: where the port says so too, only the re-encoding tells.
pub fn misworded(reason: Reason) -> Reason {
    match reason {
        Reason::Tail if is("a tail is no reason, nor by the comparison's words") => Reason::None,
        reason => reason,
    }
}

/// The same of the place that a refusal is about.
fn misplaced(input: &[u8], number: u32, place: usize) -> usize {
    let span = reasons::span(input);
    match number {
        3 if is("the place of 3 is the start") => 0,
        4 if is("the place of 4 is that of the control octet") => span,
        5 if is("the place of 5 is that of the PID") => span + 1,
        7 if is("the place of 7 is that behind whole addresses") => span / GROUP * GROUP,
        9 if is("the place of 9 is that of the control octet") => span,
        10 if is("the place of 10 is that of the first octet that is no null") => domain::nulls(input),
        _ => place,
    }
}

#[no_mangle]
unsafe extern "C" fn __wrap_ax25_reason(input: *const u8, input_len: usize, mode: u32, number: *mut u32, place: *mut usize) -> u32 {
    let octets = skipped(from_raw_parts(input, input_len), "the reason passes over nulls");
    let before = (*number, *place);
    let mode = if is("the reason is that of the long mode") { 1 } else { mode };
    let answer = __real_ax25_reason(octets.as_ptr(), octets.len(), mode, number, place);
    if is("the reason writes behind the number") {
        *number.add(1) = *number;
    }
    if let Some(&(reason, _)) = REASONS.get(answer as usize) {
        if is("the reason of an accepted input leaves the place as it was") {
            *place = before.1;
        }
        return misreasoned(octets, reason) as u32;
    }
    *place = misplaced(octets, *number, *place);
    if is("the reason of a refused input is its number") {
        return *number;
    }
    if is("the reason of a refused input leaves the number as it was") {
        *number = before.0;
    }
    answer
}

/// A part as a faulty call might take it; the record before it is given too.
fn mistaken_part(buffer: &[u8], record: &CaptureRecord, before: Option<&CaptureRecord>) -> Part {
    let end = buffer.len();
    let none = Part { start: end + 1, length: 0 };
    let mut part = Part { start: record.start, length: record.length };
    if is("one call takes a length for one of sixteen bits") {
        part.length &= 0xFFFF;
    }
    if is("one call takes a start for one of sixteen bits") {
        part.start &= 0xFFFF;
    }
    if is("one call takes a start for one of 32 bits") {
        part.start &= 0xFFFF_FFFF;
    }
    if is("one call passes over the start of a part") {
        return Part { start: 0, ..part };
    }
    let octets = match part.of(buffer) {
        Some(octets) => octets,
        None => return misjudged(&part, end),
    };
    let overlaps = before.map_or(false, |before| part.start < before.start.saturating_add(before.length));
    let is_none = match Inside::of(&part, end) {
        _ if is("one call takes a part that begins before the end of the last one for none") && overlaps => true,
        Inside::EmptyAtTheEnd if is("one call gives 61 to an empty part of an empty buffer") => end == 0,
        Inside::EmptyAtTheEnd => is("one call gives 61 to an empty part at the very end") || is("one call gives 61 to a part of no octets"),
        Inside::Empty => is("one call gives 61 to a part of no octets"),
        Inside::Whole => is("one call gives 61 to the whole buffer") || is("one call gives 61 to a part up to the very end"),
        Inside::Last => is("one call gives 61 to a part up to the very end"),
        Inside::First | Inside::Amidst => false,
    };
    let skipped = octets.len() - skipped(octets, "one call passes over nulls").len();
    match part {
        _ if is_none => none,
        Part { start, .. } if is("one call passes over the length of a part") => Part { start, length: end - start },
        Part { start, length: 1.. } if is("one call starts a part one octet late") => Part { start: start + 1, length: part.length - 1 },
        Part { start, length } if is("one call takes one octet more than the part, where there is one") && start + length < end => {
            Part { start, length: length + 1 }
        }
        Part { start, length } => Part { start: start + skipped, length: length - skipped },
    }
}

/// The same of a part that is not inside a buffer with this end.
fn misjudged(part: &Part, end: usize) -> Part {
    match Outside::of(part, end) {
        Outside::WrapsInside if is("one call takes a sum that wraps for one that is inside") => Part { start: 0, length: 0 },
        Outside::NextToTheEnd if is("one call takes an empty part one octet behind the end for an empty one") => Part { start: end, length: 0 },
        Outside::StartsBeyond | Outside::NextToTheEnd if is("one call takes a start beyond the end for the end") => Part { start: end, length: 0 },
        Outside::OneTooLong if is("one call cuts a part that is one octet too long") => Part { start: part.start, length: part.length - 1 },
        _ => *part,
    }
}

/// Two kinds that a faulty call might exchange.
const EXCHANGED: [(&str, u8, u8); 7] = [
    ("one call exchanges I and UI", I, UI),
    ("one call exchanges RR and RNR", RR, RNR),
    ("one call exchanges REJ and SREJ", REJ, SREJ),
    ("one call exchanges SABM and SABME", SABM, SABME),
    ("one call exchanges DISC and DM", DISC, DM),
    ("one call exchanges UA and FRMR", UA, FRMR),
    ("one call exchanges XID and TEST", XID, TEST),
];

/// The kind that the octet at this place would be the control octet of.
fn kind_at(octets: &[u8], at: usize) -> u16 {
    let content = [octet(octets, at), 0x01, 0x02, 0x44];
    let content = if content[0] & 0xEF == 0x87 { &content[..] } else { &content[..2] };
    let input = crate::inputs::with_content(content);
    let frame = crate::check::decoded(&input);
    frame.map_or(UI, |frame| crate::oracle::record(&input, &frame)[KIND]).into()
}

/// The record, or the one that a fault which is on has in its place.
fn one_of(record: CaptureRecord, faults: &[(&str, CaptureRecord)]) -> CaptureRecord {
    faults.iter().find(|(fault, _)| is(fault)).map_or(record, |&(_, other)| other)
}

/// A record of an accepted part, as a faulty call might fill it.
fn misfilled(octets: &[u8], record: &mut CaptureRecord) {
    if is("one call gives canonical 1 to every accepted part") {
        record.canonical = 1;
    }
    for (fault, one, other) in EXCHANGED {
        let (one, other) = (u16::from(one), u16::from(other));
        record.kind = match record.kind {
            kind if kind == one && is(fault) => other,
            kind if kind == other && is(fault) => one,
            kind => kind,
        };
    }
    record.kind += u16::from(is("one call counts the kinds from 1"));
    if is("one call takes the kind from the octet behind whole addresses") {
        record.kind = kind_at(octets, reasons::span(octets) / GROUP * GROUP);
    }
    let unknown = Unknown::of(octets);
    let something = if unknown.behind > 0 { "one call answers 7 to TEST with info" } else { "" };
    if let Some(number) = unknown.refused(&[("one call answers 6 to SREJ", SREJ, 6), (something, TEST, 7)]) {
        *record = CaptureRecord { number, canonical: 0, kind: UI.into(), ..*record };
    }
}

/// The same of a refused part, or, where there are no octets, of one that is not inside.
fn misrefused(octets: Option<&[u8]>, given: &CaptureRecord, record: &mut CaptureRecord) {
    let [number, canonical, kind, zero] = match octets {
        Some(_) => [
            "one call leaves the number of a refused part as it was",
            "one call leaves the canonical of a refused part as it was",
            "one call leaves the kind of a refused part as it was",
            "one call gives a refused part kind 0",
        ],
        None => [
            "one call leaves the number of a part that is not inside as it was",
            "one call leaves the canonical of a part that is not inside as it was",
            "one call leaves the kind of a part that is not inside as it was",
            "one call gives kind 0 to a part that is not inside",
        ],
    };
    let faults = [
        (number, CaptureRecord { number: given.number, ..*record }),
        (canonical, CaptureRecord { canonical: given.canonical, ..*record }),
        (kind, CaptureRecord { kind: given.kind, ..*record }),
        (zero, CaptureRecord { kind: 0, ..*record }),
    ];
    *record = one_of(*record, &faults);
    match octets {
        Some(octets) if is("one call gives a refused part the kind of its control octet") => record.kind = kind_at(octets, reasons::span(octets)),
        Some(_) if is("one call answers 1 to a refused part whatever the number") => record.number = 1,
        None if is("one call gives canonical 1 to a part that is not inside") => record.canonical = 1,
        _ => {}
    }
}

/// Which records of a list a faulty call might fill: from this number on, up to that.
fn left_out(records: &[CaptureRecord]) -> (usize, usize) {
    let count = records.len();
    let first = usize::from(is("one call leaves the first record as it was") || is("one call leaves a lone record as it was") && count == 1);
    let behind = |stops: &dyn Fn(&CaptureRecord) -> bool| records.iter().position(stops).map_or(count, |at| at + 1);
    let end = match count {
        _ if is("one call leaves the last record as it was") => count.saturating_sub(1),
        2 if is("one call leaves the second of two records as it was") => 1,
        17.. if is("one call leaves the records behind the sixteenth as they were") => 16,
        _ if is("one call takes the count for one of eight bits") => count & 0xFF,
        _ if is("one call takes the count for one of sixteen bits") => count & 0xFFFF,
        _ if is("one call leaves the records behind a refused one as they were") => behind(&|record| record.number != 0),
        _ if is("one call leaves the records behind one that is not inside as they were") => behind(&|record| record.number == NOT_INSIDE),
        _ => count,
    };
    (first.min(end), end)
}

/// What a faulty call might take from the record before, or from the whole buffer as a record.
fn misplaced_answers(filled: &[CaptureRecord], whole: &CaptureRecord) -> Vec<CaptureRecord> {
    let mut other = filled.to_vec();
    for (at, record) in other.iter_mut().enumerate() {
        let before = &filled[at.saturating_sub(1)];
        if record.number == NOT_INSIDE {
            if is("one call gives a part that is not inside the kind of the record before") {
                record.kind = before.kind;
            }
            continue;
        }
        let faults = [
            ("one call gives the number of the whole buffer", CaptureRecord { number: whole.number, ..*record }),
            ("one call gives the canonical of the whole buffer", CaptureRecord { canonical: whole.canonical, ..*record }),
            ("one call gives the kind of the whole buffer", CaptureRecord { kind: whole.kind, ..*record }),
            ("one call gives the number of the record before", CaptureRecord { number: before.number, ..*record }),
            ("one call gives the canonical of the record before", CaptureRecord { canonical: before.canonical, ..*record }),
            ("one call gives the kind of the record before", CaptureRecord { kind: before.kind, ..*record }),
        ];
        *record = one_of(*record, &faults);
        if is("one call gives a refused part the kind of the record before") && record.number != 0 {
            record.kind = before.kind;
        }
    }
    if is("one call fills the records in reverse order") {
        let answers: Vec<CaptureRecord> = other.iter().rev().copied().collect();
        for (record, answer) in other.iter_mut().zip(answers) {
            *record = CaptureRecord { start: record.start, length: record.length, ..answer };
        }
    }
    other
}

#[no_mangle]
unsafe extern "C" fn __wrap_ax25_captures(input: *const u8, input_len: usize, mode: u32, records: *mut CaptureRecord, count: usize) {
    let (buffer, given) = (from_raw_parts(input, input_len), from_raw_parts(records, count).to_vec());
    let mode = if is("one call reads in the long mode") { 1 } else { mode };
    let before = |at: usize| at.checked_sub(1).map(|at| &given[at]);
    let parts: Vec<Part> = given.iter().enumerate().map(|(at, record)| mistaken_part(buffer, record, before(at))).collect();
    let taken = |part: &Part, record: &CaptureRecord| CaptureRecord { start: part.start, length: part.length, ..*record };
    let mut filled: Vec<CaptureRecord> = parts.iter().zip(&given).map(|(part, record)| taken(part, record)).collect();
    __real_ax25_captures(input, input_len, mode, filled.as_mut_ptr(), count);
    let mut whole = [CaptureRecord { start: 0, length: input_len, number: 0, canonical: 0, kind: 0 }];
    __real_ax25_captures(input, input_len, mode, whole.as_mut_ptr(), 1);
    for ((part, record), given) in parts.iter().zip(&mut filled).zip(&given) {
        *record = CaptureRecord { start: given.start, length: given.length, ..*record };
        match part.of(buffer) {
            Some(octets) if record.number == 0 => misfilled(octets, record),
            octets => misrefused(octets, given, record),
        }
        if is("one call keeps a canonical that is not 0") {
            record.canonical |= given.canonical;
        }
        if is("one call gives canonical 0 to every part") {
            record.canonical = 0;
        }
        record.start += usize::from(is("one call changes the start of a record") && record.number != NOT_INSIDE);
        record.length -= usize::from(is("one call changes the length of a record") && record.length > 0 && record.number != NOT_INSIDE);
        if is("one call changes the start of a record that is not inside") && record.number == NOT_INSIDE {
            record.start = input_len;
        }
    }
    let mut filled = misplaced_answers(&filled, &whole[0]);
    if is("one call puts the records in the order of their starts") {
        filled.sort_by_key(|record| record.start);
    }
    let (first, end) = left_out(&filled);
    for at in first..end {
        let same = |earlier: &CaptureRecord| (earlier.start, earlier.length) == (given[at].start, given[at].length);
        let left = is("one call leaves a part that it has read before as it was") && given[..at].iter().any(same)
            || is("one call leaves a record that holds a number as it was") && given[at].number != 0;
        if !left {
            *records.add(at) = filled[at];
        }
    }
    if is("one call fills a record behind the last") && count > 0 || is("one call fills a record where there is none") && count == 0 {
        (*records.add(count)).number = 1;
    }
    if is("one call writes into the buffer") && input_len > 0 {
        *(input as *mut u8).add(input_len - 1) ^= 1;
    }
}

#[no_mangle]
unsafe extern "C" fn __wrap_ax25_reencoded_length(input: *const u8, input_len: usize) -> usize {
    let octets = skipped(from_raw_parts(input, input_len), "the length of a frame behind nulls is the frame's");
    let length = __real_ax25_reencoded_length(octets.as_ptr(), octets.len());
    match Unknown::of(octets) {
        Unknown { kind: XID, behind, .. } if length > 0 && is("the length of XID is that without its info") => length - behind,
        Unknown { kind: SREJ, behind, .. } if length > 0 && is("the length of SREJ is that with its tail") => length + behind,
        _ => length,
    }
}

#[no_mangle]
unsafe extern "C" fn __wrap_ax25_reencode(input: *const u8, input_len: usize, out: *mut u8, out_len: usize) -> u32 {
    let input = skipped(from_raw_parts(input, input_len), "re-encoding skips nulls");
    let refused = Unknown::of(input).refused(&[("re-encoding answers 6 to SREJ", SREJ, 6)]);
    // What is given otherwise is a copy elsewhere, so an input that is taken as it is stays where it was.
    let number = if refused.is_some() {
        let taken = not_known(input, refused);
        numbered(__real_ax25_reencode(taken.as_ptr(), taken.len(), out, out_len), refused)
    } else {
        __real_ax25_reencode(input.as_ptr(), input.len(), out, out_len)
    };
    let out = from_raw_parts_mut(out, out_len);
    let early = is("re-encoding writes the address field, then answers 24") && number == 24
        || is("re-encoding writes the address field, then refuses the content") && (5..=8).contains(&number);
    if early && out_len >= 14 {
        out[..14].copy_from_slice(&input[..14]);
    }
    let beside = is("a refused re-encoding writes into an output close by") && (1..=8).contains(&number)
        || is("nine repeaters: writes into an output close by") && number == 9
        || is("re-encoding refused by 10 writes into an output close by") && number == 10
        || is("too little room: writes into an output close by") && number == 24;
    if beside && close(input, out) || is("re-encoding refused by 10 touches the output") && number == 10 {
        spoil(out);
    }
    if number == 0 {
        let [ten, set] = if close(input, out) {
            ["re-encoding into an output close by writes 10 for every octet of the layer 3 class", "re-encoding into an output close by sets the reserved bits"]
        } else {
            ["re-encoding writes 10 for every octet of the layer 3 class", "re-encoding sets the reserved bits"]
        };
        let length = __real_ax25_reencoded_length(input.as_ptr(), input.len());
        let is_close = close(input, out);
        misspell_unknown(&mut out[..length], Unknown::of(input), is_close);
        misspell(&mut out[..length], [
            ten,
            "re-encoding a layer 3 frame changes the octet before its control",
            "re-encoding a layer 3 frame changes its control",
            "re-encoding a layer 3 frame changes its first info octet",
        ]);
        misspell_reserved(&mut out[..length], [
            "re-encoding exchanges the two reserved bits",
            "re-encoding keeps the reserved bits of the destination alone",
            set,
        ], [
            "re-encoding changes the mark beside reserved bits that are not ones",
            "re-encoding changes the SSID beside reserved bits that are not ones",
        ]);
    }
    if is("re-encoding into no room at all answers 0") && number == 24 && out_len == 0 {
        return 0;
    }
    let before = is("re-encoding answers 24 before 9") && number == 9 || is("re-encoding answers 24 before 10") && number == 10;
    if before && out_len < input.len() {
        return 24;
    }
    number
}

/// A frame with a kind that the Rust does not know, as a faulty re-encoding might write it.
fn misspell_unknown(frame: &mut [u8], unknown: Unknown, is_close: bool) {
    let last = frame.len() - 1;
    let control = domain::control_of(frame).map_or(last, |(at, _)| at);
    match unknown.kind {
        SREJ if is("re-encoding writes SREJ as REJ") => frame[last] ^= 0x04,
        SABME if is("re-encoding writes SABME without P/F") => frame[last] &= 0xEF,
        XID if is("re-encoding changes XID's first info octet") && control < last => frame[control + 1] ^= 0x01,
        TEST if is("re-encoding into an output close by changes TEST's last info octet") && is_close && control < last => frame[last] ^= 0x01,
        _ => {}
    }
}

#[no_mangle]
unsafe extern "C" fn __wrap_ax25_relay(callsign: *const u8, callsign_len: usize, ssid: u8, frame: *mut u8, frame_len: usize) -> u32 {
    let octets = from_raw_parts_mut(frame, frame_len);
    let before = octets.to_vec();
    let number = __real_ax25_relay(callsign, callsign_len, ssid, frame, frame_len);
    if domain::is_nulled(&before) {
        return behind_nulls(callsign, callsign_len, ssid, octets, number);
    }
    let unknown = Unknown::of(&before);
    match (unknown.kind, number) {
        (SREJ, 0 | 41..=43) if is("the relay refuses SREJ by 6") => {
            octets.copy_from_slice(&before);
            return 6;
        }
        (XID, 42) if is("the relay refuses XID by 7 where it is not ours") => return 7,
        (SABME, 0) if is("the relay changes SABME's tail") && unknown.behind > 0 => octets[frame_len - 1] ^= 0x01,
        _ => {}
    }
    if is("the relay answers 42 for 41") && number == 41 || is("the relay answers 42 for 43") && number == 43 {
        return 42;
    }
    if is("the relay passes broken marks on") && number == 43 {
        return 0;
    }
    if is("the relay does not compare SSIDs") && number == 42 {
        let passed_on = (0..16).any(|ssid| __real_ax25_relay(callsign, callsign_len, ssid, frame, frame_len) == 0);
        return if passed_on { 0 } else { 42 };
    }
    let decoded = __real_ax25_decode(frame, frame_len);
    if is("the relay looks at the frame before our own address") && decoded != 0 {
        return decoded;
    }
    let (start, _) = domain::field(&before).unwrap_or((0, 0));
    if is("a relay refused by 42 sets the reserved bits of the source") && number == 42 {
        octets[domain::seventh(start, 1)] |= RESERVED_BITS;
    }
    if is("the relay sets the reserved bits of the destination") && number == 0 {
        octets[domain::seventh(start, 0)] |= RESERVED_BITS;
    }
    match octets.iter().zip(&before).position(|(after, before)| after != before) {
        Some(at) if is("the relay compares reserved bits") && octets[at] & RESERVED_BITS != RESERVED_BITS => {
            octets[at] &= 0x7F;
            return 42;
        }
        Some(at) if is("the relay sets the reserved bits of the place that it marks") => octets[at] |= RESERVED_BITS,
        Some(at) if is("the relay marks the next place") && at + 7 < frame_len => {
            octets[at] &= 0x7F;
            octets[at + 7] |= 0x80;
        }
        Some(at) if is("the relay sets the end bit") => octets[at] |= 0x01,
        Some(at) if is("the relay looks for marks beyond the route") && octets[at..].iter().step_by(7).skip(1).any(|octet| *octet >= 0x80) => {
            octets[at] &= 0x7F;
            return 43;
        }
        _ => {}
    }
    number
}

/// What a faulty relay might give in place of this number, or leave of the frame, where nulls stand before it.
unsafe fn behind_nulls(callsign: *const u8, callsign_len: usize, ssid: u8, frame: &mut [u8], number: u32) -> u32 {
    let before = frame.to_vec();
    let rest = &mut frame[domain::nulls(&before)..];
    let by_rest = __real_ax25_relay(callsign, callsign_len, ssid, rest.as_mut_ptr(), rest.len());
    let marks = by_rest == 0 && (is("the relay skips nulls") || is("the relay marks a frame that it refuses by 10"));
    if !marks {
        frame.copy_from_slice(&before);
    }
    match number {
        10 if is("the relay skips nulls") => by_rest,
        10 if is("the relay looks at the route before 10") && by_rest > 40 => by_rest,
        10 if is("the relay looks at the route before 10, of TEST alone") && by_rest > 40 && Unknown::of(&before).kind == TEST => by_rest,
        22 if is("the relay answers 10 before 22") || is("the relay looks at the frame before our own address") => 10,
        _ => number,
    }
}

/// The escapes with their second octets exchanged.
fn exchanged(octets: &[u8]) -> Vec<u8> {
    let mut all = octets.to_vec();
    for i in 1..all.len() {
        all[i] = match (all[i - 1], all[i]) {
            (FESC, TFEND) => TFESC,
            (FESC, TFESC) => TFEND,
            (_, octet) => octet,
        };
    }
    all
}

/// A packet as a faulty reader might take it; most are as they came.
fn taken(packet: &[u8]) -> Vec<u8> {
    let closing = packet.iter().skip(2).position(|&octet| octet == FEND).map(|at| at + 2);
    match (packet, closing) {
        (packet, _) if is("the KISS reader takes DC and DD for each other") => exchanged(packet),
        ([FEND, FESC, TFEND, ..], _) if is("the KISS reader examines the type before its escape is removed") => vec![FEND, FESC, TFESC],
        ([FEND, FEND, ..], _) if is("the KISS reader passes over a doubled C0") => packet[1..].to_vec(),
        ([FEND, ..], Some(at)) if is("the KISS reader takes octets after the closing C0") => packet[..=at].to_vec(),
        ([FEND, ..], None) if is("the KISS reader looks for the closing C0 before the type") && packet.last() != Some(&FESC) => vec![FEND],
        _ => packet.to_vec(),
    }
}

/// The number that a faulty reader might give in place of this one, with port and length 0.
fn misread(packet: &[u8], number: u32, length: usize, room: usize) -> u32 {
    let kind = packet.get(1).copied().unwrap_or(0);
    match number {
        54 if is("the KISS reader answers 56 before 54") && kind >= 0xC0 => 56,
        52 if is("the KISS reader answers 53 where the last octet is DB") && packet.last() == Some(&FESC) => 53,
        0 if is("the KISS reader answers 55 where there is no data") && length == 0 => 55,
        51 if is("the KISS reader answers 53 to nothing at all") && packet.is_empty() => 53,
        53 if is("the KISS reader answers 24 before 53") && room + 3 < packet.len() => 24,
        _ => number,
    }
}

#[no_mangle]
unsafe extern "C" fn __wrap_ax25_kiss_read(input: *const u8, input_len: usize, out: *mut u8, out_len: usize, port: *mut u8, length: *mut usize) -> u32 {
    let packet = from_raw_parts(input, input_len);
    let before = (*port, *length);
    let given = taken(packet);
    // What is given otherwise is a copy elsewhere, so a packet that came as it is stays where it was.
    let number = if given == packet {
        __real_ax25_kiss_read(input, input_len, out, out_len, port, length)
    } else {
        __real_ax25_kiss_read(given.as_ptr(), given.len(), out, out_len, port, length)
    };
    let out = from_raw_parts_mut(out, out_len);
    let beyond = is("the KISS reader goes on after the data") || is("the KISS reader goes on after data close to the packet") && close(packet, out);
    if number == 0 && beyond {
        spoil(&mut out[*length..]);
    }
    if number == 0 && is("the KISS reader drops data beyond 1,024 octets") {
        *length = (*length).min(1024);
    }
    if is("a KISS packet refused by 53 touches the output") && number == 53 || is("too little room for a KISS packet's data: touches it") && number == 24 {
        spoil(out);
    }
    if is("a refused KISS packet leaves the port") && number > 50 {
        *port = before.0;
    }
    if is("a refused KISS packet leaves the length") && number > 50 {
        *length = before.1;
    }
    if is("too little room for a KISS packet's data: gives its port") && number == 24 {
        *port = packet[1] >> 4;
    }
    if is("the KISS reader takes port 12") && number == 56 && packet[1] == FESC {
        *port = 12;
        return 0;
    }
    misread(packet, number, *length, out_len)
}

#[no_mangle]
unsafe extern "C" fn __wrap_ax25_kiss_write(port: u8, input: *const u8, input_len: usize, out: *mut u8, out_len: usize, length: *mut usize) -> u32 {
    let taken = if is("the KISS writer takes port 12") && port == 12 { 0 } else { port };
    let number = __real_ax25_kiss_write(taken, input, input_len, out, out_len, length);
    let out = from_raw_parts_mut(out, out_len);
    if number == 0 {
        let packet = &mut out[..*length];
        let escape = packet.windows(2).position(|pair| pair == [FESC, TFESC]);
        if let (Some(at), true) = (escape, is("the KISS writer does not escape DB")) {
            packet.copy_within(at + 2.., at + 1);
            *length -= 1;
        } else if is("the KISS writer takes DC and DD for each other") {
            packet.copy_from_slice(&exchanged(packet));
        } else if is("the KISS writer puts the port into the low half") {
            packet[1] = port;
        } else if is("the KISS writer goes on after its end") {
            spoil(&mut out[*length..]);
        }
    }
    if number == 24 && is("the KISS writer touches room that is short") {
        spoil(out);
    }
    if number > 0 && is("a refused KISS packet is written with a length") {
        *length = input_len + 3;
    }
    if number == 56 && is("the KISS writer answers 24 before 56") && out_len < input_len + 3 {
        return 24;
    }
    number
}

/// A state as a faulty reader might take it.
fn misremembered(state: &mut State, piece: &[u8]) {
    let unmade = usize::from(state.length) > LONGEST || state.port >= PORTS || state.phase > 5;
    if is("a KISS stream forgets an escape across two pieces") {
        state.phase = [0, 1, 2, 2, 4, 1].get(usize::from(state.phase)).copied().unwrap_or(state.phase);
    }
    if is("an empty piece ends the packet that a KISS stream gave out") && piece.is_empty() {
        state.length = 0;
    }
    if is("a KISS state that no call made is read as it is") && unmade {
        state.length = state.length.min(LONGEST as u16);
        state.port = state.port.min(PORTS - 1);
        state.phase = state.phase.min(4);
    }
    if is("a KISS state that no call made loses its count") && unmade {
        state.dropped = 0;
    }
}

fn drop_packet(state: &mut State) {
    *state = State { length: 0, port: 0, phase: 4, dropped: state.dropped.saturating_add(1), ..*state };
}

/// What a faulty reader might leave in the state, where a packet is not complete.
fn misfed(state: &mut State, before: &State, piece: &[u8]) {
    if is("the state of a KISS stream is reset at a piece's end") && !piece.is_empty() {
        *state = State { length: 0, port: 0, phase: 0, ..*state };
    }
    if is("a KISS stream counts every octet while it drops") && before.phase == 4 {
        let dropped = piece.iter().take_while(|&&octet| octet != FEND).count();
        state.dropped = state.dropped.saturating_add(dropped as u16);
    }
    let full = usize::from(state.length) == LONGEST;
    if is("a KISS stream has room for 1,023 octets") && full || is("a KISS stream counts an escaped 1,025th octet at its DB") && full && state.phase == 3 {
        drop_packet(state);
    }
    if is("a KISS stream counts octets before the first C0") && before.phase == 0 && piece.first().map_or(false, |&octet| octet != FEND) {
        state.dropped = state.dropped.saturating_add(1);
    }
    let first = piece.iter().position(|&octet| octet == FEND).unwrap_or(0);
    if is("a KISS stream counts DB before C0 while it drops") && before.phase == 4 && first > 0 && piece[first - 1] == FESC {
        state.dropped = state.dropped.saturating_add(1);
    }
    if is("a KISS stream starts no packet at a C0 that shows a bad escape") && state.dropped > before.dropped && piece.ends_with(&[FESC, FEND]) {
        state.phase = 4;
    }
    if is("a KISS stream that drops keeps the port") && state.phase == 4 {
        state.port = before.port;
    }
    if is("the count of a KISS stream goes on at 0") && state.dropped == u16::MAX {
        state.dropped = 0;
    }
}

#[no_mangle]
unsafe extern "C" fn __wrap_ax25_kiss_feed(stream: *mut State, piece: *const u8, piece_len: usize, packet: *mut Packet) -> usize {
    let (octets, state, given, unwritten) = (from_raw_parts(piece, piece_len), &mut *stream, &mut *packet, *packet);
    misremembered(state, octets);
    let before = *state;
    let taken = __real_ax25_kiss_feed(state, piece, piece_len, given);
    let none = Packet { ready: 0, port: 0, length: 0 };
    if is("the room of a KISS stream shows how it was cut") && usize::from(state.length) < LONGEST {
        state.data[LONGEST - 1] = piece_len as u8;
    }
    if is("a KISS stream writes behind its state") {
        *(stream as *mut u8).add(std::mem::size_of::<State>()) ^= 0x55;
    }
    if is("a KISS stream writes into the piece") && piece_len > 0 {
        *(piece as *mut u8) ^= 0x55;
    }
    if given.ready == 0 {
        misfed(state, &before, octets);
        if is("a KISS stream gives out nothing between two C0") && before.phase == 1 && octets == [FEND] {
            given.ready = 1;
        }
        if is("a KISS stream without a packet leaves its port as it was") {
            given.port = unwritten.port;
        }
        if is("a KISS stream without a packet leaves its length as it was") {
            given.length = unwritten.length;
        }
        return taken;
    }
    if is("a KISS stream takes a shared C0 for the closing one alone") {
        state.phase = 0;
    }
    if is("a KISS stream has room for 1,023 octets") && given.length == LONGEST || is("a KISS stream drops a packet without data") && given.length == 0 {
        *given = none;
        drop_packet(state);
        state.phase = 1;
    }
    if is("a KISS stream takes the octet after the closing C0") && taken < piece_len {
        return taken + 1;
    }
    if is("a KISS stream takes the whole piece") {
        return piece_len;
    }
    taken
}

/// A frame that a record is offered: who of the two sent it, its kind, N(S) and record. A refused one is of none.
struct Sent {
    read: links::Read,
    from: Option<usize>,
    kind: u8,
    send: u32,
}

impl Sent {
    fn of(link: &Link, frame: &[u8]) -> Sent {
        let read = links::read(frame);
        let (from, kind, send) = match &read {
            Ok(record) => (links::sender(link, record), record[KIND], record[SEND].into()),
            Err(_) => (None, UNKNOWN_CONTENT, 0),
        };
        Sent { read, from, kind, send }
    }

    /// Whether a faulty follower might take it for one of others.
    fn is_passed_over(&self, link: &Link, frame: &[u8]) -> bool {
        let (from, record) = match (self.from, &self.read) {
            (Some(from), Ok(record)) => (from, record),
            _ => return false,
        };
        let asked = ASKED_BY.contains(&link.state);
        let reserved = links::ends(record).map(|end| end[RESERVED]);
        let faults = [
            ("a link passes over SABM while up", self.kind == SABM && link.state == UP),
            ("a link passes over SABM of the other while asked", self.kind == SABM && link.state == ASKED_BY[1 - from]),
            ("a link passes over SABM that is a response", self.kind == SABM && record[MARK] == RESPONSE),
            ("a link passes over SABME", self.kind == SABME),
            ("a link passes over DM while asked", self.kind == DM && asked),
            ("a link passes over DISC from b", self.kind == DISC && from == 1),
            ("a link passes over an I frame with P", self.kind == I && record[POLL] != 0),
            ("a link passes over a frame with repeaters", record[COUNT] > 0),
            ("a link passes over a frame with leftover octets", Reason::Leftover.holds(frame)),
            ("a link compares reserved bits", reserved != [from, 1 - from].map(|which| link.stations[which][RESERVED])),
        ];
        faults.iter().any(|&(fault, holds)| holds && is(fault))
    }
}

/// The two stations as a follower takes them to whom the source and the destination of a frame of others are alike: they are then those.
fn mistaken_stations(link: &Link, sent: &Sent, alike: [fn(&FlatAddress, &FlatAddress) -> bool; 2]) -> [FlatAddress; 2] {
    if let (None, Ok(record)) = (sent.from, &sent.read) {
        let [source, destination] = links::ends(record);
        let are_alike = |from: usize| alike[0](&link.stations[from], &source) && alike[1](&link.stations[1 - from], &destination);
        return match (0..2).find(|&from| are_alike(from) && !domain::same_station(&source, &destination)) {
            Some(0) => [source, destination],
            Some(_) => [destination, source],
            None => link.stations,
        };
    }
    link.stations
}

/// Callsign and SSID, with spaces for nulls in the callsign.
fn spaced(station: &FlatAddress) -> [u8; RESERVED] {
    let mut spaced: [u8; RESERVED] = padded(&station[..RESERVED]);
    spaced[..SSID].iter_mut().filter(|character| **character == 0).for_each(|character| *character = b' ');
    spaced
}

/// A record as a faulty follower might take it: what is then changed is changed in the record itself.
fn mistaken_link(link: &Link, sent: &Sent, frame: &[u8]) -> Link {
    let mut taken = *link;
    let is_over = links::sum(link) > link.offered.into();
    if is("a link adds its counts in 32 bits") && is_over && links::sum(link) as u32 <= link.offered {
        taken.counts = [0; 4];
    }
    if is("a link is unsound only while up") && link.state != UP {
        taken.counts = [0; 4];
        taken.expected = taken.expected.map(|expected| expected % NUMBERS);
    }
    if is("a link may expect 8") {
        taken.expected = taken.expected.map(|expected| if expected == NUMBERS { 0 } else { expected });
    }
    let not_full = is("a link takes the 65,536th frame") && link.offered == MOST || is("a link takes its offered for one of sixteen bits") && link.offered > MOST;
    if not_full && !is_over {
        taken.counts = [0; 4];
        taken.offered &= MOST - 1;
    }
    if is("a link takes equal stations with other reserved bits for two") && link.stations[0][RESERVED] != link.stations[1][RESERVED] && links::holds(72, link) {
        taken.stations[1][0] ^= 1;
    }
    if is("a link does not look whether b is encodable") && !domain::encodable(&link.stations[1]) {
        taken.stations[1] = flat::blank(15);
    }
    if is("a link takes reserved bits over 3") {
        taken.stations.iter_mut().for_each(|station| station[RESERVED] &= ONES);
    }
    if is("a link takes a state over 3 for up") && link.state > UP {
        taken.state = UP;
    }
    for which in 0..2 {
        if is("a link takes a memory over 1 for none") && link.moved[which] > 1 {
            taken.moved[which] = 0;
        }
        if is("a link counts a frame as repeated without a memory") && link.moved[which] == 0 {
            taken.moved[which] = 2;
        }
    }
    if is("a link compares no SSIDs") {
        taken.stations = mistaken_stations(link, sent, [|one, other| one[..SSID] == other[..SSID]; 2]);
    }
    if is("a link looks at the destination alone") {
        taken.stations = mistaken_stations(link, sent, [|_, _| true, domain::same_station]);
    }
    if is("a link takes a null for a space") {
        taken.stations = mistaken_stations(link, sent, [|one, other| spaced(one) == spaced(other); 2]);
    }
    if is("a link takes small letters for capital ones") {
        taken.stations = mistaken_stations(link, sent, [|one, other| one[..RESERVED].eq_ignore_ascii_case(&other[..RESERVED]); 2]);
    }
    if sent.is_passed_over(link, frame) {
        taken.stations[0][0] ^= 1;
    }
    taken
}

/// What a call changed in the one record is changed in the other.
fn put_changes(link: &mut Link, taken: &Link, left: &Link) {
    let put = |own: &mut u32, taken: u32, left: u32| {
        if taken != left {
            *own = left;
        }
    };
    put(&mut link.state, taken.state, left.state);
    for which in 0..2 {
        put(&mut link.expected[which], taken.expected[which], left.expected[which]);
        put(&mut link.moved[which], taken.moved[which], left.moved[which]);
    }
    for which in 0..4 {
        link.counts[which] = link.counts[which].wrapping_add(left.counts[which].wrapping_sub(taken.counts[which]));
    }
    link.offered = link.offered.wrapping_add(left.offered.wrapping_sub(taken.offered));
}

/// The record that a faulty follower might leave of an accepted frame.
fn mislinked(link: &mut Link, before: &Link, sent: &Sent) {
    let from = match sent.from {
        Some(from) => from,
        None => {
            link.offered -= u32::from(is("a link counts no frame of others as offered"));
            return;
        }
    };
    let counted = |verdict: Verdict| link.counts[verdict as usize] > before.counts[verdict as usize];
    let [in_order, repeated, gap, outside] = [Verdict::InOrder, Verdict::Repeated, Verdict::Gap, Verdict::Outside].map(counted);
    let mut recount = |holds: bool, fault: &str, one: Verdict, other: Verdict| {
        if holds && is(fault) {
            link.counts[one as usize] -= 1;
            link.counts[other as usize] += 1;
        }
    };
    let two_less = before.moved[from] != 0 && (sent.send + 2) % NUMBERS == before.expected[from];
    recount(repeated, "a link never counts a frame as repeated", Verdict::Repeated, Verdict::Gap);
    recount(gap && two_less, "a link counts a number two less than expected as repeated", Verdict::Gap, Verdict::Repeated);
    let asked = ASKED_BY.contains(&before.state);
    recount(outside && asked, "a link counts a frame as a gap while it is asked", Verdict::Outside, Verdict::Gap);
    if gap && is("a link moves on by a gap") || repeated && is("a link moves on by a repeated frame") {
        link.expected[from] = (sent.send + 1) % NUMBERS + u32::from(repeated);
    }
    if in_order && is("a link moves both directions on") {
        link.expected[1 - from] = (link.expected[1 - from] + 1) % NUMBERS;
    }
    if in_order && link.expected[from] == 0 && is("a link expects 8 behind 7") {
        link.expected[from] = NUMBERS;
    }
    match sent.kind {
        UI if is("a link counts UI as outside") => link.counts[Verdict::Outside as usize] += 1,
        FRMR if is("a link is made idle by FRMR") => link.state = IDLE,
        XID if is("a link is made idle by XID") => link.state = IDLE,
        SABM if is("a link expects 0 at SABM") => link.expected = [0; 2],
        DISC if is("a link loses its memories at DISC") => link.moved = [0; 2],
        UA => {
            let wrongly_up = is("a link is made up by UA of the asker") && before.state == ASKED_BY[from]
                || is("a link is made up by UA while idle") && before.state == IDLE
                || is("a link starts anew by UA while up") && before.state == UP;
            if wrongly_up {
                *link = Link { state: UP, expected: [0; 2], moved: [0; 2], ..*link };
            }
            if is("a link keeps what it expects at UA") {
                link.expected = before.expected;
            }
            if is("a link keeps its memories at UA") {
                link.moved = before.moved;
            }
        }
        _ => {}
    }
    if let (Ok(record), true) = (&sent.read, is("a link takes the reserved bits of a frame")) {
        link.stations[from][RESERVED] = links::ends(record)[0][RESERVED];
    }
}

/// The record that a faulty follower might leave, and its number, where a record or a frame is refused.
fn mislinked_by_refusal(link: &mut Link, number: u32, sent: &Sent) -> u32 {
    match number {
        22 if is("a link gives 72 before 22") && links::holds(72, link) => return 72,
        72 if is("a link gives 73 before 72") && links::holds(73, link) => return 73,
        73 if is("a link gives 71 before 73") && links::holds(71, link) => return 71,
        71 if is("a link gives decoding's number before 71") => return sent.read.err().unwrap_or(number),
        22 if is("a link refused by 22 gets its second station blank") => link.stations[1] = flat::blank(0),
        72 if is("a link refused by 72 counts the frame as offered") => link.offered = link.offered.wrapping_add(1),
        73 if is("a link refused by 73 counts the frame as offered") => link.offered = link.offered.wrapping_add(1),
        71 if is("a link refused by 71 is made idle") => link.state = IDLE,
        22 | 72 | 73 | 71 => {}
        _ if is("a link counts no refused frame as offered") => link.offered -= 1,
        _ if is("a link counts a refused frame as a gap") => link.counts[Verdict::Gap as usize] += 1,
        _ if is("a link answers 0 to a refused frame") => return 0,
        _ => {}
    }
    number
}

/// The same of what the comparison's words say: where the port says so too, only a count of the frames tells.
pub fn miscounted(link: &mut Link, before: &Link) {
    if is("a link leaves frames outside uncounted, as by the comparison's words") {
        link.counts[Verdict::Outside as usize] = before.counts[Verdict::Outside as usize];
    }
}

#[no_mangle]
unsafe extern "C" fn __wrap_ax25_link_offer(link: *mut Link, frame: *const u8, frame_len: usize) -> u32 {
    let octets = skipped(from_raw_parts(frame, frame_len), "a link skips nulls before a frame");
    let before = *link;
    let sent = Sent::of(&before, octets);
    let is_sound = !links::holds(22, &before) && !links::holds(72, &before) && !links::holds(73, &before);
    if is("a link is full at 65,534") && is_sound && before.offered == MOST - 1 {
        return 71;
    }
    if is("a link is unsound where its counts come to what was offered") && is_sound && before.offered > 0 && links::sum(&before) == before.offered.into() {
        return 73;
    }
    let taken = mistaken_link(&before, &sent, octets);
    let (mut left, mut after) = (taken, before);
    let number = __real_ax25_link_offer(&mut left, octets.as_ptr(), octets.len());
    put_changes(&mut after, &taken, &left);
    let number = match number {
        0 => {
            mislinked(&mut after, &before, &sent);
            if is("a link stores a state over 3 as 0") && after.state > UP {
                after.state = IDLE;
            }
            if is("a link stores a memory over 1 as 1") {
                after.moved = after.moved.map(|moved| moved.min(1));
            }
            0
        }
        number => mislinked_by_refusal(&mut after, number, &sent),
    };
    miscounted(&mut after, &before);
    *link = after;
    if is("a link writes into the frame") && frame_len > 0 {
        *(frame as *mut u8) ^= 0x55;
    }
    if is("a link writes behind its record") {
        *(link as *mut u8).add(LINK) ^= 0x55;
    }
    number
}

/// The number that a faulty decoder might give in place of this one, of what stands before a frame.
unsafe fn misnumbered(input: &[u8], number: u32) -> u32 {
    let rest = &input[domain::nulls(input)..];
    match number {
        1 if is("decoding answers 10 to nulls alone") && !input.is_empty() => 10,
        10 if is("decoding answers 1 where 80 stands among nulls at the fifth place of an eight") => {
            let alone = rest[0] == 0x80 && rest[1..].iter().all(|&octet| octet == 0);
            if alone && (input.len() - rest.len()) % 8 == 4 { 1 } else { 10 }
        }
        10 if is("decoding answers 2 before 10") && domain::field(input).is_none() => 2,
        10 if is("decoding answers 10 after all other refusals") => match __real_ax25_decode(rest.as_ptr(), rest.len()) {
            0 => 10,
            refused => refused,
        },
        _ => number,
    }
}

#[no_mangle]
unsafe extern "C" fn __wrap_probe_decode(mode: u32, input: *const u8, input_len: usize, record: *mut u8, record_len: usize, places: *mut usize, places_len: usize) -> u32 {
    let octets = from_raw_parts(input, input_len);
    let one = usize::from(is("decoding skips one null") && domain::is_nulled(octets));
    let unknown = Unknown::of(octets);
    let refused = not_decoded(&unknown);
    let taken = not_known(octets, refused);
    let number = __real_probe_decode(mode, taken.as_ptr().add(one), input_len - one, record, record_len, places, places_len);
    let number = misnumbered(octets, numbered(number, refused));
    match (unknown.kind, number) {
        (SREJ, 9) if is("decoding answers 6 to SREJ behind nine repeaters") => return 6,
        (SABME, 10) if is("decoding answers 7 to a null before SABME") => return 7,
        _ => {}
    }
    let record = from_raw_parts_mut(record, record_len);
    if is("a refused decode leaves a record") && (1..=9).contains(&number) || is("decoding leaves a record with 10") && number == 10 {
        spoil(record);
    }
    if is("decoding gives a start with 10") && number == 10 {
        *places = domain::nulls(octets);
    }
    if is("a decoded layer 3 identifier carries 10") && number == 0 && flat::is_layer_3(&padded(record)) {
        record[PID_OCTET] = RUST_LAYER_3;
    }
    if number == 0 {
        misread_reserved(record);
        let input = from_raw_parts(input, input_len);
        misread_record(record, input);
        misread_unknown(record, &unknown);
        misplace_info(from_raw_parts_mut(places, places_len), input);
        misplace_unknown(from_raw_parts_mut(places, places_len), &unknown, input_len);
        if is("decoding refuses FRMR where the low bit of its second info octet is set") && has_excepted(input, 1, 0x01) {
            return 8;
        }
        if is("decoding refuses RNR, which is canonical") && record[KIND] == RNR {
            return 6;
        }
    }
    number
}

/// By which number a faulty decoder might refuse a kind that the Rust does not know.
fn not_decoded(unknown: &Unknown) -> Option<u32> {
    let [info, tail] = if unknown.behind > 0 { ["", "decoding refuses SABME with a tail by 7"] } else { ["decoding refuses XID without info by 5", ""] };
    unknown.refused(&[
        ("decoding answers 6 to SREJ, as the Rust does", SREJ, 6),
        ("decoding answers 7 to SABME, as the Rust does", SABME, 7),
        ("decoding answers 7 to XID, as the Rust does", XID, 7),
        ("decoding answers 7 to TEST, as the Rust does", TEST, 7),
        (info, XID, 5),
        (tail, SABME, 7),
    ])
}

/// The record of such a kind as a faulty decoder might leave it.
fn misread_unknown(record: &mut [u8], unknown: &Unknown) {
    match unknown.kind {
        SREJ if is("decoding reads SREJ as REJ") => record[KIND] = REJ,
        SREJ if is("decoding shows REJ where SREJ's N(R) is 0") && record[RECEIVE] == 0 => record[KIND] = REJ,
        SREJ if is("decoding passes over SREJ's P/F") => record[POLL] = 0,
        SREJ if is("decoding passes over SREJ's highest N(R)") => record[RECEIVE] &= 3,
        SABME if is("decoding reads SABME as SABM") => record[KIND] = SABM,
        SABME if is("decoding shows N(R) in SABME") => record[RECEIVE] = unknown.control >> 5,
        SABME if is("decoding passes over SABME's P/F") => record[POLL] = 0,
        XID if is("decoding reads XID as TEST") => record[KIND] = TEST,
        TEST if is("decoding reads TEST as XID where P/F is set") && record[POLL] == 1 => record[KIND] = XID,
        _ => {}
    }
}

/// Info's start and length in an input of such a kind, and of this length, as a faulty decoder might give them.
fn misplace_unknown(places: &mut [usize], unknown: &Unknown, input_len: usize) {
    let (start, length) = match places {
        [.., start, length] => (start, length),
        _ => return,
    };
    match unknown.kind {
        XID if is("decoding passes over a PID in XID: info one octet late") && *length > 0 => {
            *start += 1;
            *length -= 1;
        }
        XID if is("decoding gives XID's info 255 octets at most") => *length = (*length).min(255),
        XID if is("decoding gives XID without info no place for it") && *length == 0 => *start = 0,
        XID if is("decoding leaves out XID's last info octet") && *length > 0 => *length -= 1,
        TEST if is("decoding gives TEST no info") => (*start, *length) = (0, 0),
        SREJ if is("decoding gives SREJ its tail as info") && unknown.behind > 0 => (*start, *length) = (input_len - unknown.behind, unknown.behind),
        _ => {}
    }
}

#[no_mangle]
unsafe extern "C" fn __wrap_probe_decode_old(mode: u32, input: *const u8, input_len: usize, record: *mut u8, record_len: usize, places: *mut usize, places_len: usize) -> u32 {
    let octets = from_raw_parts(input, input_len);
    let nulls = domain::nulls(octets);
    if is("an old capture is read by the decoder") {
        return __real_probe_decode(mode, input, input_len, record, record_len, places, places_len);
    }
    if is("only one null of an old capture is skipped") && nulls > 1 {
        return __real_probe_decode(mode, input.add(1), input_len - 1, record, record_len, places, places_len);
    }
    let mut taken = octets.to_vec();
    if is("the nulls of an old capture are a part of its first address") && domain::is_nulled(octets) {
        taken[0] = 0x80;
    }
    let behind_nulls = if nulls > 0 { "an old capture of XID behind nulls is refused by 7" } else { "" };
    let refused = Unknown::of(octets).refused(&[("an old capture of SREJ is refused by 6", SREJ, 6), (behind_nulls, XID, 7)]);
    let taken = not_known(&taken, refused);
    let number = numbered(__real_probe_decode_old(mode, taken.as_ptr(), input_len, record, record_len, places, places_len), refused);
    let (record, places) = (from_raw_parts_mut(record, record_len), from_raw_parts_mut(places, places_len));
    let short = is("a short record is written for an old capture") && number == 24;
    if short || is("a refused old capture leaves a record") && (1..=9).contains(&number) {
        spoil(record);
    }
    if is("an old capture of nulls alone is refused by 10") && number == 1 && nulls > 0 {
        return 10;
    }
    if number < 24 {
        misplace_behind(places, number, record, nulls);
    }
    number
}

/// The places in an old capture with so many nulls as a faulty entry might give them.
fn misplace_behind(places: &mut [usize], number: u32, record: &[u8], nulls: usize) {
    let (start, end, length, info) = match places {
        [start, end, length, info, ..] => (start, end, length, info),
        _ => return,
    };
    match number {
        0 if flat::has_pid(&padded(record)) => *info -= if is("info's start in an old capture is counted from its frame") { nulls } else { 0 },
        0 if octet(record, KIND) == XID && is("XID's info in an old capture is counted from its frame") => *info -= nulls,
        0 if is("info is moved in an old capture of a kind that has none") && !flat::has_info(octet(record, KIND)) => *info = nulls,
        1.. if is("info is moved in a refused old capture") => *info = nulls,
        1.. if is("every refusal of an old capture gives a start") => *start = nulls,
        3 if is("3's start in an old capture is counted from its frame") => *start -= nulls,
        3 if is("3's end in an old capture is counted from its frame") => *end -= nulls,
        4 if is("4's length of an old capture is its frame's") => *length -= nulls,
        _ => {}
    }
}

/// A decoded record as a reader might leave it that passes over a bit, or shows one of FRMR.
fn misread_record(record: &mut [u8], input: &[u8]) {
    if is("decoding passes over the lowest bit of the source's last character") {
        record[SOURCE + SSID - 1] &= 0xFE;
    }
    if is("decoding sets the reserved bits of the eighth repeater") && record[COUNT] == 8 {
        record[ROUTE + ENTRY * 7 + RESERVED] = ONES;
    }
    if is("decoding passes over UI's P/F") && record[KIND] == UI {
        record[POLL] = 0;
    }
    if is("a decoded layer 3 identifier carries the high half of its octet") && flat::is_layer_3(&padded(record)) {
        record[PID_OCTET] &= 0xF0;
    }
    if is("decoding shows bit 5 of FRMR's first info octet") && has_excepted(input, 0, 0x20) {
        record[REJECTED_CONTROL] ^= 0x20;
    }
    if is("decoding takes equal marks for a Command") && record[MARK] == ABSENT {
        record[MARK] = COMMAND;
    }
    if is("decoding puts the first two repeaters in order") && record[COUNT] >= 2 {
        let (one, other) = record[ROUTE..ROUTE + 2 * ENTRY].split_at_mut(ENTRY);
        if *one > *other {
            one.swap_with_slice(other);
        }
    }
}

/// Info's start and length, the last two places, as a faulty reader might give them.
fn misplace_info(places: &mut [usize], input: &[u8]) {
    let (start, length) = match places {
        [.., start, length] => (start, length),
        _ => return,
    };
    if is("decoding leaves out info's first octet") && *length > 0 {
        *start += 1;
        *length -= 1;
    }
    if is("decoding leaves out zeros at the end of info") {
        *length -= input[*start..*start + *length].iter().rev().take_while(|&&octet| octet == 0).count();
    }
    if is("decoding gives info's place one octet late") && *length > 0 {
        *start += 1;
    }
    if is("decoding places info in FRMR where bit 4 of its first info octet is set") && has_excepted(input, 0, 0x10) {
        *start += 1;
    }
}

/// A decoded record as a faulty reader might leave it.
fn misread_reserved(record: &mut [u8]) {
    for (i, at) in flat::places(&padded(record)).enumerate() {
        record[at + RESERVED] = miskept(record[at + RESERVED], i, [
            "decoding exchanges the two reserved bits",
            "decoding keeps the reserved bits of the destination alone",
            "decoding sets the reserved bits",
        ]);
    }
    if is("decoding leaves reserved bits of 0 where a place is not in use") {
        let used = flat::places(&padded(record)).count();
        flat::places_of(REPEATERS).skip(used).for_each(|at| record[at + RESERVED] = 0);
    }
}

#[no_mangle]
unsafe extern "C" fn __wrap_probe_again(given: *const u8, given_len: usize, record: *mut u8, record_len: usize) -> u32 {
    let number = __real_probe_again(given, given_len, record, record_len);
    let record = from_raw_parts_mut(record, record_len);
    if is("a record read again forgets its layer 3 octet") && number == 0 && flat::is_layer_3(&padded(record)) {
        record[PID_OCTET] = 0;
    }
    if is("a record read again forgets its reserved bits") && number == 0 {
        flat::places_of(REPEATERS).for_each(|at| record[at + RESERVED] = ONES);
    }
    if number == 0 {
        let given = from_raw_parts(given, given_len);
        match record[KIND] {
            XID if is("a record of XID is read as unknown content") => record[KIND..KIND + 12].copy_from_slice(&[UNKNOWN_CONTENT, 0, 0, 0, 0, 0, 0, 0, 0, 0, 0, 0]),
            UNKNOWN_CONTENT if is("a record of kind 14 is read as TEST") => record[KIND] = TEST,
            SREJ if is("a record read again forgets SREJ's N(R)") => record[RECEIVE] = 0,
            SABME if is("a record read again keeps N(R) beside SABME") => record[RECEIVE] = octet(given, RECEIVE),
            _ => {}
        }
    }
    number
}

/// The kind and info of a record as a faulty writer might take them, by these faults: TEST as a kind that has no info, SABME without the
/// info that it may not have.
fn mistaken_info<'a>(kind: Option<&mut u8>, info: &'a [u8], [refuses, takes]: [&str; 2]) -> &'a [u8] {
    match kind {
        Some(kind) if *kind == TEST && is(refuses) && !info.is_empty() => *kind = SABM,
        Some(kind) if *kind == SABME && is(takes) => return &[],
        _ => {}
    }
    info
}

/// What was written of a record of a kind that the Rust does not know, and its length, as a faulty writer might leave them.
fn miswrite_unknown(record: &[u8], out: &mut [u8], length: &mut usize) {
    let (kind, receive) = (octet(record, KIND), octet(record, RECEIVE));
    match kind {
        SREJ if is("writing SREJ writes REJ") => out[*length - 1] ^= 0x04,
        SREJ if is("writing SREJ takes 7 for N(R) over 7") && receive > 7 => out[*length - 1] |= 0xE0,
        SABME if is("writing SABME writes N(R)") => out[*length - 1] |= receive << 5,
        XID if is("writing XID goes on after its end") => spoil(&mut out[*length..]),
        XID if is("writing XID writes a PID") && out.len() > *length => {
            let at = domain::control_of(&out[..*length]).map_or(0, |(at, _)| at + 1);
            out.copy_within(at..*length, at + 1);
            out[at] = 0xF0;
            *length += 1;
        }
        _ => {}
    }
}

/// A record as a faulty writer might take it: an octet outside the layer 3 class as an unknown PID, which has any octet.
fn mistaken(record: &[u8], pid: usize, fault: &str, outside: u8) -> Vec<u8> {
    let mut taken = record.to_vec();
    if is(fault) && octet(record, pid) == PID_LAYER_3 && octet(record, pid + 1) == outside {
        taken[pid] = PID_UNKNOWN;
    }
    taken
}

/// A number over 3 as a faulty writer or printer might take it: cut to two bits.
fn cut(octet: Option<&mut u8>) {
    octet.into_iter().for_each(|octet| *octet &= ONES);
}

/// A record with such numbers.
fn cut_reserved(record: &mut [u8]) {
    for (i, at) in flat::places_of(REPEATERS).enumerate() {
        let eighth = is("reserved bits over 3 are written in the eighth repeater, cut to two bits") && i == REPEATERS + 1;
        if is("reserved bits over 3 are written, cut to two bits") || eighth {
            cut(record.get_mut(at + RESERVED));
        }
    }
}

/// The number that a faulty writer of this record and info might give in place of this one; the room may be short besides.
fn miswritten(record: &Flat, info: &[u8], number: u32, is_short: bool) -> u32 {
    let (pid, is_of_class) = (record[PID], domain::is_of_class(record[PID_OCTET]));
    let [used, unused] = {
        let over: Vec<bool> = flat::places_of(REPEATERS).map(|at| domain::is_over(&flat::address_at(record, at))).collect();
        let (used, unused) = over.split_at(flat::places(record).count());
        [used, unused].map(|part| part.contains(&true))
    };
    match number {
        22 if is("24 comes before 22 for reserved bits over 3") && used && is_short => 24,
        22 if is("23 comes before 22 for reserved bits over 3") && used && domain::has_needless(record, info) => 23,
        21 if is("22 for reserved bits over 3 comes before 21") && used => 22,
        0 if is("22 refuses reserved bits over 3 where a place is not in use") && unused => 22,
        23 if is("writing SREJ with info answers 24 before 23") && record[KIND] == SREJ && is_short => 24,
        25 if is("24 comes before 25") && is_short => 24,
        21 if is("25 comes before 21") && domain::is_outside(record) => 25,
        22 if is("25 comes before 22") && domain::is_outside(record) => 25,
        0 if is("the layer 3 octet EF is refused by 25") && flat::is_layer_3(record) && record[PID_OCTET] == 0xEF => 25,
        0 if is("an unknown PID of the layer 3 class is refused by 25") && flat::has_pid(record) && pid == PID_UNKNOWN && is_of_class => 25,
        0 if is("25 refuses RR by an octet that is not in use") && record[KIND] == RR && pid == PID_LAYER_3 && !is_of_class => 25,
        _ => number,
    }
}

#[no_mangle]
unsafe extern "C" fn __wrap_probe_encode(mode: u32, record: *const u8, record_len: usize, info: *const u8, info_len: usize, out: *mut u8, out_len: usize, length: *mut usize, length_len: usize) -> u32 {
    let record = from_raw_parts(record, record_len);
    let mut taken = mistaken(record, PID, "the layer 3 octet F0 is written", 0xF0);
    cut_reserved(&mut taken);
    let (info, out) = (from_raw_parts(info, info_len), from_raw_parts_mut(out, out_len));
    if octet(record, KIND) == XID && is("writing XID writes its info alone") {
        taken[KIND] = UNKNOWN_CONTENT;
    }
    let given = mistaken_info(taken.get_mut(KIND), info, ["writing TEST refuses info by 23", "writing SABME takes info"]);
    let number = __real_probe_encode(mode, taken.as_ptr(), record_len, given.as_ptr(), given.len(), out.as_mut_ptr(), out_len, length, length_len);
    if number == 0 {
        miswrite_unknown(record, out, &mut *length);
    }
    let (kind, large) = (octet(record, KIND), octet(record, RECEIVE) > 7);
    let short = is("writing UnknownContent touches room that is short") && kind == UNKNOWN_CONTENT
        || is("writing RR with N(R) over 7 touches room that is short") && kind == RR && large
        || is("writing TEST touches room that is short") && kind == TEST
        || is("writing an absent mark touches room that is short") && octet(record, MARK) == ABSENT;
    if number == 24 && length_len > 0 && short || number == 23 && is("23 touches an output close by") && close(info, out) {
        spoil(out);
    }
    if number == 0 && is("writing RR with N(R) over 7 goes on after its end") && kind == RR && large {
        spoil(&mut out[*length..]);
    }
    let whole = padded(record);
    if number == 0 && flat::is_layer_3(&whole) {
        misspell(&mut out[..*length], [
            "writing a record writes 10 for every octet of the layer 3 class",
            "writing a layer 3 record changes the octet before its control",
            "writing a layer 3 record changes its control",
            "writing a layer 3 record changes its first info octet",
        ]);
    }
    if number == 0 {
        misspell_reserved(&mut out[..*length], [
            "writing a record exchanges the two reserved bits",
            "writing a record keeps the reserved bits of the destination alone",
            "writing a record sets the reserved bits",
        ], [
            "writing a record changes the mark beside reserved bits that are not ones",
            "writing a record changes the SSID beside reserved bits that are not ones",
        ]);
    }
    if number == 22 && is("22 for reserved bits over 3 touches the output") && flat::in_use(&whole).iter().any(domain::is_over) {
        spoil(out);
    }
    if number == 25 && (is("25 touches the output") || is("25 touches an output close by") && close(info, out)) {
        spoil(out);
    }
    let needed = domain::length_with_pid(&whole, info);
    if number == 25 && is("25 gives a length") {
        *length = needed;
    }
    miswritten(&whole, info, number, out_len < needed)
}

#[no_mangle]
unsafe extern "C" fn __wrap_probe_from_parts(callsign: *const u8, callsign_len: usize, ssid: u8, address: *mut u8, address_len: usize) -> u32 {
    let number = __real_probe_from_parts(callsign, callsign_len, ssid, address, address_len);
    let address = from_raw_parts_mut(address, address_len);
    if is("a refused callsign leaves an SSID") && number == 34 {
        address[SSID] = ssid;
    }
    if is("from_parts leaves reserved bits of 0") && number == 0 {
        address[RESERVED] = 0;
    }
    number
}

#[no_mangle]
unsafe extern "C" fn __wrap_probe_from_str(text: *const u8, text_len: usize, address: *mut u8, address_len: usize) -> u32 {
    let number = __real_probe_from_str(text, text_len, address, address_len);
    let address = from_raw_parts_mut(address, address_len);
    if is("a refused text leaves an address") && number > 30 {
        spoil(address);
    }
    if is("text leaves reserved bits of 0") && number == 0 {
        address[RESERVED] = 0;
    }
    number
}

#[no_mangle]
unsafe extern "C" fn __wrap_probe_print(address: *const u8, address_len: usize, out: *mut u8, out_len: usize, length: *mut usize, length_len: usize) -> u32 {
    let mut taken = from_raw_parts(address, address_len).to_vec();
    if is("printing takes reserved bits over 3") {
        cut(taken.get_mut(RESERVED));
    }
    let number = __real_probe_print(taken.as_ptr(), address_len, out, out_len, length, length_len);
    if is("printing touches room that is short") && number == 24 && length_len > 0 {
        spoil(from_raw_parts_mut(out, out_len));
    }
    if is("printing refuses reserved bits that are not ones") && number == 0 && octet(&taken, RESERVED) != ONES {
        return 22;
    }
    number
}

#[no_mangle]
unsafe extern "C" fn __wrap_probe_simple_ui(source: *const u8, source_len: usize, destination: *const u8, destination_len: usize, record: *mut u8, record_len: usize) -> u32 {
    let number = __real_probe_simple_ui(source, source_len, destination, destination_len, record, record_len);
    if is("new_simple_ui_frame sets the reserved bits") && number == 0 {
        let record = from_raw_parts_mut(record, record_len);
        flat::places_of(0).for_each(|at| record[at + RESERVED] = ONES);
    }
    number
}

#[no_mangle]
unsafe extern "C" fn __wrap_probe_default(record: *mut u8, record_len: usize) -> u32 {
    let number = __real_probe_default(record, record_len);
    if is("the default frame has reserved bits of 0") && number == 0 {
        let record = from_raw_parts_mut(record, record_len);
        flat::places_of(0).for_each(|at| record[at + RESERVED] = 0);
    }
    number
}

#[no_mangle]
unsafe extern "C" fn __wrap_probe_hops(record: *const u8, record_len: usize, numbers: *mut usize, numbers_len: usize) -> u32 {
    let number = __real_probe_hops(record, record_len, numbers, numbers_len);
    let (record, numbers) = (from_raw_parts(record, record_len), from_raw_parts_mut(numbers, numbers_len));
    if number == 0 && is("hops of a count over 8 are none") && octet(record, COUNT) > 8 {
        numbers.fill(0);
    }
    if number == 0 && is("the due place is the number of marks") {
        numbers[2] = numbers[1];
    }
    number
}

#[no_mangle]
unsafe extern "C" fn __wrap_probe_same_station(one: *const u8, one_len: usize, other: *const u8, other_len: usize) -> u32 {
    let same = __real_probe_same_station(one, one_len, other, other_len);
    let (one, other) = (from_raw_parts(one, one_len), from_raw_parts(other, other_len));
    if is("same station by the reserved bits too") && octet(one, RESERVED) != octet(other, RESERVED) {
        return 0;
    }
    if one_len <= SSID || other_len <= SSID {
        return same;
    }
    let (callsign, ssid) = (one[..SSID] == other[..SSID], one[SSID] == other[SSID]);
    let otherwise = is("same station whatever the SSID") && callsign
        || is("same station whatever the case") && one[..SSID].eq_ignore_ascii_case(&other[..SSID]) && ssid;
    same | u32::from(otherwise)
}

#[no_mangle]
unsafe extern "C" fn __wrap_probe_content(mode: u32, input: *const u8, input_len: usize, content: *mut u8, content_len: usize) -> u32 {
    let octets = from_raw_parts(input, input_len);
    let unknown = Unknown::of_content(octets);
    let nothing = if unknown.behind == 0 { "content alone answers 7 to TEST without info" } else { "" };
    let refused = unknown.refused(&[("content alone answers 6 to SREJ", SREJ, 6), (nothing, TEST, 7)]);
    let mut taken = octets.to_vec();
    if refused.is_some() {
        taken[0] = NO_KIND;
    }
    let number = numbered(__real_probe_content(mode, taken.as_ptr(), input_len, content, content_len), refused);
    if is("empty content is 5") && number == 4 {
        return 5;
    }
    let content = from_raw_parts_mut(content, content_len);
    if is("refused content leaves its kind") && number == 8 {
        spoil(content);
    }
    if is("content alone reads XID as TEST") && number == 0 && content[0] == XID {
        content[0] = TEST;
    }
    if is("layer 3 content carries 10") && number == 0 && flat::is_layer_3(&with_plain_addresses(content)) {
        content[PID_OCTET - KIND] = RUST_LAYER_3;
    }
    number
}

#[no_mangle]
unsafe extern "C" fn __wrap_probe_content_encode(mode: u32, content: *const u8, content_len: usize, info: *const u8, info_len: usize, out: *mut u8, out_len: usize, length: *mut usize, length_len: usize) -> u32 {
    let content = from_raw_parts(content, content_len);
    let mut taken = mistaken(content, PID - KIND, "layer 3 content is written with the octet 30", 0x30);
    let faults = ["content written alone: TEST refuses info by 23", "content written alone: SABME takes info"];
    let given = mistaken_info(taken.get_mut(0), from_raw_parts(info, info_len), faults);
    let number = __real_probe_content_encode(mode, taken.as_ptr(), content_len, given.as_ptr(), given.len(), out, out_len, length, length_len);
    let out = from_raw_parts_mut(out, out_len);
    if is("content written alone: SREJ writes REJ") && number == 0 && octet(content, 0) == SREJ {
        out[0] ^= 0x04;
    }
    if is("writing content touches room that is short") && number == 24 && length_len > 0 {
        spoil(out);
    }
    let large = octet(content, 0) == RNR && octet(content, RECEIVE - KIND) > 7;
    if number == 0 && is("writing RNR's content with N(R) over 7 goes on after its end") && large {
        spoil(&mut out[*length..]);
    }
    if number == 0 && is("writing layer 3 content writes 10") && flat::is_layer_3(&with_plain_addresses(content)) {
        out[1] = RUST_LAYER_3;
    }
    if number == 25 && is("24 comes before 25 for content") && out_len < 2 + info_len {
        return 24;
    }
    number
}
