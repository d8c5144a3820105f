"""What looks wrong with a capture that can be read: each doubt a line, with how often it was met and where first. Nothing here decides what
is compared, and nothing here decodes: of a frame only the address field is looked at, where it ends and whether its characters are those
of callsigns."""
import binascii
import re

import readers
from command import number
from readers import CHARACTER, FEND, RAW_LIMIT, Frame, Packet, PassedOver, unescaped

DUMPED = (8, 16, 24, 30, 32)  # how many octets programs that dump write in a line
STREAM_LIMIT = 1024  # of the data of a packet that ax25_kiss_feed gives out
FLAG = b'\x7E'
ESCAPED_FEND = b'\xDB\xDC'
EVEN, ODD = (b'[' + b''.join(b'\\x%02X' % octet for octet in range(low, 256, 2)) + b']' for low in (0, 1))
# Two to ten addresses of letters, digits and spaces, the last with the bit that ends the field, and an octet behind them.
CLEAR = re.compile(rb'(?:' + CHARACTER + rb'{6}' + EVEN + rb'){1,9}' + CHARACTER + rb'{6}' + ODD + rb'.', re.DOTALL)
END = re.compile(ODD)

# What may be wrong with frames and packets, and what it comes from or what to do. By a number: why a KISS packet is passed over; by None:
# why a packet of a pcap is.
WORDS = {
    'packet': ('frames', 'with C0 and a KISS type octet in front',
               'as whole KISS packets have: give the KISS log itself, or take these and the last C0 off and undo the escapes'),
    'bare': ('KISS packets', 'with a frame and no type octet before it', 'put 00 before each; a pcap of bare frames has link type 3'),
    'type': ('frames', 'with a KISS type octet left on in front', 'take it off; a pcap of such frames has link type 202'),
    'nulls': ('frames', 'behind leading nulls',
              'the decoder answers 10 to these; nulls come from a stuck line driver, and a lone one may be a KISS type octet left on'),
    'flags': ('frames', 'with flags (7E) left on', 'take them off, a frame is what stands between them'),
    'check': ('frames', 'with the check sequence left on, as the last two octets', 'take it off, a frame here ends before it'),
    'long': ('frames', f'of more than {RAW_LIMIT:,} octets', 'the dumper answers 50 to these'),
    'address': ('frames', 'without an address field that can be read', 'the decoder answers 1, 2, 3, 4 or 9; is this AX.25?'),
    'framed': ('packets', 'of link type 202 with C0 in front',
               'packets of that type have neither C0 nor escapes: take both C0 off and undo the escapes, or give a KISS log'),
    'stream': ('KISS packets', f'of more than {STREAM_LIMIT:,} octets of data', 'ax25_kiss_feed drops these'),
    None: ('packets', 'not captured whole', 'passed over; a snap length cuts them, and tcpdump -s 0 has none'),
    52: ('KISS packets', 'with a DB that is no escape', 'passed over; octets were lost or changed on the line'),
    53: ('KISS packets', 'that no C0 ends', 'passed over; the log is cut there'),
    54: ('KISS packets', 'of another command than data', 'passed over; they are for the modem and carry no frame'),
    55: ('KISS packets', 'without a command octet', 'passed over; there is nothing in them'),
    56: ('KISS packets', f'on ports over {readers.PORTS - 1}', 'passed over; these ports are not read'),
}
# What a name says of a file.
NAMES = {'.pcap': 'pcap', '.pcapng': 'pcapng', '.kiss': 'KISS log', '.hex': 'hex lines', **dict.fromkeys(readers.RAW_NAMES, 'raw frame')}


def has_check_sequence(octets):
    """Whether the last two octets are CRC-16/X.25 of the others: then the remainder is always the same. binascii has this polynomial for the
    other order of bits."""
    return binascii.crc_hqx(octets.translate(MIRRORED), 0xFFFF) == 0x1D0F


MIRRORED = bytes(int(f'{octet:08b}'[::-1], 2) for octet in range(256))


def has_address_field(octets):
    """Whether the address rules of the decoder hold but for leading nulls."""
    end = END.search(octets)
    return bool(end) and 14 <= end.end() < min(len(octets), 77)


def of_frame(octets):
    """What may be wrong with a frame: words of WORDS."""
    clear = CLEAR.match(octets)
    bare = octets.strip(FLAG)
    behind_nulls = octets.lstrip(b'\0')
    checked = has_check_sequence(bare)
    found = []
    if clear:
        found += ['flags'] if checked and bare != octets else []
    elif octets[:1] == FLAG and CLEAR.match(bare):
        found.append('flags')
    elif octets[:1] == FEND and CLEAR.match(octets, 2):
        found.append('packet')
    elif octets[:1] == b'\0':
        found += ['nulls'] if behind_nulls else ['address']
    elif octets and octets[0] & 0x0F == 0 and CLEAR.match(octets, 1):
        found.append('type')
    elif not has_address_field(octets):
        found.append('address')
    found += ['check'] if checked and CLEAR.match(bare) else []
    return found + (['long'] if len(octets) > RAW_LIMIT else [])


def sentence(found, count, place):
    noun, what, advice = WORDS[found]
    return f"{number(count, noun)} {what} ({'first: ' if count > 1 else ''}{place}): {advice}"


class Doubts:
    """The doubts of one capture, as what it holds goes by."""

    def __init__(self, form):
        self.form = form
        self.met = {}
        self.frames = self.packets = self.passed_over = 0
        self.first = None
        self.lengths = set()  # of all frames but the last
        self.last = None

    def meet(self, found, place):
        count, first = self.met.get(found, (0, place))
        self.met[found] = count + 1, first

    def see(self, item):
        if isinstance(item, Frame):
            self.frames += 1
            self.first = self.first or item
            self.line_length(len(item.octets))
            for found in of_frame(item.octets):
                self.meet(found, item.place)
        elif isinstance(item, Packet):
            self.packets += 1
            for found in self.of_packet(item):
                self.meet(found, item.place)
        elif isinstance(item, PassedOver):
            self.passed_over += 1
            if item.number is None:
                self.meet(None, item.place)  # Of a KISS packet the number tells, which comes next.

    def of_packet(self, item):
        """What may be wrong with a KISS packet, and why it is passed over."""
        if CLEAR.match(unescaped(item.octets[1:])):
            return ['bare']
        found = [item.number] if item.number else []
        if self.form == 'KISS log':
            return found + (['stream'] if len(item.data) > STREAM_LIMIT else [])
        return found + (['framed'] if item.octets[1:3] == ESCAPED_FEND else [])

    def line_length(self, length):
        if self.last is not None and len(self.lengths) < 2:
            self.lengths.add(self.last)
        self.last = length

    def is_dump(self):
        """Whether the lines are one dump that was cut into pieces of one length, so that half of them or more are no frames."""
        refused, _ = self.met.get('address', (0, None))
        cut = len(self.lengths) == 1 and max(self.lengths) in DUMPED and self.last <= max(self.lengths)
        return self.form == 'hex lines' and cut and 2 * refused >= self.frames

    def lines(self):
        """In the order in which they were met first, but for those of the whole capture."""
        if self.is_dump():
            yield (f'every line but the last has {max(self.lengths)} octets, and half of the lines or more are no frames: this looks like a dump '
                   'that was cut into lines; if they are one frame, put them together (xxd -r -p IN OUT.raw)')
        if self.form == 'raw frame' and self.first.octets[-1:] == b'\n':
            yield "its last octet is a line end (0A), which may be an editor's and not the frame's"
        for found, (count, place) in self.met.items():
            if found == 'check' and 100 * count < self.frames:
                continue  # Two octets come out so by chance once in 65,536 frames.
            if found == 'address' and (self.is_dump() or 2 * count < self.frames):
                continue  # Bad frames are what a capture is there to show; where most are bad, it may be no capture of AX.25.
            yield sentence(found, count, place)


def of_name(name, capture, raw):
    """Where the octets say another format than the name, or than what was asked for."""
    if raw:
        like = capture.looks_like
        return [f'it is asked for as one raw frame, and its octets say something else: {like}'] if like else []
    said = next((kind for end, kind in NAMES.items() if name.lower().endswith(end)), None)
    if said is None or capture.form.startswith(said):
        return []
    hint = ' (one raw frame: --raw FILE)' if said == 'raw frame' else ''
    return [f'its name says {said}, and its octets say {capture.form}: it is read as that{hint}']
