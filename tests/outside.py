#!/usr/bin/env python3
"""The part of tests/outside that makes the frames and compares the readings. DIR is the folder in which it works.

usage: outside.py make DIR           writes the frames: each alone as DIR/frames/NUMBER, all as DIR/frames.pcap and DIR/frames.hex, and as
                                     lines for tests/calls.c in DIR/asked
       outside.py made DIR           holds what the dumper printed (DIR/dumped/NUMBER) of the frames made here, and what ax25_reencode
                                     made of them (DIR/reencoded), to their making
       outside.py tshark DIR         compares these two with DIR/tshark, what tshark printed (PDML)
       outside.py decode_aprs DIR    compares them with DIR/decode_aprs, what direwolf's decode_aprs printed

A2, B1 and so on are entries of docs/DIFFERENCES.md."""
import collections
import pathlib
import re
import struct
import sys

# Control octets with P/F and the numbers zero. I is any even octet.
KINDS = {'I': 0x00, 'RR': 0x01, 'RNR': 0x05, 'REJ': 0x09, 'SREJ': 0x0D, 'SABM': 0x2F, 'SABME': 0x6F, 'DISC': 0x43, 'DM': 0x0F, 'UA': 0x63,
         'FRMR': 0x87, 'UI': 0x03, 'XID': 0xAF, 'TEST': 0xE3}
SUPERVISORY = ('RR', 'RNR', 'REJ', 'SREJ')
HAS_INFO = ('I', 'UI', 'XID', 'TEST')
P_F = 0x10
# How direwolf names the protocol identifiers; it names the layer 3 class without its octet, and gives the octet of an unknown one.
DIREWOLF_PIDS = {
    'ISO 8208/CCITT X.25 PLP': 0x01, 'Compressed TCP/IP packet. Van Jacobson (RFC 1144)': 0x06,
    'Uncompressed TCP/IP packet. Van Jacobson (RFC 1144)': 0x07, 'Segmentation fragment': 0x08, 'TEXNET datagram protocol': 0xC3,
    'Link Quality Protocol': 0xC4, 'Appletalk': 0xCA, 'Appletalk ARP': 0xCB, 'ARPA Internet Protocol': 0xCC,
    'ARPA Address resolution': 0xCD, 'FlexNet': 0xCE, 'NET/ROM': 0xCF, 'No layer 3 protocol implemented.': 0xF0,
    'Escape character. Next octet contains more Level 3 protocol information.': 0xFF}
DIREWOLF_LAYER_3 = 'AX.25 layer 3 implemented.'


def is_layer_3(pid):
    return pid & 0x30 in (0x10, 0x20)


# Making

class Dice:
    """The same numbers on every host and with every Python."""

    def __init__(self, seed):
        self.state = seed

    def roll(self, sides):
        self.state = (self.state * 6364136223846793005 + 1442695040888963407) % 2 ** 64
        return (self.state >> 33) % sides

    def shuffled(self, things):
        things = list(things)
        for last in range(len(things) - 1, 0, -1):
            other = self.roll(last + 1)
            things[last], things[other] = things[other], things[last]
        return things


def made_contents(dice):
    """Every control octet of every kind, and every PID in an I frame."""
    info = lambda: b'LEVEL 3.20 M'[:dice.roll(13)]
    ours = []
    controls = dice.shuffled(range(0, 256, 2)) * 2
    ours += [bytes([control, pid]) + info() for control, pid in zip(controls, dice.shuffled(range(256)))]
    named = [*DIREWOLF_PIDS.values(), 0x10]
    for pid in named + [dice.roll(256) for _ in range(49)]:
        ours += [bytes([KINDS['UI'] | p_f, pid]) + info() for p_f in (0, P_F)]
    for kind in SUPERVISORY:
        ours += [bytes([number << 5 | p_f | KINDS[kind]]) for number in range(8) for p_f in (0, P_F)]
    for kind in ('SABM', 'SABME', 'DISC', 'DM', 'UA') * 4:
        ours += [bytes([p_f | KINDS[kind]]) for p_f in (0, P_F)]
    for kind in ('XID', 'TEST'):
        ours += [bytes([p_f | KINDS[kind]]) + octets for octets in (b'', b'\x82', *(info() for _ in range(6))) for p_f in (0, P_F)]
    for _ in range(4):
        ours += [bytes([p_f | KINDS['FRMR'], dice.roll(16), dice.roll(128) << 1, dice.roll(256)]) for p_f in (0, P_F)]
    return dice.shuffled(ours)


def group(callsign, ssid, mark, last, reserved=3):
    return bytes(octet << 1 for octet in callsign.ljust(6)) + bytes([mark << 7 | reserved << 5 | ssid << 1 | last])


def made_callsign(dice):
    letters = b'ABCDEFGHIJKLMNOPQRSTUVWXYZ0123456789'
    return bytes(letters[dice.roll(len(letters))] for _ in range(1 + dice.roll(6)))


def made_frames():
    """Frames with 0 to 8 repeaters in turn, in each place every SSID and every setting of the reserved bits in turn. All are plain."""
    dice = Dice(25)
    frames = []
    for number, content in enumerate(made_contents(dice)):
        turn, repeaters = divmod(number, 9)
        command = dice.roll(2)
        marks = [command, 1 - command] + [dice.roll(2) for _ in range(repeaters)]
        groups = [group(made_callsign(dice), (turn + 5 * place) % 16, mark, place == repeaters + 1, (turn // 5 + place) % 4)
                  for place, mark in enumerate(marks)]
        frames.append(b''.join(groups) + content)
    return frames


def equal_marks(dice, frame):
    both = dice.roll(2) << 7
    for place in (6, 13):
        frame[place] = frame[place] & 0x7F | both


def tail(dice, frame):
    frame += bytes(dice.roll(256) for _ in range(1 + dice.roll(3)))


def leftover(dice, frame):
    """The end bit is that of an octet behind the last address, one to six octets on."""
    field = 7 * len(Layout(frame).groups)
    frame[field - 1] &= 0xFE
    frame[field:field] = bytes(dice.roll(128) << 1 for _ in range(dice.roll(6))) + bytes([dice.roll(128) << 1 | 1])


def fixed(dice, frame):
    """One or more of the five bits of FRMR that nothing reads."""
    bits = 1 + dice.roll(31)
    frame[-3] |= bits >> 1 << 4
    frame[-2] |= bits & 1


def spoilt_frames():
    """Frames made as above with one thing that the port accepts and does not call canonical (A12, A4, A2, A10), by the reason that it gives."""
    dice = Dice(52)
    frames = made_frames()
    short = [frame for frame in frames if Layout(frame).kind() not in (*HAS_INFO, 'FRMR')]
    rejects = [frame for frame in frames if Layout(frame).kind() == 'FRMR']
    spoilt = {}
    for reason, spoil, whole in (('marks', equal_marks, frames[::6]), ('tail', tail, short[::2]), ('leftover', leftover, frames[::16]),
                                 ('fixed', fixed, rejects * 2)):
        spoilt[reason] = list(map(bytearray, whole))
        for frame in spoilt[reason]:
            spoil(dice, frame)
    return {reason: list(map(bytes, frames)) for reason, frames in spoilt.items()}


def listed_frames():
    listed = pathlib.Path(__file__).resolve().parent / 'captures' / 'frames.hex'
    lines = [line.partition('#')[0] for line in listed.read_text('ascii').splitlines()]
    return [bytes.fromhex(line) for line in lines if line.strip()]


def all_frames():
    return listed_frames() + made_frames() + [frame for frames in spoilt_frames().values() for frame in frames]


def hex_line(octets):
    return ' '.join(f'{octet:02X}' for octet in octets)


def pcap(frames):
    """Link type 3 is AX.25 from its first address octet."""
    head = struct.pack('<IHHiIII', 0xA1B2C3D4, 2, 4, 0, 0, 65535, 3)
    return head + b''.join(struct.pack('<IIII', place, 0, len(frame), len(frame)) + frame for place, frame in enumerate(frames))


def make(folder):
    frames = all_frames()
    (folder / 'frames').mkdir()
    for place, frame in enumerate(frames):
        (folder / 'frames' / f'{place:04}').write_bytes(frame)
    (folder / 'frames.pcap').write_bytes(pcap(frames))
    (folder / 'frames.hex').write_text(''.join(hex_line(frame) + '\n' for frame in frames))
    (folder / 'asked').write_text(''.join(f'reencode {frame.hex()}\n' for frame in frames))


# The layout of a frame, for spoiling one, for finding the reserved bits of one that the port re-encoded, and for saying which a program
# is known to report otherwise. Nothing else of it is compared.

class Layout:
    def __init__(self, octets):
        end = next((place for place, octet in enumerate(octets) if octet & 1), None)
        span = 0 if end is None else end + 1
        self.octets, self.leading_null = octets, octets[:1] == b'\0'
        self.groups = [octets[7 * place:7 * place + 7] for place in range(span // 7)]
        self.left_over = span % 7 if span >= 14 else 0
        self.content = b'' if end is None else octets[end + 1:]

    def kind(self):
        """None for content that is no known kind, or that is not there."""
        if not self.content:
            return None
        control = self.content[0]
        bare = control & (0x01 if control & 1 == 0 else 0x0F if control & 3 == 1 else 0xFF - P_F)
        return next((kind for kind, octet in KINDS.items() if octet == bare), None)

    def p_f(self):
        return bool(self.content and self.content[0] & P_F)

    def is_response(self):
        return not self.groups[0][6] & 0x80 and bool(self.groups[1][6] & 0x80)

    def has_pid(self):
        return self.kind() in ('I', 'UI') and len(self.content) > 1

    def layer_3(self):
        return self.has_pid() and is_layer_3(self.content[1])

    def reserved(self):
        return listed(str(group[6] >> 5 & 3) for group in self.groups)

    def characters(self, field):
        """Those of a field of addresses, without the padding."""
        groups = {'destination': self.groups[:1], 'source': self.groups[1:2], 'repeaters': self.groups[2:]}[field]
        return b''.join(bytes(octet >> 1 for octet in group[:6]).rstrip(b' ') for group in groups)


# Readings: a field is text; '-' where a frame of that kind has no such field, None where the reader does not say. Where the frame is
# not accepted, `accepted` is the only one.

FIELDS = ['accepted', 'destination', 'source', 'repeaters', 'marks', 'reserved', 'mark', 'kind', 'control', 'nr', 'ns', 'pf', 'pid',
          'layer_3', 'frmr', 'info_length', 'canonical', 'reason']
REFUSED = {'accepted': 'no'}
NO_PID = {'pid': '-', 'layer_3': '-'}
NOT_UNDERSTOOD = {'accepted': 'something not understood'}
Group = collections.namedtuple('Group', 'address mark reserved last')


def understood(read, text):
    try:
        return read(text)
    except (KeyError, IndexError, TypeError, ValueError):
        return NOT_UNDERSTOOD


def address(callsign, ssid):
    return callsign.rstrip(' ') + (f'-{ssid}' if ssid else '')


def listed(things):
    return ','.join(things) or '-'


def unescaped(text):
    return re.sub('%(..)', lambda found: chr(int(found[1], 16)), text)


def dumper_pid(octet):
    """It has no word for the layer 3 class, but the octet tells."""
    return NO_PID if octet == '-' else {'pid': octet, 'layer_3': 'yes' if is_layer_3(int(octet, 16)) else 'no'}


def by_dumper(text):
    said = dict(line.partition('=')[::2] for line in text.splitlines())
    if int(said['answer']) != 0:
        return REFUSED
    route = [entry for entry in said['route'].split(',') if entry]
    kind, control, pid = said['kind'], int(said['control'], 16), said['pid']
    numbered = kind in ('I', *SUPERVISORY)
    return {
        'accepted': 'yes', 'destination': unescaped(said['destination']), 'source': unescaped(said['source']),
        'repeaters': listed(unescaped(entry.rstrip('*')) for entry in route),
        'marks': listed('1' if entry.endswith('*') else '0' for entry in route),
        'mark': said['mark'], 'kind': kind, 'control': said['control'],
        'nr': str(control >> 5) if numbered else '-', 'ns': str(control >> 1 & 7) if kind == 'I' else '-', 'pf': str(control >> 4 & 1),
        **dumper_pid(pid), 'frmr': None if kind == 'FRMR' else '-',
        'info_length': said['info_length'] if kind in HAS_INFO else '-', 'canonical': said['canonical'], 'reason': said['reason']}


def answered(printed, lines):
    """What tests/calls.c printed in answer to so many lines: a number and octets for each."""
    pairs = [line.partition(' ') for line in printed.splitlines()]
    if len(pairs) != lines:
        sys.exit(f'tests/calls.c answers {len(pairs)} of {lines} lines')
    return [(int(number), bytes.fromhex(octets)) for number, _, octets in pairs]


def spelling(groups, kind, stray):
    """What a report says of the spelling, and why it is not canonical: None where it leaves out what decides. `stray`: octets follow where no
    info may."""
    if [group.last for group in groups] != [0] * (len(groups) - 1) + [1]:
        reason = 'leftover'
    elif groups[0].mark == groups[1].mark:
        reason = 'marks'
    elif stray:
        reason = 'tail'
    else:
        reason = None if kind == 'FRMR' else 'none'
    return {'canonical': {None: None, 'none': 'yes'}.get(reason, 'no'), 'reason': reason}


def common(groups, kind, pid, after):
    """What is made alike of both programs' reports. `after` is how many octets follow the control octet, and the PID if there is one; None
    where a program looks for no PID."""
    has_info = kind in HAS_INFO
    return {
        'accepted': 'yes', 'destination': groups[0].address, 'source': groups[1].address, 'kind': kind,
        'repeaters': listed(group.address for group in groups[2:]), 'marks': listed(str(group.mark) for group in groups[2:]),
        'reserved': listed(str(group.reserved) for group in groups), **pid,
        'frmr': None if kind == 'FRMR' else '-', 'info_length': '-' if not has_info else None if after is None else str(after),
        **spelling(groups, kind, stray=not has_info and kind != 'FRMR' and after)}


# tshark

def plain_text(text):
    for entity, character in (('&lt;', '<'), ('&gt;', '>'), ('&quot;', '"'), ('&#x27;', "'"), ('&apos;', "'"), ('&amp;', '&')):
        text = text.replace(entity, character)
    return text


def tshark_elements(packet):
    """A packet's elements by name, the first of each name, with their attributes: AX.25 inside IP would come later."""
    elements = {}
    for line in packet.splitlines():
        found = dict(re.findall(r'(\w+)="([^"]*)"', line))
        if 'name' in found:
            elements.setdefault(found['name'], {key: plain_text(value) for key, value in found.items()})
    return elements


def tshark_group(element):
    """Its text is the address; it has no words for a mark and the reserved bits, but shows the group's octets."""
    seventh = int(element['value'], 16) & 0xFF
    return Group(element['showname'].partition(': ')[2], seventh >> 7, seventh >> 5 & 3, seventh & 1)


def tshark_mark(elements, kind):
    """It names the bit P of a command and F of a response, but P in any I frame; and it has other names for each at a U frame."""
    if 'Ver: V?.?' in elements['ax25']['showname']:
        return 'none'
    if kind != 'I':
        for name, mark in (('p', 'command'), ('u_cmd', 'command'), ('f', 'response'), ('u_resp', 'response')):
            if 'ax25.ctl.' + name in elements:
                return mark
    return None


def tshark_pid(elements, kind):
    """It has no word for the layer 3 class either, and gives the octet; or it looks for no PID."""
    unsaid = None if kind in ('I', 'UI') else '-'
    return {'pid': elements['ax25.pid']['value'] if 'ax25.pid' in elements else unsaid, 'layer_3': unsaid}


def by_tshark(packet):
    if '"[Malformed Packet: AX.25]"' in packet:
        return REFUSED
    elements = tshark_elements(packet)
    control = elements['ax25.ctl']
    summary = re.fullmatch(r'Control field: ([ISU])( [PF])?(?:, func=(\w+))?.*', control['showname'])
    kind = summary[3] or summary[1]
    names = ['dst', 'src'] + [f'via{place}' for place in range(1, 9)]
    groups = [tshark_group(elements['ax25.' + name]) for name in names if 'ax25.' + name in elements]
    pid = tshark_pid(elements, kind)
    after = None if pid['pid'] is None else int(elements['len']['show']) - int(elements['ax25']['size'])
    number = lambda name: elements[name]['show'] if name in elements else '-'
    return {
        **common(groups, kind, pid, after),
        'mark': tshark_mark(elements, kind), 'control': control['value'], 'nr': number('ax25.ctl.n_r'), 'ns': number('ax25.ctl.n_s'),
        'pf': '1' if summary[2] else '0'}


def readings_by_tshark(text, frames):
    return [understood(by_tshark, packet) for packet in text.split('<packet>')[1:]]


# direwolf

def direwolf_groups(report):
    groups = re.findall(r'^ (?:dest  |source|digi \d)  (.{6}) ([ 1]\d) +(?:c/r|h)=([01]) res=([0-3]) last=([01])$', report, re.M)
    return [Group(address(callsign, int(ssid)), int(mark), int(reserved), int(last)) for callsign, ssid, mark, reserved, last in groups]


def direwolf_pid(words):
    if words is None:
        return NO_PID
    if words == DIREWOLF_LAYER_3:
        return {'pid': None, 'layer_3': 'yes'}
    unknown = re.fullmatch('Unknown protocol id = 0x(..)', words)
    return {'pid': unknown[1] if unknown else f'{DIREWOLF_PIDS[words]:02x}', 'layer_3': 'no'}


def by_direwolf(report):
    found = re.search(r'^(?:(I) frame|[SU] frame (\w+)): (?:n\(r\)=(\d+), )?(?:p/f|p|f)=([01])(?:, n\(s\)=(\d+))?(?:, (.+))?, '
                      r'length = (\d+)$', report, re.M)
    if not found:
        return REFUSED
    information, kind, nr, pf, ns, words, length = found.groups()
    kind = {'sREJ': 'SREJ'}.get(kind, kind)
    groups = direwolf_groups(report)
    marks = (groups[0].mark, groups[1].mark)
    pid = direwolf_pid(words)
    after = int(length) - 7 * len(groups) - (1 if pid == NO_PID else 2)
    return {
        **common(groups, information or kind, pid, after),
        'mark': {(1, 0): 'command', (0, 1): 'response'}.get(marks, 'none'), 'control': None, 'nr': nr or '-', 'ns': ns or '-', 'pf': pf}


def readings_by_direwolf(text, frames):
    """It repeats each line that it reads, in colour, then reports."""
    rest, reports = re.sub('\x1b\\[[0-9;]*[A-Za-z]', '', text), []
    for octets in frames:
        report, repeated, rest = rest.partition('\n' + hex_line(octets) + '\n')
        if not repeated:
            return []
        reports.append(report)
    reports.append(rest)
    # What stands before the first line is no report; what comes after the dashes is its reading of the info.
    return [understood(by_direwolf, report.partition('\n-------------------\n')[0]) for report in reports[1:]]


# What a program does not report, or reports otherwise, for a reason that is known. A frame that meets one of WHOLE is not compared at
# all. One that meets another is not compared in the fields named: by a reason of SILENCE where the program, or the dumper, says nothing
# there, by one of ANOTHER where the program says something else, by one of REFUSAL where it accepts what the port refuses. Where both
# agree, it is compared.

SILENCE, ANOTHER, REFUSAL = 'silence', 'another', 'refusal'
ADDRESSES = ('destination', 'source', 'repeaters')
WHOLE = [
    (lambda frame: frame.left_over and not frame.leading_null,
     'octets left over in the address field are ignored by the port alone (A2)'),
]


def of_kind(*kinds):
    return lambda frame, field: frame.kind() in kinds


def odd_character(lowest):
    return lambda frame, field: any(not lowest <= character < 0x7F for character in frame.characters(field))


BOTH = [
    (REFUSAL, ['accepted'], lambda frame, field: frame.kind() == 'FRMR' and len(frame.content) != 4,
     "FRMR's length: the program does not look at it"),
    (SILENCE, ['frmr'], of_kind('FRMR'),
     "FRMR's three octets: neither the dumper nor the program prints them (A9, A10)"),
    (SILENCE, ['canonical', 'reason'], of_kind('FRMR'),
     "whether FRMR's bits without a name are zero: the program does not say (A10)"),
]
TSHARK = BOTH + [
    (REFUSAL, ['accepted'], lambda frame, field: frame.content and frame.kind() is None,
     'a kind that HDLC has and AX.25 has not: tshark knows it'),
    (REFUSAL, ['accepted'], lambda frame, field: len(frame.groups) > 10,
     'nine repeaters: tshark shows eight and passes over the rest (B1)'),
    (SILENCE, ['pid', 'layer_3', 'info_length'], lambda frame, field: frame.kind() == 'UI' and frame.p_f(),
     'UI with P/F set: tshark looks for no PID'),
    (SILENCE, ['layer_3'], of_kind('I', 'UI'),
     'whether a PID is of the layer 3 class: tshark gives its octet alone, which is compared'),
    (SILENCE, ['mark'], of_kind('I'),
     'I: tshark does not say whether Command or Response, since an I frame is a Command (A15)'),
    (SILENCE, ['mark'], lambda frame, field: frame.kind() in SUPERVISORY and not frame.p_f(),
     'S without P/F: tshark does not say whether Command or Response'),
    (ANOTHER, ['kind'], lambda frame, field: (frame.kind(), frame.is_response()) in (('DISC', True), ('DM', False)),
     "DISC as Response and DM as Command (A15): tshark gives HDLC's names for these, RD and SARM"),
    (ANOTHER, ADDRESSES, odd_character(0x21),
     'tshark ends a callsign at a space and prints a dot for a character that is not printable (A3)'),
]
DIREWOLF = BOTH + [
    (REFUSAL, ['accepted'], lambda frame, field: frame.leading_null,
     'nulls before the frame, which the port refuses (B8): decode_aprs takes the first for a KISS type, and reads what follows it'),
    (REFUSAL, ['accepted'], lambda frame, field: frame.kind() in ('I', 'UI') and not frame.has_pid(),
     'I and UI without a PID: decode_aprs reads a PID of 00'),
    (SILENCE, ['control'], lambda frame, field: True,
     'the control octet: decode_aprs gives its parts, which are compared one by one'),
    (SILENCE, ['pid'], lambda frame, field: frame.layer_3(),
     'which octet of the layer 3 class a PID is: decode_aprs does not say; that it is of the class is compared'),
    (ANOTHER, ADDRESSES, odd_character(0x20),
     'decode_aprs prints a dot for a character that is not printable (A3)'),
]
PROGRAMS = {'tshark': (readings_by_tshark, TSHARK), 'decode_aprs': (readings_by_direwolf, DIREWOLF)}


# Comparing

class Count:
    def __init__(self):
        self.passed = self.failed = 0

    def ok(self, text):
        self.passed += 1
        print('ok:', text)

    def fail(self, text):
        self.failed += 1
        print('FAILED:', text)

    def fail_all(self, texts):
        """One line each for the first five, and one that says how many more."""
        for text in texts[:5]:
            self.fail(text)
        if len(texts) > 5:
            self.fail(f'and so in {len(texts) - 5} frames more')

    def end(self):
        print(f'{self.passed} passed, {self.failed} failed')
        sys.exit(1 if self.failed else 0)


def reencoded(folder, frames):
    """What ax25_reencode made of each; nothing where it refuses."""
    return [octets for _, octets in answered((folder / 'reencoded').read_text('ascii'), len(frames))]


def port_readings(folder, frames):
    """What the dumper says, and the reserved bits, of which it says nothing, as they stand in the re-encoded frame."""
    printed = [(folder / 'dumped' / f'{place:04}').read_text('ascii', errors='replace') for place in range(len(frames))]
    return [{**understood(by_dumper, text), 'reserved': Layout(octets).reserved()}
            for text, octets in zip(printed, reencoded(folder, frames))]


def in_both(mine, theirs):
    """The fields to compare: if one refuses the frame, there is nothing more to say."""
    return FIELDS if mine['accepted'] == theirs['accepted'] == 'yes' else ['accepted']


def case_of(field, mine, theirs):
    if None in (mine, theirs):
        return SILENCE
    if field == 'accepted':
        return REFUSAL if (mine, theirs) == ('no', 'yes') else None
    return ANOTHER


class Comparison:
    def __init__(self, program, excuses):
        self.program, self.excuses = program, excuses
        self.agreed, self.whole, self.left_out, self.frames_left_out = (collections.Counter() for _ in range(4))
        self.wrong = collections.defaultdict(list)
        self.frames = 0

    def frame(self, octets, mine, theirs):
        layout = Layout(octets)
        for meets, reason in WHOLE:
            if meets(layout):
                self.whole[reason] += 1
                return
        self.frames += 1
        reasons = {self.field(layout, field, mine[field], theirs[field]) for field in in_both(mine, theirs)}
        self.frames_left_out.update(reasons - {None})

    def field(self, layout, field, mine, theirs):
        """Compares; the reason where it is known why there is nothing to compare."""
        if mine == theirs == '-':
            return None
        if mine == theirs and mine is not None:
            self.agreed[field] += 1
            return None
        case = case_of(field, mine, theirs)
        reasons = (reason for of, fields, meets, reason in self.excuses if of == case and field in fields and meets(layout, field))
        reason = next(reasons, None)
        if reason:
            self.left_out[reason] += 1
        else:
            self.wrong[field].append(f'the port says {mine!r}, {self.program} {theirs!r} of {hex_line(layout.octets)}')
        return reason

    def report(self, count):
        for field in FIELDS:
            count.fail_all([f'{field}: {line}' for line in self.wrong[field]])
            if self.agreed[field] and not self.wrong[field]:
                count.ok(f'{self.program}, {field}: {self.agreed[field]} frames agree')
        print(f'{self.program}: {self.frames} frames and {sum(self.agreed.values())} of their fields compared; not compared: '
              f'{sum(self.whole.values())} frames, and {sum(self.left_out.values())} fields of others')
        for _, reason in WHOLE:
            print(f'not compared (frames: {self.whole[reason]}): {reason}')
        for _, _, _, reason in self.excuses:
            print(f'not compared (fields: {self.left_out[reason]}, frames: {self.frames_left_out[reason]}): {reason}')


def compare(folder, program):
    read, excuses = PROGRAMS[program]
    frames, count = all_frames(), Count()
    theirs = read((folder / program).read_text('utf-8', errors='replace'), frames)
    if len(theirs) != len(frames):
        count.fail(f'{program} does not report on each of {len(frames)} frames')
        count.end()
    comparison = Comparison(program, excuses)
    for octets, mine, other in zip(frames, port_readings(folder, frames), theirs):
        comparison.frame(octets, mine, other)
    comparison.report(count)
    count.end()


def check_spelling(count, frames, reason, readings, again):
    """The frames of one reason, or plain ones: what the dumper says of their spelling, and whether they are written anew as they were."""
    is_plain = reason == 'none'
    said = {'canonical': 'yes' if is_plain else 'no', 'reason': reason}
    wrong = [frame for frame in frames if said.items() - readings[frame].items() or (again[frame] == frame) != is_plain]
    words, octets = ' and '.join('='.join(pair) for pair in said.items()), 'the same octets' if is_plain else 'other octets'
    count.fail_all([f'the dumper should accept this and say {words}, and ax25_reencode write {octets}: {hex_line(frame)}' for frame in wrong])
    if not wrong:
        what = 'plain' if is_plain else 'spoilt'
        count.ok(f'the dumper accepts {len(frames)} {what} frames and says {words}, and ax25_reencode writes {octets}')


def check_reserved(count):
    met = {(place, setting) for frame in made_frames() for place, setting in enumerate(Layout(frame).reserved().split(','))}
    lacking = [(place, setting) for place in range(10) for setting in '0123' if (place, setting) not in met]
    count.fail_all([f'no plain frame has reserved bits of {setting} in place {place}' for place, setting in lacking])
    if not lacking:
        count.ok('the plain frames have every setting of the reserved bits in each of ten places')


def made(folder):
    """What is known of the frames made here without any other program."""
    count, every = Count(), all_frames()
    readings, again = dict(zip(every, port_readings(folder, every))), dict(zip(every, reencoded(folder, every)))
    for reason, frames in {'none': made_frames(), **spoilt_frames()}.items():
        check_spelling(count, frames, reason, readings, again)
    check_reserved(count)
    count.end()


def main():
    if len(sys.argv) != 3 or sys.argv[1] not in ('make', 'made', *PROGRAMS):
        sys.exit(__doc__)
    folder = pathlib.Path(sys.argv[2])
    if sys.argv[1] == 'make':
        make(folder)
    elif sys.argv[1] == 'made':
        made(folder)
    else:
        compare(folder, sys.argv[1])


if __name__ == '__main__':
    main()
