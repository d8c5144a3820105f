"""The readers of captures: each format in a stream, so that a file of any size takes the same memory. What a file is its octets say; what
can't be told is refused in words, with what to do."""
import codecs
import contextlib
import hashlib
import io
import os
import re
import shutil
import stat
import struct
import subprocess
import tempfile
from typing import NamedTuple, Optional

RAW_NAMES = ('.raw', '.bin', '.ax25')
RAW_LIMIT = 4096  # the dumper's
HEAD = 1 << 20  # how much of a file says what it is
PIECE = 1 << 16  # how much of a KISS log is printed at once
PACKET_LIMIT = 1 << 18  # of a pcap packet, as Wireshark has it, and of a KISS packet: what is longer is none
BLOCK_LIMIT = 1 << 24  # of a pcapng block, as Wireshark has it
LINE_LIMIT = 1 << 20  # of the characters of a line of hex
FEND = b'\xC0'
PORTS = 12  # KISS ports are 0 to 11
PCAPNG = b'\x0A\x0D\x0D\x0A'
# How a pcap file's numbers are to be read, by its magic number: of microseconds or nanoseconds.
PCAP = {b'\xA1\xB2\xC3\xD4': '>', b'\xA1\xB2\x3C\x4D': '>', b'\xD4\xC3\xB2\xA1': '<', b'\x4D\x3C\xB2\xA1': '<'}
PCAPNG_INTERFACE = 1  # the type of the block that says an interface's link type
PCAPNG_ORDER = {b'\x1A\x2B\x3C\x4D': '>', b'\x4D\x3C\x2B\x1A': '<'}
LINKS = {3: 'AX25', 202: 'AX25_KISS'}
SAVE_AS_PCAP = 'save it as pcap (editcap -F pcap IN OUT)'
COPY_ANEW = 'copy or capture it anew'
OFFSETS = ('turn it back into octets (one by xxd: xxd -r IN OUT.raw; one by Wireshark, hexdump -C or od -Ax -tx1: text2pcap -l 3 IN OUT; one by '
           'od -tx1: text2pcap -o oct -l 3 IN OUT), or dump the frame itself without offsets (od -An -v -tx1 -w4096 FRAME)')
# What stands for a space in text that was copied from a page or a chat.
SPACES = dict.fromkeys(map(ord, '\u00A0\u2007\u200B\u202F\u2060\uFEFF'), ' ')

# The first octets of files that are no captures for this program, what they are, and what makes one of them.
FOREIGN = [(re.compile(first, re.DOTALL), kind, turn) for first, kind, turn in [
    (rb'\x1F\x8B', 'gzip', 'unpack it (gunzip <IN >OUT)'),
    (rb'BZh[1-9](1AY&SY|\x17rE8P\x90)', 'bzip2', 'unpack it (bunzip2 <IN >OUT)'),
    (rb'\xFD7zXZ\0', 'xz', 'unpack it (unxz <IN >OUT)'),
    (rb'\x28\xB5\x2F\xFD', 'zstd', 'unpack it (unzstd <IN >OUT)'),
    (rb'PK(\x03\x04|\x05\x06)', 'zip', 'unpack it (unzip IN)'),
    (rb'\x34\xCD\xB2\xA1|\xA1\xB2\xCD\x34', 'modified pcap', SAVE_AS_PCAP),
    (rb'snoop\0\0\0', 'snoop', SAVE_AS_PCAP),
    (rb'btsnoop\0', 'btsnoop (Bluetooth)', 'there are no AX.25 frames in it'),
    (rb'\xFF\xFE\0\0|\0\0\xFE\xFF', 'UTF-32 text', 'convert it (iconv -f UTF-32 -t UTF-8 IN >OUT)'),
    (rb'\xFF\xFE|\xFE\xFF', 'UTF-16 text', 'convert it (iconv -f UTF-16 -t UTF-8 IN >OUT)'),
    (rb'([\t\n\r -~]\0\0\0){2}', 'UTF-32 text', 'convert it (iconv -f UTF-32LE -t UTF-8 IN >OUT)'),
    (rb'(\0\0\0[\t\n\r -~]){2}', 'UTF-32 text', 'convert it (iconv -f UTF-32BE -t UTF-8 IN >OUT)'),
    (rb'([\t\n\r -~]\0){4}', 'UTF-16 text', 'convert it (iconv -f UTF-16LE -t UTF-8 IN >OUT)'),
    (rb'(\0[\t\n\r -~]){4}', 'UTF-16 text', 'convert it (iconv -f UTF-16BE -t UTF-8 IN >OUT)'),
    (rb'(RIFF|RF64).{4}WAVE', 'WAV (sound)', "its frames are to be found first (by direwolf's and Wireshark's programs: "
     "atest -h IN | grep -aE '^ +[0-9a-f]{3}: ' | text2pcap -q -l 3 - OUT)"),
    (rb'\x7FELF', 'ELF (a program)', 'there are no frames in it'),
]]

# Text whose first line is no hex: what such a line looks like, what it is, and what to do.
TEXTS = [(re.compile(line), kind, turn) for line, kind, turn in [
    (r'\s*(0x)?0{4,}[:\s]\s*[0-9A-Fa-f]{2,}\s', 'a dump with offsets', OFFSETS),
    (r'.*?[0-9A-Za-z]{1,6}(-\d+)?>[0-9A-Za-z]{1,6}(-\d+)?[,:]|.*?\bfm \S+ to \S+ ', "a monitor's text",
     'the octets are not in it: record them in hex, as KISS or as pcap'),
    # A time or a date has two such signs.
    (r'.*?((0x|\\x)[0-9A-Fa-f]{2}[\s,;]*){4}|\s*([0-9A-Fa-f]{2}\s*[:;,.-]\s*){4}', 'hex with signs before or between the octets',
     'write the digits alone, a frame a line, with spaces or without'),
    (r'', 'plain text', "a capture in text has each frame's octets in hex, a frame a line"),
]]

# Control characters, and octets that are no UTF-8, which are read as surrogates.
NO_TEXT = re.compile('[\0-\x08\x0B\x0C\x0E-\x1F\x7F-\x9F\uD800-\uDFFF]')
# What stands before the first DB that is no escape.
WELL_ESCAPED = re.compile(rb'(?:[^\xDB]+|\xDB[\xDC\xDD])*')
# A KISS packet of data behind a C0 that begins with two addresses of letters, digits and spaces. No one writes that inside a frame.
CHARACTER = b'[' + bytes(2 * character for character in b' 0123456789ABCDEFGHIJKLMNOPQRSTUVWXYZ') + b']'
KISS_PACKET = re.compile(FEND + rb'[\0\x10\x20\x30\x40\x50\x60\x70\x80\x90\xA0\xB0\xD0\xE0\xF0](' + CHARACTER + rb'{6}.){2}', re.DOTALL)


class Refused(Exception):
    """Why a file is not read."""


class Unclear(Refused):
    """The same, of a file that may be a raw frame for all that its octets say."""


class NoFrame(Exception):
    """Why a KISS packet is no frame, by its number and in words."""


# What a capture holds, in the order in which it stands there. `line` is what captures.py prints of it.


class Frame(NamedTuple):
    place: str
    octets: bytes

    def line(self):
        return f'frame\t{self.place}\t{self.octets.hex()}'


class Packet(NamedTuple):
    """A KISS packet, and what it is read as."""
    place: str
    octets: bytes
    number: int
    port: int
    data: bytes

    def line(self):
        return f'packet\t{self.place}\t{self.octets.hex()}\t{self.number}\t{self.port}\t{self.data.hex()}'


class Log(NamedTuple):
    """The next octets of a KISS log."""
    octets: bytes

    def line(self):
        return f'log\t{self.octets.hex()}'


class PassedOver(NamedTuple):
    """A packet that is no frame: a KISS packet with its number, one that was not captured whole without."""
    place: str
    number: Optional[int]
    why: str

    def line(self):
        return f'passed over\t{self.place}: {self.why}'


# KISS


def kiss_frame(inside, closed):
    """The port and the frame of what stands behind a C0, up to the next one or to the end: the port and the command, of which 0 is data,
    then the frame. What is wrong first counts."""
    if not inside:
        raise NoFrame(55, 'without a command octet')
    good, octets = inside, inside
    if b'\xDB' in inside:
        good = WELL_ESCAPED.match(inside)[0]
        octets = unescaped(good)
    if octets and octets[0] & 0x0F:
        raise NoFrame(54, f'KISS command {octets[0]:02X}, no data')
    if octets and octets[0] >> 4 >= PORTS:
        raise NoFrame(56, f'KISS port {octets[0] >> 4}: only 0 to {PORTS - 1} are read')
    if good != inside:
        raise NoFrame(52, 'DB is followed by neither DC nor DD')
    if not closed:
        raise NoFrame(53, f'no C0 ends the last {len(inside)} octets')
    return octets[0] >> 4, octets[1:]


def kiss_packet(place, inside, closed=True):
    packet = FEND + inside + FEND * closed
    try:
        port, frame = kiss_frame(inside, closed)
        yield Frame(f'{place}, port {port}', frame)
        yield Packet(place, packet, 0, port, frame)
    except NoFrame as problem:
        number, why = problem.args
        yield PassedOver(place, number, why)
        yield Packet(place, packet, number, 0, b'')


def kiss(stream):
    """Everything between two C0 octets, and what follows the last. Two packets share a C0, or have one each, or more."""
    at, open_packet = 0, b''
    for octets in iter(lambda: stream.read(PIECE), b''):
        yield Log(octets)
        *closed, open_packet = (open_packet + octets).split(FEND)
        for inside in closed:
            if inside:
                yield from kiss_packet(f'octet {at}', not_too_long(at, inside))
            at += len(inside) + 1
        not_too_long(at, open_packet)
    if open_packet:
        yield from kiss_packet(f'octet {at}', open_packet, closed=False)


def not_too_long(at, inside):
    if len(inside) > PACKET_LIMIT:
        raise Refused(f'KISS log, octet {at}: more than {PACKET_LIMIT} octets without a C0: this is no KISS log, or it is damaged')
    return inside


def escaped(octets):
    return octets.replace(b'\xDB', b'\xDB\xDD').replace(FEND, b'\xDB\xDC')


def unescaped(octets):
    return octets.replace(b'\xDB\xDC', FEND).replace(b'\xDB\xDD', b'\xDB')


# Lines of hex


def is_text(head):
    """Whether the octets are UTF-8 without control characters. Addresses are shifted, so a frame hardly ever is."""
    text = codecs.getincrementaldecoder('utf-8-sig')('surrogateescape').decode(head, final=len(head) < HEAD)
    return not NO_TEXT.search(text)


def has_offset(words):
    """Whether a line is the first of a dump. Its offset, 0, would be taken for nulls, and the line for a frame behind them, which is what a
    stuck line driver leaves: the report counts those. od, if it is not told otherwise, writes all in octal."""
    if not words or not re.fullmatch('0{4,16}', words[0]):
        return False
    lengths = {len(word) for word in words[1:]}
    in_hex, in_octal = ({2}, {4}, {8}), ({3}, {6})
    return lengths in in_hex and len(words[0]) not in lengths or lengths in in_octal and len(words[0]) == 7


def hex_line(line):
    """The octets of a line; why it has none that can be told, and whether that may be because the text is no hex at all."""
    if not any(sign in line for sign in '#\v\f') and not line.lstrip().startswith('0000'):
        try:
            return bytes.fromhex(line)
        except ValueError:
            pass  # Why is said below; most lines are pairs of digits, and quick.
    text = line.partition('#')[0].translate(SPACES)
    if NO_TEXT.search(line):
        raise Refused('this is no text in UTF-8')
    strange = re.search('[^0-9A-Fa-f \t\n]', text)
    if strange:
        raise Unclear(f'{strange[0]!r} is no hex digit')
    words = text.split()
    if has_offset(words):
        raise Refused(f'{words[0]} is the offset of a dump: {OFFSETS}')
    digits = ''.join(words)
    if len(digits) % 2 == 1:
        raise Refused(f'{len(digits)} hex digits: the last octet has only one, so a digit is missing or one too many')
    return bytes.fromhex(digits)


def text_kind(line, number, why):
    """What text without hex is refused as."""
    kind, turn = next((kind, turn) for first, kind, turn in TEXTS if first.match(line))
    return f'{kind} is not read: {turn} (line {number}: {why})'


def hex_lines(stream):
    """One frame a line. TextIOWrapper ends a line at LF, CR or CR LF."""
    text = io.TextIOWrapper(stream, encoding='utf-8-sig', errors='surrogateescape', newline=None)
    met = False
    for number, line in enumerate(iter(lambda: text.readline(LINE_LIMIT), ''), 1):
        try:
            if len(line) == LINE_LIMIT:
                raise Refused(f'the line has {LINE_LIMIT} characters or more: no frame is so long')
            frame = hex_line(line)
        except Unclear as why:
            raise Unclear(f'hex lines, line {number}: {why}' if met else text_kind(line, number, why)) from None
        except Refused as why:
            raise Unclear(f'hex lines, line {number}: {why}') from None
        if frame:
            met = True
            yield Frame(f'line {number}', frame)


# pcap and pcapng


def packets_by(head, order, header):
    """How many packets a pcap has as far as the octets go, if it can be read to its end with packet headers of this length; else none."""
    at, packets = 24, 0
    while at + header <= len(head):
        length, whole = struct.unpack_from(order + 'II', head, at + 8)
        if length > PACKET_LIMIT or whole < length:
            return 0
        at += header + length
        packets += 1
    return packets if at == len(head) or len(head) >= HEAD else 0


def pcap_header(head, form):
    """The order of its numbers and its link type."""
    if len(head) < 24:
        raise Refused(f'{form}: the file ends inside its header: {24 - len(head)} of its 24 octets are missing: {COPY_ANEW}')
    order = PCAP[head[:4]]
    # Above the link type's 26 bits one bit says whether the top four count the words, of two octets, of a check sequence behind each frame,
    # which is no part of a frame here.
    link, = struct.unpack_from(order + 'I', head, 20)
    more, link = link >> 26, link & 0x03FFFFFF
    if link not in LINKS:
        read = ' and '.join(f'{number} ({name})' for number, name in LINKS.items())
        raise Refused(f'{form} of link type {link}: only {read} are read, which AX.25 interfaces have')
    if more & 1 and more >> 2:
        raise Refused(f'{form} of link type {link}: its frames carry a check sequence of {2 * (more >> 2)} octets: save them without it')
    nokia = packets_by(head, order, 20)
    if nokia and not packets_by(head, order, 16):
        # A file that was cut four octets behind its first packet looks the same.
        cut = '' if nokia > 1 else f'; or the file ends inside the header of packet 2: {COPY_ANEW}'
        raise Refused(f"Nokia's pcap, whose packet headers have four octets more, is not read: {SAVE_AS_PCAP}{cut}")
    return order, link


def pcap(stream, form='pcap'):
    order, link = pcap_header(head_of(stream), form)
    return f'{form}, link type {link}', pcap_packets(stream, form, order, link)


def cut_pcap(form, what, octets, owed, packet, at):
    """What is said of a file that ends inside `what`, of a packet that begins at `at`."""
    whole = f', or take what is whole, up to packet {packet - 1} (head -c {at} IN >OUT)' if packet > 1 and form == 'pcap' else ''
    return Refused(f'{form}: the file ends inside {what}: {owed - len(octets)} of its {owed} octets are missing: {COPY_ANEW}{whole}')


def pcap_packets(stream, form, order, link):
    at, packet = 24, 0
    header = struct.Struct(order + '8xII')
    stream.read(24)
    while True:
        head = stream.read(16)
        if not head:
            return
        packet += 1
        place = f'packet {packet}'
        if len(head) < 16:
            raise cut_pcap(form, f'the header of {place}', head, 16, packet, at)
        length, whole = header.unpack(head)
        if length > PACKET_LIMIT:
            raise Refused(f'{form}: {place} says that it has {length} octets, and none has more than {PACKET_LIMIT}: the file is damaged')
        octets = stream.read(length)
        if len(octets) < length:
            raise cut_pcap(form, place, octets, length, packet, at)
        at += 16 + length
        if whole > length:
            yield PassedOver(place, None, f'only {length} of its {whole} octets were captured')
        elif link == 202:
            yield from kiss_packet(place, escaped(octets))
        else:
            yield Frame(place, octets)


def pcapng_blocks(stream):
    """The octets of a pcapng, block by block: each says its length at both ends. So a file that is cut is known by us, and editcap, which
    complains at one and then ends as if nothing were wrong, is not asked; nor is it where interfaces differ, which a pcap can't hold."""
    block, order, links = 0, '<', set()
    while True:
        head = stream.read(12)
        if not head:
            return
        block += 1
        if head[:4] == PCAPNG:
            order = PCAPNG_ORDER.get(head[8:12], order)
        if len(head) < 12:
            raise Refused(f'pcapng: the file ends inside the header of block {block}: {COPY_ANEW}')
        length, = struct.unpack_from(order + 'I', head, 4)
        if length < 12 or length % 4 or length > BLOCK_LIMIT:
            raise Refused(f'pcapng: block {block} says that it has {length} octets: the file is damaged')
        rest = stream.read(length - 12)
        if len(rest) < length - 12:
            missing = length - 12 - len(rest)
            raise Refused(f'pcapng: the file ends inside block {block}: {missing} of its {length} octets are missing: {COPY_ANEW}')
        if struct.unpack_from(order + 'I', head)[0] == PCAPNG_INTERFACE:
            links.add(struct.unpack_from(order + 'H', head, 8)[0])
        if len(links) > 1:
            kinds = ' and '.join(map(str, sorted(links)))
            raise Refused(f'pcapng of link types {kinds}: capture each interface into a file of its own')
        yield head
        yield rest


def pcapng(stream):
    """By editcap: EDITCAP names it, else it is the host's or the one that the tests unpacked. It is not fetched for this."""
    tools = os.path.join(os.path.dirname(os.path.dirname(os.path.realpath(__file__))), 'tools', 'bin')
    words = [os.environ.get('EDITCAP') or 'editcap', '-F', 'pcap', '-', '-']
    made, said = tempfile.TemporaryFile(), tempfile.TemporaryFile()
    path = os.environ.get('PATH', '') + os.pathsep + tools
    try:
        editcap = subprocess.Popen(words, stdin=subprocess.PIPE, stdout=made, stderr=said, env={**os.environ, 'PATH': path})
    except OSError:
        for _ in pcapng_blocks(stream):
            pass  # One that is cut or damaged is said to be that, whether there is an editcap or not.
        raise Refused(f"pcapng is not read without Wireshark's editcap: {SAVE_AS_PCAP}") from None
    try:
        for octets in pcapng_blocks(stream):
            editcap.stdin.write(octets)
    except BrokenPipeError:
        pass  # It ended, and says why.
    except BaseException:
        editcap.kill()
        raise
    finally:
        # What it did not take is still to be written, and can't be.
        with contextlib.suppress(BrokenPipeError):
            editcap.stdin.close()
        editcap.wait()
    made.seek(0)
    said.seek(0)
    words = ' '.join(said.read(1000).decode('utf-8', 'replace').split())
    made = io.BufferedReader(made, HEAD)
    if editcap.returncode != 0 or words or head_of(made)[:4] not in PCAP:
        raise Refused(f'pcapng, of which editcap makes no whole pcap (editcap -F pcap IN OUT): {words}')
    return pcap(made, 'pcapng')


# One capture


def raw_frame(stream):
    octets = stream.read(RAW_LIMIT + 1)
    if len(octets) > RAW_LIMIT:
        many = len(octets) + sum(map(len, iter(lambda: stream.read(PIECE), b'')))
        raise Refused(f'{many} octets are no raw frame: it has at most {RAW_LIMIT}')
    yield Frame('whole file', octets)


def head_of(stream):
    """The first octets, which stay to be read."""
    return stream.peek(HEAD)[:HEAD]


def kind_of(head):
    """What the first octets say that a file is: one of READERS, or the name of a foreign format; None where they say nothing. A name hides
    nothing, so it does not count here."""
    if head[:4] in PCAP:
        return 'pcap'
    if head[:4] == PCAPNG:
        return 'pcapng'
    for first, kind, _ in FOREIGN:
        if first.match(head):
            return kind
    if head[:1] == FEND:
        return 'KISS log'
    return 'text' if is_text(head) else None


# Each gives the form of a capture and what it holds.
READERS = {
    'pcap': pcap,
    'pcapng': pcapng,
    'KISS log': lambda stream: ('KISS log', kiss(stream)),
    'text': lambda stream: ('hex lines', hex_lines(stream)),
}


def by_octets(stream):
    """The form that the octets say and what they hold, None where they say nothing."""
    head = head_of(stream)
    kind = kind_of(head)
    if kind in READERS:
        return READERS[kind](stream)
    if kind:
        raise Refused(f'{kind} is not read: {next(turn for first, _, turn in FOREIGN if first.match(head))}')
    if KISS_PACKET.search(head):
        cut = f'tail -c +{head.index(FEND) + 1} IN >OUT'
        raise Unclear(f'a KISS log that starts inside a packet: cut what stands before its first C0 ({cut})')
    return None


class Digested(io.RawIOBase):
    """A file of which everything that is read goes into its digest too."""

    def __init__(self, file):
        self.file, self.sha256, self.octets = file, hashlib.sha256(), 0

    def readable(self):
        return True

    def readinto(self, room):
        try:
            many = self.file.readinto(room)
        except OSError as why:
            raise Refused(f"the file can't be read: {why.strerror}") from None
        self.sha256.update(memoryview(room)[:many])
        self.octets += many
        return many


class Capture:
    """A capture that was opened: its form, what it holds, to be gone over once, and then the digest of its octets. `raw` asks for a raw
    frame; `lone` says that what is nothing else is one, as on standard input, which has no name."""

    def __init__(self, file, name, raw=False, lone=False):
        self.digested = Digested(file)
        self.stream = io.BufferedReader(self.digested, HEAD)
        self.form, self.raw, self.named_raw = None, raw, name.lower().endswith(RAW_NAMES)
        head = head_of(self.stream)
        if not head:
            raise Refused('the file is empty')
        self.looks_like = kind_of(head)
        try:
            told = None if raw else by_octets(self.stream)
        except Refused as why:
            raise self.with_hint(why) from None
        if told is None and not (raw or self.named_raw or lone and len(head) <= RAW_LIMIT):
            raise Refused('this is no pcap, no pcapng, no KISS log (which starts with C0) and no lines of hex (in UTF-8); '
                          f"if it is one raw frame: --raw FILE, or a name that ends in {', '.join(RAW_NAMES)}")
        self.form, self.held = told or ('raw frame', raw_frame(self.stream))

    def with_hint(self, why):
        hint = ''
        if self.raw:
            hint = f'; its octets say {self.looks_like}, so leave --raw out' if self.looks_like else ''
        elif self.form != 'raw frame' and (self.named_raw or isinstance(why, Unclear)):
            hint = '; if it is one raw frame: --raw FILE'
        return Refused(f'{why}{hint}')

    def __iter__(self):
        try:
            yield from self.held
        except Refused as why:
            raise self.with_hint(why) from None

    def digest(self):
        """SHA-256 in hex and the number of octets, after everything was gone over."""
        return self.digested.sha256.hexdigest(), self.digested.octets


KINDS = [(stat.S_ISDIR, 'this is a directory: name the files in it'), (stat.S_ISSOCK, 'this is a socket and no file'),
         (stat.S_ISBLK, 'this is a device and no file'), (stat.S_ISCHR, 'this is a device and no file')]
PIPE = 'this is a pipe, which can be read only once: save what comes out of it (cat PIPE >OUT)'


def copied(pipe):
    """What can be read only once, up to its end, as a file without a name. `pipe` has no buffer, so that one Ctrl-D at a terminal is
    enough."""
    file = tempfile.TemporaryFile()
    shutil.copyfileobj(pipe, file)
    file.seek(0)
    return file


def opened(path, pipes=False):
    """A file, open at its start; a pipe, where those are taken, as a copy of what comes out of it."""
    try:
        mode = os.stat(path).st_mode
        if stat.S_ISFIFO(mode) and pipes:
            with open(path, 'rb', buffering=0) as pipe:
                return copied(pipe)
        for is_one, words in [*KINDS, (stat.S_ISFIFO, PIPE)]:
            if is_one(mode):
                raise Refused(words)
        return open(path, 'rb', buffering=0)
    except FileNotFoundError:
        raise Refused('this is a symbolic link that leads nowhere' if os.path.islink(path) else 'there is no such file') from None
    except PermissionError:
        raise Refused('there is no permission to read it') from None
    except OSError as why:
        raise Refused(f"the file can't be read: {why.strerror}") from None
