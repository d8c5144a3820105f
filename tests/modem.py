#!/usr/bin/env python3
"""The part of tests/outside that gives packets of ax25_kiss_write to programs of others: to kissutil, in the place of a modem, and to
direwolf, which is a modem. kissutil shows the packet as it came, the port, and the frame as text; direwolf the octets that it sends.
And packets that have something wrong are read by kissutil and by ax25_kiss_read. And what kissutil sends to a modem, and direwolf to a
program of what it hears, is recorded as the socket delivers it, and fed to ax25_kiss_feed in those pieces and in others.

usage: modem.py KISSUTIL DIREWOLF DIR CALLS..
       KISSUTIL and DIREWOLF are direwolf's programs, DIR is a folder to work in, CALLS.. the command that runs tests/calls.c

E1, E2 and so on are entries of docs/DIFFERENCES.md."""
import collections
import contextlib
import itertools
import pathlib
import re
import select
import subprocess
import sys
import threading

sys.path.insert(0, str(pathlib.Path(__file__).resolve().parent / 'captures'))

from digipeater import PATIENCE, SETTINGS, UI, Trouble, answers, running, spelled
from outside import Count, Dice, hex_line, made_frames
from record import connected, free_port, listening

PORTS = 12
# What delimits and escapes.
SPECIAL = b'\xC0\xDB\xDC\xDD'


def infos():
    """Every octet, every three of the special ones, many of one, none, and seeded ones of which half is special. None ends with a space,
    which kissutil would show as <0x20>."""
    yield from (b'', bytes(range(256)), bytes(range(255, -1, -1)) + b'.')
    yield from map(bytes, itertools.product(SPECIAL, repeat=3))
    yield from (bytes([octet]) * 200 for octet in SPECIAL)
    dice = Dice(103)
    for length in range(1, 100, 3):
        yield bytes(dice.roll(256) if dice.roll(2) else SPECIAL[dice.roll(4)] for _ in range(length)) + b'.'


# UI frames from BOX12-3 to GAUGE.
FRAMES = [spelled('', UI + info) for info in infos()]


def packets(command, frames):
    """The packets of frames and their ports; they have to be accepted."""
    written = answers(command, [f'write {port} {frame.hex()}' for port, frame in frames])
    refused = [number for number, _ in written if number]
    if refused:
        raise Trouble(f'ax25_kiss_write gives {refused[0]}')
    return [packet for _, packet in written]


# kissutil

def as_text(port, frame):
    """A frame as kissutil shows it: octets that are not printed by their hex digits, all others as they are."""
    info = frame[len(spelled('', UI)):].decode('latin-1')
    return f'[{port}] BOX12-3>GAUGE:' + re.sub('[\0-\x1F\x7F\xFE\xFF]', lambda found: f'<0x{ord(found[0]):02x}>', info)


def by_text(frame):
    """A frame as kissutil sends it, which is given it as text: both C bits are set."""
    return frame[:13] + bytes([frame[13] | 0x80]) + frame[14:]


def shown(lines):
    """Of what kissutil prints: each packet that it was given, and the text that it makes of it."""
    packet = b''
    for line in lines:
        dumped = re.match('  [0-9a-f]+: ((?: [0-9a-f]{2}){1,16})', line)
        if line == 'From KISS TNC:':
            packet = b''
        elif dumped:
            packet += bytes.fromhex(dumped[1])
        elif line.startswith('['):
            yield packet, line


@contextlib.contextmanager
def kissutil_running(program):
    """kissutil and its connection to a modem, whose place is taken here. It ends where the other end closes; or where its standard input
    does, which would be too early."""
    server, port = listening()
    command = [program, '-v', '-h', '127.0.0.1', '-p', str(port)]
    try:
        with server, subprocess.Popen(command, stdin=subprocess.PIPE, stdout=subprocess.PIPE, stderr=subprocess.STDOUT) as process:
            patience = threading.Timer(PATIENCE, process.kill)
            patience.start()
            try:
                with server.accept()[0] as connection:
                    yield process, connection
            finally:
                patience.cancel()
                process.kill()
    except OSError as trouble:
        raise Trouble(f'kissutil: {trouble}') from None


def by_kissutil(program, octets):
    """What it prints of a stream of octets."""
    with kissutil_running(program) as (process, connection):
        connection.sendall(octets)
        connection.close()
        return process.stdout.read().decode('latin-1').split('\n')


def check_kissutil(count, program, command):
    frames = [(number % PORTS, frame) for number, frame in enumerate(FRAMES)]
    given = packets(command, frames)
    read = list(shown(by_kissutil(program, b''.join(given))))
    if len(read) != len(frames):
        raise Trouble(f'kissutil shows {len(read)} of {len(frames)} packets')
    wrong = []
    for (port, frame), packet, (dumped, text) in zip(frames, given, read):
        if dumped != packet:
            wrong.append(f'given {hex_line(packet)}, kissutil reads {hex_line(dumped)}')
        elif text != as_text(port, frame):
            wrong.append(f'kissutil owes {as_text(port, frame)!a} to {hex_line(packet)}, and shows {text!a}')
    count.fail_all(wrong)
    if not wrong:
        count.ok(f'kissutil shows the port, 0 to {PORTS - 1}, and the frame of packets by ax25_kiss_write (packets: {len(read)})')


# Packets that have something wrong, and are read by both

FEND = b'\xC0'
FRAME, LAST = spelled('', UI + b'LEVEL'), spelled('', UI + b'LAST')
# The packet, the number that ax25_kiss_read owes it, the text that kissutil shows of it, or None; where that is otherwise, the entry of E.
Case = collections.namedtuple('Case', 'packet number text entry', defaults=(None, None))


def between(kind, data):
    return FEND + kind + data + FEND


def cases():
    # Of command 6 kissutil shows the data, which is no frame but an answer of the modem's hardware.
    for command in (1, 2, 3, 4, 5, *range(7, 16)):
        yield Case(between(bytes([command]), FRAME), 54)
    yield Case(between(b'\xDB\xDD', FRAME), 54)
    yield Case(between(b'\xF1', FRAME), 54)
    yield Case(between(b'\xDB\x00', FRAME), 52)
    yield Case(b'\x50' + FRAME + FEND, 51)
    for port, kind in ((12, b'\xDB\xDC'), (13, b'\xD0'), (14, b'\xE0'), (15, b'\xF0')):
        yield Case(between(kind, FRAME), 56, as_text(port, FRAME), 'E1')
    for more, left in ((b'\xDB\x41', b''), (b'\xDB', b''), (b'\xDB\xDB\xDC', b'\xDC'), (b'\xDB\x41\xDB\xDC', b'\xC0')):
        yield Case(between(b'\x50', FRAME + more), 52, as_text(5, FRAME + left), 'E2')
    for length in (0, 1, 14):
        yield Case(between(b'\x00', FRAME[:length]), 0, None, 'E3')
    for more in (1, 3):
        yield Case(FEND * more + between(b'\x50', FRAME), 55, as_text(5, FRAME), 'E4')


def check_docs(count):
    """The row of each entry of E has the octets of its first case, and the text that kissutil shows."""
    differences = pathlib.Path(__file__).resolve().parent.parent / 'docs' / 'DIFFERENCES.md'
    rows = dict(re.findall(r'^\| (E\d+) \|(.*)', differences.read_text('utf-8').replace('`', ''), re.M))
    first = {case.entry: case for case in reversed([*cases()]) if case.entry}
    for entry, case in sorted(first.items()):
        lacking = [text for text in (hex_line(case.packet), case.text or 'nothing', str(case.number)) if f' {text} ' not in rows[entry]]
        count.fail_all([f'docs/DIFFERENCES.md, {entry}: {text} is not there' for text in lacking])
        if not lacking:
            count.ok(f'docs/DIFFERENCES.md, {entry}: the octets are those of the test')


def check_wrong(count, program, command):
    """Behind each packet stands a good one, which kissutil has to show, so that it was there and read the other."""
    every, wrong, tally = [*cases()], [], collections.Counter()
    ours = answers(command, [f'read {case.packet.hex()}' for case in every])
    for case, (number, _) in zip(every, ours):
        text = [text for _, text in shown(by_kissutil(program, case.packet + between(b'\x00', LAST)))]
        owed = [text for text in (case.text, as_text(0, LAST)) if text]
        if number != case.number:
            wrong.append(f'ax25_kiss_read owes {case.number} to {hex_line(case.packet)}, and gives {number}')
        elif text != owed:
            wrong.append(f'kissutil owes {owed!a} to {hex_line(case.packet)} and the packet behind it, and shows {text!a}')
        tally[case.entry] += 1
    count.fail_all(wrong)
    for entry, packets_of in tally.items() if not wrong else ():
        otherwise = f'reads otherwise than ax25_kiss_read as docs/DIFFERENCES.md lists, {entry}'
        count.ok(f"kissutil {otherwise if entry else 'shows no frame where ax25_kiss_read refuses'} (packets: {packets_of})")


# What comes from them, through ax25_kiss_feed

def delivered(connection, last):
    """The pieces that a socket delivers to a program with room for 64 octets, up to the packet of this frame, in which nothing is
    escaped."""
    connection.settimeout(PATIENCE)
    pieces, ending = [], between(b'\x00', last)
    while b''.join(pieces[-len(ending):])[-len(ending):] != ending:
        pieces.append(connection.recv(64))
        if not pieces[-1]:
            raise Trouble(f'the connection ends after {sum(map(len, pieces))} octets')
    return pieces


def cut(octets, lengths):
    at = 0
    while at < len(octets):
        length = next(lengths)
        yield octets[at:at + length]
        at += length


def cuts(pieces):
    """What was delivered, as it was, in one piece, octet by octet and in seeded pieces; and all but the first of that again with one C0
    between two packets, which both programs write twice."""
    yield 'as the socket delivered it', pieces
    dice, octets = Dice(104), b''.join(pieces)
    for stream, how in ((octets, ''), (octets.replace(FEND * 2, FEND), ', each C0 shared')):
        yield 'in one piece' + how, [stream]
        yield 'octet by octet' + how, cut(stream, itertools.repeat(1))
        for longest in (3, 40, 1500):
            yield f'in seeded pieces of up to {longest}{how}', cut(stream, iter(lambda: 1 + dice.roll(longest), 0))


def given_out(octets):
    """The packets of an answer of tests/calls.c to `feed`: the port, the length in two octets, the data."""
    while octets:
        end = 3 + int.from_bytes(octets[1:3], 'big')
        yield octets[0], octets[3:end]
        octets = octets[end:]


def fed(command, pieces):
    """What ax25_kiss_feed gives out of these pieces, how many packets it dropped, and the state that it leaves."""
    *answered, (dropped, state) = answers(command, [*(f'feed {piece.hex()}' for piece in pieces), 'state'])
    return [packet for _, octets in answered for packet in given_out(octets)], dropped, state


def check_fed(count, who, command, pieces, owed, dropped):
    """`owed` are the packets that were sent, each a port and a frame, `dropped` is how many others were."""
    wrong, states = [], {}
    for how, stream in cuts(pieces):
        given, count_of, states[how] = fed(command, stream)
        place = next((place for place, pair in enumerate(zip(given, owed)) if pair[0] != pair[1]), min(len(given), len(owed)))
        if given != owed:
            wrong.append(f'{how}: {len(given)} packets are given out of {len(owed)}, and the first that is another is number {place}')
        if count_of != dropped:
            wrong.append(f'{how}: {count_of} packets are dropped, and not {dropped}')
    wrong += [f'{how}: the state is another than that of the first' for how in states if states[how] != [*states.values()][0]]
    count.fail_all([f'ax25_kiss_feed, of what {who} sends, {line}' for line in wrong])
    if not wrong:
        count.ok(f'ax25_kiss_feed gives out the packets that {who} sends, drops what is none, and leaves one state however they are cut '
                 f'(packets: {len(owed)}, dropped: {dropped}, octets: {sum(map(len, pieces))}, cuts: {len(states)})')


def told(process, lines):
    process.stdin.write(''.join(f'{line}\n' for line in lines).encode('latin-1'))
    process.stdin.flush()


def check_kissutil_sends(count, program, command):
    """Frames on ports 0 to 11, and among them settings and packets on ports 12 to 15, which are dropped. It passes over what it is told
    before it knows that it is connected, so it is told of one frame until something comes."""
    others = ['d 30', 'p 63', 's 10', 't 5', 'f 0', 'h TNC:', *(as_text(port, FRAME) for port in range(PORTS, 16))]
    frames = [*((number % PORTS, frame) for number, frame in enumerate(FRAMES)), (0, LAST)]
    lines = [as_text(port, frame) for port, frame in frames]
    lines[20:20], lines[40:40] = others[::2], others[1::2]
    with kissutil_running(program) as (process, connection):
        told(process, [as_text(0, FRAME)])
        while not select.select([connection], [], [], 0.1)[0]:
            told(process, [as_text(0, FRAME)])
        told(process, lines)
        pieces = delivered(connection, by_text(LAST))
    first = between(b'\x00', by_text(FRAME))
    repeated = len(re.match(b'(?:%s)*' % re.escape(first), b''.join(pieces))[0]) // len(first)
    owed = [*[(0, FRAME)] * repeated, *frames]
    check_fed(count, 'kissutil', command, pieces, [(port, by_text(frame)) for port, frame in owed], len(others))


# direwolf

def check_direwolf(count, program, folder, command):
    """What it is given to send goes first, so that it knows of the connection when it hears. The longest frames that it hears are as long
    as there is room for, and longer by one octet, which is dropped."""
    frames = FRAMES + made_frames()[::9]
    long = [spelled('', UI + bytes(length - len(spelled('', UI)))) for length in (1023, 1024, 1025)]
    port, wrong, heard = free_port(), [], [*frames, *long, LAST]
    with running(program, folder, 'modem', f'{SETTINGS}KISSPORT {port}\n') as direwolf, connected(port) as connection:
        for frame, packet in zip(frames, packets(command, [(0, frame) for frame in frames])):
            try:
                connection.sendall(packet)
                sent = direwolf.sent()
            except (OSError, Trouble) as trouble:
                raise Trouble(f'direwolf, given {hex_line(packet)}: {trouble}') from None
            if sent != frame:
                wrong.append(f'given {hex_line(packet)}, direwolf sends {hex_line(sent)}')
        count.fail_all(wrong)
        if not wrong:
            count.ok(f'direwolf sends the octets of frames that ax25_kiss_write packed (packets: {len(frames)})')
        try:
            for frame in heard:
                direwolf.give(frame)
            pieces = delivered(connection, LAST)
        except (OSError, Trouble) as trouble:
            raise Trouble(f'direwolf, which hears frames: {trouble}') from None
    check_fed(count, 'direwolf', command, pieces, [(0, frame) for frame in heard if len(frame) <= 1024], 1)


def main():
    if len(sys.argv) < 5:
        sys.exit(__doc__)
    kissutil, direwolf, folder, command = sys.argv[1], sys.argv[2], pathlib.Path(sys.argv[3]), sys.argv[4:]
    count = Count()
    for check, words in ((check_docs, ()), (check_kissutil, (kissutil, command)), (check_wrong, (kissutil, command)),
                         (check_kissutil_sends, (kissutil, command)), (check_direwolf, (direwolf, folder, command))):
        try:
            check(count, *words)
        except Trouble as trouble:
            count.fail(str(trouble))
    count.end()


main()
