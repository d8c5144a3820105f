#!/usr/bin/env python3
"""The part of tests/outside that runs direwolf's two digipeaters beside ax25_relay. Each is the station HILL1-2 and is given the same
frames; what they send is compared, octet by octet, with what ax25_relay leaves in the buffer.

usage: digipeater.py DIREWOLF DIR CALLS..
       DIREWOLF is direwolf's program, DIR a folder to work in, CALLS.. the command that runs tests/calls.c

No radio and no sound card is needed: direwolf hears its standard input, for which the sound is made here, and speaks to ALSA's null
device. It prints the octets of each frame that it hears, and of each that it hands to its modem.

D1, D2 and so on are entries of docs/DIFFERENCES.md."""
import array
import collections
import contextlib
import os
import pathlib
import queue
import re
import subprocess
import sys
import threading

from outside import Count, Dice, Layout, answered, group, hex_line, made_callsign, made_contents

OWN, OWN_SSID = 'HILL1', 2
# The longest that anything is waited for, in seconds. Only a failure takes so long.
PATIENCE = 20


# The frames

UI = b'\x03\xF0'
# The frame and the number that ax25_relay owes it. By an entry of D, what the digipeaters named in `sent` do otherwise: the octets
# that they send, or None where they send nothing. What ax25_relay leaves, where it relays and they send nothing.
Case = collections.namedtuple('Case', 'frame number entry sent left', defaults=(None, {}, None))


def spelled(route, content=UI, source='BOX12-3', reserved=3):
    """A frame to GAUGE, as Command. In the route `*` follows a repeater that is marked."""
    stations = ['GAUGE*', source] + (route.split(',') if route else [])
    groups = []
    for place, station in enumerate(stations):
        callsign, _, ssid = station.rstrip('*').partition('-')
        groups.append(group(callsign.encode(), int(ssid or 0), station.endswith('*'), place == len(stations) - 1, reserved))
    return b''.join(groups) + content


# Seven repeaters, to stand before or after another one.
EARLIER = ''.join(f'HILL{number}-1*,' for number in range(3, 10))
LATER = ''.join(f',HILL{number}-1' for number in range(3, 10))


def alike():
    for route in ('HILL1-2', 'HILL1-2,HILL2-1', 'HILL5-1*,HILL1-2', 'HILL1-2,HILL1-2', 'HILL1-2*,HILL1-2', EARLIER + 'HILL1-2',
                  'HILL1-2' + LATER):
        yield Case(spelled(route), 0)
    for content in (b'\x03\x20LEVEL', b'\x00\xF0LEVEL', b'\x3F', b'\x63\xAA', b'\x01', b'\x87\xF1\x03\x44', b'\x0D', b'\x6F', b'\x7F\xAA',
                    b'\xAF', b'\xBF\x82\x80', b'\xE3', b'\xF3LEVEL', UI + b'LEVEL', UI + bytes(256)):
        yield Case(spelled('HILL1-2', content), 0)
    for reserved in range(3):
        yield Case(spelled('HILL5-1*,HILL1-2', reserved=reserved), 0)
    # Where our address is due, a frame of our own is relayed, and one that was relayed before (the first of all) is relayed again.
    yield Case(spelled('HILL1-2', source='HILL1-2'), 0)
    yield Case(spelled('HILL1-2'), 0)
    for route in ('', 'HILL1-2*', 'HILL5-1*,HILL1-2*'):
        yield Case(spelled(route), 41)
    for route in ('HILL2-2', 'HILL1-3', 'HILL1', 'HILL12-2', 'hill1-2', ' HILL1-2', 'HILL5-1,HILL1-2', 'HILL1-2*,HILL5-1,HILL1-2'):
        yield Case(spelled(route), 42)
    # A mark after the first repeater without, who is not HILL1-2.
    for route in ('HILL5-1*,HILL6-1,HILL1-2*', 'HILL6-1,HILL1-2*', 'HILL2-2,HILL5-1*,HILL1-2', EARLIER[:-2] + ',HILL1-2*'):
        yield Case(spelled(route), 43)
    yield Case(spelled('HILL1-2,HILL2-1' + LATER), 9)
    # One or seven nulls before this frame make other addresses of it, in which HILL1-2 is not due.
    for nulls in (1, 7):
        yield Case(bytes(nulls) + spelled('HILL1-2'), 10)


def both(octets):
    return {'connected mode': octets, 'APRS': octets}


def otherwise():
    """The entries of D, each by the frame that stands there and then by others."""
    yield Case(spelled('HILL5-1*,HILL1-2,HILL6-1*'), 43, 'D1', both(spelled('HILL5-1*,HILL1-2*,HILL6-1*')))
    for before, after in (('', ',HILL5-1*'), ('', ',HILL5-1,HILL6-1*'), ('HILL5-1*,', ',HILL1-2*')):
        yield Case(spelled(f'{before}HILL1-2{after}'), 43, 'D1', both(spelled(f'{before}HILL1-2*{after}')))
    for content in (b'\x03\x20', b'\x13\xF0', b'\x00\xF0', b'\x01'):
        yield Case(spelled('HILL1-2', content), 0, 'D2', {'APRS': None})
    # Nulls in the place of the first character, and of the whole first address.
    for nulls in (1, 7):
        yield Case(bytes(nulls) + spelled('HILL1-2')[nulls:], 10, 'D3', both(bytes(nulls) + spelled('HILL1-2*')[nulls:]))
    # Seven nulls before a frame with a marked source: they are the destination, and that source is a repeater that has a mark.
    yield Case(bytes(7) + spelled('HILL1-2', source='BOX12-3*'), 10, 'D3', both(bytes(7) + spelled('HILL1-2*', source='BOX12-3*')))
    yield Case(spelled('HILL1-2,HILL2-1')[:21] + b'\x01' + UI, 0, 'D4', both(None), spelled('HILL1-2*,HILL2-1')[:21] + b'\x01' + UI)
    for content, number in ((b'\x07', 7), (b'', 4), (b'\x03', 5), (b'\x00', 5), (b'\xFF', 7), (b'\x87\x01', 8)):
        yield Case(spelled('HILL1-2', content), number, 'D5', {'connected mode': spelled('HILL1-2*', content)})
    yield Case(spelled('HILL1\0-2'), 42, 'D6', both(spelled('HILL1-2*')))
    # Each of the three has an info that was not sent before.
    routes = (('WIDE1-1', 'HILL1-2*'), ('WIDE2-2', 'HILL1-2*,WIDE2-1'), (EARLIER + 'WIDE2-2', EARLIER + 'WIDE2-1'))
    for (route, sent), info in zip(routes, (b'1', b'2', b'3')):
        yield Case(spelled(route, UI + info), 42, 'D7', {'APRS': spelled(sent, UI + info)})
    yield Case(spelled('WIDE1-1', UI + b'1'), 42, 'D7', {'APRS': None})
    yield Case(spelled('WIDE1-1', UI + b'4', source='HILL1-2'), 42, 'D7', {'APRS': None})


def made():
    """Routes of 0 to 8 repeaters in turn, with the first ones marked. Every third turn has frames that the APRS digipeater takes."""
    dice = Dice(100)
    for number, content in enumerate(made_contents(dice)[::3]):
        turn, repeaters = divmod(number, 9)
        due, ours = dice.roll(repeaters + 1), dice.roll(3)
        groups = [group(made_callsign(dice), dice.roll(16), dice.roll(2), place == repeaters + 1, dice.roll(4)) for place in (0, 1)]
        for place in range(repeaters):
            callsign, ssid = (OWN.encode(), OWN_SSID) if place == due and ours else (made_callsign(dice), dice.roll(16))
            groups.append(group(callsign, ssid, place < due, place == repeaters - 1, dice.roll(4)))
        yield Case(b''.join(groups) + (content if turn % 3 else UI + content), 41 if due == repeaters else 0 if ours else 42)


def all_cases():
    # By the time that the last one is sent, whatever was sent before has been printed.
    return [*alike(), *otherwise(), *made(), Case(spelled('HILL1-2'), 0)]


# The sound of a frame: as HDLC has it on the line, scrambled for a modem of the kind K9NG/G3RUH

ARATE, BAUD, LOUD = 192000, 38400, 8000
FLAG = b'\x7E'


def bits(octets):
    return [octet >> place & 1 for octet in octets for place in range(8)]


def check_sequence(octets):
    check = 0xFFFF
    for bit in bits(octets):
        check = check >> 1 ^ (0x8408 if (check ^ bit) & 1 else 0)
    return (check ^ 0xFFFF).to_bytes(2, 'little')


def stuffed(octets):
    ones = 0
    for bit in bits(octets):
        yield bit
        ones = ones + 1 if bit else 0
        if ones == 5:
            yield 0
            ones = 0


def sound(frame):
    """Flags before the frame for the receiver to find the bits by, and some after it, so that it has heard all of the frame."""
    samples, level, register = array.array('h'), 0, 0
    for bit in [*bits(FLAG * 20), *stuffed(frame + check_sequence(frame)), *bits(FLAG * 8)]:
        level ^= 1 - bit
        scrambled = (level ^ register >> 16 ^ register >> 11) & 1
        register = (register << 1 | scrambled) & 0x1FFFF
        samples.extend([LOUD if scrambled else -LOUD] * (ARATE // BAUD))
    return samples.tobytes()


# direwolf

# It sends at once, while it hears, and by a fast modem, since sending takes it as long as on the air.
SETTINGS = f"""ADEVICE stdin null
ARATE {ARATE}
AGWPORT 0
CHANNEL 0
MYCALL {OWN}-{OWN_SSID}
MODEM {BAUD}
FULLDUP ON
TXDELAY 0
TXTAIL 0
"""
DIGIPEATERS = {'connected mode': 'CDIGIPEAT 0 0', 'APRS': f'DIGIPEAT 0 0 ^{OWN}-{OWN_SSID}$ ^WIDE[1-7]-[1-7]$'}
HEARD, SENT = 'heard', 'sent'


class Trouble(Exception):
    """direwolf did not do what every frame asks of it."""


def dumps(lines):
    """Of what direwolf prints: ('heard', octets) and ('sent', octets)."""
    begun, event, octets = '', None, None
    for line in lines:
        # The one complaint of its sender that comes after a dump. It may stand within a line of its receiver.
        line, complaint, _ = (begun + line).partition('Transmit timing error: PTT is on ')
        begun = line if complaint else ''
        if complaint:
            continue
        named, dumped = re.match(r'\[0(?:\.\d+)?(H|L)?\] ', line), re.match('  [0-9a-f]+: ((?: [0-9a-f]{2}){1,16})', line)
        if named:
            event, octets = SENT if named[1] else HEARD, None
        elif line == '------\n' and event:
            if octets is None:
                octets = b''
            else:
                yield event, octets
                event = None
        elif dumped and octets is not None:
            octets += bytes.fromhex(dumped[1])


class Direwolf:
    def __init__(self, process):
        self.process, self.said, self.events = process, [], queue.Queue()
        threading.Thread(target=self.read, daemon=True).start()

    def lines(self):
        for line in self.process.stdout:
            self.said.append(line.decode('latin-1').rstrip())
            yield line.decode('latin-1')

    def read(self):
        for event in dumps(self.lines()):
            self.events.put(event)
        self.events.put((None, b''))

    def next(self):
        try:
            event, octets = self.events.get(timeout=PATIENCE)
        except queue.Empty:
            raise Trouble(f'nothing more is heard or sent for {PATIENCE} seconds') from None
        if event is None:
            raise Trouble('it ended: ' + ' / '.join(line for line in self.said[-3:] if line))
        return event, octets

    def give(self, frame):
        """Gives it a frame to hear. What it sends before it heard that is returned: it was to send nothing."""
        with contextlib.suppress(BrokenPipeError):  # next() says that it ended
            self.process.stdin.write(sound(frame))
            self.process.stdin.flush()
        stray = []
        event, octets = self.next()
        while event == SENT:
            stray.append(octets)
            event, octets = self.next()
        if octets != frame:
            raise Trouble(f'it heard {hex_line(octets)}')
        return stray

    def sent(self):
        return self.next()[1]


@contextlib.contextmanager
def running(program, folder, name, settings):
    """direwolf with these settings, which the end of the test ends."""
    with started(program, folder, name, settings) as process:
        yield Direwolf(process)


@contextlib.contextmanager
def started(program, folder, name, settings):
    """The same as a process, of which nobody has read anything."""
    sounds, configuration = folder / 'asound.conf', folder / f'{name}.conf'
    sounds.write_text('pcm.null { type null }\n')
    configuration.write_text(settings)
    command = [program, '-c', str(configuration), '-t', '0', '-q', 'hd', '-d', 'p']
    process = subprocess.Popen(command, cwd=folder, env={**os.environ, 'ALSA_CONFIG_PATH': str(sounds)},
                               stdin=subprocess.PIPE, stdout=subprocess.PIPE, stderr=subprocess.STDOUT)
    try:
        yield process
    finally:
        process.kill()
        process.wait()


# Comparing

AS_LISTED = 'does otherwise as docs/DIFFERENCES.md lists, '


def answers(command, lines):
    """What tests/calls.c answers to each line: a number and octets."""
    printed = subprocess.run(command, input='\n'.join(lines), stdout=subprocess.PIPE, text=True, check=True).stdout
    return answered(printed, len(lines))


def check_docs(count):
    """The row of each entry of D has the octets of its first case: what is given, and what a digipeater sends."""
    text = (pathlib.Path(__file__).resolve().parent.parent / 'docs' / 'DIFFERENCES.md').read_text('utf-8')
    for name, octets in (('[R]', spelled('HILL1-2')[:14]), ('[H]', spelled('HILL1-2')[14:20])):
        text = text.replace(name, hex_line(octets))
    rows = dict(re.findall(r'^\| (D\d+) \|(.*)', text.replace('`', ''), re.M))
    first = {case.entry: case for case in reversed([*otherwise()])}
    for entry, case in sorted(first.items()):
        owed = [hex_line(octets) for octets in (case.frame, *case.sent.values()) if octets]
        lacking = [octets for octets in owed if f' {octets} ' not in rows[entry]]
        count.fail_all([f'docs/DIFFERENCES.md, {entry}: {octets} is not there' for octets in lacking])
        if not lacking:
            count.ok(f'docs/DIFFERENCES.md, {entry}: the octets are those of the test')


def told(number, octets):
    return f'{number} and {hex_line(octets)}'


def check_ours(count, cases, ours):
    """A refusal leaves the frame as it was; what else is left is compared with what the digipeaters send, or with the case."""
    wrong = []
    for case, (number, octets) in zip(cases, ours):
        left = case.frame if case.number else case.left or octets
        if (number, octets) != (case.number, left):
            wrong.append(f'ax25_relay owes {told(case.number, left)} to {hex_line(case.frame)}, and gives {told(number, octets)}')
    count.fail_all(wrong)
    if not wrong:
        count.ok(f'ax25_relay gives the number that it owes, and refuses without a change (frames: {len(cases)})')


def wanted(digipeater, case, relayed):
    """What a digipeater is to send, or None, and in words how that compares with ax25_relay."""
    if digipeater in case.sent:
        return case.sent[digipeater], AS_LISTED + case.entry
    if case.number != 0:
        return None, 'sends nothing where ax25_relay refuses'
    if digipeater == 'APRS' and not Layout(case.frame).content.startswith(UI):
        return None, AS_LISTED + 'D2'
    return relayed, 'sends the octets that ax25_relay leaves'


def compare(count, digipeater, direwolf, cases, ours):
    tally, wrong, given = collections.Counter(), [], b''
    try:
        for case, (_, relayed) in zip(cases, ours):
            before, given = given, case.frame
            owed, outcome = wanted(digipeater, case, relayed)
            wrong += [f'nothing is owed to {hex_line(before)}, and it sends {hex_line(octets)}' for octets in direwolf.give(given)]
            sent = None if owed is None else direwolf.sent()
            if sent != owed:
                wrong.append(f'{hex_line(owed)} is owed to {hex_line(given)}, and it sends {hex_line(sent)}')
            tally[outcome] += 1
    except Trouble as trouble:
        wrong.append(f'at {hex_line(given)}: {trouble}')
    count.fail_all([f"direwolf's {digipeater} digipeater: {line}" for line in wrong])
    for outcome, frames in tally.items() if not wrong else ():
        count.ok(f"direwolf's {digipeater} digipeater {outcome} (frames: {frames})")


def main():
    if len(sys.argv) < 4:
        sys.exit(__doc__)
    program, folder, command = sys.argv[1], pathlib.Path(sys.argv[2]), sys.argv[3:]
    count, cases = Count(), all_cases()
    ours = answers(command, [f'relay {OWN} {OWN_SSID} {case.frame.hex()}' for case in cases])
    check_docs(count)
    check_ours(count, cases, ours)
    with contextlib.ExitStack() as stack:
        wolves = {digipeater: stack.enter_context(running(program, folder, digipeater, f'{SETTINGS}KISSPORT 0\n{line}\n'))
                  for digipeater, line in DIGIPEATERS.items()}
        for digipeater, direwolf in wolves.items():
            compare(count, digipeater, direwolf, cases, ours)
    count.end()


if __name__ == '__main__':
    main()
