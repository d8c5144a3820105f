#!/usr/bin/env python3
"""The part of tests/follow that runs dist/follow, or what FOLLOW names, and ./look --follow. DIR is the folder in which it works.

usage: follow.py DIR

Two programs of its own say what is owed. `by_words` goes by direwolf's words for the frames that two of its stations sent each other, and reads
no octet. `Model` goes by the request's words (document 02, M-112), and is told of each frame what kind it is and whose, as it is made here."""
import os
import pathlib
import random
import re
import subprocess
import sys
import time

ROOT = pathlib.Path(__file__).resolve().parent.parent
sys.path.insert(0, str(ROOT / 'compare'))

import dumper

room = pathlib.Path(sys.argv[1])
command = [os.environ['FOLLOW']] if os.environ.get('FOLLOW') else dumper.found(dumper.FOLLOW, dumper.FOLLOW_TRIAL)
passed = failed = 0

FEND = b'\xC0'
A, B, C = ('BOX12', 3), ('GAUGE', 0), ('HILL1', 2)
NAMES = ('BOX12-3', 'GAUGE')
KINDS = {'SABM': 0x3F, 'SABME': 0x7F, 'DISC': 0x53, 'DM': 0x1F, 'UA': 0x73, 'RR': 0x01, 'RNR': 0x05, 'REJ': 0x09, 'SREJ': 0x0D, 'XID': 0xAF,
         'TEST': 0xE3, 'UI': 0x03, 'FRMR': 0x97}
TOTALS = ('offered', 'in_order', 'repeated', 'gaps', 'outside', 'dropped')


def check(what, problem):
    global passed, failed
    passed, failed = passed + (not problem), failed + bool(problem)
    print(f'FAILED: {what}: {problem}' if problem else f'ok: {what}')


def differ(found, owed):
    """The first line in which two texts differ."""
    if found == owed:
        return ''
    pairs = zip((found + '\n ').split('\n'), (owed + '\n ').split('\n'))
    return next((f'it printed {one!r}, and owes {other!r}' for one, other in pairs if one != other), 'one is longer')


def unless(holds, found):
    """What was found, where something does not hold."""
    return '' if holds else f'found {found!r}'


def follow(given, *stations):
    ran = subprocess.run([*command, *stations], input=given, capture_output=True, timeout=60)
    return ran.stdout.decode()


# ---- what frames and streams are made of


def address(station, mark, last):
    callsign, ssid = station
    return bytes(ord(character) << 1 for character in callsign.ljust(6)) + bytes([mark << 7 | 0x60 | ssid << 1 | last])


def frame(source, destination, control, more=b'', route=()):
    addresses = [destination, source, *route]
    marks = [1, 0, *(random.getrandbits(1) for _ in route)]
    octets = b''.join(address(station, mark, station is addresses[-1] and at == len(addresses) - 1)
                      for at, (station, mark) in enumerate(zip(addresses, marks)))
    return octets + bytes([control]) + more


def numbered(source, destination, sent, **more):
    """An I frame; N(R), P and the info are any."""
    control = random.randrange(8) << 5 | random.getrandbits(1) << 4 | sent << 1
    return frame(source, destination, control, b'\xF0' + random.randbytes(random.randrange(4)), **more)


def packet(octets, port=0):
    return FEND + bytes([port << 4]) + octets.replace(b'\xDB', b'\xDB\xDD').replace(FEND, b'\xDB\xDC') + FEND


# ---- the request's words once more


class Model:
    """The record, as a link between two sides, 'A' and 'B'."""

    def __init__(self):
        self.asker, self.up = None, False
        self.expected, self.moved = {'A': 0, 'B': 0}, {'A': False, 'B': False}
        self.counts, self.lines = dict.fromkeys(TOTALS, 0), []

    def count(self, what):
        self.counts[what] += 1

    def offer(self, side=None, kind=None, sent=None):
        """One more frame: from a side to the other, or of others, or one that is refused."""
        if self.counts['offered'] == 65535:
            self.lines += ['answer=71'] if 'answer=71' not in self.lines else []
            return
        self.count('offered')
        if side and kind == 'SABM':
            self.asker, self.up = side, False
        elif side and kind == 'UA' and self.asker not in (None, side):
            self.asker, self.up, self.expected, self.moved = None, True, {'A': 0, 'B': 0}, {'A': False, 'B': False}
        elif side and kind in ('DISC', 'DM', 'SABME'):
            self.asker, self.up = None, False
        elif side and kind == 'I':
            self.number(side, sent)

    def number(self, side, sent):
        if not self.up:
            self.count('outside')
        elif sent == self.expected[side]:
            self.count('in_order')
            self.expected[side], self.moved[side] = (sent + 1) % 8, True
        elif self.moved[side] and sent == (self.expected[side] - 1) % 8:
            self.count('repeated')
        else:
            self.count('gaps')
            self.lines.append(f"gap={self.counts['offered']} from={side}")

    def text(self):
        return '\n'.join([*self.lines, *(f'{what}={count}' for what, count in self.counts.items())]) + '\n'


# ---- direwolf's words

WORDS = re.compile(r'^([0-9A-F ]+) # (\S+)>(\S+):\((\w+) \w+(?:, n\(s\)=(\d+))?.*\)$', re.M)


def connected():
    """The recording modulo 8 that tests/connected.py made: of each frame its octets, and direwolf's words."""
    text = (ROOT / 'tests' / 'c' / 'connected.txt').read_text()
    return WORDS.findall(text[text.index('## short'):])


def by_words(said, stations):
    """What is owed of frames of which only direwolf's words are known."""
    model = Model()
    sides = {(stations[0], stations[1]): 'A', (stations[1], stations[0]): 'B'}
    for _, source, destination, kind, sent in said:
        model.offer(sides.get((source, destination)), kind, int(sent) if sent else None)
    return model.text()


def of_direwolf():
    said = connected()
    stream = b''.join(packet(bytes.fromhex(octets)) for octets, *_ in said)
    lost = [i for i, (_, source, _, kind, _) in enumerate(said) if kind == 'I' and source == NAMES[0]]
    kinds = {kind for *_, kind, _ in said}
    check(f"direwolf's recording has {len(said)} frames of the kinds {', '.join(sorted(kinds))}",
          unless({'SABM', 'UA', 'I', 'RR', 'REJ', 'DISC'} <= kinds and len(lost) > 12, len(lost)))
    owed = by_words(said, NAMES)
    check("direwolf's frames are counted as its words say", differ(follow(stream, *NAMES), owed))
    check('and so with A and B the other way round', differ(follow(stream, *reversed(NAMES)), by_words(said, NAMES[::-1])))
    check('what was sent again shows as gaps', unless('gaps=3\n' in owed and 'gap=16 from=A\n' in owed, owed))
    wrong = []
    for i in range(len(said)):
        rest = said[:i] + said[i + 1:]
        stream = b''.join(packet(bytes.fromhex(octets)) for octets, *_ in rest)
        wrong += [f'without frame {i + 1}: {problem}' for problem in [differ(follow(stream, *NAMES), by_words(rest, NAMES))] if problem]
    check(f'and with each of its {len(said)} frames lost in turn', '; '.join(wrong[:3]))


# ---- random recordings


def random_item(model):
    """Some octets for the stream, and the model told of them."""
    side = random.choice('AB')
    ends = (A, B) if side == 'A' else (B, A)
    route = tuple(('WIDE1', i) for i in range(random.choice((0, 0, 0, 1, 2))))
    port = random.choice((0, 0, 0, 5, 11))
    luck = random.random()
    if luck < 0.60 and (model.up or luck < 0.15):
        sent = (model.expected[side] + random.choice((0, 0, 0, 0, 0, 7, 7, 1, 2, 4))) % 8
        model.offer(side, 'I', sent)
        return packet(numbered(*ends, sent, route=route), port)
    if luck < 0.82:
        kind = random.choice((*KINDS, *('UA' if model.asker else 'SABM' if not model.up else 'RR' for _ in KINDS)))
        model.offer(side, kind)
        more = {'UI': b'\xF0', 'FRMR': b'\x01\x02\x03'}.get(kind, b'')
        return packet(frame(*ends, KINDS[kind] | random.getrandbits(1) << 4, more, route), port)
    if luck < 0.94:
        ends = random.choice(((A, C), (C, A), (B, C), (C, B), (A, A), (('BOX12', 4), B), (A, ('GAUGE', 1)), (('BOX13', 3), B)))
        model.offer()
        return packet(numbered(*ends, random.randrange(8)) if random.getrandbits(1) else frame(*ends, KINDS['SABM']), port)
    if luck < 0.97:
        model.offer()
        return packet(random.choice((b'', b'\0', b'\0' + numbered(*ends, 0), numbered(*ends, 0)[:14], numbered(*ends, 0)[:15], b'\x02\x04')), port)
    model.count('dropped')
    broken = (b'\x01' + frame(*ends, 0, b'\xF0'), b'\xD0' + frame(*ends, KINDS['DISC']), b'\0\x8E\xDB\x82', b'\0' + b'\x82' * 1025)
    return FEND + random.choice(broken) + FEND


def random_recordings():
    wrong, seen = [], dict.fromkeys(TOTALS, 0)
    for seed in range(60):
        random.seed(seed)
        model = Model()
        stream = random.choice((b'', b'\0\x01 noise')) + b''.join(random_item(model) for _ in range(random.choice((1, 20, 400))))
        problem = differ(follow(stream, *NAMES), model.text())
        wrong += [f'seed {seed}: {problem}'] if problem else []
        seen = {what: many + model.counts[what] for what, many in seen.items()}
    check(f"60 random recordings are counted as the model counts them: {', '.join(f'{many} {what}' for what, many in seen.items())}",
          '; '.join(wrong[:3]) or unless(min(seen.values()) > 200, seen))


# ---- streams


def in_pieces():
    random.seed(7)
    model = Model()
    stream = b''.join(random_item(model) for _ in range(60))
    for length, pause in ((1, 0), (7, 0), (1000, 0.002)):
        with subprocess.Popen([*command, *NAMES], stdin=subprocess.PIPE, stdout=subprocess.PIPE) as program:
            for at in range(0, len(stream), length):
                program.stdin.write(stream[at:at + length])
                program.stdin.flush()
                time.sleep(pause)
            program.stdin.close()
            check(f'a pipe that gives {length} octets at a time', differ(program.stdout.read().decode(), model.text()))
    with subprocess.Popen([*command, *NAMES], stdin=subprocess.PIPE, stdout=subprocess.PIPE) as program:
        program.stdin.write(packet(frame(A, B, KINDS['SABM'])) + packet(frame(B, A, KINDS['UA'])) + packet(numbered(A, B, 3)))
        program.stdin.flush()
        check('a gap is printed while more is waited for', differ(program.stdout.readline().decode(), 'gap=3 from=A\n'))
        program.stdin.close()


def long_ones():
    up = packet(frame(A, B, KINDS['SABM'])) + packet(frame(B, A, KINDS['UA']))
    model = Model()
    model.offer('A', 'SABM'), model.offer('B', 'UA')
    for i in range(69998):
        model.offer('A', 'I', i % 8)
    round_of_eight = b''.join(packet(frame(A, B, i << 1, b'\xF0')) for i in range(8))
    stream = up + round_of_eight * (69998 // 8) + b''.join(packet(frame(A, B, i << 1, b'\xF0')) for i in range(69998 % 8))
    owed = model.text()
    check('of 70,000 frames 65,535 are offered, and the next is 71', differ(follow(stream, *NAMES), owed) or
          unless(owed.startswith('answer=71\noffered=65535\nin_order=65533\n'), owed))
    stop = up + round_of_eight * 8191 + b''.join(packet(frame(A, B, i << 1, b'\xF0')) for i in range(4))
    check('65,534 frames and no 71', differ(follow(stop, *NAMES), 'offered=65534\nin_order=65532\nrepeated=0\ngaps=0\noutside=0\ndropped=0\n'))
    late = stop + packet(numbered(A, B, 7)) + packet(numbered(A, B, 7)) + FEND + b'\x01' + FEND
    owed = 'gap=65535 from=A\nanswer=71\noffered=65535\nin_order=65532\nrepeated=0\ngaps=1\noutside=0\ndropped=1\n'
    check('the last place that there is, and a packet that is dropped behind it', differ(follow(late, *NAMES), owed))
    many = (FEND + b'\x01') * 65540 + FEND
    check('the count of dropped packets stops at 65,535', differ(follow(many, *NAMES), 'offered=0\nin_order=0\nrepeated=0\ngaps=0\noutside=0\ndropped=65535\n'))


NOTHING = Model().text()


def odd_streams():
    check('no input', differ(follow(b'', *NAMES), NOTHING))
    check('input that is no KISS', differ(follow(b'offered=1\n' * 10000, *NAMES), NOTHING))
    check('one open packet', differ(follow(packet(numbered(A, B, 0))[:-1], *NAMES), NOTHING))
    limit = frame(A, B, KINDS['UI'], b'\xF0' + bytes(1024 - 16))
    owed = NOTHING.replace('offered=0', 'offered=1').replace('dropped=0', 'dropped=1')
    check('a frame of 1,024 octets is offered, and one of 1,025 dropped', differ(follow(packet(limit) + packet(limit + b'x'), *NAMES), owed))
    ran = subprocess.run([*command, *NAMES], stdin=subprocess.DEVNULL, capture_output=True)
    check('it ends with status 0, and says nothing else', unless((ran.returncode, ran.stderr) == (0, b''), ran))
    closed = subprocess.run(['sh', '-c', 'exec "$@" <&-', 'sh', *command, *NAMES], capture_output=True, timeout=10)
    check('standard input that is closed is no input', differ(closed.stdout.decode(), NOTHING))


def closed_early():
    """Many gaps, of which one line is read; with the signal, and with it ignored."""
    gaps = packet(frame(A, B, KINDS['SABM'])) + packet(frame(B, A, KINDS['UA'])) + packet(numbered(A, B, 3)) * 30000
    file = room / 'gaps'
    file.write_bytes(gaps)
    for trap in ('', "trap '' PIPE; "):
        script = f'{trap}"$@" <"{file}" | head -n 1'
        ran = subprocess.run(['bash', '-c', script, 'sh', *command, *NAMES], capture_output=True, timeout=20)
        check(f"an output that is closed early{' and no signal' if trap else ''}", differ(ran.stdout.decode(), 'gap=3 from=A\n'))
    with subprocess.Popen([*command, *NAMES], stdin=subprocess.PIPE, stdout=subprocess.PIPE, preexec_fn=ignore_pipes) as program:
        program.stdout.close()
        program.stdin.write(gaps[:20000])
        program.stdin.flush()
        try:
            check('where nobody reads it ends, though more could come', unless(program.wait(timeout=10) == 0, program.returncode))
        except subprocess.TimeoutExpired:
            program.kill()
            check('where nobody reads it ends, though more could come', 'it waits')


def ignore_pipes():
    import signal
    signal.signal(signal.SIGPIPE, signal.SIG_IGN)


# ---- arguments

REFUSED = [('BOX1234', 31), ('', 32), ('BOX-1-2', 32), ('-1', 32), ('BOX_1', 32), ('BOX1-', 33), ('BOX1-x', 33), ('BOX1-256', 33),
           ('BOX1-++1', 33), ('BOX1-16', 34), ('BOX1-255', 34), (b'BOX\xC3\xA9', 35), (b'BOX1-1\xFF', 35)]
LONGEST = 131071  # octets of one argument, as Linux has it


def of_arguments():
    stream = packet(frame(A, B, KINDS['SABM']))
    wrong = []
    for text, number in REFUSED:
        for stations, owed in (((text, 'GAUGE'), number), (('GAUGE', text), number), ((text, 'BOX1-16'), number), (('BOX1-16', text), 34)):
            said = follow(stream, *stations)
            wrong += [] if said == f'answer={owed}\n' else [f'{stations}: {said!r}, and not {owed}']
    check(f'{len(REFUSED)} texts that are refused, as A, as B, and beside another, by {sorted({number for _, number in REFUSED})}', '; '.join(wrong[:3]))
    ups = stream + packet(frame(B, A, KINDS['UA'])) + packet(numbered(B, A, 5))
    owed = 'gap=3 from=B\n' + NOTHING.replace('offered=0', 'offered=3').replace('gaps=0', 'gaps=1')
    for stations in (('box12-3', 'gauge'), ('Box12-+3', 'GAUGE-0'), ('BOX12-003', 'gauge-' + '0' * (LONGEST - 6))):
        check(f'the stations {stations[0]} and {stations[1][:12]} ({len(stations[1])} octets)', differ(follow(ups, *stations), owed))
    for text, number in (('GAUGE-' + '0' * (LONGEST - 8) + '16', 34), ('-' * LONGEST, 32), ('G' * LONGEST, 31), ('GAUGE-' + '1' * (LONGEST - 6), 33)):
        check(f'{text[:8]}.., {len(text)} octets, is {number}', differ(follow(ups, 'BOX12-3', text), f'answer={number}\n'))
    equal = 'answer=72\n' + NOTHING.replace('dropped=0', 'dropped=1')
    check('A and B the same station', differ(follow(ups + FEND + b'\x01' + FEND, 'GAUGE', 'gauge-00'), equal))
    check('and no frame', differ(follow(b'', 'GAUGE', 'gauge-00'), NOTHING))
    usage = b'usage: follow A B <STREAM\n'
    for stations, said in (((), 'answer=32\n'), (('GAUGE',), 'answer=32\n'), (('BOX1234',), 'answer=31\n'), ((*NAMES, 'more'), NOTHING)):
        ran = subprocess.run([*command, *stations], input=b'', capture_output=True)
        check(f'{len(stations)} arguments: the usage on standard error, and {said.split()[0]}',
              differ(ran.stdout.decode(), said) or unless(ran.stderr == usage, ran.stderr))


# ---- ./look --follow


def look(*words, given=None):
    ran = subprocess.run([str(ROOT / 'look'), *map(str, words)], input=given, capture_output=True, cwd=room)
    return ran.stdout.decode(), ran.stderr.decode(), ran.returncode


def printed(said):
    """What is not its own."""
    return ''.join(f'{line}\n' for line in said.split('\n') if line and not line.startswith('#'))


def own(said):
    return [line for line in said.split('\n') if line.startswith('#')]


def pcap(frames, link):
    record = b''.join(bytes(8) + 2 * len(octets).to_bytes(4, 'little') + octets for octets in frames)
    return bytes.fromhex('D4C3B2A1 0200 0400') + bytes(8) + (1 << 18).to_bytes(4, 'little') + link.to_bytes(4, 'little') + record


def by_look():
    said = connected()
    frames = [bytes.fromhex(octets) for octets, *_ in said]
    owed = by_words(said, NAMES)
    log = b''.join(map(packet, frames)) + b'\0' + frames[2][:9]  # a packet that no C0 ends
    forms = {'a.pcap': ('packet {}', pcap(frames, 3)), 'b.pcap': ('packet {}, port 0', pcap([b'\0' + octets for octets in frames], 202)),
             'c.hex': ('line {}', ''.join(f'{octets.hex()}\n' for octets in frames).encode()), 'd.kiss': ('octet ', log)}
    for name, (place, octets) in forms.items():
        (room / name).write_bytes(octets)
        text, complaint, status = look('--follow', 'box12-3', 'gauge', name)
        check(f'{name}: what follow prints of its frames', differ(printed(text), owed) or unless((complaint, status) == ('', 0), (complaint, status)))
        lines = own(text)
        wanted = [f'# {name}: frames 1 to 36', f'# gap 16 is {name}, {place.format(16)}', f'# gap 17 is {name}, {place.format(17)}']
        check('and where they stand', [line for line in wanted if not any(one.startswith(line) for one in lines)])
    at = [line for line in own(look('--follow', *NAMES, 'd.kiss')[0]) if line.startswith('# gap 16 is ')]
    where = int(re.search(r'octet (\d+)', at[0])[1]) if at else 0
    check("of a KISS log, the octet of the packet's type", unless(at and log[where:].startswith(packet(frames[15])[1:]), at))
    pcapng(frames, owed)
    several(frames, said)
    refusals()


def pcapng(frames, owed):
    editcap = os.environ.get('EDITCAP') or 'editcap'
    path = os.environ.get('PATH', '') + os.pathsep + str(ROOT / 'tools' / 'bin')
    try:
        subprocess.run([editcap, '-F', 'pcapng', 'a.pcap', 'e.pcapng'], cwd=room, check=True, capture_output=True, env={**os.environ, 'PATH': path})
    except (OSError, subprocess.CalledProcessError):
        print('skipped: a pcapng: there is no editcap')
        return
    text, complaint, status = look('--follow', *NAMES, 'e.pcapng')
    check('e.pcapng: what follow prints of its frames', differ(printed(text), owed) or unless((complaint, status) == ('', 0), (complaint, status)))


def several(frames, said):
    """Several files are one recording, and so is standard input beside them; what is too long is said to be dropped."""
    (room / 'one.raw').write_bytes(frames[2])
    (room / 'broken.kiss').write_bytes(packet(frames[0]) + b'\xC0\x01\x10\xC0\0\x8E\xDB\x82\xC0' + packet(frames[1])[1:] + b'\0\x8E')
    long = frame(A, B, KINDS['UI'], b'\xF0' + bytes(1024 - 15))
    (room / 'long.hex').write_text(f'{long.hex()}\n{frames[4].hex()}\n{frames[6].hex()}\n')
    text, complaint, status = look('--follow', *NAMES, 'broken.kiss', '--raw', 'one.raw', 'long.hex', 'none', '-', given=frames[6].hex().encode())
    model = Model()
    for side, kind, sent in (('A', 'SABM', None), ('B', 'UA', None), ('A', 'I', 0), ('A', 'I', 1), ('A', 'I', 3), ('A', 'I', 3)):
        model.offer(side, kind, sent)
    model.counts['dropped'] = 3
    check('four captures are one recording, and the packets that they lose are counted', differ(printed(text), model.text()))
    wanted = ['# broken.kiss: frames 1 to 2', '# one.raw: frame 3', '# long.hex: frames 4 to 5', '# standard input: frame 6',
              '# doubt: 1 frame of more than 1,024 octets (line 1): the stream drops these, and does not count them',
              '# gap 5 is long.hex, line 3', '# gap 6 is standard input, line 1']
    check('each is said with its frames, and each gap with its place', [line for line in wanted if line not in own(text)])
    check('one that is not there is said to be that, and the status is 2',
          unless((complaint, status) == ('look: none: there is no such file\n', 2), (complaint, status)))
    check('the words of direwolf for these frames', unless([said[i][3:] for i in (2, 4, 6)] == [('I', '0'), ('I', '1'), ('I', '3')], said[:7]))


def refusals():
    for stations, which, number in ((('BOX1234', 'B'), 'A', 31), (('A', 'B-16'), 'B', 34), (('', '-'), 'A', 32)):
        text, complaint, status = look('--follow', *stations, 'c.hex')
        lines = own(text)
        right = (printed(text), complaint, status) == (f'answer={number}\n', '', 2) and lines and lines[0].startswith(f'# {which} is no station')
        check(f'{which} is no station: {number}, in words', unless(right and len(lines) == 3, (text, complaint, status)))
    text, complaint, status = look('--follow', 'GAUGE', 'GAUGE', 'c.hex')
    check('a station with itself is 72, in words', unless(printed(text).startswith('answer=72\noffered=0\n') and own(text)[2].startswith('# 72 ('), text))
    for words in (['--follow'], ['--follow', 'A']):
        text, complaint, status = look(*words)
        check(f"{' '.join(words)} alone is refused", unless((text, status) == ('', 2) and complaint.startswith('look: --follow wants two stations'), (text, complaint, status)))
    text, complaint, status = look('--follow', 'A', 'B', 'nothing')
    check('no file that can be read: nothing is followed', unless((text, status) == ('', 2) and 'nothing: there is no such file' in complaint, (text, complaint, status)))
    bare = room / 'bare'
    for folder in ('compare', 'tests', 'dist'):
        (bare / folder).mkdir(parents=True)
    for path in [ROOT / 'look', ROOT / 'tests' / 'tools.sh', *(ROOT / 'compare').glob('*.py')]:
        (bare / path.relative_to(ROOT)).write_bytes(path.read_bytes())
    ran = subprocess.run(['sh', str(bare / 'look'), '--follow', 'A', 'B', str(room / 'c.hex')], capture_output=True)
    check('without dist/follow it says what makes it',
          unless(ran.returncode == 2 and ran.stderr.startswith(b'look: dist/follow is not there: ./build makes it'), ran))


for part in (of_direwolf, random_recordings, in_pieces, long_ones, odd_streams, closed_early, of_arguments, by_look):
    part()
print(f'{passed} passed, {failed} failed')
sys.exit(failed > 0)
