#!/usr/bin/env python3
"""The part of tests/modes that runs the comparison, COMPARE, and looks at what it says. DIR is the folder in which it works.

usage: modes.py COMPARE DIR"""
import hashlib
import json
import os
import pathlib
import platform
import pty
import re
import resource
import signal
import subprocess
import sys

compare, room = sys.argv[1], pathlib.Path(sys.argv[2])
passed = failed = 0
# The modes that this runs, to be held to those that there are.
run_here = set()

FEND = b'\xC0'
FRAME = '8E82AA8E8A40E0849EB06264406703F04F4B'
# The same on its way by a repeater, and what that repeater makes of it.
ROUTED, RELAYED = ('8E82AA8E8A40E0849EB0626440669E9C8A4040' + mark + '03F04F4B' for mark in ('4063', '40E3'))
SAME = 'same: the port answers as it owes'
LINKS = ('followed', 'in_order', 'repeated', 'gaps', 'outside', 'not_followed')
KINDS = ('I', 'RR', 'RNR', 'REJ', 'SREJ', 'SABM', 'SABME', 'DISC', 'DM', 'UA', 'FRMR', 'UI', 'XID', 'TEST')


def check(what, problem):
    global passed, failed
    passed, failed = passed + (not problem), failed + bool(problem)
    print(f'FAILED: {what}: {problem}' if problem else f'ok: {what}')


def run(*words, given=b'', **more):
    run_here.update(words[:1])
    return subprocess.run([compare, *map(str, words)], input=given, capture_output=True, **more)


def lines(octets):
    return octets.decode().splitlines()


def shortened(words):
    return ' '.join(str(word) if len(str(word)) <= 40 else str(word)[:37] + '...' for word in words)


def ends(what, ran, status, line=None):
    """It ended with this status, and printed, among others, this line; a refusal has it on standard error."""
    said = lines(ran.stderr if status == 2 else ran.stdout)
    told = line is None or any(line == one if status != 2 else line in one for one in said)
    problem = f'status {ran.returncode}, and not {status}' if ran.returncode != status else '' if told else f'no line {line!r} in {said[-3:]}'
    check(what, problem)


# Single modes

NUMBERS = ('state', 'expected_a', 'expected_b', 'moved_a', 'moved_b', 'in_order', 'repeated', 'gaps', 'outside', 'offered')


def link(**numbers):
    """The octets of a link's record between the example's stations."""
    return '424F583132200303' + '4741554745200003' + ''.join(numbers.get(name, 0).to_bytes(4, 'little').hex() for name in NUMBERS)


def linked(**numbers):
    """The same as it is shown."""
    state, *directions, in_order, repeated, gaps, outside, offered = (numbers.get(name, 0) for name in NUMBERS)
    return (f'a "BOX12 "-3 (reserved 3) b "GAUGE "-0 (reserved 3) state {state} expected {directions[:2]} moved {directions[2:]} '
            f'in_order {in_order} repeated {repeated} gaps {gaps} outside {outside} offered {offered}')


def single_modes():
    """Each on one input: it ends well, and says what both make of it."""
    record = re.search('^port: number 0 .*; record ([0-9A-F]{204})$', run('one', FRAME).stdout.decode(), re.M)
    record = record[1] if record else ''
    address = '424F583132200303'
    for line, *words in [
        (f'port: decode 0 canonical 1 re-encoded length 18; re-encode into 18: 0 octets {FRAME}', 'one', FRAME),
        ('port: reason none (0) number 0 place 0', 'one', FRAME),
        ('port: reason tail (3) number 0 place 0', 'one', FRAME[:28] + '01AA'),
        ('port: reason refused (5) number 4 place 13', 'one', FRAME[:28]),
        ('port: record: start 0 length 18 number 0 canonical 1 kind UI (11)', 'one', FRAME),
        ('port: record: start 0 length 16 number 0 canonical 0 kind RR (1)', 'one', FRAME[:28] + '01AA'),
        ('port: record: start 1 length 18 number 0 canonical 1 kind UI (11)', 'buffer', '1,18', '00' + FRAME + '41'),
        ('port: record: start 1 length 19 number 0 canonical 1 kind UI (11)', 'buffer', '0,3', '1,19', '20,1', '00' + FRAME + '41'),
        ('port: record: start 18 length 0 number 1 canonical 0 kind UI (11)', 'buffer', '18,0', FRAME),
        ('port: record: start 19 length 0 number 61 canonical 0 kind UI (11)', 'buffer', '18,0', '19,0', FRAME),
        (f'port: record: start {2 ** 64 - 1} length 2 number 61 canonical 0 kind UI (11)', 'buffer', f'{2 ** 64 - 1},2', FRAME),
        ('buffer: 18 octets: ' + FRAME, 'buffer', FRAME),
        ('port: the same frame and info; Rust: the same frame and info', 'pair', FRAME, FRAME),
        ('port: number 0 "BOX12 "-3 (reserved 3)', 'text', 'BOX12-3'),
        ('port: number 35 nothing', 'text-hex', 'C3A9'),
        ('port: number 0 "BOX12 "-3 (reserved 3)', 'parts-hex', '626F783132', 3),
        ('port: number 0 length 7 "BOX12-3"', 'print', address),
        (f'port: number 0 length 18 octets {FRAME}', 'record', record, '4F4B'),
        ('source "BOX12 "-3 (reserved 3) destination "GAUGE "-0 (reserved 3) info 4F4B', 'simple-ui', address, '4741554745200003', '4F4B'),
        ('port: number 0 0B0D00000000000000000000', 'content', '03F04F4B'),
        ('outside the domain of equality (B9): SREJ, which the port knows; the Rust owes 6', 'content', '0D'),
        ('outside the domain of equality (B9): XID, which the port knows; the Rust owes 7', 'one', FRAME[:28] + 'AF8280'),
        ('port: number 0 length 4 octets 03F04F4B', 'content-record', record[180:], '4F4B'),
        ('port: number 0 hop set, hops used, due place [0, 0, 0]', 'hops', record),
        ('port: 1', 'same-station', address, '424F583132200300'),
        (f'port: number 0 octets {RELAYED}', 'relay', '4F4E45', 1, ROUTED),
        ('port: number 0 port 5 length 1 data C0', 'kiss', 'C050DBDCC0'),
        ('port: number 0 length 5 octets C050DBDCC0', 'kiss-write', 5, 'C0'),
        ('port: octets 3 to 4: taken 1 ready 1 port 0 length 1 data 41', 'kiss-stream', '3,1', 'C00041C0C001'),
        (f'port: number 0 {linked(state=1, offered=1)}', 'link', link(), FRAME[:28] + '3F'),
        (f'port: number 0 {linked(state=3, moved_a=1, in_order=1, offered=1)}', 'link', link(state=3, expected_a=7), FRAME[:28] + '0EF0'),
        (f'port: number 0 {linked(state=9, outside=3, offered=7)}', 'link', link(state=9, outside=2, offered=6), FRAME[:28] + '00F0'),
        (f'port: number 10 {linked(state=2, offered=1)}', 'link', link(state=2), '00' + FRAME),
        (f'port: number 71 {linked(state=2, offered=65535)}', 'link', link(state=2, offered=65535), FRAME),
        (f'port: number 73 {linked(gaps=2, offered=1)}', 'link', link(gaps=2, offered=1), FRAME),
        ('port: number 72 a "BOX12 "-3 (reserved 3) b "BOX12 "-3 (reserved 0) state 0 expected [0, 0] moved [0, 0] in_order 0 repeated 0 gaps 0 '
         'outside 0 offered 0', 'link', address + '424F583132200300' + link()[32:], FRAME),
    ]:
        ran = run(*words)
        ends(shortened(words), ran, 0, line)
        if SAME not in lines(ran.stdout):
            check(f'{words[0]} says that nothing differs', 'it does not')
    for words in (('one', '-'), ('relay', '4F4E45', 1, '-'), ('kiss', '-'), ('kiss-write', 5, '-'), ('kiss-stream', 2, '-'),
                  ('buffer', '3,4000', '0,5001', '-'), ('link', link(), '-')):
        ends(shortened(words) + ' with an input of 5,000 octets', run(*words, given=b'C0 00 ' * 2500), 0, SAME)


def refusals():
    for line, *words in [
        ('usage:',),
        ('no mode takes these words: nothing-of-the-kind', 'nothing-of-the-kind'),
        ('no mode takes these words: one', 'one'),
        ('there is no option --sed', 'test', '--sed', 3),
        ('3 hex digits: the last octet has only one', 'one', '8E8'),
        ("'X' is no hex digit", 'kiss', 'C0X0'),
        ('an SSID is an octet', 'parts-hex', '424F58', 256),
        ("'five' is no number", 'kiss-write', 'five', ''),
        ("'18' is no START,LENGTH", 'buffer', 18, FRAME),
        (f"'{2 ** 64}' is no number", 'buffer', f'0,{2 ** 64}', FRAME),
        ('no mode takes these words: buffer', 'buffer'),
        ('at least one of the lengths is over 0', 'kiss-stream', '0,0', 'C0'),
        ("55 octets are no link's record: it has 56", 'link', link()[2:], FRAME),
        ('SCALE is a number from 1 to 1000', 'test', 0),
        ('no class has such a name', 'test', '--only', 'nothing of the kind'),
        ('--json wants a value', 'test', '--json'),
        ('one takes no --json', 'one', FRAME, '--json', room / 'json'),
        ('frames takes no --only', 'frames', '--only', 'KISS'),
        ('test takes no --of', 'test', '--of', 3),
        (f'{room}/none: No such file', 'frames', room / 'none'),
        (f'{room}: Is a directory', 'frames', room),
        (f'{room}/none/differences: No such file', 'test', '--differences', room / 'none' / 'differences'),
    ]:
        ends(f"{shortened(words) or 'no word'} is refused", run(*words), 2, line)
    check('compare --help prints the modes', '' if b'compare one HEX' in run('--help').stdout else 'it does not')


def only():
    """Words that stand in the name of `met` too."""
    ran = run('test', '--only', 'pair')
    ends("test --only 'pair' leaves out what is of the whole run", ran, 0, 'left out: met, which is of all classes together')
    check('and counts the classes that it ran', '' if re.fullmatch(r'\d passed, 0 failed', lines(ran.stdout)[-1]) else lines(ran.stdout)[-1])


def closed_pipes():
    """A reader who goes away ends the comparison without a word, by the signal that ends other programs."""
    for words, stream in [(('test', '--only', 'text'), 'stdout'), (('one', FRAME), 'stdout'), (('replay-list',), 'stdout'), (('--help',), 'stdout'),
                          (('frames', listed([packet_line()])), 'stdout'), (('no-such-mode',), 'stderr')]:
        read, write = os.pipe()
        os.close(read)
        run_here.add(words[0])
        ran = subprocess.run([compare, *map(str, words)], **{'stdout': subprocess.PIPE, 'stderr': subprocess.PIPE, stream: write})
        os.close(write)
        said = (ran.stdout or b'') + (ran.stderr or b'')
        quiet = ran.returncode in (-signal.SIGPIPE, 128 + signal.SIGPIPE) and not said
        check(f'{shortened(words[:2])}, whose {stream} nobody reads, ends quietly', '' if quiet else f'status {ran.returncode}, {said[:200]}')


# Lists of captures

def listed(of_capture, form='KISS log', name='list'):
    """A list of one capture, as captures.py prints it."""
    path = room / name
    with open(path, 'w') as file:
        file.write(f'capture\tmade\t{form}\n')
        file.writelines(f'{line}\n' for line in of_capture)
    return path


def packet_line(packet=b'\xC0\x50\x41\xC0', number=0, port=5, data=b'\x41'):
    return f'packet\toctet 1\t{packet.hex()}\t{number}\t{port}\t{data.hex()}'


def answered(*words, **more):
    """What ran, and the JSON that it left."""
    path = room / 'json'
    path.unlink(missing_ok=True)
    ran = run('frames', *words, '--json', path, **more)
    return ran, json.loads(path.read_text()) if path.exists() else None


def wrong_lists():
    good = ['frame\tline 1\t' + FRAME, packet_line(), 'log\tC05041C0', 'passed over\toctet 9: why', 'end\t' + 'ab' * 32 + '\t4']
    ran, left = answered(listed(good))
    ends('a list with every sort of line', ran, 0, '5 passed, 0 failed')
    owed = {'file': 'made', 'format': 'KISS log', 'sha256': 'ab' * 32, 'octets': 4, 'frames': 1, 'packets': 1,
            'passed_over': ['octet 9: why'], 'passed_over_more': 0, 'accepted': 1, 'canonical': 1,
            'reasons': {'leftover': 0, 'marks': 0, 'tail': 0, 'fixed': 0},
            'in_one_call': {'calls': 1, 'records': 1, 'refused': 0, 'kinds': {**dict.fromkeys(KINDS, 0), 'UI': 1}},
            'links': dict.fromkeys(LINKS, 0)}
    check('its JSON', '' if left['captures'] == [owed] else left['captures'])
    ran, left = answered(listed(good[:2]))
    digest = {key: left['captures'][0][key] for key in ('sha256', 'octets')}
    check("a list without 'end' says nothing of the file", '' if digest == {'sha256': None, 'octets': None} else digest)
    archive = hashlib.sha256(pathlib.Path('dist/libax25frame.a').read_bytes()).hexdigest()
    check('the comparison runs the archive of dist/', '' if left['archive'] == archive else f"{left['archive']}, and not {archive}")
    for line, words in [
        ('fframe\tline 1\t41', 'line 2: it is none that captures.py prints'),
        ('frame\tline 1', 'line 2: it is none that captures.py prints'),
        ('', 'line 2: it is none that captures.py prints'),
        ('frame\tline 1\t4', 'line 2: 1 hex digits: the last octet has only one'),
        ('log\tXY', "line 2: 'X' is no hex digit"),
        ('packet\toctet 1\tC0\t0\t256\t', 'line 2: a packet with number 0, port 256 and data'),
        ('packet\toctet 1\tC0\t53\t0\t41', 'line 2: a packet with number 53, port 0 and data 41'),
        ('end\tabc\t4', 'line 2: it is none that captures.py prints'),
        ('end\t' + 'ab' * 32 + '\tfour', "line 2: 'four' is no number"),
        (good[-1] + '\n' + good[0], 'line 3: it is of no capture'),
    ]:
        ends(f'a list with the line {line[:30]!r}', run('frames', listed([line])), 2, words)
    ends('a list whose first line is a frame', run('frames', given=good[0].encode()), 2, 'line 1: it is of no capture')
    ends('a list that is no UTF-8', run('frames', given=b'capture\t\xFF\traw frame\n'), 2, 'line 1: ')


def many_notes():
    ran, left = answered(listed([f'passed over\toctet {n}: why' for n in range(1200)]))
    said = sum(line.startswith('passed over: made: octet ') for line in lines(ran.stdout))
    capture = left['captures'][0]
    kept = len(capture['passed_over']), capture['passed_over_more']
    check('1,200 notes on what was passed over are printed, and 1,000 of them are in the JSON', '' if (said, *kept) == (1200, 1000, 200) else (said, kept))


def by_every_way():
    """A list is the same in a file, on standard input, in a pipe, and with its log in pieces among the other lines."""
    log = FEND + b'\x50\x41' + FEND + b'\x00\x42' + FEND + b'\x01\x43' + FEND
    packets = [packet_line(), packet_line(b'\xC0\x00\x42\xC0', 0, 0, b'\x42'), packet_line(b'\xC0\x01\x43\xC0', 54, 0, b'')]
    path = listed([*packets, f'log\t{log.hex()}'])
    owed = run('frames', path)
    check('the stream gives out two packets and drops one', '' if b'of 10 octets: 2 packets given out, 1 dropped' in owed.stdout else lines(owed.stdout))
    fifo = room / 'fifo'
    os.mkfifo(fifo)
    writer = subprocess.Popen(['cp', path, fifo])
    ways = {'on standard input': run('frames', given=path.read_bytes()), "as '-'": run('frames', '-', given=path.read_bytes()), 'in a named pipe': run('frames', fifo)}
    writer.kill()
    writer.wait()
    pieces = [f'log\t{log[at:at + 3].hex()}' for at in range(0, len(log), 3)]
    ways['with its log in pieces'] = run('frames', listed([line for pair in zip(pieces, packets + ['refused\tother\twhy']) for line in pair][:-1]))
    for way, ran in ways.items():
        check(f'a list {way} is compared as in a file', '' if (ran.returncode, ran.stdout) == (0, owed.stdout) else lines(ran.stdout + ran.stderr)[-3:])


# A long log

def long_log():
    """A KISS log of three stretches, each of over a mebibyte: packets on every port that share their C0, and now and then one to drop."""
    log, packets = bytearray(FEND), []
    for n in range(24_000):
        kind, data = (n % 12 << 4) | (n % 50 == 7), n.to_bytes(3, 'big').replace(FEND, b'A').replace(b'\xDB', b'B') * (n % 60)
        packets.append((FEND + bytes([kind]) + data + FEND, *((54, 0, b'') if kind & 1 else (0, kind >> 4, data))))
        log += packets[-1][0][1:]
    return bytes(log), packets


def stretches():
    log, packets = long_log()

    def pieces(of_log, of_packets):
        return listed([f'log\t{of_log[at:at + 65536].hex()}' for at in range(0, len(of_log), 65536)] + [packet_line(*packet) for packet in of_packets])

    dropped = sum(packet[1] != 0 for packet in packets)
    ran, left = answered(pieces(log, packets))
    owed = {'streams': 1, 'octets': len(log), 'packets': len(packets) - dropped, 'dropped': dropped}
    check(f'a KISS log of {len(log)} octets is one stream', '' if ran.returncode == 0 and left['kiss_streams'] == owed else (ran.returncode, left['kiss_streams']))
    for what, others in [('one packet too few', packets[:-1]), ('one too many', packets + packets[-1:]),
                         ('two exchanged', packets[:-2] + packets[:-3:-1])]:
        ran, left = answered(pieces(log, others))
        found = [d['what'] for m in left['mismatches_shown'] if m['class'].startswith('KISS stream') for d in m['differences']]
        late = [what for what in found if int(re.search(r'octets (\d+) to', what)[1]) > 1 << 20]
        check(f'of a long log, {what} at its end is a difference in the last stretch', '' if ran.returncode == 1 and late == found != [] else (ran.returncode, found))


# The file of differences

def differences():
    path = room / 'differences'
    path.write_text('of an earlier run\n')
    run('test', '--only', 'text: every SSID', '--differences', path)
    check('where nothing differs the file of differences is empty', path.read_text()[:100])

    wrong = packet_line(number=53, port=0, data=b'')
    ran, left = answered(listed([wrong] * 30), '--differences', path)
    counts = left['mismatches'], len(left['mismatches_shown']), left['mismatches_written']
    check('30 differences: all counted, 20 shown, 30 written', '' if (ran.returncode, *counts) == (1, 30, 20, 30) else (ran.returncode, counts))
    one = ('MISMATCH: KISS packets of made (KISS log)\n  input: octet 1: C05041C0\n  read by captures.py, in the port\'s place\n'
           '    owed: number 0 port 5 length 1 data 41\n    port: number 53\n  again: compare kiss \'C05041C0\'\n')
    check('the file has each with its octets, both answers and the command', '' if path.read_text() == one * 30 else path.read_text()[:400])
    check('and 20 are printed', '' if ran.stdout.decode().count(one) == 20 else lines(ran.stdout)[:5])
    ran, left = answered(listed([wrong] * 30))
    check('without the file none is written', '' if (left['mismatches'], left['mismatches_written']) == (30, 0) else left['mismatches_written'])

    long = packet_line(b'\xC0\x00' + b'A' * 1_500_000 + b'\xC0', 53, 0, b'')
    ran, left = answered(listed([long] * 11), '--differences', path)
    more = left['mismatches'] - left['mismatches_written']
    check('of 11 long differences some are written', '' if 0 < more < 11 else f'{more} are not')
    check('the file ends with how many are not', '' if path.read_text().endswith(f'\nNOT WRITTEN HERE: KISS packets of made (KISS log): {more} more mismatches\n') else 'it does not')
    size = path.stat().st_size
    check('and has about 50 MB', '' if 40_000_000 < size < 50_001_000 else f'{size} octets')


# Memory and progress

def of_numbers(numbers, more=''):
    """Frames that differ by a number."""
    return listed((f'frame\tline {at}\t{FRAME[:-4]}{n:08x}{more}' for at, n in enumerate(numbers, 1)), 'hex lines')


def memory():
    """What a program took is known of all that ran so far together, so this is to be the first that takes much."""
    path = of_numbers(range(600), '41' * 64_000)
    ran, left = answered(path)
    check('600 long frames are compared', '' if ran.returncode == 0 and left['captures'][0]['frames'] == 600 else ran.returncode)
    calls = [left['captures'][0]['in_one_call'][what] for what in ('calls', 'records')]
    check('and read in three calls, since one takes 16 MiB of them', '' if calls == [3, 600] else calls)
    most = resource.getrusage(resource.RUSAGE_CHILDREN).ru_maxrss >> 10
    what = f'a list of {path.stat().st_size >> 20} MB takes at most 60 MB of memory'
    if platform.machine() == 'x86_64':
        check(what, '' if most <= 60 else f'{most} MB')
    else:
        print(f'skipped: {what}: the emulator takes some of its own')


def remembered():
    """Of three different frames the first and the last come again."""
    path = of_numbers([1, 2, 3, 1, 3])
    said = 'frames beside which no later one was put, because enough others were remembered by then: 2'
    for words, owed in [((), (2, 0)), (('--remember', 2), (1, 2)), (('--remember', 0), (0, 5))]:
        ran, left = answered(path, *words)
        counts = left['frames_again'], left['not_remembered']
        check(f'{shortened(["frames", *words])} of five: {owed[0]} come again, {owed[1]} are not remembered', '' if counts == owed else counts)
        check('which is said where it is so', '' if (said in lines(ran.stdout)) == (owed[1] == 2) else lines(ran.stdout)[-5:])


def canonical_ones():
    """Of frames with the same frame and info a canonical one is remembered, wherever it stands: RR, which ignores what follows it."""
    plain, one, other = (FRAME[:28] + '01' + tail for tail in ('', 'AA', 'BB'))
    for frames, owed in [((one, other), (1, 1)), ((one, plain, other), (2, 0)), ((plain, one, other), (2, 0))]:
        _, left = answered(listed([f'frame\tline 1\t{frame}' for frame in frames], 'hex lines'))
        counts = left['frames_again'], left['neither_canonical']
        check(f"{' '.join(frame[28:] for frame in frames)}: {owed[0]} come again, {owed[1]} with no canonical one", '' if counts == owed else counts)


def by_reason():
    """What is printed of frames that are not canonical: SABM with a tail, twice, and FRMR with a bit that nothing reads."""
    frames = [FRAME[:28] + content for content in ('2F01', '2F02', '87010344', '2F')]
    ran = run('frames', listed([f'frame\tline 1\t{frame}' for frame in frames], 'hex lines'))
    ends('frames that are not canonical are counted by reason', ran, 0, 'not canonical, by reason: leftover: 0, marks: 0, tail: 2, fixed: 1')


def in_calls():
    """More frames than one call reads, and as many: each of a single null but the last, which the second call reads."""
    most = 1 << 18
    for more, calls in ((0, 1), (1, 2)):
        frames = ['frame\tline 1\t00'] * (most + more - 1) + ['frame\tline 2\t' + FRAME]
        ran, left = answered(listed(frames, 'hex lines'))
        owed = {'calls': calls, 'records': most + more, 'refused': most + more - 1, 'kinds': {**dict.fromkeys(KINDS, 0), 'UI': 1}}
        found = ran.returncode, left['in_one_call']
        check(f'{most + more:,} frames are read in {calls} calls', '' if found == (0, owed) else found)


def links():
    """I frames of more pairs than are followed, and of a station to itself; and more frames than a record counts, all in order."""
    from_number = [FRAME[:14] + FRAME[14:26] + f'{0x61 | n << 1:02x}' + '00f0' for n in range(16)]
    more = [FRAME[:13] + '2' + FRAME[14:28] + '00F0', FRAME[14:28].replace('67', '66') + FRAME[14:28] + '00F0']
    numbers = (FRAME[:28] + f'{n % 8 << 1:02x}f0' for n in range(65536))
    up = [FRAME[:28] + '3F', FRAME[14:26] + 'E6' + FRAME[:12] + '6173']
    for what, frames, counts in [('sixteen pairs', from_number, (16, 0, 0, 0, 16, 0)),
                                 ('two I frames more', from_number + from_number[:1] + more, (16, 0, 0, 0, 17, 2)),
                                 ('65,538 frames', [*up, *numbers], (1, 65533, 0, 0, 0, 0))]:
        ran, left = answered(listed([f'frame\tline 1\t{frame}' for frame in frames], 'hex lines'))
        owed = ran.returncode, dict(zip(LINKS, counts))
        check(f'of {what} the links followed are counted', '' if owed == (0, left['links']) else left['links'])


def progress():
    path = listed(['frame\tline 1\t' + FRAME] * 3, 'hex lines')
    quiet = run('frames', path, '--of', 3)
    check('how far it is, is no line of a short run', '' if quiet.stderr == b'' else quiet.stderr)
    ours, its = pty.openpty()
    ran = subprocess.run([compare, 'frames', str(path), '--of', '3'], stdout=subprocess.PIPE, stderr=its)
    os.close(its)
    said = b''
    try:
        while piece := os.read(ours, 4096):
            said += piece
    except OSError:
        pass  # the other end is closed
    check('on a terminal it is said in place, and taken away', '' if re.fullmatch(rb'(\rcompare: 1 of 3 frames compared\r +\r.*)', said, re.S) else said)
    check('and what is printed is the same', '' if ran.stdout == quiet.stdout else lines(ran.stdout)[:3])


def figures():
    """How many frames are remembered stands in the source, in the usage and in compare/README.md."""
    most = re.search(r'const MOST: usize = ([\d_]+);', pathlib.Path('compare/src/pairs.rs').read_text())
    most = int(most[1].replace('_', '')) if most else 0
    day = pathlib.Path('compare/src/parts.rs').read_text()
    frames, octets = (1 << int(re.search(rf'pub const {name}: usize = 1 << (\d+);', day)[1]) for name in ('FRAMES', 'OCTETS'))
    for page in ('compare/README.md', 'docs/REPORT.md'):
        said = f'{frames:,} frames or {octets >> 20} MiB' in pathlib.Path(page).read_text(encoding='utf-8')
        check(f'{page} says how many frames one call reads', '' if said else f'{frames} of {octets} octets')
    source = pathlib.Path('compare/src/links.rs').read_text()
    pairs, most_offered = (re.search(rf'pub const {name}: \w+ = ([\d_]+);', source)[1].replace('_', ',') for name in ('FOLLOWED', 'MOST'))
    for page in ('compare/README.md', 'docs/REPORT.md', 'laboratory/document.py'):
        said = pathlib.Path(page).read_text(encoding='utf-8')
        there = f'first {pairs} pairs' in said and f'first {most_offered} frames' in said
        check(f'{page} says how many links are followed', '' if there else f'{pairs}, through {most_offered} frames')
    for where, said, owed in [('the usage', run('--help').stdout.decode(), f'--remember N .*\\({most};'),
                              ('compare/README.md', pathlib.Path('compare/README.md').read_text(encoding='utf-8'), f' {most:,} different frames are remembered')]:
        check(f'{where} says how many frames are remembered', '' if re.search(owed, said) else f'it is {most}')


def modes():
    """`bench` takes long, and `captures` is another program's: ./lab and tests/captures/run have them."""
    there = set(re.findall(r'^compare ([a-z-]+)', run('--help').stdout.decode(), re.M)) | {'text-hex'}
    check('every mode was run', ', '.join(sorted(there - run_here - {'bench', 'captures'})))


for part in (memory, remembered, canonical_ones, by_reason, in_calls, links, single_modes, refusals, only, closed_pipes, wrong_lists, many_notes, by_every_way, stretches, differences, progress, figures, modes):
    try:
        part()
    except Exception as why:
        check(part.__name__, f'it stopped at {why!r}')
print(f'{passed} passed, {failed} failed')
sys.exit(failed > 0)
