#!/usr/bin/env python3
r"""Reads captures, each as what it is. What it can't tell is refused in words.

usage: captures.py read [--raw FILE | FILE]..
           prints what the captures hold; where one is refused, says which and why, and prints nothing else
       captures.py compare PROGRAM [--json FILE] [--differences FILE] [--raw FILE | FILE]..
           has the comparison, PROGRAM, compare it, what is refused left out and named: PROGRAM frames LIST --of FRAMES ..
       captures.py check [--json FILE] [--dumper FILE] [--raw FILE | FILE]..
           says of each file what it is, what it holds, and every doubt, or why it is refused; its first frame as the dumper prints it,
           where there is one: dist/dumper, or the one that is named

By its octets a file is a pcap of link type 3 (AX25) or 202 (AX25_KISS), a pcapng of these where Wireshark's editcap is at hand, a KISS log,
which starts with C0 hex, or lines of hex: one frame a line, spaces where one likes, '#' starts a comment. One raw frame, the octets
alone and at most 4,096 of them, is asked for by --raw, or its octets say nothing else and its name ends in .raw, .bin or .ax25. After
-- every word is a file. A pipe is refused, because a report is about files that can be read again.

A file is gone over twice: first to its end, so that nothing of one that is refused is printed, and then to print it; one that changed
between the two stops the program. Both times it is read in pieces, so its size does not matter.

What is printed has lines of fields between tabs: 'capture', its file, its format; then of that capture 'frame', the frame's place, its
octets in hex; 'packet', a KISS packet's place, its octets in hex as they stood, with the C0 before and after them (the last of a log may
lack that), the number that it is read by, the port, the data in hex; 'log', the next octets of a KISS log in hex, again and again up to
its last; 'passed over', what and why; and at last 'end', SHA-256 of the file in hex and how many octets it has. 'refused' has a file and
why. A file's name is its whole path: printable characters in UTF-8, a backslash as \\, and every other octet as \x and two hex digits.

Every packet of a KISS log is printed, those that are passed over too; two C0 with nothing between them are no packet there. A pcap of
link type 202 holds packets without C0 and escapes: each is printed as it would be sent. The numbers are those of include/ax25.h: a packet
that is no frame has the first of 54, 56, 52, 53 that is met from its start on (55 for one of link type 202 without a type), port 0 and
no data.

check --json leaves an object whose "captures" has for each file, in the order given, "file" and "refused", or "file", "format", "octets",
"sha256", "frames", "packets", "passed_over" (how many of each) and "doubts" (a list of sentences).

Exit status: 0 where every capture is read; 2 where one is refused; that of PROGRAM where it ran."""
import json
import os
import subprocess
import sys
import tempfile

sys.dont_write_bytecode = True

import dumper
from command import Stop, arguments, number, run, shown, write
from readers import Capture, Refused, opened
from survey import Survey


def name_of(path):
    return shown(os.path.abspath(path))


def survey_of(path, raw):
    """The survey of a capture, or why it is refused."""
    try:
        with opened(path) as file:
            return Survey(file, path, raw), None
    except Refused as why:
        return None, str(why)


def survey_all(captures):
    for path, raw in captures:
        yield (path, raw, *survey_of(path, raw))


def print_capture(out, path, raw, survey):
    """What stands in a capture, which has to be what was surveyed."""
    out.write(f'capture\t{name_of(path)}\t{survey.form}\n'.encode())
    with opened(path) as file:
        capture = Capture(file, path, raw)
        for item in capture:
            out.write(f'{item.line()}\n'.encode())
    if capture.digest() != (survey.sha256, survey.octets):
        raise Refused('the file was changed while it was read')
    out.write(f'end\t{survey.sha256}\t{survey.octets}\n'.encode())


def print_again(out, path, raw, survey):
    try:
        print_capture(out, path, raw, survey)
    except Refused as why:
        raise Stop(f'{shown(path)}: {why}')


def read(captures):
    surveys = list(survey_all(captures))
    refused = [f'{shown(path)}: {why}' for path, _, _, why in surveys if why is not None]
    if refused:
        raise Stop('\n'.join(refused))
    for path, raw, survey, _ in surveys:
        print_again(sys.stdout.buffer, path, raw, survey)
    return 0


def compare(program, captures, options):
    """The list has no name that could be left behind: PROGRAM gets it as an open file."""
    frames = 0
    with tempfile.TemporaryFile() as listed:
        for path, raw, survey, why in survey_all(captures):
            if why is None:
                frames += survey.seen.frames
                print_again(listed, path, raw, survey)
            else:
                listed.write(f'refused\t{name_of(path)}\t{why}\n'.encode())
        listed.flush()
        words = [program, 'frames', f'/dev/fd/{listed.fileno()}', '--of', str(frames)]
        words += [word for option in options.items() for word in option]
        status = subprocess.run(words, pass_fds=[listed.fileno()], check=False).returncode
        return status if status >= 0 else 128 - status  # ended by a signal, as a shell says it


# check


def dumper_words(options):
    """The words that run the dumper; none, and why, where there is none."""
    try:
        return dumper.found(options.get('--dumper', dumper.PROGRAM)), None
    except dumper.NoDumper as why:
        return [], why


def print_survey(path, survey, words):
    write(sys.stdout, f'{shown(path)}: {survey.sentence()}')
    write(sys.stdout, f'  SHA-256 {survey.sha256}')
    if words:
        first = survey.seen.first
        write(sys.stdout, f"  the first frame, {first.place}, {number(len(first.octets), 'octets')}:")
        for line in dumper.prints(words, first.octets).decode('utf-8', 'replace').splitlines():
            write(sys.stdout, f'    {line}')
    for doubt in survey.doubts:
        write(sys.stdout, f'  doubt: {doubt}')


def record_of(path, survey, why):
    if why is not None:
        return {'file': name_of(path), 'refused': why}
    seen = survey.seen
    return {'file': name_of(path), 'format': survey.form, 'octets': survey.octets, 'sha256': survey.sha256, 'frames': seen.frames,
            'packets': seen.packets, 'passed_over': seen.passed_over, 'doubts': survey.doubts}


def check(captures, options):
    (words, no_dumper), records, earlier = dumper_words(options), [], {}
    for path, _, survey, why in survey_all(captures):
        if why is None:
            if survey.sha256 in earlier:
                survey.doubts.insert(0, f'the same octets as {earlier[survey.sha256]}')
            earlier.setdefault(survey.sha256, shown(path))
            print_survey(path, survey, words)
        else:
            write(sys.stdout, f'{shown(path)}: refused: {why}')
        sys.stdout.flush()
        records.append(record_of(path, survey, why))
    if '--json' in options:
        leave(options['--json'], {'captures': records})
    if no_dumper and earlier:
        write(sys.stdout, f'no frame is decoded: {no_dumper}')
    refused = sum('refused' in record for record in records)
    doubts = sum(len(record.get('doubts', [])) for record in records)
    if len(records) > 1:
        write(sys.stdout, f"{len(records):,} files: {len(records) - refused:,} can be read, {refused:,} refused, {number(doubts, 'doubts')}")
    return 2 if refused else 0


def leave(path, value):
    try:
        with open(path, 'w', encoding='utf-8') as file:
            json.dump(value, file, indent=1)
            file.write('\n')
    except OSError as why:
        raise Stop(f"{shown(path)}: it can't be written: {why.strerror}")


def main():
    mode, words = sys.argv[1:2], sys.argv[2:]
    known = {'read': [], 'compare': ['--json', '--differences'], 'check': ['--json', '--dumper']}.get(''.join(mode))
    if known is None or mode == ['compare'] and not words:
        raise Stop(__doc__)
    program = words.pop(0) if mode == ['compare'] else None
    captures, options = arguments(words, known)
    if not captures:
        raise Stop('no capture is named')
    if mode == ['read']:
        return read(captures)
    return compare(program, captures, options) if program else check(captures, options)


if __name__ == '__main__':
    run(main)
