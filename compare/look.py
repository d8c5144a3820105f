"""Prints the frames of captures by the dumper, each under a line with its place, and behind a number that is not 0 what it means and what to
do, in docs/NUMBERS.md's words, and behind a reason what that means; or follows the link that they recorded between two stations. ./look
starts it and says what it does. Its own lines start with '#'; all others are the dumper's, or follow's."""
import os
import re
import sys

sys.dont_write_bytecode = True

import dumper
from command import Stop, arguments, complain, number, run, shown, write
from follow import MOST, STREAM_LIMIT, Following, has_packets
from readers import Capture, Frame, Refused, copied, opened
from reasons import MEANINGS
from survey import Survey

INPUT, NAMELESS = '-', 'standard input'
MANY = 1000
HINT = ('look: reading from the terminal: type or paste frames in hex, one a line, and then Ctrl-D at the start of a line '
        '(./look FILE reads a file, ./look --help says more)')


def numbers():
    """What docs/NUMBERS.md says of each number: its name, what it means, what to do."""
    try:
        with open(os.path.join(dumper.ROOT, 'docs', 'NUMBERS.md'), encoding='utf-8') as page:
            rows = re.findall(r'^\| (\d+) \| `?(\w+)`? \| (.*?) \| (.*?) \|$', page.read(), re.M)
    except OSError:
        return {}
    return {row[0]: row[1:] for row in rows}


def say(text):
    write(sys.stdout, f'# {text}')


def standard_input(raw):
    if sys.stdin is None:
        raise Refused('it is closed: name a file')
    if sys.stdin.isatty():
        if raw:
            raise Refused('--raw is for a file or a pipe: frames are typed in hex, without --raw')
        complain(HINT)
    with open(sys.stdin.fileno(), 'rb', buffering=0, closefd=False) as pipe:
        file = copied(pipe)
    if not file.read(1):
        raise Refused('nothing came: name a file, or give one on standard input (./look <FILE)')
    file.seek(0)
    return file


def say_number(said, words):
    name, means, to_do = words.get(said, ('no row in docs/NUMBERS.md', 'not said', 'not said'))
    say(f'{said} ({name}): {means}')
    say(f'What to do: {to_do}')


def explain(answer, words):
    """The words of an answer that is not 0, or of the reason why a frame is not canonical."""
    said = re.match(rb'answer=(\d+)\n', answer)
    if not said:
        raise Stop('the dumper gave no answer')
    if said[1] != b'0':
        say_number(said[1].decode(), words)
    reason = re.search(rb'^reason=(\w+)\n', answer, re.M)
    if reason and (means := MEANINGS.get(reason[1].decode())):
        say(f'not canonical: {means}')


def show(name, frame, answer, words):
    write(sys.stdout, '')
    say(f"{name}, {frame.place}: {number(len(frame.octets), 'octets')}")
    sys.stdout.buffer.write(answer)
    explain(answer, words)
    sys.stdout.flush()


def surveyed(file, path, raw):
    """The name of a capture, how many frames it holds, and the capture itself, to be gone over once more. It is gone over first, so that of one
    that can't be read nothing is printed."""
    lone = path == INPUT
    name, told_by = (NAMELESS, '') if lone else (shown(path), path)
    survey = Survey(file, told_by, raw, lone)
    say(f'{name}: {survey.sentence()}')
    for doubt in survey.doubts:
        say(f'doubt: {doubt}')
    file.seek(0)
    return name, survey.seen.frames, Capture(file, told_by, raw, lone)


def look(file, path, raw, command, words):
    """Prints one capture."""
    name, frames, capture = surveyed(file, path, raw)
    if frames > MANY:
        say(f'{frames:,} frames follow: ./look .. | less shows them page by page, and q ends it')
    for item in capture:
        if isinstance(item, Frame):
            show(name, item, dumper.prints(command, item.octets), words)
    write(sys.stdout, '')


def each(captures, show_one):
    """Shows every capture that can be read, and says why of the others."""
    status = 0
    for path, raw in captures or [(INPUT, False)]:
        try:
            with standard_input(raw) if path == INPUT else opened(path, pipes=True) as file:
                show_one(file, path, raw)
        except Refused as why:
            complain(f'look: {NAMELESS if path == INPUT else shown(path)}: {why}')
            status = 2
    return status


def take(following, file, path, raw):
    """Gives one capture to be followed, and says which frames are its own in the count."""
    name, _, capture = surveyed(file, path, raw)
    first = following.given + 1
    long = following.take(name, capture)
    if long and not has_packets(capture):
        say(f"doubt: {number(len(long), 'frames')} of more than {STREAM_LIMIT:,} octets ({long[0]}): the stream drops these, and does not count them")
    if following.given >= first:
        say(f'{name}: frames {first:,} to {following.given:,}' if following.given > first else f'{name}: frame {first:,}')
    if following.given > MOST:
        say(f'doubt: no more than {MOST:,} frames are counted: cut the recording')


def follow(captures, stations, command, words):
    """Follows the link between two stations through all captures, as if they were one."""
    refused = dumper.prints([*command, *stations], b'')
    if refused.startswith(b'answer='):
        sys.stdout.buffer.write(refused)
        which = next(letter for letter, text in zip('AB', stations) if dumper.prints([*command, text, text], b'').startswith(b'answer='))
        say(f'{which} is no station: {shown(stations[which == "B"])}')
        say_number(refused[7:].decode().strip(), words)
        return 2
    following = Following(command, stations)
    status = each(captures, lambda file, path, raw: take(following, file, path, raw))
    lines = following.lines()
    if not following.given:
        return status
    write(sys.stdout, '')
    for line in lines:
        write(sys.stdout, line)
        key, _, value = line.partition('=')
        if key == 'gap':
            place = int(value.partition(' ')[0])
            say(f"gap {place} is {', '.join(following.places[place - 1])}")
        elif key == 'answer':
            say_number(value, words)
    return status


def main():
    captures, values = arguments(sys.argv[1:], alone=INPUT, stations='--follow')
    stations = values.get('--follow')
    try:
        command = dumper.found(dumper.FOLLOW, dumper.FOLLOW_TRIAL) if stations else dumper.found()
    except dumper.NoDumper as why:
        raise Stop(why) from None
    words = numbers()
    if stations:
        return follow(captures, stations, command, words)
    return each(captures, lambda file, path, raw: look(file, path, raw, command, words))


run(main, 'look: ')
