"""What the commands on captures share: the words that they are given, names and counts as they print them, and how they stop."""
import itertools
import os
import signal
import sys

# What a program ended by one of these leaves as its status, as a shell would.
SIGNALS = {signal.SIGINT: 130, signal.SIGTERM: 143, signal.SIGHUP: 129}


def shown(path):
    r"""A name as a field of one line, from which its octets can be told back: printable characters in UTF-8 stand as they are, a backslash
    as \\, and every other octet as \x and two hex digits."""
    text = os.fsencode(path).decode('utf-8', 'surrogateescape')
    return ''.join(map(shown_character, text)) if not text.isprintable() or '\\' in text else text


def shown_character(character):
    if character == '\\':
        return '\\\\'
    if character.isprintable():
        return character
    return ''.join(f'\\x{octet:02X}' for octet in character.encode('utf-8', 'surrogateescape'))


def number(count, what):
    """A count of things, whose name is given for many."""
    return f'{count:,} {what}' if count != 1 else f'1 {what[:-1]}'


def write(stream, text):
    """UTF-8, whatever the host's language is."""
    stream.buffer.write(f'{text}\n'.encode())


def open_streams():
    """A stream that whoever started the program closed leads nowhere, and is no reason to stop."""
    for name in ('stdout', 'stderr'):
        if getattr(sys, name) is None:
            setattr(sys, name, open(os.devnull, 'w', encoding='utf-8'))


class Stop(Exception):
    """Why a program ends with status 2, in words."""


def complain(message):
    sys.stdout.flush()
    write(sys.stderr, message)
    sys.stderr.flush()


def run(main, name=''):
    """Runs a program, which puts its name before what it complains of. A signal ends it by an exception, so that what it started ends too; a
    reader that goes away ends it without a word, as it ends other programs."""
    open_streams()
    for number, status in SIGNALS.items():
        if signal.getsignal(number) != signal.SIG_IGN:
            signal.signal(number, lambda *_, status=status: sys.exit(status))
    try:
        status = main()
        sys.stdout.flush()
    except Stop as why:
        complain(f'{name}{why}')
        status = 2
    except OSError as why:
        # What is left to be written is thrown away, so that Python does not complain of it at the end.
        os.dup2(os.open(os.devnull, os.O_WRONLY), sys.stdout.fileno())
        status = 128 + signal.SIGPIPE if isinstance(why, BrokenPipeError) else 2
        if status == 2:
            complain(f"{name}it can't go on: {why}")
    sys.exit(status)


def arguments(words, known=(), alone=None, stations=None):
    """The captures that the words name, each with whether it is asked for as a raw frame; and the values of other options. After -- every
    word is a file. Where --raw is the last word, `alone` is what is read so, if it is given. `stations` is an option that takes two."""
    captures, values = [], {}
    words = iter(words)
    for word in words:
        if word == '--':
            captures += [(path, False) for path in words]
        elif word == '--raw' or word in known:
            value = next(words, alone if word == '--raw' else None)
            if value is None:
                raise Stop(f'{word} wants a file')
            if word == '--raw':
                captures.append((value, True))
            else:
                values[word] = value
        elif stations and word == stations:
            values[word] = list(itertools.islice(words, 2))
            if len(values[word]) < 2:
                raise Stop(f'{word} wants two stations, A and B, as VK7NTK-5, before the files')
        elif word.startswith('-') and word != alone:
            others = ' '.join(['--raw', *known, *([stations] if stations else [])])
            raise Stop(f'no option {shown(word)}; there are: {others} (a file of such a name: ./{shown(word)}, or behind --)')
        else:
            captures.append((word, False))
    return captures, values
