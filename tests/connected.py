#!/usr/bin/env python3
"""Records what two stations of direwolf send to each other in connected mode, once with sequence numbers modulo 128 and once modulo 8, and
prints it as tests/long reads it: one frame a line, in hex, and behind a '#' what direwolf, which sends it, calls it.

usage: connected.py DIREWOLF DIR >tests/c/connected.txt
       DIREWOLF is direwolf's program, DIR a folder to work in

Each station is a direwolf of its own, as tests/digipeater.py has it: no radio and no sound card is needed. What one prints as sent is made
into the sound that the other hears, and now and then it is lost on the way, so that it is asked for again. Programs that connect and send
text are played here, over direwolf's AGW port."""
import contextlib
import pathlib
import queue
import re
import struct
import subprocess
import sys
import threading
import time

sys.path.insert(0, str(pathlib.Path(__file__).resolve().parent / 'captures'))

from digipeater import ARATE, PATIENCE, SENT, SETTINGS, Trouble, dumps, sound, started
from outside import hex_line
from record import connected, free_port

STATIONS = ('BOX12-3', 'GAUGE')
# direwolf's settings for these: another callsign, a port for programs, and an answer that is waited for no longer than a second.
OWN = 'MYCALL {0}\nAGWPORT {1}\nKISSPORT 0\nFRACK 1\n'
# So that a link with the station of this name is modulo 8.
VERSION_2_0 = 'V20 {0}\n'
WORDS = re.compile(r'\[0[HL]\] (\S+>\S+:\(\w+ \w+(?:, [\w()]+=\w+)*\))')


class Station:
    """A direwolf that is given what the other one sends."""

    def __init__(self, name, direwolf, port):
        self.name, self.direwolf, self.to_hear, self.other = name, direwolf, queue.Queue(), None
        self.program = connected(port)
        self.told = queue.Queue()
        for work in (self.speak, self.hear, self.listen):
            threading.Thread(target=work, daemon=True).start()
        self.tell('X')

    def hear(self):
        """Silence is heard too: without sound direwolf's clock stands still."""
        silence = bytes(2 * ARATE // 100)
        with contextlib.suppress(OSError, ValueError):
            while True:
                try:
                    heard = sound(self.to_hear.get(timeout=0.01))
                except queue.Empty:
                    heard = silence
                self.direwolf.stdin.write(heard)
                self.direwolf.stdin.flush()

    def lines(self):
        self.words = ''
        for line in self.direwolf.stdout:
            line = line.decode('latin-1')
            found = WORDS.match(line)
            if found:
                self.words = found[1]
            yield line

    def speak(self):
        for event, octets in dumps(self.lines()):
            if event == SENT:
                self.other.receive(octets, self.words)

    def receive(self, octets, words):
        recorded.append((octets, words))
        if not lost(words):
            self.to_hear.put(octets)

    def tell(self, kind, data=b''):
        """A message of the AGW protocol: its kind, who it is from and for, and data."""
        other = '' if kind == 'X' else next(name for name in STATIONS if name != self.name)
        self.program.sendall(struct.pack('<B3xcxBx10s10sI4x', 0, kind.encode(), 0xF0, self.name.encode(), other.encode(), len(data)) + data)

    def listen(self):
        read = self.program.makefile('rb')
        while True:
            head = read.read(36)
            if len(head) < 36:
                return
            self.told.put((chr(head[4]), read.read(struct.unpack('<I', head[28:32])[0])))

    def wait(self, kind):
        try:
            while True:
                got, data = self.told.get(timeout=PATIENCE)
                if got == kind:
                    return data
        except queue.Empty:
            raise Trouble(f'{self.name} is told nothing of kind {kind} for {PATIENCE} seconds') from None


recorded, to_lose = [], []


def lost(words):
    """Whether this one, by what direwolf calls it, is one of those that are to be lost; each is lost once."""
    for wanted in to_lose:
        if wanted in words:
            to_lose.remove(wanted)
            return True
    return False


def link(program, folder, more, exchange):
    """What the two send from the connection to its end."""
    ports = [free_port(), free_port()]
    settings = SETTINGS.replace('AGWPORT 0\n', '').replace('MYCALL HILL1-2\n', '')
    with contextlib.ExitStack() as stack:
        processes = [stack.enter_context(started(program, folder, name, settings + OWN.format(name, port) + more.format(STATIONS[1])))
                     for name, port in zip(STATIONS, ports)]
        one, other = (Station(name, process, port) for name, process, port in zip(STATIONS, processes, ports))
        one.other, other.other = other, one
        one.wait('X'), other.wait('X')
        recorded.clear()
        one.tell('C')
        one.wait('C'), other.wait('C')
        exchange(one, other)
        one.tell('d')
        one.wait('d')
        return list(recorded)


def send(sender, receiver, texts, together=1):
    """So many texts at once, each a frame, and then the next when they have come."""
    for first in range(0, len(texts), together):
        for text in texts[first:first + together]:
            sender.tell('D', text)
        for text in texts[first:first + together]:
            if receiver.wait('D') != text:
                raise Trouble('what is received is not what was sent')
    time.sleep(0.5)


def long_exchange(one, other):
    """Over 128 frames one way, so that the numbers begin anew; some of the other way; one is lost, then three at once, then an answer."""
    to_lose[:] = ['n(s)=41, ', 'n(s)=70, ', 'n(s)=72, ', 'n(s)=73, ', 'RR res, n(r)=90, ']
    send(other, one, [b'%d' % number for number in range(3)])
    send(one, other, [b'%d' % number for number in range(40)], 10)
    send(one, other, [b'%d' % number for number in range(40, 64)], 8)
    send(one, other, [b'%d' % number for number in range(64, 80)], 16)
    send(one, other, [b'%d' % number for number in range(80, 90)], 10)
    time.sleep(4)  # for the answer that was lost one asks by a poll
    send(other, one, [b'%d' % number for number in range(3, 6)])
    send(one, other, [b'%d' % number for number in range(90, 132)], 14)
    send(other, one, [bytes(range(256))])


def short_exchange(one, other):
    """One is lost; modulo 8 the numbers begin anew soon."""
    to_lose[:] = ['n(s)=4, ']
    send(one, other, [b'%d' % number for number in range(12)], 4)
    send(other, one, [b'%d' % number for number in range(3)])


# What mode a link has, direwolf's settings for it, and what is sent.
LINKS = (('long', '', long_exchange), ('short', VERSION_2_0, short_exchange))


def main():
    if len(sys.argv) != 3:
        sys.exit(__doc__)
    program, folder = sys.argv[1], pathlib.Path(sys.argv[2]).resolve()
    version = subprocess.run([program, '-S'], capture_output=True, text=True).stdout
    version = re.search(r'Dire Wolf (?:DEVELOPMENT )?version ([\w.]+)', version)
    print('# Frames that two stations of direwolf sent to each other in connected mode: tests/connected.py made this with direwolf '
          f'{version[1] if version else "of an unknown version"},')
    print('# and no line was changed. One frame a line, each followed by what the direwolf that sent it calls it. tests/long reads it.')
    for mode, more, exchange in LINKS:
        frames = link(program, folder, more, exchange)
        print(f"\n## {mode}: sequence numbers modulo {128 if mode == 'long' else 8}")
        for octets, words in frames:
            print(f'{hex_line(octets)} # {words}')


if __name__ == '__main__':
    main()
