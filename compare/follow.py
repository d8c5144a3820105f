"""Captures given to dist/follow as one KISS stream, and where the frames that it counts stand in them. ./look --follow prints it."""
import subprocess
import tempfile

from readers import FEND, Frame, Packet, escaped

MOST = 65535  # so many frames are offered
STREAM_LIMIT = 1024  # of the data of a packet that the stream gives out
CUT = 53  # the number of what no C0 ends


def has_packets(capture):
    """Whether what it holds are KISS packets, and not bare frames."""
    return capture.form == 'KISS log' or capture.form.endswith('link type 202')


def packets(capture):
    """The packets that go into the stream, each with the place of its frame and how long that is; of one that is no frame, no place. A KISS
    packet goes in as it is, so that what is wrong with it is dropped there and counted, but for one that no C0 ends: what follows in the next
    file would be taken for the rest of it. Any other frame goes into a packet of its own."""
    kiss = has_packets(capture)
    for item in capture:
        if kiss and isinstance(item, Packet) and item.number != CUT:
            yield item.octets, None if item.number else f'{item.place}, port {item.port}', len(item.data)
        elif not kiss and isinstance(item, Frame):
            yield FEND + b'\0' + escaped(item.octets) + FEND, item.place, len(item.octets)


class Following:
    """A run of dist/follow. `places` has where each frame stands that it can count, from the first on."""

    def __init__(self, command, stations):
        self.printed, self.places, self.given, self.reads = tempfile.TemporaryFile(), [], 0, True
        self.program = subprocess.Popen([*command, *stations], stdin=subprocess.PIPE, stdout=self.printed, stderr=subprocess.DEVNULL)

    def give(self, octets):
        try:
            self.program.stdin.write(octets)
        except BrokenPipeError:
            self.reads = False  # it ended, and what it printed says why

    def take(self, name, capture):
        """Gives it a capture. What comes back are the places of the frames that the stream drops because they are too long."""
        long = []
        for octets, place, length in packets(capture):
            if not self.reads:
                break
            self.give(octets)
            if place and length > STREAM_LIMIT:
                long.append(place)
            elif place:
                self.given += 1
                self.places += [(name, place)] if self.given <= MOST else []
        return long

    def lines(self):
        """What it printed."""
        try:
            self.program.stdin.close()
        except BrokenPipeError:
            pass
        self.program.wait()
        self.printed.seek(0)
        return self.printed.read().decode('ascii').splitlines()
