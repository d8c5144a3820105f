"""How far a run is: in place where a terminal shows it, and else a line at each new part and now and then between."""
import re
import shutil
import sys
import time

import evidence

# Seconds between two lines that tell of the same part. A laboratory keeps the output.
NOW_AND_THEN = 60


class Progress:
    def __init__(self, out=sys.stdout):
        self.out, self.in_place = out, out.isatty()
        self.shown, self.part, self.told_at = '', None, 0.0

    def line(self, text):
        """A line that stays."""
        self.clear()
        self.write(f'lab: {text}\n')

    def clear(self):
        """Takes away what stands in place; a terminal that is gone has nothing to take away."""
        if self.shown:
            try:
                self.write('\r' + ' ' * len(self.shown) + '\r')
            except OSError:
                pass
            self.shown = ''

    def step(self, text):
        self.line(f'{time.strftime("%H:%M:%S")}: {text}')

    def at(self, part, state):
        """How far a part is: its name, and where it stands now."""
        if self.in_place:
            text = f'lab: {state}'[:shutil.get_terminal_size().columns - 1]
            if text != self.shown:
                self.write('\r' + text.ljust(len(self.shown)))
                self.shown = text
        elif part != self.part or time.monotonic() - self.told_at >= NOW_AND_THEN:
            self.step(state)
            self.told_at = time.monotonic()
        self.part = part

    def write(self, text):
        self.out.write(text)
        self.out.flush()


class TestLog:
    """The log of ./test, as it grows."""

    PROVED = re.compile(r'rt: \w+ (proved$|is kept: )')
    BEGUN = re.compile(r'rt: \w+: trying its must-fail edits \((\d+)\)$')
    TOOK = re.compile(r'test: .* took \d+ s$')
    WRONG = re.compile(r'(rt: )?FAILED: |rt: .*(NOT PROVED|NOT REFUSED|NOT TRIED|BAD EDIT)')

    def __init__(self, root, path):
        self.path, self.at, self.rest = path, 0, ''
        self.crates, self.versions = len(evidence.crates_of(root)), len(evidence.wrong_versions_of(root))
        # The test names its parts as it ends them.
        self.parts = re.findall(r'\btook "([^"]+)"', evidence.text(root, 'test') or '')
        self.proved = self.begun = self.ended = 0
        self.last = 'it said nothing'

    def read_on(self):
        """Counts what is new, and gives the lines of it that say that something is wrong."""
        with open(self.path, 'rb') as file:
            file.seek(self.at)
            new = file.read()
        self.at += len(new)
        *lines, self.rest = (self.rest + new.decode('utf-8', 'replace')).split('\n')
        self.last = next((line for line in reversed(lines) if line.strip()), self.last)
        self.proved += sum(bool(self.PROVED.match(line)) for line in lines) if not self.ended else 0
        self.begun += sum(int(found[1]) for line in lines if (found := self.BEGUN.match(line)))
        self.ended += sum(bool(self.TOOK.match(line)) for line in lines)
        return [line for line in lines if self.WRONG.match(line)]

    def state(self):
        """The part that is running, and how far it is. Of a crate's wrong versions rt says only that it begins to try them, which is once the
        crate is proved."""
        if self.ended == 0 and self.proved < self.crates:
            return 'proofs', f'crates proved: {self.proved} of {self.crates}'
        if self.ended == 0:
            return 'wrong versions', f'wrong versions: {self.begun} of {self.versions} tried or being tried'
        left = self.parts[self.ended:]
        part = left[0].replace(', after those', '') if left else 'the end'
        return part, f'running: {part}'
