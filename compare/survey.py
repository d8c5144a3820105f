"""A capture looked over to its end: what it holds, in short, its digest, and every doubt."""
from command import number
from doubts import Doubts, of_name
from readers import Capture, Refused


class Survey:
    def __init__(self, file, name, raw=False, lone=False):
        capture = Capture(file, name, raw, lone)
        self.form, self.seen = capture.form, Doubts(capture.form)
        for item in capture:
            self.seen.see(item)
        if not self.seen.frames:
            raise Refused(f'no frame in it ({self.form}): {self.why_none()}')
        self.sha256, self.octets = capture.digest()
        self.doubts = [*of_name(name, capture, raw), *self.seen.lines()]

    def why_none(self):
        return '; '.join(self.seen.lines()) or 'nothing was captured'

    def sentence(self):
        seen = self.seen
        held = [number(seen.frames, 'frames')]
        held += [number(seen.packets, 'KISS packets')] if seen.packets else []
        held += [f'{seen.passed_over:,} passed over'] if seen.passed_over else []
        return f"{self.form}, {number(self.octets, 'octets')}: {', '.join(held)}"
