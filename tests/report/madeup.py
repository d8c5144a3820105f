"""Results of a run that holds, made up, to be changed."""
import copy
import hashlib
import json
import shutil

import report
from held import ROOT, read, write

COMMON = {
    'classes': [{'name': 'octets: every string of 0 to 2', 'inputs': 65793, 'mismatches': 0}],
    'mismatches': 0, 'mismatches_shown': [], 'mismatches_written': 0, 'archive': hashlib.sha256(b'archive').hexdigest(),
    'decodes': 9, 'writes': 8, 'relays': 7, 'relayed': 6,
    'canonical': 4, 'accepted': 7, 'reasons': {'leftover': 0, 'marks': 2, 'tail': 1, 'fixed': 0},
    'decode_numbers': {'0': 7, '1': 2}, 'old_capture_numbers': {'0': 7, '1': 2}, 'packet_numbers': {'0': 3, '54': 2, '56': 0},
    'records': {'calls': 3, 'records': 12, 'refused': 4, 'kinds': {'RR': 0, 'UI': 7}, 'not_inside': 1},
    'offers': {'offers': 2000, 'in_order': 1500, 'repeated': 3, 'gaps': 2, 'outside': 1},
    'kiss_streams': {'streams': 1, 'octets': 2, 'packets': 3, 'dropped': 4}, 'kinds': {'UI': 7}, 'rooms': {'exactly full': 2, 'shorter': 1},
    'listed': {'B1': 3, 'B4': 5, 'B5': 0}, 'pairs': {'re-encoded as that': {'the same octets': 2}, 'met with the same frame and info': {}},
}
COMPARED = {**COMMON, 'only_port': {'B6': 1, 'B7': 2}, 'seed': 25, 'scale': 1}
ON_CAPTURES = {**COMMON, 'frames_again': 1, 'neither_canonical': 0, 'not_remembered': 0, 'leading_nulls': 0, 'relayed_routes': 2,
               'in_one_call': {'calls': 1, 'records': 9, 'refused': 2, 'kinds': {'RR': 0, 'UI': 7}},
               'links': {'followed': 6, 'in_order': 5, 'repeated': 4, 'gaps': 3, 'outside': 2, 'not_followed': 1},
               'captures': [], 'refused_captures': [], 'listed': {'B1': 2, 'B4': 7, 'B8': 1}}
BENCH = {'bench': [{'input': 'UI', 'call': 'decode', 'port_ns': 1.0, 'rust_ns': 9.0, 'ratio': 9.0}]}
MISMATCH = {'class': 'octets', 'input': '8e82|`<&', 'again': "compare one '8e82'", 'differences': [{'what': 'number', 'owed': '3', 'port': '4'}]}

LOG = '''== one: its tests
axioms libc: libc::exit (1 of the 128 declared)
logic=proved tests=1 functions=9 axioms=1 sum=0
rt: one: its tests are proved
== one
axioms libc: libc::read, libc::write, libc::heap::rattle_alloc, ... (6 of the 128 declared)
axioms std: none reached of the 2 declared
logic=proved functions=3 axioms=6 sum=0
rt: one proved
rt: one: trying its must-fail edits (1)
== two
logic=proved functions=4 sum=0
rt: two proved
rt: must-fail one/wrong.edit: refused, as it must be: note: src/lib.rt:1:1: it is not proved
ok: rt ci
ok: each wrong version was refused: 1 refused
ok: no verdict rests on a check of an earlier run
skipped: valgrind: it is not on this host
ok: ax25_decode can use at most 88 octets of stack
ok: the comparison
9 passed, 0 failed
'''
# A name with all that Markdown or HTML could take for a mark.
ODD = 'a | b|`c`<d>&amp;*e*_f_\\\\g\\xFF [h](i).pcap'
CAPTURE = {'file': f'/tmp/{ODD}', 'format': 'KISS log', 'octets': 1234, 'sha256': 'ab' * 32, 'frames': 3, 'packets': 4, 'passed_over': 1,
           'doubts': ['one | doubt']}
# What came of its frames.
COUNTED = {'accepted': 2, 'canonical': 1, 'reasons': {'leftover': 0, 'marks': 0, 'tail': 1, 'fixed': 0},
           'in_one_call': {'calls': 1, 'records': 3, 'refused': 1, 'kinds': {'I': 0, 'RR': 1, 'UI': 1}},
           'links': {'followed': 0, 'in_order': 0, 'repeated': 0, 'gaps': 0, 'outside': 0, 'not_followed': 0}}
SOURCES = {'sha256': 'cd' * 32, 'files': 2, 'commit': 'ef' * 20, 'as_committed': True, 'why_unknown': None, 'changed': [],
           'changed_while_running': False}
CRATE = {'name': 'ax25 0.4.0', 'files': {'src/lib.rs': '12' * 32}, 'as_published': True, 'departs': []}
RUN = {
    'component': 'ax25frame', 'version': '1.0.0', 'began': '2026-01-02 03:04:05+01:00', 'ended': '2026-01-02 03:24:05+01:00',
    'host': {'name': 'desk', 'machine': 'x86_64', 'processor': 'P', 'processors': 2, 'memory_mb': 4096, 'kernel': 'Linux 6', 'system': 'Debian'},
    'kit': {'version': 'kit logic 01ab', 'pinned': 'kit logic 01ab'},
    'compilers': {'rustc': 'rustc 1', 'c': 'cc 12', 'clang': 'clang 22', 'python': '3.11'},
    'sources': SOURCES, 'rust_crate': CRATE, 'samples': False,
    'delivered': {'libax25frame.a': COMMON['archive'], 'ax25.h': '34' * 32, 'dumper': '56' * 32, 'follow': '78' * 32},
}


class Results:
    """The folder of a run and what is known beside it."""

    def __init__(self, work):
        self.root, self.folder = f'{work}/results-root', f'{work}/results'
        shutil.rmtree(self.folder, ignore_errors=True)
        write(f'{self.root}/crates.txt', 'one:\ntwo: one\n')
        write(f'{self.root}/crates/one/must-fail/wrong.edit', '')
        write(f'{self.root}/docs/DIFFERENCES.md', read(f'{ROOT}/docs/DIFFERENCES.md'))
        self.run, self.log, self.checked = copy.deepcopy(RUN), LOG, {'captures': [copy.deepcopy(CAPTURE)]}
        self.compared, self.captures = copy.deepcopy(COMPARED), copy.deepcopy(ON_CAPTURES)
        self.captures['captures'] = [{**CAPTURE, **copy.deepcopy(COUNTED), 'passed_over': ['octet 3: why']}]
        del self.captures['captures'][0]['doubts']

    def made(self):
        """The report, which is then in the folder too."""
        parts = {'checked.json': self.checked, 'bench.json': BENCH, 'compared.json': self.compared, 'captures.json': self.captures}
        for name, part in parts.items():
            if part is not None:
                write(f'{self.folder}/{name}', json.dumps(part))
        for name, text in (('test.log', self.log), ('differences-test.txt', ''), ('differences-captures.txt', '')):
            write(f'{self.folder}/{name}', text)
        made = report.made(self.root, self.folder, self.run)
        report.write(self.folder, made)
        return made

    def page(self, name):
        return read(f'{self.folder}/report.{name}')
