"""A small tree in which ./lab runs: what it needs, two crates and stand-ins for the test and for the comparison."""
import glob
import json
import os
import shutil
import subprocess
import sys
import time

from held import ENVIRONMENT, ROOT, git, read, write
from madeup import BENCH, COMPARED, ON_CAPTURES

COPIED = ('lab', 'laboratory', 'compare', 'tests/captures', 'docs/DIFFERENCES.md', 'docs/PERFORMANCE.md', '.gitignore', 'kit.txt')

# It does what STANDIN asks for, and leaves in MARKS that it ran and what it started.
TEST = r'''#!/bin/sh
cd "$(dirname "$0")" || exit 1
echo "$$" >>"$MARKS/ran"
took() { printf 'test: %s took 1 s\n' "$1"; }
case ${STANDIN-} in
hang)
    trap 'rm -f "$MARKS/scratch"' EXIT
    trap 'exit 143' TERM
    echo >"$MARKS/scratch"
    mktemp >/dev/null
    mkdir dist && echo >dist/made
    sleep 600 & echo $! >>"$MARKS/ran"
    (setsid sleep 600 & echo $! >>"$MARKS/ran")
    echo 'rt: one proved'
    echo >"$MARKS/hangs"
    wait
    ;;
early)
    echo "FAILED: the kit's logic is another"
    echo '0 passed, 1 failed'
    exit 1
    ;;
edit) echo >>kit-notes.txt ;;
slow) sleep 0.5 ;;
esac
[ "$*" = --anew ] || exit 1
printf '== one\nlogic=proved functions=3 sum=0\nrt: one proved\n== two\nlogic=proved functions=4 sum=0\nrt: two proved\n'
echo 'rt: must-fail one/wrong.edit: refused, as it must be: note: src/lib.rt:1:1: it is not proved'
printf 'ok: rt ci\nok: no verdict rests on a check of an earlier run\n'
took "the proofs, the wrong versions and the programs"
echo 'skipped: valgrind: it is not on this host'
mkdir -p dist target/compare
printf archive >dist/libax25frame.a
printf header >dist/ax25.h
printf dumper >dist/dumper
printf follow >dist/follow
cp tests/standin-compare target/compare/compare
cp "$MARKS/compared.json" target/compare/test.json
: >target/compare/differences.txt
took "the documents and the build"
printf 'ok: ax25_decode can use at most 88 octets of stack\nok: the comparison\n9 passed, 0 failed\n'
'''

# Counts what captures.py read.
COMPARE = r'''#!PYTHON
import json, os, sys
words = sys.argv[1:]
leave = words[words.index('--json') + 1]
if words[0] == 'bench':
    json.dump(json.load(open(os.environ['MARKS'] + '/bench.json')), open(leave, 'w'))
    sys.exit()
part = json.load(open(os.environ['MARKS'] + '/on-captures.json'))
for line in open(words[1], encoding='utf-8'):
    kind, *fields = line.rstrip('\n').split('\t')
    if kind == 'capture':
        part['captures'].append({'file': fields[0], 'format': fields[1], 'frames': 0, 'packets': 0, 'passed_over': [],
                                 'accepted': 0, 'canonical': 0, 'reasons': dict.fromkeys(part['reasons'], 0),
                                 'in_one_call': {'calls': 1, 'records': 0, 'refused': 0, 'kinds': {'I': 0}},
                                 'links': dict.fromkeys(part['links'], 0)})
    elif kind in ('frame', 'packet'):
        part['captures'][-1][kind + 's'] += 1
        part['captures'][-1]['in_one_call']['records'] += kind == 'frame'
    elif kind == 'end':
        part['captures'][-1].update(sha256=fields[0], octets=int(fields[1]))
json.dump(part, open(leave, 'w'))
open(words[words.index('--differences') + 1], 'w').close()
'''


def small_tree(at):
    """In a repository of its own."""
    for name in COPIED:
        into = os.path.join(at, name)
        os.makedirs(os.path.dirname(into), exist_ok=True)
        if os.path.isdir(os.path.join(ROOT, name)):
            shutil.copytree(os.path.join(ROOT, name), into, ignore=shutil.ignore_patterns('__pycache__'))
        else:
            shutil.copy2(os.path.join(ROOT, name), into)
    # A list that is long there: that of the samples.
    run = read(f'{at}/laboratory/run.py')
    write(f'{at}/laboratory/run.py', run.replace('LONGEST_LIST = 100_000_000', 'LONGEST_LIST = 50_000'))
    # No compiler is looked for there, nor fetched.
    stubs = 'need_rustc() { RUSTC_X86=true; }\nneed_cc() { CC_X86=true; }\n'
    write(f'{at}/tests/tools.sh', read(f'{ROOT}/tests/tools.sh') + stubs)
    write(f'{at}/crates.txt', 'one:\n# The second.\ntwo: one\n')
    write(f'{at}/crates/one/must-fail/wrong.edit', 'file: src/lib.rt\n')
    write(f'{at}/kit-notes.txt', 'as committed\n')
    write(f'{at}/VERSION', '1.0.0\n')
    write(f'{at}/test', TEST, 0o755)
    write(f'{at}/tests/standin-compare', COMPARE.replace('PYTHON', sys.executable), 0o755)
    git(at, 'init', '-q', '-b', 'main')
    git(at, 'add', '-A')
    git(at, 'commit', '-q', '-m', 'small')
    return at


class Lab:
    """./lab in a small tree, with a folder for what the stand-ins take and leave."""

    def __init__(self, work, name):
        self.tree, self.marks = small_tree(f'{work}/{name}'), f'{work}/{name}-marks'
        os.makedirs(f'{self.marks}/tmp')
        for file, part in (('compared', COMPARED), ('on-captures', ON_CAPTURES), ('bench', BENCH)):
            write(f'{self.marks}/{file}.json', json.dumps(part))

    def words(self, *words, standin='', **environment):
        return {'args': ['./lab', *words], 'cwd': self.tree, 'env': {
            **ENVIRONMENT, 'MARKS': self.marks, 'STANDIN': standin, 'TMPDIR': f'{self.marks}/tmp', **environment}}

    def run(self, *words, **more):
        """The exit status and what was printed."""
        done = subprocess.run(**self.words(*words, **more), stdout=subprocess.PIPE, stderr=subprocess.STDOUT, timeout=120)
        return done.returncode, done.stdout.decode('utf-8', 'replace')

    def run_unread(self):
        """The exit status and what was printed on standard error of a run whose output nobody reads."""
        near, far = os.pipe()
        os.close(near)
        done = subprocess.run(**self.words(), stdout=far, stderr=subprocess.PIPE, timeout=120)
        os.close(far)
        return done.returncode, done.stderr.decode('utf-8', 'replace')

    def begin(self, **more):
        """A run that hangs in the test. Whoever runs this may ignore signals (nohup, &), which the run is not to inherit here."""
        words = self.words(standin='hang', **more)
        words['args'] = ['env', '--default-signal=HUP,INT,TERM', *words['args']]
        process = subprocess.Popen(**words, stdout=subprocess.PIPE, stderr=subprocess.STDOUT)
        wait_for(lambda: os.path.exists(f'{self.marks}/hangs') or process.poll() is not None)
        return process

    def ran(self):
        return os.path.exists(f'{self.marks}/ran')

    def alive(self):
        """What the stand-in started and has not ended."""
        return [pid for pid in map(int, read(f'{self.marks}/ran').split()) if is_alive(pid)]

    def folders(self):
        return sorted(os.path.basename(path) for path in glob.glob(glob.escape(self.tree) + '/lab-*'))

    def forget(self):
        for name in ('ran', 'hangs'):
            if os.path.exists(f'{self.marks}/{name}'):
                os.remove(f'{self.marks}/{name}')
        for folder in self.folders():
            shutil.rmtree(f'{self.tree}/{folder}')

    def report(self):
        return json.loads(read(f'{self.tree}/{self.folders()[-1]}/report.json'))


def is_alive(pid):
    try:
        with open(f'/proc/{pid}/stat', 'rb') as file:
            return file.read().rpartition(b')')[2].split()[0] not in b'ZX'
    except OSError:
        return False


def wait_for(condition, seconds=30):
    until = time.monotonic() + seconds
    while not condition() and time.monotonic() < until:
        time.sleep(0.02)
