"""The laboratory's run. ./lab starts it and says what it does."""
import datetime
import glob
import os
import re
import shutil
import subprocess
import sys
import tempfile
import time

ROOT = os.path.dirname(os.path.dirname(os.path.realpath(__file__)))
# What reads captures has the words for their names.
sys.path.insert(1, os.path.join(ROOT, 'compare'))

import document
import evidence
import host
import processes
import report
import sources
from command import open_streams, shown
from progress import Progress, TestLog
from verdict import many, some

COMPONENT = 'ax25frame'
# Only a whole report gets a folder with the day's date.
UNFINISHED = 'lab-unfinished'
DELIVERED = ('libax25frame.a', 'ax25.h', 'dumper', 'follow')
# What the report takes from outside its folder: dist/, which an earlier build may have left, and which is put back where the run does not
# come to its end, and this folder. Neither is there when the test begins, so that what is taken is of this run.
TAKEN = 'target/compare'
ASIDE = 'dist-before'
SAMPLES = ('*.pcap', '*.kiss', '*.hex', '*.raw')
# How many octets of what was read from the captures are kept beside the report. It can be read again from the captures.
LONGEST_LIST = 100_000_000


class Refused(Exception):
    """Why nothing is run."""


def below(*names):
    return os.path.join(ROOT, *names)


def arguments(words):
    """Whether the captures are only to be looked over, and the words that name them, with the options of theirs."""
    check, named, left = False, [], iter(words)
    for word in left:
        if word == '--':
            files = list(left)
            return check, [*named, word, *files] if files else named
        if word == '--check':
            check = True
            continue
        if word.startswith('-') and word != '--raw':
            there = f'there are --check, --raw FILE and --help (a file of such a name: ./{shown(word)}, or behind --)'
            raise Refused(f'no option {shown(word)}; {there}')
        named.append(word)
        if word == '--raw':
            file = next(left, None)
            if file is None:
                raise Refused('--raw wants a file')
            named.append(file)
    return check, named


def samples():
    return [path for kind in SAMPLES for path in sorted(glob.glob(os.path.join(glob.escape(below('tests', 'captures')), kind)))]


def read_captures(mode, *words, **more):
    """The exit status of the reader of captures, by a signal as a shell has it."""
    status = subprocess.run([sys.executable, '-B', below('compare', 'captures.py'), mode, *words], **more).returncode
    return status if status >= 0 else 128 - status


def is_kit():
    """The words of tests/tools.sh where the rt on the PATH is none of a Rattle kit, or has another logic than the pinned one."""
    words = ['sh', '-c', 'root=$1; . "$1/tests/tools.sh"; tools_rattle', 'lab', ROOT]
    asked = subprocess.run(words, capture_output=True, stdin=subprocess.DEVNULL)
    if asked.returncode:
        raise Refused(asked.stdout.decode('utf-8', 'replace').strip())


def remove(path):
    """A file or a folder; where it can't be removed, what it holds might be taken for this run's."""
    try:
        if os.path.isdir(path) and not os.path.islink(path):
            shutil.rmtree(path)
        elif os.path.lexists(path):
            os.remove(path)
    except OSError as why:
        raise Refused(f"{path}, of an earlier run, can't be removed: {why.strerror}") from None


def now():
    return datetime.datetime.now().astimezone().isoformat(sep=' ', timespec='seconds')


def usual_time():
    """How long ./test took when that was measured last on such a machine."""
    page = evidence.text(ROOT, 'docs/PERFORMANCE.md') or ''
    part = re.search(rf'<!-- figures parts {os.uname().machine} -->(.*?)<!-- end -->', page, re.S)
    found = re.search(r'on (\d+) cores.*\| all of `\./test` \| (.*?) \|', part[1], re.S) if part else None
    return f'it took {found[2]} on {found[1]} cores when it was measured last, with the kit of then' if found else 'it takes a quarter of an hour or so'


class Run:
    def __init__(self, words, given, lock):
        self.words, self.given, self.lock = words, given, lock
        self.folder = below(UNFINISHED)
        # Of the commands that are run: one that is stopped may leave something there. Where rt is root, nobody runs programs below it.
        self.scratch = tempfile.mkdtemp(prefix='ax25-lab-')
        os.chmod(self.scratch, 0o711)
        self.progress = Progress()
        self.began, self.testing = now(), False

    def left(self, name):
        return os.path.join(self.folder, name)

    def begun(self, words, log, **more):
        """A command of the run, in a session of its own, so that an interruption reaches it from here alone."""
        environment = {**os.environ, 'TMPDIR': self.scratch}
        return subprocess.Popen(words, cwd=ROOT, stdin=subprocess.DEVNULL, stdout=log, start_new_session=True, pass_fds=(self.lock,),
                                env=environment, **more)

    def prepare(self, checked):
        if os.path.lexists(self.folder):
            self.progress.line(f'{UNFINISHED}/, of a run that did not come to its end, is removed')
        remove(self.folder)
        os.mkdir(self.folder)
        shutil.copyfile(checked, self.left('checked.json'))
        listed, self.sources = sources.sources(ROOT)
        with open(self.left('sources.sha256'), 'wb') as file:
            file.write(listed)
        self.crate = sources.rust_crate(ROOT)
        self.progress.step('reading the captures')
        # What is compared later is what is read now, whatever becomes of the files meanwhile.
        with open(self.left('frames.txt'), 'wb') as file:
            if read_captures('read', *self.words, stdout=file):
                raise Refused('the captures can no longer be read')
        remove(below(TAKEN))
        if os.path.lexists(below('dist')):
            os.rename(below('dist'), self.left(ASIDE))

    def put_back(self):
        """Leaves the tree as it was found, but for target/ and what rt keeps in crates/, after a run that did not come to its end."""
        aside = os.path.lexists(self.left(ASIDE))
        if aside or self.testing:
            remove(below('dist'))
        if aside:
            os.rename(self.left(ASIDE), below('dist'))
        shutil.rmtree(self.folder, ignore_errors=True)

    def warn(self):
        """What will keep the report from holding is said before the wait."""
        if self.sources['as_committed'] is None:
            self.progress.line(f"the report can't show that the sources are as committed: {self.sources['why_unknown']}")
        elif not self.sources['as_committed']:
            names = [change['file'] for change in self.sources['changed']]
            self.progress.line(f'the sources are not as committed, and the report will say so: {some(names)}')
        if not self.crate['as_published']:
            self.progress.line(f"the Rust crate is not as published, and the report will say so: {', '.join(self.crate['departs'])}")

    def test(self):
        log = TestLog(ROOT, self.left('test.log'))
        self.progress.step(f'1 of 4: proving and testing the sources: {usual_time()}. The log grows in {UNFINISHED}/test.log')
        self.testing = True
        with open(log.path, 'wb') as file:
            # All of it is done anew, whatever this machine has proved before.
            process = self.begun(['./test', '--anew'], file, stderr=subprocess.STDOUT)
        running = True
        while running:
            running = process.poll() is None
            for line in log.read_on():
                self.progress.line(line)
            if running:
                self.progress.at(*log.state())
                time.sleep(0.2)
        self.progress.line(f'./test: {log.last}')
        for taken, name in (('test.json', 'compared.json'), ('differences.txt', 'differences-test.txt')):
            if os.path.exists(below('target', 'compare', taken)):
                shutil.copyfile(below('target', 'compare', taken), self.left(name))

    def compare(self):
        # By names from the tree's top: the comparison takes no word that is no UTF-8, and the tree may stand anywhere.
        compare = 'target/compare/compare'
        if not os.access(below(compare), os.X_OK):
            self.progress.step('2 and 3 of 4: left out, because the comparison could not be built')
            return
        captures = evidence.parsed(self.folder, 'checked.json')['captures']
        frames = sum(capture['frames'] for capture in captures)
        self.progress.step(f"2 of 4: the Rust beside the port on {many(len(captures), 'capture')}, {many(frames, 'frame')}")
        self.logged('captures', [compare, 'frames', f'{UNFINISHED}/frames.txt', '--of', str(frames), '--json', f'{UNFINISHED}/captures.json',
                                 '--differences', f'{UNFINISHED}/differences-captures.txt'])
        self.progress.step('3 of 4: times, for a minute or so')
        self.logged('bench', [compare, 'bench', '--json', f'{UNFINISHED}/bench.json'])

    def logged(self, name, words):
        """What a command prints goes to a log in the folder. How far it is, or why it stops, it says on standard error."""
        with open(self.left(name + '.log'), 'wb') as file:
            failed = self.begun(words, file).wait()
        if failed:
            lines = (evidence.text(self.folder, name + '.log') or '').rstrip().splitlines() or ['nothing']
            self.progress.line(f'FAILED: the last line of {name}.log is: {lines[-1]}')

    def facts(self):
        """What the report says beside what the folder holds."""
        _, after = sources.sources(ROOT)
        return {
            'component': COMPONENT,
            'version': (evidence.text(ROOT, 'VERSION') or '').strip() or None,
            'began': self.began,
            'ended': now(),
            'host': host.host(),
            'kit': host.kit(ROOT),
            'compilers': host.compilers(ROOT),
            'sources': {**self.sources, 'changed_while_running': after != self.sources},
            'rust_crate': self.crate,
            'delivered': {name: sources.digest_of(below('dist', name)) for name in DELIVERED},
            'samples': not self.given,
        }

    def finish(self):
        """The report, and only then a name under which it may be taken for one."""
        self.progress.step('4 of 4: the report')
        made = report.made(ROOT, self.folder, self.facts())
        report.write(self.folder, made)
        if os.path.getsize(self.left('frames.txt')) > LONGEST_LIST:
            os.remove(self.left('frames.txt'))
        remove(self.left(ASIDE))
        processes.ignore_signals()
        day, n = time.strftime('%Y-%m-%d'), 1
        while os.path.lexists(below(name := f'lab-{day}' + (f'-{n}' if n > 1 else ''))):
            n += 1
        os.rename(self.folder, below(name))
        for part in made['verdict']['parts'] + [made['verdict']['sources']]:
            self.progress.line(f"{part['title']}: {document.YES_NO[part['holds']]}: {part['reason']}")
        self.progress.line(f"{made['verdict']['words']} {', '.join(f'{name}/{file}' for file in report.FILES)}")
        return made['verdict']['status']


def whole_run(words):
    given = bool(words)
    words = words or samples()
    with tempfile.NamedTemporaryFile(suffix='.json') as checked:
        status = read_captures('check', '--json', checked.name, *words)
        if status == 2:
            raise Refused('nothing was run, because a file is refused: leave it out, or do what its line says')
        if status:
            # Who read the output went away.
            return status
        # A file that nothing executes: one that is open to be written could not be.
        lock = processes.only_run(below('laboratory', 'run.py'))
        if lock is None:
            raise Refused('another ./lab runs in this tree, or what it started still does: wait for its end')
        is_kit()
        run = Run(words, given, lock)
        try:
            run.prepare(checked.name)
            run.warn()
            run.test()
            run.compare()
            return run.finish()
        except (processes.Interrupted, Refused, OSError):
            processes.ignore_signals()
            if not processes.stop_all():
                run.put_back()
            run.progress.clear()
            raise
        finally:
            shutil.rmtree(run.scratch, ignore_errors=True)


def tell(text):
    """The last line, if there is still somebody to read it."""
    try:
        print(f'lab: {text}', file=sys.stderr)
    except OSError:
        pass


def main():
    open_streams()
    for stream in (sys.stdout, sys.stderr):
        # Names and words are in UTF-8, whatever the host's language is.
        stream.reconfigure(encoding='utf-8', errors='replace')
    processes.heed_signals()
    processes.adopt_orphans()
    try:
        check, words = arguments(sys.argv[1:])
        return read_captures('check', *(words or samples())) if check else whole_run(words)
    except Refused as why:
        tell(why)
        return 2
    except processes.Interrupted as signal:
        tell('interrupted: what was started is stopped, and nothing of the run is kept')
        return 128 + signal.args[0]
    except BrokenPipeError:
        # What is left to be written is thrown away, so that Python does not complain of it at the end.
        os.dup2(os.open(os.devnull, os.O_WRONLY), sys.stdout.fileno())
        return 128 + processes.SIGPIPE
    except OSError as why:
        tell(f'stopped: {why}')
        return 2


sys.exit(main())
