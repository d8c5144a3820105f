"""./lab in a small tree: what it refuses, whole runs, and runs that are interrupted."""
import os
import pty
import re
import shutil
import signal
import time

import progress
import report
import verdict
from held import ROOT, check, equal, git, read, write
from madeup import COMMON
from of_pages import named
from small import wait_for

BAD = ('cut.pcap', 'none.pcap', 'text', 'ten.pcap', 'foreign', 'not-there')


def given(lab):
    """A folder of captures and of what is none."""
    folder, frames = f'{lab.marks}/given', read(f'{ROOT}/tests/captures/frames.hex')
    with open(f'{ROOT}/tests/captures/ax25-le-us.pcap', 'rb') as file:
        pcap = file.read()
    contents = {name: frames for name in ('good.hex', '-dash.hex', 'a | b.hex', b'odd\xFF.hex')}
    contents.update({'cut.pcap': pcap[:-3], 'none.pcap': pcap[:24], 'ten.pcap': pcap[:10]})
    contents.update({'text': 'Dear laboratory,\n', 'foreign': b'\x1F\x8B\x08 gzip'})
    for name, content in contents.items():
        write(os.path.join(os.fsencode(folder), os.fsencode(name)), content)
    return folder


def checks(lab):
    """--check: what can be read and what can't, and names."""
    folder, began = given(lab), time.monotonic()
    odd = os.fsencode(folder) + b'/odd\xFF.hex'
    status, said = lab.run('--check', f'{folder}/good.hex', odd, f'{folder}/a | b.hex', '--', f'{folder}/-dash.hex')
    names = ('good.hex', 'odd\\xFF.hex', 'a | b.hex', '-dash.hex')
    check('--check reads good files of any name', status == 0 and all(f'{name}: hex lines' in said for name in names), said)
    status, said = lab.run('--check', f'{folder}/good.hex', *(f'{folder}/{name}' for name in BAD))
    check('--check refuses those that are cut, empty, foreign or not there, each by its name, and reads the other',
          status == 2 and 'good.hex: hex lines' in said and all(f'{name}: refused: ' in said for name in BAD), said)
    for words in ([f'{folder}/{name}' for name in BAD], [f'{folder}/good.hex', f'{folder}/cut.pcap'], ['--raw', f'{folder}/not-there']):
        status, said = lab.run(*words)
        name = os.path.basename(words[-1])
        refused = status == 2 and f'{name}: refused: ' in said and 'lab: nothing was run' in said
        check(f'./lab refuses {name} before anything is run', refused and not lab.ran() and not lab.folders(), said)
    status, said = lab.run('--check')
    check('--check without a file reads the samples', status == 0 and said.count(': KISS log') == 1 and 'frames.hex' in said, said)
    for words in (['--josn', 'x'], ['--check', '--json', 'x'], ['-x']):
        status, said = lab.run(*words)
        check(f"{' '.join(words)} is refused", status == 2 and 'lab: no option -' in said and not lab.ran(), said)
    status, said = lab.run('--check', '--raw')
    check('--raw without a file is refused', status == 2 and said == 'lab: --raw wants a file\n', said)
    status, said = lab.run('--check', '--help')
    check('--help behind another option', status == 0 and 'usage: ./lab ' in said, said)
    status, said = lab.run('--check', '--')
    check('-- alone names no file, so that the samples are read', status == 0 and 'frames.hex' in said, said)
    equal('where nobody reads what it says, it ends without a word', (*lab.run_unread(), lab.ran(), lab.folders()), (141, '', False, []))
    check('all of this within seconds', time.monotonic() - began < 40, time.monotonic() - began)


def other_rt(lab):
    """Refused at once, and what an earlier run left stays."""
    other, kept = f'{lab.marks}/bin/rt', f'{lab.tree}/dist/kept'
    write(kept, '')
    for what, script, words in (
        ('another program called rt is named', 'echo "rt: Unknown command: version"\nexit 1',
         f'this rt is no Rattle kit, or one that does not work here (it is {other}; it said: rt: Unknown command: version)'),
        ('a kit of another logic is named', 'echo "rattle-kit-9 logic 0123456789abcdef"',
         f"the kit's logic is '0123456789abcdef', and kit.txt pins '{read(f'{ROOT}/kit.txt').split()[-1]}': install the kit "),
    ):
        write(other, f'#!/bin/sh\n{script}\n', 0o755)
        status, said = lab.run(PATH=f"{lab.marks}/bin:{os.environ['PATH']}")
        refused = status == 2 and f'lab: {words}' in said and not lab.ran() and not lab.folders()
        check(what, refused and os.path.exists(kept), said)
    os.remove(kept)


def whole_runs(lab):
    first = whole_run(lab)
    status, _ = lab.run(f'{lab.marks}/given/good.hex', os.fsencode(lab.marks) + b'/given/odd\xFF.hex')
    equal('a second run of the day gets a folder of its own', (status, lab.folders()), (0, [first, first + '-2']))
    check('and keeps a list that is short', os.path.getsize(f'{lab.tree}/{first}-2/frames.txt') > 1000)
    names = [os.path.basename(capture['file']) for capture in lab.report()['captures']]
    equal('and names that are no UTF-8 are told', names, ['good.hex', 'odd\\xFF.hex'])

    status, said = lab.run(standin='early')
    made = lab.report()
    taken = [made['compared'], made['captures_compared'], made['ratios'], made['differences']['test']['file'], *made['delivered'].values()]
    check('where the test ends early, no comparison, archive or difference of the run before reaches the report',
          status == 1 and not any(taken), taken)
    check('a failure is shown at once', "lab: FAILED: the kit's logic is another\n" in said, said)
    lab.forget()

    write(f'{lab.tree}/notes.rt', '')
    status, said = lab.run()
    check('an untracked file is said before the wait and after it', status == 3 and said.count('notes.rt') >= 2 and verdict.CHANGED in said, said)
    os.remove(f'{lab.tree}/notes.rt')
    lab.forget()
    status, said = lab.run(standin='edit')
    check('sources that change while they are checked', status == 1 and lab.report()['sources']['changed_while_running'], said)
    git(lab.tree, 'checkout', '-q', '.')
    lab.forget()


def whole_run(lab):
    """One on the samples. Gives the folder's name."""
    status, said = lab.run(standin='slow')
    folders = lab.folders()
    dated = len(folders) == 1 and re.fullmatch(r'lab-\d{4}-\d\d-\d\d', folders[0])
    check('a run leaves a folder with the date, and everything holds', status == 0 and dated and verdict.HOLDS in said, f'{status} {said}')
    page = read(f'{ROOT}/docs/REPORT.md').split('## What else')[1].split('## report.json')[0]
    left = set(os.listdir(f'{lab.tree}/{folders[0]}'))
    equal('it holds what docs/REPORT.md says, but for a list that is long', sorted(left ^ named(page) ^ set(report.FILES)), ['frames.txt'])
    check('how long it takes and where the log grows is said first',
          re.search(r'1 of 4: .* it took \d+ min \d+ s on \d+ cores .*lab-unfinished/test\.log', said), said)
    for words in ('crates proved: 0 of 2', './test: 9 passed, 0 failed'):
        check(f'it says how far it is: {words}', f': {words}\n' in said, said)
    made = lab.report()
    equal('the report has the samples', (made['samples'], len(made['captures'])), (True, 12))
    facts = [made['version'] == '1.0.0', made['kit']['version'] == made['kit']['pinned'], made['sources']['as_committed'],
             made['delivered']['libax25frame.a'] == COMMON['archive'], made['host']['name'] == os.uname().nodename]
    check('the version, the kit, the commit, the archive and the host', all(facts), facts)
    when = [made['began'], made['ended']]
    check('times with their zone', all(re.fullmatch(r'\d{4}-\d\d-\d\d \d\d:\d\d:\d\d[+-]\d\d:\d\d', time) for time in when), when)
    return folders[0]


def interruptions(lab):
    dist = f'{lab.tree}/dist'
    for number, before in ((signal.SIGINT, ['built']), (signal.SIGTERM, ['built']), (signal.SIGHUP, [])):
        shutil.rmtree(dist)
        for name in before:
            write(f'{dist}/{name}', '')
        process = lab.begin()
        equal(f'{number.name}: while it runs, dist/ is its own', os.listdir(dist), ['made'])
        process.send_signal(number)
        said = process.communicate(timeout=60)[0].decode()
        told = process.returncode == 128 + number and said.count('interrupted') == 1
        check(f'{number.name}: it says so, and keeps nothing', told and not lab.folders(), f'{process.returncode} {said} {lab.folders()}')
        left = os.listdir(f'{lab.marks}/tmp') + ['scratch'] * os.path.exists(f'{lab.marks}/scratch')
        check(f'{number.name}: nothing goes on, and nothing is left of what the test made', not lab.alive() and not left, (lab.alive(), left))
        equal(f"{number.name}: dist/ is as it was before the run: {before or 'not there'}", os.listdir(dist) if os.path.exists(dist) else [], before)
        lab.forget()

    busy = 'another ./lab runs in this tree'
    process = lab.begin()
    status, said = lab.run()
    check('a second run at the same time is refused', status == 2 and busy in said, said)
    process.kill()
    process.communicate()
    status, said = lab.run()
    check('also while what a killed one started goes on', status == 2 and busy in said, said)
    equal('which leaves no folder that could be taken for a result', lab.folders(), ['lab-unfinished'])
    for pid in lab.alive():
        os.kill(pid, signal.SIGKILL)
    wait_for(lambda: not lab.alive())
    status, said = lab.run()
    check('and then a run takes its place', status == 0 and 'lab-unfinished/, of a run that did not come to its end, is removed' in said
          and 'lab-unfinished' not in lab.folders(), said)
    lab.forget()


def far(work):
    """How far a test is, from its log as it grows."""
    write(f'{work}/far/crates.txt', 'one:\ntwo: one\n')
    write(f'{work}/far/crates/one/must-fail/wrong.edit', '')
    write(f'{work}/far/test', read(f'{ROOT}/test'))
    write(f'{work}/far/log', '')
    log = progress.TestLog(f'{work}/far', f'{work}/far/log')
    for text, state, wrong in (
        ('', 'crates proved: 0 of 2', []),
        ('rt: one proved\nrt: two: its tests are proved\nrt: two pro', 'crates proved: 1 of 2', []),
        ('ved\n', 'wrong versions: 0 of 1 tried or being tried', []),
        ('rt: one: trying its must-fail edits (1)\n', 'wrong versions: 1 of 1 tried or being tried', []),
        ('rt: must-fail one/wrong.edit: refused, as it must be: note\n', 'wrong versions: 1 of 1 tried or being tried', []),
        ('test: the proofs, the wrong versions and the programs took 9 s\n', 'running: the documents and the build', []),
        ('test: the documents and the build took 0 s\nFAILED: the C tests\n', 'running: the C tests and the dumper', ['FAILED: the C tests']),
    ):
        with open(f'{work}/far/log', 'a', encoding='utf-8') as file:
            file.write(text)
        found = log.read_on()
        equal(f'how far it is: {state}', (log.state()[1], found), (state, wrong))
    wrong = ['rt: one NOT PROVED', 'rt: must-fail one/wrong.edit: NOT TRIED: its check was killed', 'rt: FAILED: one/wrong.edit']
    write(f'{work}/far/log', '\n'.join([*wrong, 'test: the proofs, the wrong versions and the programs took 9 s', '']))
    log = progress.TestLog(f'{work}/far', f'{work}/far/log')
    equal('and what is not proved is shown at once', log.read_on(), wrong)


def in_place():
    """On a terminal, how far it is stands in one line, which is written over."""
    near, far = pty.openpty()
    written = ''
    with os.fdopen(far, 'w') as terminal:
        shown = progress.Progress(terminal)
        for part, text in (('proofs', 'crates proved: 1 of 2'), ('proofs', 'crates proved: 2 of 2'), ('build', 'short')):
            shown.at(part, text)
        shown.line('done')
        while '\n' not in written:
            written += os.read(near, 4096).decode()
    os.close(near)
    owed = ['lab: crates proved: 1 of 2', 'lab: crates proved: 2 of 2', 'lab: short' + ' ' * 16, ' ' * 10, 'lab: done', '\n']
    equal('on a terminal it is said in place', written.split('\r')[1:], owed)
