"""The sources' digest and whether they are as committed, and the Rust crate as it was published."""
import os
import shutil
import subprocess

import sources
from held import ROOT, check, equal, git, read, write
from small import small_tree

# What the commands and README's examples make.
MADE = ('example.c', 'example', 'capture', 'frame', 'captures/own.pcap', 'dist/dumper', 'target/x', 'tools/bin/x', 'crates/one/out/kept/x', 'lab-2026-01-01/report.md',
        'laboratory/__pycache__/x.pyc')


def state(tree):
    return sources.sources(tree)[1]


def unpacked(tree, into):
    """The commit as an archive, unpacked."""
    os.makedirs(into)
    subprocess.run(['tar', '-x', '-C', into], input=git(tree, 'archive', 'HEAD'), check=True)
    return into


def digests(work):
    tree = small_tree(f'{work}/digests')
    write(os.fsencode(tree) + b'/odd \xFF\n\\name', b'odd')
    git(tree, 'add', '-A')
    git(tree, 'commit', '-q', '-m', 'odd')
    clean = state(tree)
    commit = git(tree, 'rev-parse', 'HEAD').decode().strip()
    check('a clean tree is as committed', clean['as_committed'] is True and clean['commit'] == commit, clean)
    listed = sources.sources(tree)[0]
    checked = subprocess.run(['sha256sum', '--quiet', '--strict', '-c'], input=listed, cwd=tree, capture_output=True)
    check('sha256sum -c finds the listed sources', checked.returncode == 0 and b'odd ' in listed, checked.stderr)
    without_git(work, tree, clean)
    for place in (tree, f'{work}/unpacked'):
        for made in MADE:
            write(f'{place}/{made}', 'made')
    equal("what commands and README's examples make changes nothing", state(tree), clean)
    equal('nor without git', state(f'{work}/unpacked')['sha256'], clean['sha256'])
    departures(tree, clean)
    equal('and then all is as it was', state(tree), clean)


def without_git(work, tree, clean):
    git(work, 'clone', '-q', tree, f'{work}/cloned')
    equal('a clone has the same digest', state(f'{work}/cloned')['sha256'], clean['sha256'])
    bare = state(unpacked(tree, f'{work}/unpacked'))
    equal('so has the tree of git archive', bare['sha256'], clean['sha256'])
    unknown = bare['as_committed'] is None and bare['commit'] is None and 'no git repository' in bare['why_unknown']
    check("which can't show that it is as committed", unknown, bare)
    git(work, 'init', '-q', f'{work}/outer')
    git(f'{work}/outer', 'commit', '-q', '--allow-empty', '-m', 'outer')
    inner = state(unpacked(tree, f'{work}/outer/inner'))
    check('nor is it of a commit of a repository around it', inner['commit'] is None and inner['sha256'] == clean['sha256'], inner)
    os.mkdir(f'{work}/outer/inner/.git')
    inner = state(f'{work}/outer/inner')
    check('nor with a .git of which git makes nothing', inner['commit'] is None and inner['sha256'] == clean['sha256'], inner)


def departures(tree, clean):
    """Each way in which a tree is not as committed."""
    notes = f'{tree}/kit-notes.txt'

    def departs(what, file, how, *changes):
        for change in changes:
            change()
        found = state(tree)
        check(f'{what}: not as committed', found['as_committed'] is False and found['changed'] == [{'file': file, 'how': how}], found['changed'])
        git(tree, 'update-index', '--no-assume-unchanged', 'kit-notes.txt')
        git(tree, 'reset', '-q', '--hard')
        git(tree, 'clean', '-qfdx')
        return found['sha256']

    def changed():
        write(notes, 'otherwise\n')

    def look_away():
        git(tree, 'update-index', '--assume-unchanged', 'kit-notes.txt')

    def make(name):
        return lambda: write(os.fsencode(tree) + b'/' + name, '')

    check('and has another digest', departs('a changed file', 'kit-notes.txt', 'changed', changed) != clean['sha256'])
    departs('a changed file that git was told to look away from', 'kit-notes.txt', 'changed', look_away, changed)
    departs('another mode', 'kit-notes.txt', 'changed', lambda: os.chmod(notes, 0o755))
    departs('a missing file', 'kit-notes.txt', 'missing', lambda: os.remove(notes))
    departs('a file that is tracked and in no commit', 'more.txt', 'added', make(b'more.txt'), lambda: git(tree, 'add', 'more.txt'))
    departs('a name of README\'s examples elsewhere', 'crates/one/frame', 'untracked', make(b'crates/one/frame'))
    digest = departs('an untracked file', 'crates/one/src/x\\xFF|.rt', 'untracked', make(b'crates/one/src/x\xFF|.rt'))
    equal('and has the same digest', digest, clean['sha256'])
    write(f'{tree}/.git/info/exclude', '*.rt\n')
    departs('an untracked file that the user ignores', 'crates/one/src/y.rt', 'untracked', make(b'crates/one/src/y.rt'))


def published(work):
    """The Rust crate is held to digests that stand in the sources."""
    check('the Rust crate is as published', sources.rust_crate(ROOT)['as_published'], sources.rust_crate(ROOT)['departs'])
    own = dict(line.split('  ')[::-1] for line in read(f'{ROOT}/{sources.CRATE}/SHA256SUMS').splitlines())
    equal('its list beside it says the same', {name: own.get(name) for name in sources.PUBLISHED}, sources.PUBLISHED)
    tree = f'{work}/crate/{sources.CRATE}'

    def departs(what, owed, *edits):
        shutil.rmtree(tree, ignore_errors=True)
        shutil.copytree(f'{ROOT}/{sources.CRATE}', tree)
        for edit in edits:
            edit()
        found = sources.rust_crate(f'{work}/crate')
        check(what, not found['as_published'] and found['departs'] == owed, found)

    def change():
        write(f'{tree}/src/lib.rs', read(f'{tree}/src/lib.rs') + '\n')

    def change_list():
        write(f'{tree}/SHA256SUMS', subprocess.run(['sha256sum', 'LICENSE', 'src/frame.rs', 'src/lib.rs'], cwd=tree, capture_output=True).stdout)

    departs('a changed file with a changed SHA256SUMS is found', ['src/lib.rs'], change, change_list)
    departs('a file more is found', ['src/linux.rs'], lambda: write(f'{tree}/src/linux.rs', ''))
    departs('a missing file is found', ['src/frame.rs'], lambda: os.remove(f'{tree}/src/frame.rs'))
