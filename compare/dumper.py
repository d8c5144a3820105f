"""The programs of dist/: the dumper, which prints one frame, and follow, which follows a recorded link: how they are run here."""
import os
import platform
import re
import subprocess

ROOT = os.path.dirname(os.path.dirname(os.path.realpath(__file__)))
PROGRAM = os.path.join(ROOT, 'dist', 'dumper')
FOLLOW = os.path.join(ROOT, 'dist', 'follow')
# What each is called, and what it prints of no input, by which it is tried, with these arguments.
DUMPER_TRIAL = ('the dumper', [], b'answer=1\n')
FOLLOW_TRIAL = ('follow', ['A', 'B'], b'offered=0\nin_order=0\nrepeated=0\ngaps=0\noutside=0\ndropped=0\n')


class NoDumper(Exception):
    """Why there is none, in words."""


def build_time():
    """How long ./build takes, in README's words."""
    try:
        with open(os.path.join(ROOT, 'README.md'), encoding='utf-8') as page:
            said = re.search(r'On a clean clone it takes ([^,.;]*)', page.read())
    except OSError:
        said = None
    return f'that takes {said[1]}' if said else 'README says how long that takes'


def prints(words, octets):
    """What the program that these words run prints of the octets."""
    return subprocess.run(words, input=octets, stdout=subprocess.PIPE, stderr=subprocess.DEVNULL, check=False).stdout


def works(words, trial):
    _, given, owed = trial
    try:
        return prints([*words, *given], b'') == owed
    except OSError:
        return False


def by_the_kit(program):
    """Run by the kit's C library, in whose folder the page stands that `rt doc` names, and, where the machine is none of x86-64, by the host's
    emulator; None without the kit."""
    try:
        guide = subprocess.run(['rt', 'doc'], stdout=subprocess.PIPE, stderr=subprocess.DEVNULL, check=False).stdout
    except OSError:
        return None
    emulator = [] if platform.machine() == 'x86_64' else ['qemu-x86_64']
    library = os.path.join(os.path.dirname(os.fsdecode(guide).strip()), 'toolchain', 'lib')
    return [*emulator, os.path.join(library, 'ld-linux-x86-64.so.2'), '--library-path', library, program]


def found(program=PROGRAM, trial=DUMPER_TRIAL):
    """The words that run it here."""
    if not os.path.exists(program):
        raise NoDumper(f'{os.path.relpath(program, ROOT)} is not there: ./build makes it ({build_time()})')
    if platform.machine() == 'x86_64' and works([program], trial):
        return [program]
    words = by_the_kit(program)
    if words and works(words, trial):
        return words
    raise NoDumper(f'{trial[0]} does not run here: it wants an x86-64 Linux with glibc 2.34 or newer, or the Rattle kit (rt) on the PATH')
