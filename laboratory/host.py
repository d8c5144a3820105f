"""Where the run was made: the machine, its system, the kit and the compilers."""
import os
import platform
import re
import subprocess

# What the tests take is found by tests/tools.sh, so it is asked there, and nothing is fetched for this; each line is a name and the first
# line that the program says.
COMPILERS = r'''
root=$PWD
. tests/tools.sh
tools_fetch() { return 1; }
tools_fetch_rust() { return 1; }
first() { printf '%s\t%s\n' "$1" "$("$2" --version 2>/dev/null | head -n 1)"; }
need_rustc && first rustc "$RUSTC_X86"
need_cc && first c "$CC_X86"
need_kit && first clang "$KIT_TOOLS/bin/clang"
'''


def text_of(path):
    try:
        with open(path, encoding='utf-8', errors='replace') as file:
            return file.read()
    except OSError:
        return ''


def said(*words, **more):
    """What a program prints, in one line; None where it can't be run or fails."""
    try:
        done = subprocess.run(words, capture_output=True, timeout=60, stdin=subprocess.DEVNULL, **more)
    except (OSError, subprocess.TimeoutExpired):
        return None
    return ' '.join(done.stdout.decode('utf-8', 'replace').split()) if done.returncode == 0 else None


def processor():
    """Its name, which an x86-64 kernel tells and an aarch64 kernel tells by numbers."""
    about = dict(re.findall(r'^(\S[^\t:]*?)\s*: (.*)$', text_of('/proc/cpuinfo'), re.M))
    if 'model name' in about:
        return about['model name']
    numbers = [f'{name} {about[name]}' for name in ('CPU implementer', 'CPU part', 'CPU variant') if name in about]
    return ', '.join(numbers) or 'unknown'


def system():
    found = re.search(r'^PRETTY_NAME="?([^"\n]*)"?$', text_of('/etc/os-release') or text_of('/usr/lib/os-release'), re.M)
    return found[1] if found else platform.system()


def host():
    about = os.uname()
    memory = re.search(r'^MemTotal: *(\d+) kB', text_of('/proc/meminfo'), re.M)
    return {
        'name': about.nodename,
        'machine': about.machine,
        'processor': processor(),
        'processors': len(os.sched_getaffinity(0)),
        'memory_mb': int(memory[1]) // 1024 if memory else None,
        'kernel': f'{about.sysname} {about.release} {about.version}',
        'system': system(),
    }


def kit(root):
    return {'version': said('rt', 'version'), 'pinned': text_of(os.path.join(root, 'kit.txt')).strip()}


def compilers(root):
    """Those that the tests of this run take; None where there is none."""
    told = subprocess.run(['sh', '-c', COMPILERS], cwd=root, capture_output=True, stdin=subprocess.DEVNULL).stdout.decode('utf-8', 'replace')
    found = dict(line.split('\t', 1) for line in told.splitlines() if '\t' in line)
    return {**{name: found.get(name) or None for name in ('rustc', 'c', 'clang')}, 'python': platform.python_version()}
