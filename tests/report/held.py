"""Counting checks, and what all of them use."""
import os
import subprocess
import sys

ROOT = os.path.dirname(os.path.dirname(os.path.dirname(os.path.realpath(__file__))))
# Git as on a host on which nobody has set it up.
ENVIRONMENT = {name: value for name, value in os.environ.items() if not name.startswith('GIT_')}
ENVIRONMENT.update(GIT_CONFIG_GLOBAL=os.devnull, GIT_CONFIG_NOSYSTEM='1')
ENVIRONMENT.update({f'GIT_{who}_{what}': 'tester@example.org' for who in ('AUTHOR', 'COMMITTER') for what in ('NAME', 'EMAIL')})

passed = failed = 0


def check(what, holds, why=''):
    global passed, failed
    if holds:
        passed += 1
        print(f'ok: {what}', flush=True)
    else:
        failed += 1
        print(f'FAILED: {what}' + (f': {why}' if why else ''), flush=True)


def equal(what, found, owed):
    check(what, found == owed, f'{found!r} and not {owed!r}')


def finish():
    print(f'{passed} passed, {failed} failed')
    sys.exit(failed > 0 or passed == 0)


def write(path, text, mode=0o644):
    os.makedirs(os.path.dirname(path), exist_ok=True)
    with open(path, 'wb') as file:
        file.write(text if isinstance(text, bytes) else text.encode())
    os.chmod(path, mode)


def read(path):
    with open(path, encoding='utf-8') as file:
        return file.read()


def git(tree, *words):
    return subprocess.run(['git', '-C', tree, *words], check=True, capture_output=True, env=ENVIRONMENT).stdout
