#!/usr/bin/env python3
"""Counts the places in crates/*/src that docs/DESIGN-PASS.md speaks of, point by point; with -v it also lists them.

    tools/places.py [-v] [POINT..]

Run it at the top of a checkout. It goes by the text of the sources: what a place is worth is said on the page.
"""
import collections
import pathlib
import re
import sys

SOURCES = sorted(pathlib.Path('crates').glob('*/src/**/*.rt'))
# A case by which an enum says that nothing was refused or that nothing is there.
NOTHING = {'Accepted', 'Written', 'Printed', 'Done', 'Relayed', 'Offered', 'None', 'Nothing', 'Neither', 'NotCounted', 'NotANumber'}
# Names of functions that compare, make, convert or print by hand what a trait of std stands for.
BY_HAND = (r'default|from_byte|to_byte|of_number|same_\w+|is_response|response_\w+|number|code|mark_(octet|from)|pid_(case|octet|from)|'
           r'kind_of|count_octet|one_if_none|flag|from_str|print|hex|decimal|yes_no')


def lines():
    for path in SOURCES:
        for n, line in enumerate(path.read_text().splitlines(), 1):
            yield path, n, line


def matching(pattern):
    return [f'{path}:{n}: {line.strip()}' for path, n, line in lines() if re.search(pattern, line)]


def enums():
    """Own enums that are an Option or a Result: a case says that nothing was refused or that nothing is there."""
    found = []
    for path in SOURCES:
        for name, body in re.findall(r'^(?:pub(?:\(crate\))? )?enum (\w+) \{\n(.*?)^\}', path.read_text(), re.M | re.S):
            cases = set(re.findall(r'^    (\w+)', body, re.M))
            if cases & NOTHING and name != 'ProtocolIdentifier':
                found.append(f'{path}: {name}')
    return found


def beside():
    """Fields of structs that hold an answer or a flag beside the value that it is about."""
    return matching(r'^    (pub )?(answer|ready|store|stopped|reason): [\w<>(), ]+,$')


def numbers():
    """Constants that number phases and states, and private functions that give or take a refusal as a number."""
    found = matching(r'^pub const (OUTSIDE|OPENED|IN_DATA|IN_ESCAPE|DROPPING|IN_TYPE|IDLE|ASKED_BY_A|ASKED_BY_B|UP): ')
    return found + matching(r'^(pub )?fn (\w+_number|number_of|refusal|refused_by|place_of)\(.*(-> u32|number: u32)')


def twins():
    """Names of functions that stand in two crates or more, exports and programs apart."""
    apart = {'loader_c', 'probe_c', 'probe_spelling', 'probe', 'replay', 'dump_cases', 'dumper', 'follow'}
    where = collections.defaultdict(set)
    for path, _, line in lines():
        crate = path.parts[1]
        found = re.match(r'\s*(?:pub(?:\(crate\))? )?fn (\w+)', line)
        if found and crate not in apart and not crate.startswith('demand'):
            where[found[1]].add(crate)
    return [f'{name}: {", ".join(sorted(crates))}' for name, crates in sorted(where.items()) if len(crates) > 1]


def loops():
    """Loops that are no `for`."""
    return matching(r'^\s*(while|loop)\b')


def by_hand():
    """Functions that compare, make, convert or print by hand."""
    return matching(r'^\s*(pub(\(crate\))? )?fn (' + BY_HAND + r')\(')


def facts():
    """Facts that the contracts of three functions or more ask for, each with the number of functions."""
    count = collections.Counter()
    for _, _, line in lines():
        found = re.match(r'\s*requires (?:\w+ )?\{ ?(.*?) ?\}$', line)
        for fact in found[1].split(' × ') if found else []:
            count[re.sub(r'^\((.*)\)$', r'\1', fact)] += 1
    return [f'{n}: {fact}' for fact, n in count.most_common() if n > 2]


def buffers():
    """An array with a count or a length beside it, in a struct or in a function's parameters."""
    found = matching(r'\[\w+; \w+\], (count|length): usize')
    for path in SOURCES:
        for name, body in re.findall(r'^(?:pub )?struct (\w+) \{\n(.*?)^\}', path.read_text(), re.M | re.S):
            if re.search(r': \[\w+; \d+\],\n(?:    //.*\n)*    (?:pub )?(\w*length|\w*count|head): ', body):
                found.append(f'{path}: struct {name}')
        for name, head in re.findall(r'fn (\w+)\(\n(.*?)\n\)', path.read_text(), re.S):
            if re.search(r': \[\w+; \w+\],\n\s+(count|length): usize', head):
                found.append(f'{path}: fn {name}')
    return found


def switches():
    """Functions that are given a letter which says what they run."""
    return matching(r'\bfn \w+\(.*\bletter: u8')


def proofs():
    """Files of answers and invariants, with their lines of text."""
    found = []
    for path in sorted(pathlib.Path('crates').glob('*/proofs/**/*.antt')):
        if path.name in ('Answers.antt', 'Invariants.antt', 'Proof.antt'):
            found.append(f'{path}: {len(path.read_text().splitlines())} lines')
    return found


POINTS = {'1': [enums, beside, numbers], '2': [twins], '3': [loops], '4': [by_hand], '5': [facts], '6': [buffers], '7': [switches], '8': [proofs]}


def main():
    words = sys.argv[1:]
    for point, counts in POINTS.items():
        if [w for w in words if w != '-v'] and point not in words:
            continue
        for count in counts:
            found = count()
            print(f'{point} {count.__name__}: {len(found)} ({count.__doc__})')
            if '-v' in words:
                print(''.join(f'    {place}\n' for place in found), end='')


main()
