"""What a run left in its folder, as one dictionary: the report. Everything that the pages say is taken from it."""
import glob
import json
import os
import re

import verdict

SCHEMA = 2
# Too little room is lent by the comparison itself, to whatever it writes: no frame brings it along.
PROVOKED = ('B4',)


def text(folder, name):
    try:
        with open(os.path.join(folder, name), encoding='utf-8', errors='replace') as file:
            return file.read()
    except FileNotFoundError:
        return None


def parsed(folder, name):
    """What a program left there as JSON; None where it left nothing that is whole."""
    try:
        return json.loads(text(folder, name) or 'null')
    except ValueError:
        return None


def proved(log):
    """The crates in the log's order, each with its functions and what its proof assumes of C, a line for each library: what rt says of a crate
    stands under its name."""
    crates, functions, assumed = {}, 0, []
    for line in log.splitlines():
        if line.startswith('== '):
            functions, assumed = 0, []
        elif found := re.match(r'logic=proved .*?\bfunctions=(\d+)', line):
            functions = int(found[1])
        elif found := re.match(r'axioms (\w+: .* \(\d+ of the \d+ declared\))$', line):
            assumed.append(found[1])
        elif found := re.match(r'rt: (\w+) proved$', line):
            crates.setdefault(found[1], {'crate': found[1], 'functions': functions, 'assumed': assumed})
    return list(crates.values())


def crates_of(root):
    """The crates that crates.txt lists."""
    return re.findall(r'^([A-Za-z_]\w*)(?: +staticlib)?\s*:', text(root, 'crates.txt') or '', re.M)


def wrong_versions_of(root):
    """Every wrong version that the checker has to refuse, by its crate and its name."""
    paths = glob.glob(os.path.join(glob.escape(root), 'crates/*/must-fail/*.edit'))
    return sorted(f"{path.split('/')[-3]}/{os.path.basename(path)[:-len('.edit')]}" for path in paths)


def counted(log):
    """The test's last line: how many checks passed and failed. None where it did not come to its end."""
    lines = log.rstrip('\n').splitlines()
    found = re.fullmatch(r'(\d+) passed, (\d+) failed', lines[-1]) if lines else None
    return {'passed': int(found[1]), 'failed': int(found[2])} if found else None


def after(log, word):
    """The lines that start with a word and a colon, without it."""
    return re.findall(rf'^{word}: (.*)$', log, re.M)


def departures(root):
    """Table B of docs/DIFFERENCES.md: by number what it is about, what the Rust does, and what the port."""
    found = {}
    for line in (text(root, 'docs/DIFFERENCES.md') or '').splitlines():
        if re.match(r'\| B\d+ \|', line):
            number, what, rust, port = line.strip('|').split(' | ')[:4]
            found[number.strip()] = {'what': what, 'rust': rust, 'port': port}
    return found


def listed(root, captures, compared):
    """Each listed difference that was met, in the words of docs/DIFFERENCES.md: how many answers were compared by it because a frame of a
    capture brought it along, and how many because the comparison provoked it, by its own inputs and by the room that it lends."""
    words, on_captures, own = departures(root), (captures or {}).get('listed', {}), (compared or {}).get('listed', {})
    rows = []
    for number in sorted(set(on_captures) | set(own)):
        brought = 0 if number in PROVOKED else on_captures.get(number, 0)
        provoked = own.get(number, 0) + (on_captures.get(number, 0) - brought)
        if brought or provoked:
            about = words.get(number, {'what': 'not in docs/DIFFERENCES.md', 'rust': 'not known', 'port': 'not known'})
            rows.append({'number': number, **about, 'captures': brought, 'provoked': provoked})
    return rows


def differences(part, file, folder):
    """The unlisted differences of one part of the run: how many, how many of them stand in a file of the folder, and in which."""
    there = part is not None and os.path.exists(os.path.join(folder, file))
    return {'unlisted': part and part['mismatches'], 'written': part['mismatches_written'] if there else None, 'file': file if there else None}


# What came of a capture's frames: how many were accepted and canonical, and the others of these by reason.
SPELLED = ('accepted', 'canonical', 'reasons')
# The same, what they were as one call read them, and what the links that were followed through them came to.
COUNTED = (*SPELLED, 'in_one_call', 'links')


def captures_of(checked, compared):
    """Each capture as it was looked over at the start, whether that is what was compared, and what came of its frames, which is not known
    (None) of another. Both are in the order in which they were given."""
    found = (checked or {}).get('captures', [])
    others = iter((compared or {}).get('captures', []))
    return [{**capture, **of_frames(capture, {} if 'refused' in capture else next(others, {}))} for capture in found]


def of_frames(capture, other):
    compared = bool(other) and same(capture, other)
    return {'compared': compared, **{name: other[name] if compared else None for name in COUNTED}}


def same(capture, other):
    return all(capture[name] == other.get(name) for name in ('file', 'sha256', 'octets', 'frames', 'packets'))


def collect(root, folder, run):
    """`run` has what is known beside the folder: component, version, times, host, kit, compilers, sources, rust_crate, delivered, samples."""
    log = text(folder, 'test.log') or ''
    crates, owed_crates = proved(log), crates_of(root)
    refused, owed_versions = set(re.findall(r'^rt: must-fail (\S+?)\.edit: refused', log, re.M)), wrong_versions_of(root)
    compared, captures, bench = (parsed(folder, name) for name in ('compared.json', 'captures.json', 'bench.json'))
    report = {
        'schema': SCHEMA,
        **run,
        'checks': counted(log),
        'failed': after(log, 'FAILED'),
        'skipped': after(log, 'skipped'),
        'passed': after(log, 'ok'),
        'crates': crates,
        'crates_unproved': sorted(set(owed_crates) - {crate['crate'] for crate in crates}),
        'functions': sum(crate['functions'] for crate in crates),
        'assumed': [f"{crate['crate']}: {line}" for crate in crates for line in crate['assumed']],
        'wrong_versions_refused': sorted(refused),
        'wrong_versions_left': [label for label in owed_versions if label not in refused],
        'compared': compared,
        'captures': captures_of(parsed(folder, 'checked.json'), captures),
        'captures_compared': captures,
        'differences': {
            'test': differences(compared, 'differences-test.txt', folder),
            'captures': differences(captures, 'differences-captures.txt', folder),
        },
        'listed': listed(root, captures, compared),
        'ratios': bench['bench'] if bench else None,
        'stack': {call: int(octets) for call, octets in re.findall(r'^ok: (ax25_\w+) can use at most (\d+) octets of stack', log, re.M)},
    }
    report['verdict'] = verdict.of(report)
    del report['passed']
    return report
