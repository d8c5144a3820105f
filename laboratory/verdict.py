"""What the report comes to: three parts, each with its reason, and what has to hold beside them."""
import re

# The lines of the test that failed, by the part that they speak of. What is of neither kind is one of the other tests, so that each line
# keeps one part from holding.
ENDED = r'( \(exit status \d+\)| ended without its count)?$'
PROOFS = re.compile(rf"rt ci{ENDED}|wrong versions that |verdicts that rest on a check|the kit's logic is |there is no 'rt' on |this rt is no Rattle kit")
COMPARISON = re.compile(rf'compare/build$|the comparison{ENDED}|.*: \d+ inputs, \d+ mismatches$')

HOLDS = 'Everything holds.'
FAILS = 'Something does not hold.'
CHANGED = 'What was checked holds, but the sources are not as committed.'
UNKNOWN = "What was checked holds, but that the sources are as committed can't be shown."
# The exit status of ./lab; 2 is for what is refused before anything is checked.
STATUS = {HOLDS: 0, FAILS: 1, CHANGED: 3, UNKNOWN: 3}

# So many frames are offered to the record of a link.
OFFERED = 65_535

UNLISTED = 'the port answers otherwise than the Rust, and docs/DIFFERENCES.md does not list it: '


def many(count, one, more=None):
    return f'{count:,} {one if count == 1 else more or one + "s"}'


def some(names, shown=5):
    """The first of some names, and how many more there are."""
    return ', '.join(names[:shown]) + (f' and {len(names) - shown} more' if len(names) > shown else '')


def logic(kit):
    return (kit or '').rpartition(' logic ')[2]


def proofs(report):
    kit = report['kit']
    proved, versions = len(report['crates']), len(report['wrong_versions_refused'])
    left, unproved = report['wrong_versions_left'], report['crates_unproved']
    wrong = []
    if logic(kit['version']) != logic(kit['pinned']):
        wrong.append(f"the kit is {kit['version'] or 'not there'!r}, and kit.txt pins {kit['pinned']!r}")
    if unproved:
        wrong.append(f'{proved} of {proved + len(unproved)} crates were proved; not proved: {some(unproved)}')
    if left:
        wrong.append(f'{versions} of {versions + len(left)} wrong versions were refused; not refused: {some(left)}')
    failed = [line for line in report['failed'] if PROOFS.match(line)]
    if failed:
        wrong.append(f'the test says: {some(failed, 3)}')
    elif not {'rt ci', 'no verdict rests on a check of an earlier run'} <= set(report['passed']):
        wrong.append('the proofs did not come to their end')
    good = (f"All {many(proved, 'crate')}, {many(report['functions'], 'function')}, were proved from nothing under the pinned logic, "
            f"and each of {many(versions, 'wrong version')} was refused")
    return wrong, good


def rust(report):
    compared, crate = report['compared'], report['rust_crate']
    wrong = []
    if not crate['as_published']:
        wrong.append(f"the Rust is not as published: {some(crate['departs'])}")
    if compared is None:
        return wrong + ['the Rust was not run beside the port'], ''
    if compared['mismatches']:
        wrong.append(UNLISTED + many(compared['mismatches'], 'time'))
    delivered = report['delivered'].get('libax25frame.a')
    if compared.get('archive') != delivered:
        wrong.append('the archive that was run beside the Rust is not the one in dist/')
    failed = [line for line in report['failed'] if COMPARISON.match(line)]
    if 'the comparison' not in report['passed'] or failed:
        wrong.append(f"the comparison failed: {some(failed, 3) or 'it did not come to its end'}")
    good = (f"The unchanged Rust and the port agree on {compared['decodes']:,} decodes, {compared['writes']:,} writes and "
            f"{compared['relays']:,} relays, but for what docs/DIFFERENCES.md lists")
    return wrong, good


def accounted(capture):
    """Whether every I frame that was read in one call is one of a link that was followed, or of none; of more frames that is not known."""
    counts = [count for name, count in capture['links'].items() if name != 'followed']
    return capture['frames'] > OFFERED or sum(counts) == capture['in_one_call']['kinds']['I']


def captures(report):
    compared, every = report['captures_compared'], report['captures']
    refused = [capture['file'] for capture in every if 'refused' in capture]
    wrong = []
    if refused:
        wrong.append(f"{many(len(refused), 'capture')} could not be read: {some(refused)}")
    if compared is None:
        return wrong + ['the captures were not compared'], ''
    if compared['mismatches']:
        wrong.append(UNLISTED + many(compared['mismatches'], 'time'))
    if compared['refused_captures']:
        wrong.append(f"{many(len(compared['refused_captures']), 'capture')} could not be compared")
    other = [capture['file'] for capture in every if 'refused' not in capture and not capture['compared']]
    if other or not every:
        wrong.append(f"what was compared is not what was looked over at the start: {some(other) or 'no capture is told of'}")
    left_out = [capture['file'] for capture in every if capture['compared'] and capture['in_one_call']['records'] != capture['frames']]
    if left_out:
        wrong.append(f"one call over many frames did not read all of {many(len(left_out), 'capture')}: {some(left_out)}")
    unlinked = [capture['file'] for capture in every if capture['compared'] and not accounted(capture)]
    if unlinked:
        wrong.append(f"the links followed do not account for the I frames of {many(len(unlinked), 'capture')}: {some(unlinked)}")
    frames = sum(capture.get('frames', 0) for capture in every)
    whose = '; these are the samples in tests/captures/, because no capture was given' if report['samples'] else ''
    good = (f"The port and the Rust agree on each of {many(frames, 'frame')} of {many(len(every), 'capture')}, "
            f"but for what docs/DIFFERENCES.md lists{whose}")
    return wrong, good


def tests(report):
    failed = [line for line in report['failed'] if not PROOFS.match(line) and not COMPARISON.match(line)]
    wrong = []
    if failed:
        wrong.append(f"{many(len(failed), 'check')} failed: {some(failed, 3)}")
    elif report['checks'] and report['checks']['failed'] and not report['failed']:
        wrong.append(f"{many(report['checks']['failed'], 'check')} failed, and the log does not say which")
    if report['checks'] is None:
        return wrong + ['the test did not come to its end'], ''
    missing = [name for name, digest in report['delivered'].items() if digest is None]
    if missing:
        wrong.append(f"dist/ was not built: there is no {some(missing)}")
    skipped = f"; {many(len(report['skipped']), 'check')} could not be made on this host" if report['skipped'] else ''
    return wrong, f"{many(report['checks']['passed'], 'check')} passed in all, and none of these failed{skipped}"


def tree(sources):
    """Whether the sources are as committed (None where that can't be told), and the reason."""
    if sources['changed_while_running']:
        return False, 'The sources changed while they were checked, so that it is not certain what was checked.'
    if sources['as_committed'] is None:
        return None, (f"This can't be told, because {sources['why_unknown']}. Whoever has the commit can compare the SHA-256 of the sources: "
                      'it is the same in a clone and in a tree without git.')
    if not sources['as_committed']:
        files = some([f"{change['file']} ({change['how']})" for change in sources['changed']])
        return False, f"{many(len(sources['changed']), 'file')} not as committed: {files}."
    return True, f"Every file is as in commit {sources['commit']}, and there is none beside them."


def sentence(holds, wrong, good):
    text = good if holds else '; '.join(wrong)
    return text[:1].upper() + text[1:] + '.'


def words_of(parts, sources):
    as_committed, _ = tree(sources)
    if not all(part['holds'] for part in parts) or sources['changed_while_running']:
        return FAILS
    return {True: HOLDS, False: CHANGED, None: UNKNOWN}[as_committed]


def of(report):
    parts = []
    for part, title, judged in (('proofs', 'The proofs', proofs(report)), ('rust', 'The Rust beside the port', rust(report)),
                                ('captures', 'The captures read', captures(report)), ('tests', 'The other tests', tests(report))):
        parts.append({'part': part, 'title': title, 'holds': not judged[0], 'reason': sentence(not judged[0], *judged)})
    as_committed, reason = tree(report['sources'])
    words = words_of(parts, report['sources'])
    return {
        'holds': words == HOLDS,
        'words': words,
        'status': STATUS[words],
        'parts': parts,
        'sources': {'title': 'The sources as committed', 'holds': as_committed, 'reason': reason},
    }
