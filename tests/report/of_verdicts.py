"""What each way of going wrong comes to."""
import verdict
from held import check, equal
from madeup import CRATE, SOURCES, Results


def verdicts(work):
    good = Results(work).made()['verdict']
    equal('results that hold: everything holds', (good['words'], good['status'], good['holds']), ('Everything holds.', 0, True))
    equal('in three parts and the other tests', [(part['part'], part['holds']) for part in good['parts']],
          [('proofs', True), ('rust', True), ('captures', True), ('tests', True)])

    def comes_to(what, words, status, parts, reason, *changes):
        """Those parts do not hold, and the first of them for that reason."""
        results = Results(work)
        for change in changes:
            change(results)
        found = results.made()['verdict']
        wrong = [one for one in found['parts'] + [{'part': 'sources', **found['sources']}] if one['holds'] is not True]
        said = (found['words'], found['status'], found['holds']) == (words, status, False)
        check(f'{what}: {words} {parts}: {reason}', said and [one['part'] for one in wrong] == parts.split() and reason in wrong[0]['reason'],
              f"{found['words']} {[(one['part'], one['reason']) for one in wrong]}")
        pages = [results.page(name) for name in ('md', 'html', 'json')]
        check(f'{what}: so say all three files', all(words in page and verdict.HOLDS not in page for page in pages))

    def fails(what, parts, reason, *changes):
        comes_to(what, verdict.FAILS, 1, parts, reason, *changes)

    def log(old, new=''):
        def change(results):
            assert old in results.log
            results.log = results.log.replace(old, new)
        return change

    def put(where, key, value):
        return lambda results: getattr(results, where).__setitem__(key, value)

    def without(*names):
        return lambda results: [setattr(results, name, None) for name in names]

    def source(**more):
        return put('run', 'sources', {**SOURCES, **more})

    not_proved = log('rt: two proved', 'rt: two NOT PROVED')
    changed = source(as_committed=False, changed=[{'file': 'crates/one/x.rt', 'how': 'changed'}])
    fails('a crate that was not proved', 'proofs', '1 of 2 crates were proved; not proved: two', not_proved)
    fails('a wrong version that was not refused', 'proofs', 'not refused: one/wrong', log('refused, as it must be', 'NOT REFUSED'))
    fails('rt ci that failed', 'proofs', 'The test says: rt ci (exit status 1)', log('ok: rt ci', 'FAILED: rt ci (exit status 1)'))
    fails('rt ci that was broken off', 'proofs', 'did not come to their end', log('ok: rt ci\n'))
    fails('a wrong version that tries nothing', 'proofs', 'The test says: wrong versions that try nothing: 1 refused, 1 bad',
          log('ok: each wrong version was refused: 1 refused', 'FAILED: wrong versions that try nothing: 1 refused, 1 bad'))
    fails('a verdict of an earlier run', 'proofs', 'verdicts that rest on a check of an earlier run: not all was done in this one',
          log('ok: no verdict rests on a check of an earlier run', 'FAILED: verdicts that rest on a check of an earlier run: not all was done in this one'))
    fails('a crate that an earlier run proved', 'proofs', '1 of 2 crates were proved; not proved: two',
          log('rt: two proved', 'rt: two is kept: an earlier run on this machine proved the same files over the same libraries'))
    fails('a kit of another logic', 'proofs', "pins 'kit logic 01ab'",
          put('run', 'kit', {'version': 'kit logic 01ac', 'pinned': 'kit logic 01ab'}))
    fails('no kit', 'proofs', 'not there', put('run', 'kit', {'version': None, 'pinned': 'kit logic 01ab'}))
    fails('a failed check', 'tests', '1 check failed: the header lacks a call',
          log('9 passed, 0', 'FAILED: the header lacks a call\n9 passed, 1'))
    for name in ('rt ci is named', 'the comparison and more', 'compare/build is named'):
        fails(f'a failed check with a name like that of a part, {name}', 'tests', f'1 check failed: {name}',
              log('9 passed, 0', f'FAILED: {name}\n9 passed, 1'))
    fails('a failed check that the log does not name', 'tests', '1 check failed, and the log does not say which', log('9 passed, 0', '9 passed, 1'))
    fails('a test that was broken off', 'tests', 'did not come to its end', log('9 passed, 0 failed\n'))
    fails('nothing delivered', 'rust tests', 'not the one in dist/',
          put('run', 'delivered', {'libax25frame.a': None, 'ax25.h': None, 'dumper': None, 'follow': None}))
    fails('a difference', 'rust', 'does not list it: 1 time', put('compared', 'mismatches', 1))
    fails('a class that failed', 'rust', 'The comparison failed: octets: 3 inputs, 1 mismatches',
          log('ok: the comparison', 'FAILED: octets: 3 inputs, 1 mismatches\nFAILED: the comparison (exit status 1)'))
    fails('a comparison that was not built', 'rust captures', 'was not run', log('ok: the comparison', 'FAILED: compare/build'),
          without('compared', 'captures'))
    fails('a Rust crate that is not as published', 'rust', 'not as published: src/lib.rs',
          put('run', 'rust_crate', {**CRATE, 'as_published': False, 'departs': ['src/lib.rs']}))
    fails('another archive', 'rust', 'not the one in dist/', put('compared', 'archive', '00'))
    fails('a difference on captures', 'captures', 'does not list it: 2 times', put('captures', 'mismatches', 2))
    fails('a capture that could not be compared', 'captures', '1 capture could not be compared', put('captures', 'refused_captures', [{}]))
    fails('a capture that changed meanwhile', 'captures', 'not what was looked over',
          lambda results: results.captures['captures'][0].update(sha256='00'))
    fails('a capture that was left out', 'captures', 'not what was looked over', put('captures', 'captures', []))
    fails('a frame that was not read with the others', 'captures', 'call over many frames did not read all of 1 capture',
          lambda results: results.captures['captures'][0]['in_one_call'].update(records=2))
    fails('an I frame that no link accounts for', 'captures', 'do not account for the I frames of 1 capture',
          lambda results: results.captures['captures'][0]['links'].update(outside=1))
    more = [{'frames': frames, 'links': {'followed': 1, 'outside': 2}, 'in_one_call': {'kinds': {'I': 3}}} for frames in (65_535, 65_536)]
    equal('of more frames than a link counts nothing of the kind is asked', [verdict.accounted(capture) for capture in more], [False, True])
    fails('no capture', 'captures', 'no capture is told of', put('checked', 'captures', []), put('captures', 'captures', []))
    comes_to('a changed tree', verdict.CHANGED, 3, 'sources', 'crates/one/x.rt (changed)', changed)
    comes_to('a tree without git', verdict.UNKNOWN, 3, 'sources', 'no git repository',
             source(as_committed=None, commit=None, why_unknown='the tree is no git repository'))
    fails('a tree that changed meanwhile', 'sources', 'changed while they were checked', source(changed_while_running=True))
    fails('a changed tree and a failure', 'proofs sources', '1 of 2 crates were proved', not_proved, changed)
