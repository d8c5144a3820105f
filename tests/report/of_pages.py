"""What the pages say: the three files agree, docs/REPORT.md names their fields, and real captures are told of."""
import html
import html.parser
import json
import os
import re
import subprocess
import sys

import evidence
import verdict
from held import ROOT, check, equal, read, write
from madeup import COMPARED, CRATE, MISMATCH, ODD, ON_CAPTURES, SOURCES, Results
from pages import Signatures
from reasons import MEANINGS

COMPARE = os.environ.get('COMPARE') or f'{ROOT}/target/compare/compare'


class Page(html.parser.HTMLParser):
    """The elements of a page and their texts; what is opened has to be closed, in order."""

    EMPTY = ('meta', 'wbr')
    TEXTS = ('title', 'style', 'h1', 'h2', 'p', 'li', 'th', 'td', 'pre')

    def __init__(self, text):
        super().__init__()
        self.opened, self.wrong, self.tags, self.attributes, self.texts = [], [], [], set(), []
        self.feed(text)
        self.close()
        self.wrong += self.opened
        self.texts = [text.strip('\n') for text in self.texts]

    def handle_starttag(self, tag, attributes):
        self.tags.append(tag)
        self.attributes.update(name for name, _ in attributes)
        if tag not in self.EMPTY:
            self.opened.append(tag)
        if tag in self.TEXTS:
            self.texts.append('')

    def handle_endtag(self, tag):
        if not self.opened or self.opened.pop() != tag:
            self.wrong.append(tag)

    def handle_data(self, data):
        if self.texts:
            self.texts[-1] += data


def markdown_cells(text):
    """The cells of its tables, as a reader of Markdown shows them."""
    rows = [line[2:-2].split(' | ') for line in text.split('\n') if line.startswith('| ')]
    return [html.unescape(cell.strip('`') if cell.startswith('`') and cell.endswith('`') else cell) for row in rows for cell in row]


def table_rows(text, first):
    """The rows of a page's tables whose first cell is like this."""
    rows = [[cell.strip() for cell in line.strip('|').split(' | ')] for line in text.split('\n') if line.startswith('| ')]
    return [row for row in rows if re.fullmatch(first, row[0])]


def agree(work):
    """The three files say the same."""
    results = Results(work)
    results.compared.update(mismatches=30, mismatches_shown=[MISMATCH], mismatches_written=25)
    results.log = results.log.replace('ok: the comparison', 'FAILED: <odd> | `line` \x1b[1m')
    results.run['sources'] = {**SOURCES, 'as_committed': False, 'changed': [{'file': f'{n} {ODD}', 'how': 'changed'} for n in range(9)]}
    made = results.made()
    equal('report.json holds the dictionary', json.loads(results.page('json')), made)
    page, markdown = Page(results.page('html')), results.page('md')
    alone(results.page('html'), page)
    marked = markdown_cells(markdown)
    for what, text in (('the odd name', f'/tmp/{ODD}'), ('the digest of the sources', 'cd' * 32), ('the digest of a capture', 'ab' * 32),
                       ('a reason', made['verdict']['parts'][1]['reason'])):
        near = [cell for cell in page.texts + marked if cell[:8] == text[:8]]
        check(f'{what} stands in both pages as it is', text in page.texts and text in marked, near)
    bars = {line.count('|') for line in markdown.split('\n') if line.startswith('| ') and '/tmp/a' in line}
    equal('the rows of the odd name have as many cells as the heads of their tables, eight, five of what one call reads and seven of links', bars, {9, 6, 8})
    says(made, page, markdown)
    met(page)
    wrong_record(work)


def wrong_record(work):
    """A record that one call filled otherwise than it owes, as the comparison tells of it (compare/faults has it do so)."""
    results = Results(work)
    owed, port = (f'start 18 length 15 number 0 canonical 1 kind {kind}' for kind in ('RR (1)', 'RNR (2)'))
    differs = {'class': 'frames of x.hex (hex lines) in one call', 'input': f'line 2: {FIELD}01', 'again': "compare captures 'x.hex'",
               'differences': [{'what': 'the record', 'owed': owed, 'port': port}]}
    results.captures.update(mismatches=1, mismatches_shown=[differs], mismatches_written=1)
    made = results.made()
    equal('a record that one call filled otherwise is a difference on captures, which then do not hold',
          (made['verdict']['status'], [part['part'] for part in made['verdict']['parts'] if not part['holds']]), (1, ['captures']))
    text = html.unescape(results.page('md'))
    words = ('1 difference on captures:', differs['class'], f'  input: line 2: {FIELD}01', f'    owed: {owed}', f'    port: {port}')
    check('and both pages show it with its octets', all(word in page for page in (text, html.unescape(results.page('html'))) for word in words))


def alone(text, page):
    check('report.html is well-formed', not page.wrong and page.tags[0] == 'html', page.wrong)
    tags = set(page.tags) - {'html', 'head', 'meta', 'body', 'section', 'table', 'thead', 'tbody', 'tr', 'ul', 'code', 'wbr', *page.TEXTS}
    attributes = page.attributes - {'lang', 'charset', 'class', 'scope'}
    outside = re.findall(r'https?:|@import|url\(', text)
    check('and has no outside part and no script', not tags and not attributes and not outside, f'{tags} {attributes} {outside}')
    check('it prints on A4, heads of tables are repeated, rows are not broken', all(
        rule in text for rule in ('size: A4', 'thead { display: table-header-group; }', 'tr { break-inside: avoid;')))


def says(made, page, markdown):
    """What both pages have to say."""
    every = html.unescape(markdown)
    for field in Signatures.FIELDS:
        equal(f'two lines to sign: {field}', (page.texts.count(field), every.count(f'\n{field}: ....')), (2, 2))
    check('what the run does not show, and docs/TRUST.md', 'docs/TRUST.md has all' in every and len(made['not_shown']) > 5
          and all(sentence in page.texts and f'- {sentence}\n' in every for sentence in made['not_shown']))
    files = [f'{n} {ODD}: changed' for n in range(9)]
    check('every file that is not as committed', all(file in page.texts and f'- {file}\n' in every for file in files))
    words = ('  input: 8e82|`<&', '    owed: 3', '29 more are not shown here: all of them stand in differences-test.txt, in this folder, '
             'but for 5, which are only counted there.')
    check('a difference stands there with its octets, and where the others are',
          all(word in text for text in ('\n'.join(page.texts), every) for word in words))
    heads = re.findall(r'^## (.*)$', markdown, re.M)
    appendices = [head for head in heads if head.startswith('Appendix ')]
    check('long tables come last, as appendices', heads[-len(appendices):] == appendices and len(appendices) == 5, heads)
    for words in ('9 decodes, 8 writes and 7 relays compared, 6 of the relays passed on.',
                  '5 KISS packets read: 3 accepted, 2 refused by 54.',
                  '1 KISS stream of 2 octets read in pieces: 3 packets given out, 4 dropped.',
                  'Room lent to writers: exactly full 2 times, shorter 1 time.', '| octets: every string of 0 to 2 | 65,793 | 0 |',
                  '| UI | decode | 9.0 |', '| ax25_decode | 88 |', '| one | 3 |', '| two | 4 |', 'valgrind: it is not on this host',
                  'by programs alone: one: libc: libc::read, libc::write, libc::heap::rattle_alloc, ... (6 of the 128 declared).', 'one | doubt', '| file | refused | accepted | canonical | leftover | marks | tail | fixed |',
                  ' | 1 | 2 | 1 | 0 | 0 | 1 | 0 |', '| all | 2 | 7 | 4 | 0 | 2 | 1 | 0 |',
                  '- marks: it is marked neither as a command nor as a response\n',
                  '12 parts of buffers read by 3 calls of ax25_captures: 4 of them refused, 1 not inside the buffer.',
                  '| file | calls | records | refused | kinds |', ' | 1 | 3 | 1 | RR 1, UI 1 |', '| all | 1 | 9 | 2 | UI 7 |',
                  "2,000 frames offered to links' records by ax25_link_offer. Of the I frames between their stations 1,500 were in order, 3 repeated, "
                  '2 gaps and 1 outside.', '| file | links | in order | repeated | gaps | outside | of no such link |',
                  ' | 0 | 0 | 0 | 0 | 0 | 0 |', '| all | 6 | 5 | 4 | 3 | 2 | 1 |'):
        check(f'the report says: {words.strip()}', words in every)


def met(page):
    """The listed differences: those of captures apart from those that the comparison provokes, of which too little room is one."""
    rows = [page.texts[i:i + 4] for i, text in enumerate(page.texts) if re.fullmatch('B[0-9]+', text)]
    words = {row[0]: row[1:4] for row in table_rows(read(f'{ROOT}/docs/DIFFERENCES.md'), r'B\d+')}
    owed = []
    for number, captures, provoked in (('B1', '2', '3'), ('B4', '0', '12'), ('B8', '1', '0')):
        what, rust, port = words[number]
        owed.append([number, f'{what}. The Rust: {rust}. The port: {port}.'.replace('`', ''), captures, provoked])
    equal('each listed difference that was met, in the words of docs/DIFFERENCES.md', rows, owed)


# Fields whose names are what they are about, and those that are told of as a whole.
FREE = ('rust_crate.files', 'delivered', 'stack', 'captures[].in_one_call.kinds')
WHOLE = ('compared', 'captures_compared', 'differences.test', 'differences.captures')


def fields(value, path=''):
    if path in WHOLE:
        yield path
    elif isinstance(value, dict) and value:
        for name, inner in value.items():
            yield from fields(inner, f'{path}.*' if path in FREE else f'{path}.{name}' if path else name)
    elif isinstance(value, list):
        for inner in value or [None]:
            yield from fields(inner, f'{path}[]')
    else:
        yield path


def named(page):
    """The fields that a table names in its first column."""
    return {name for line in page.split('\n') if line.startswith('| `') for name in re.findall('`([^`]+)`', line.split(' | ')[0])}


def documented(work):
    """docs/REPORT.md names every field, and no other."""
    page = read(f'{ROOT}/docs/REPORT.md')
    first, second = page.split('## report.json')[1].split('Of `compared` and `captures_compared`:')
    results = Results(work)
    results.run['sources'] = {**SOURCES, 'changed': [{'file': 'x', 'how': 'missing'}]}
    results.run['rust_crate'] = {**CRATE, 'departs': ['x']}
    results.log = results.log.replace('rt: two proved', 'rt: three proved').replace('one/wrong', 'one/other') + 'FAILED: x\n0 passed, 1 failed\n'
    equal('docs/REPORT.md has the fields of report.json', sorted(named(first) ^ set(fields(results.made()))), [])
    equal('and those of the comparison', sorted(named(second) ^ (set(COMPARED) | set(ON_CAPTURES))), [])
    equal('and the schema', re.findall(r'`schema` is (\d+)\.', page), [str(evidence.SCHEMA)])
    rows = {row[1]: int(row[0]) for row in table_rows(page, r'\d') if len(row) == 3}
    equal('and each exit status with its words', rows, verdict.STATUS)


# What the report says of the stored captures, which the comparison itself compares


def of_captures(work, words, change=None):
    """The Markdown and the dictionary of a report on these captures."""
    results, left, reader = Results(work), f'{work}/real', [sys.executable, '-B', f'{ROOT}/compare/captures.py']
    os.makedirs(left, exist_ok=True)
    subprocess.run([*reader, 'check', '--json', f'{left}/checked.json', *words], check=True, stdout=subprocess.DEVNULL)
    with open(f'{left}/frames.txt', 'wb') as file:
        subprocess.run([*reader, 'read', *words], check=True, stdout=file)
    subprocess.run([COMPARE, 'frames', f'{left}/frames.txt', '--json', f'{left}/captures.json'], check=True, stdout=subprocess.DEVNULL)
    results.checked, results.captures = json.loads(read(f'{left}/checked.json')), json.loads(read(f'{left}/captures.json'))
    if change:
        change(results.captures)
    made = results.made()
    return results.page('md'), made


def real(work):
    if not os.access(COMPARE, os.X_OK):
        check(f'{COMPARE} is there', False, 'run compare/build')
        return
    samples = f'{ROOT}/tests/captures'
    listed = [line for line in (line.split('#')[0].replace(' ', '') for line in read(f'{samples}/frames.hex').split('\n')) if line]
    count, nulls = len(listed), sum(line.startswith('00') and bool(re.search('[1-9A-Fa-f]', line)) for line in listed)
    of_a_log(work, f'{samples}/frames.kiss', count, nulls)
    of_reasons(work, f'{samples}/frames.hex', count)
    of_links(work, f'{samples}/link.hex', f'{samples}/frames.hex')
    write(f'{work}/without.hex', '8E82\n00\n')
    page, made = of_captures(work, [f'{work}/without.hex'])
    check('of frames without leading nulls, and of a null alone, it says that none had any', '- None of 2 frames had leading nulls.\n' in page)
    equal('and of frames that are all refused, that none has a reason', made['captures'][0]['reasons'], dict.fromkeys(MEANINGS, 0))
    equal('nor a kind', (made['captures'][0]['in_one_call'], called_on(page, 'without.hex')),
          ({'calls': 1, 'records': 2, 'refused': 2, 'kinds': dict.fromkeys(KINDS, 0)}, ['1', '2', '2', 'none']))
    page, _ = of_captures(work, [f'{samples}/frames.hex'], lambda part: part.update(mismatches=1))
    words = (f'- {nulls} of {count} frames had leading nulls: what the decoder and the entry for old captures make of them was compared, and '
             'something above differs.\n')
    check('and where something differs it claims nothing of them', words in page)


def of_a_log(work, log, count, nulls):
    page, made = of_captures(work, [log])
    again = 'the same octets: 60, the same but for excepted bits: 1, another frame: 2, another length with the same frame and info: 8'
    met = 'the same but for excepted bits: 1, another length with the same frame and info: 6'
    for what, words in (
        ('counts the KISS packets by number', f'- {count + 23} KISS packets read: {count} accepted, 11 refused by 54, 12 refused by 56.\n'),
        ('says how frames stand to one another',
         f'- Beside what it is re-encoded as each accepted frame is: {again}. 8 frames met with the frame and info of an earlier one, which for 1 '
         f'of them is no more canonical than they are; beside the canonical one of the two the other is: {met}.\n'),
        ('says how many had leading nulls',
         f'- {nulls} of {count} frames had leading nulls: the decoder refuses them by 10, and the entry for old captures answers as the Rust '
         'does, but for the listed differences.\n'),
        ('counts what it gives out as a stream',
         f'- 1 KISS stream of {os.path.getsize(log):,} octets read in pieces: {count} packets given out, 23 dropped.\n'),
    ):
        check(f'of frames.kiss the report {what}', words in page, page.partition('What came of them:')[2][:2000])
    part = made['verdict']['parts'][2]
    check('what was looked over is what was compared, and the captures hold', made['captures'][0]['compared'] and part['holds'], part)
    equal('the made-up results have every field that the comparison leaves', sorted(set(made['captures_compared']) ^ set(ON_CAPTURES)), [])


# The frames of a small capture, by what is counted of them; of some that have a reason one behind it in the order holds too.
FIELD, RESPONSE, EQUAL, LEFT_OVER, BOTH = (f'8E82AA8E8A40{seventh}849EB0626440{last}' for seventh, last in (
    ('E0', '67'), ('60', 'E7'), ('60', '67'), ('E0', '6641'), ('60', '6641')))
SMALL = {
    'refused': ['8E82', FIELD, FIELD + '03', '00' + FIELD + '01', RESPONSE + '87F103'],
    'canonical': [FIELD + '03F04F4B', FIELD + '01', FIELD + 'AF8280', RESPONSE + '87010244', FIELD + 'E3', FIELD + '6F'],
    'leftover': [LEFT_OVER + '01', BOTH + '01', LEFT_OVER + '01AA', LEFT_OVER + '87F10344'],
    'marks': [EQUAL + '03F0', EQUAL + '01AA', EQUAL + '87010344'],
    'tail': [FIELD + '01AA', FIELD + '6F01'],
    'fixed': [RESPONSE + '87010344'],
}
# How many frames of tests/captures/frames.hex are accepted.
LISTED = {'canonical': 60, 'leftover': 3, 'marks': 2, 'tail': 5, 'fixed': 1}
# The kinds of both's accepted frames, by their control octets.
KINDS = ('I', 'RR', 'RNR', 'REJ', 'SREJ', 'SABM', 'SABME', 'DISC', 'DM', 'UA', 'FRMR', 'UI', 'XID', 'TEST')
SMALL_KINDS = {'RR': 6, 'SABME': 2, 'FRMR': 4, 'UI': 2, 'XID': 1, 'TEST': 1}
LISTED_KINDS = dict(zip(KINDS, (4, 11, 1, 1, 3, 3, 3, 2, 2, 3, 3, 30, 3, 2)))


def of_reasons(work, listed, count):
    """The small capture, the list, and the small one's frames with each bit changed alone, of which only the sums are known."""
    small = [frame for frames in SMALL.values() for frame in frames]
    changed = [f'{int(frame, 16) ^ 1 << bit:0{len(frame)}x}' for frame in small for bit in range(4 * len(frame))]
    for name, lines in (('small', small), ('changed', changed)):
        write(f'{work}/{name}.hex', '\n'.join(lines))
    page, made = of_captures(work, [f'{work}/small.hex', listed, f'{work}/changed.hex'])
    captures = made['captures']
    for name, capture, frames, known in (('small.hex', captures[0], len(small), {what: len(frames) for what, frames in SMALL.items()}),
                                         ('frames.hex', captures[1], count, LISTED)):
        reasons = {word: known[word] for word in MEANINGS}
        owed = {'accepted': known['canonical'] + sum(reasons.values()), 'canonical': known['canonical'], 'reasons': reasons}
        equal(f'of {name} the JSON counts the frames that are accepted, canonical, and not, by reason', spelled(capture), owed)
        equal('and so does the page', spelled_on(page, name), spelled_row(frames, owed))
    reasons, others = captures[2]['reasons'], captures[2]['accepted'] - captures[2]['canonical']
    check('of each bit changed alone the reasons add up to what is accepted and not canonical',
          sum(reasons.values()) == others and all(reasons.values()), captures[2])
    sums = {what: sum(capture[what] for capture in captures) for what in ('accepted', 'canonical')}
    sums['reasons'] = {word: sum(capture['reasons'][word] for capture in captures) for word in MEANINGS}
    equal('and what all of them come to is the sum', spelled(made['captures_compared']), sums)
    equal('which the page has too', spelled_on(page, 'all'), spelled_row(sum(capture['frames'] for capture in captures), sums))
    of_kinds(page, made)


def of_kinds(page, made):
    """The same captures as one call reads each of them."""
    small, listed, changed = captures = made['captures']
    for name, capture, kinds in (('small.hex', small, SMALL_KINDS), ('frames.hex', listed, LISTED_KINDS)):
        owed = {'calls': 1, 'records': capture['frames'], 'refused': capture['frames'] - sum(kinds.values()),
                'kinds': {kind: kinds.get(kind, 0) for kind in KINDS}}
        equal(f'of {name} the JSON counts the frames that one call reads, by kind', capture['in_one_call'], owed)
    counts = changed['in_one_call']
    equal('of each bit changed alone the kinds add up to what is accepted, and the others are refused',
          (sum(counts['kinds'].values()), counts['refused'], counts['records']),
          (changed['accepted'], changed['frames'] - changed['accepted'], changed['frames']))
    total = made['captures_compared']['in_one_call']
    sums = {what: sum(capture['in_one_call'][what] for capture in captures) for what in ('calls', 'records', 'refused')}
    sums['kinds'] = {kind: sum(capture['in_one_call']['kinds'][kind] for capture in captures) for kind in KINDS}
    equal('and what all of them come to is the sum', total, sums)
    for name, counts in [(os.path.basename(capture['file']), capture['in_one_call']) for capture in captures] + [('all', total)]:
        words = ', '.join(f'{kind} {count:,}' for kind, count in counts['kinds'].items() if count)
        equal(f'the page has these of {name}', called_on(page, name), [f"{counts[what]:,}" for what in ('calls', 'records', 'refused')] + [words])


# What the comments of tests/captures/link.hex say of its I frames; those of frames.hex are of a link that is never up.
LINKS = {'followed': 3, 'in_order': 9, 'repeated': 2, 'gaps': 3, 'outside': 8, 'not_followed': 1}
NEVER_UP = {**dict.fromkeys(LINKS, 0), 'followed': 1, 'outside': LISTED_KINDS['I']}


def of_links(work, link, listed):
    page, made = of_captures(work, [link, listed])
    both = {what: LINKS[what] + NEVER_UP[what] for what in LINKS}
    found = [capture['links'] for capture in made['captures']] + [made['captures_compared']['links']]
    for name, counts, owed in zip(('link.hex', 'frames.hex', 'all'), found, (LINKS, NEVER_UP, both)):
        equal(f'of {name} the JSON counts the links that were followed', counts, owed)
        equal('and so does the page', row_of(page, 'Links followed', name), [str(count) for count in owed.values()])


def spelled(counts):
    return {what: counts[what] for what in evidence.SPELLED}


def spelled_row(frames, counts):
    return [f'{number:,}' for number in (frames - counts['accepted'], counts['accepted'], counts['canonical'], *counts['reasons'].values())]


def spelled_on(page, name):
    """What the page's table of reasons has behind the name of a file."""
    return row_of(page, 'Frames that are not canonical', name)


def called_on(page, name):
    """The same of its table of what one call reads."""
    return row_of(page, 'Frames read in one call', name)


def row_of(page, heading, name):
    [row] = table_rows(page.partition(f'\n## {heading}\n')[2].partition('\n## ')[0], rf'(?:`.*/)?{re.escape(name)}`?')
    return row[1:]
