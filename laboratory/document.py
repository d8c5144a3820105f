"""The laboratory's report as a document: what each page says, from the report's dictionary."""
import os

from pages import Code, Heading, Items, Paragraph, Signatures, Table, Together, Verbatim
from reasons import MEANINGS
from verdict import many

# How many files that are not as committed stand on a page.
MOST_FILES = 100
YES_NO = {True: 'yes', False: 'no', None: "can't be told"}


def title(report):
    return f"{report['component']} {report['version'] or '(no version)'}: the laboratory's run"


def inline(text):
    """A text of docs/DIFFERENCES.md, in which code stands between backquotes."""
    return [Code(part) if i % 2 else part for i, part in enumerate(text.split('`'))]


def code_or(text, words):
    return Code(text) if text else words


# The cover


def about_host(host):
    memory = f", {host['memory_mb']:,} MB of memory" if host['memory_mb'] else ''
    return f"{host['machine']}, {host['processor']}, {many(host['processors'], 'processor')}{memory}"


COMPILERS = (('Rust', 'rustc'), ('C', 'c'), ("the kit's", 'clang'), ('Python', 'python'))


def facts(report):
    host, kit, compilers = report['host'], report['kit'], report['compilers']
    none = 'not found on this host'
    return Table(None, [
        ('Component', f"{report['component']} {report['version'] or '(there is no file VERSION)'}, AX.25 frames for the relay box"),
        ('Begun', report['began']),
        ('Ended', report['ended']),
        ('Host', host['name']),
        ('Machine', about_host(host)),
        ('Kernel', host['kernel']),
        ('System', host['system']),
        ('Kit and logic', [code_or(kit['version'], 'no kit'), '; kit.txt pins ', Code(kit['pinned'])]),
        ('Compilers', '; '.join(f'{name}: {compilers[key] or none}' for name, key in COMPILERS)),
        ('Commit', [code_or(report['sources']['commit'], 'none'), '. ' + report['verdict']['sources']['reason']]),
    ])


def crate_state(crate):
    if crate['as_published']:
        return 'as published, by the digests that laboratory/sources.py has'
    return 'NOT AS PUBLISHED: ' + ', '.join(crate['departs'])


def digests(report):
    sources, crate = report['sources'], report['rust_crate']
    rows = [(f"the sources: {sources['files']:,} files, of which sources.sha256 is the list", Code(sources['sha256']))]
    for name, digest in crate['files'].items():
        rows.append((f"the Rust crate {crate['name']}, {name}", code_or(digest, 'not there')))
    rows += [(f'dist/{name}', code_or(digest, 'not built')) for name, digest in report['delivered'].items()]
    for capture in report['captures']:
        rows.append((['capture ', Code(os.path.basename(capture['file']))], code_or(capture.get('sha256'), 'not read')))
    return [
        Table(['what', 'SHA-256'], rows),
        Paragraph(f'The Rust crate is {crate_state(crate)}. The digest of the archive in which it was published is not known here, '
                  'so it is not compared.'),
    ]


def cover(report):
    return [Paragraph(report['verdict']['words'], strong=True), facts(report), *digests(report)]


# What it comes to


def judged(report):
    verdict = report['verdict']
    rows = [(part['title'], YES_NO[part['holds']], part['reason']) for part in [*verdict['parts'], verdict['sources']]]
    return [
        Heading('The verdict', new_page=True),
        Paragraph(verdict['words'], strong=True),
        Table(['part', 'holds', 'reason'], rows),
    ]


def not_shown(report):
    """What no run of this command can show, and what this one did not."""
    assumed = '; '.join(report['assumed']) or 'none'
    sentences = [
        'The checker and its logic are what proves. kit.txt pins their sum, and no run of them shows that they are right.',
        'The definitions in crates/*/specs/ say what is proved. A wrong definition would prove a wrong program: they are to be read.',
        "No proof speaks of the machine code that the kit's compiler makes. The tests and the comparison run it, on many inputs and "
        'not on all.',
        f"The proofs of the programs assume functions of C, and those of the archive none. Assumed here: {assumed}.",
        "That the Rust crate's files are those that its registry gives out is not shown: they are compared with digests that stand in "
        'these sources.',
        'Captures show what the port makes of their frames. What it makes of other frames follows from the proofs, not from captures.',
    ]
    if report['host']['machine'] != 'x86_64':
        sentences.append("The archive is for x86-64: on this host its code ran by an emulator.")
    if report['skipped']:
        left = many(len(report['skipped']), 'check')
        sentences.append(f"{left} could not be made on this host: see 'Not checked on this host'.")
    return sentences


def to_sign(report):
    archive = report['delivered'].get('libax25frame.a')
    built = ['; libax25frame.a with SHA-256 ', Code(archive)] if archive else ['; libax25frame.a was not built']
    what = [f"{title(report)}, ended {report['ended']}; sources with SHA-256 ", Code(report['sources']['sha256']), *built]
    signed = Paragraph([*what, f": {report['verdict']['words']}"])
    return [Together([Heading('To sign'), signed, Signatures()])]


def limits(report):
    return [
        Heading('What this run does not show'),
        Items(report['not_shown']),
        Paragraph('docs/TRUST.md has all that no proof speaks of, and how it is tested instead.'),
    ]


# What went wrong


def lines_of(heading, lines):
    return [Heading(heading), Items(lines)] if lines else []


def changed(report):
    """Every file that is not as committed; the verdict names the first."""
    files = [[Code(change['file']), f": {change['how']}"] for change in report['sources']['changed']]
    more = [f'{len(files) - MOST_FILES:,} more stand in report.json'] if len(files) > MOST_FILES else []
    return lines_of('Files that are not as committed', files[:MOST_FILES] + more)


def shown_difference(difference):
    lines = [difference['class'], f"  input: {difference['input']}"]
    for one in difference['differences']:
        lines += [f"  {one['what']}", f"    owed: {one['owed']}", f"    port: {one['port']}"]
    return lines + [f"  again: {difference['again']}", '']


def more_of(part, shown):
    """How many differences stand not on the page, and where they do."""
    more = part['unlisted'] - shown
    if more <= 0:
        return 'That is all of them.'
    if part['file'] is None:
        return f'{more:,} more are not shown.'
    left = part['unlisted'] - part['written']
    rest = f', but for {left:,}, which are only counted there' if left > 0 else ''
    return f"{more:,} more are not shown here: all of them stand in {part['file']}, in this folder{rest}."


def unlisted(report):
    out = []
    for name, key, where in (('test', 'compared', "in the comparison's own classes"), ('captures', 'captures_compared', 'on captures')):
        part = report['differences'][name]
        if part['unlisted']:
            shown = report[key]['mismatches_shown']
            out += [Paragraph(f"{many(part['unlisted'], 'difference')} {where}:")]
            out += [Verbatim([line for difference in shown for line in shown_difference(difference)][:-1]), Paragraph(more_of(part, len(shown)))]
    return [Heading('Differences that docs/DIFFERENCES.md does not list')] + (out or [Paragraph(none_unlisted(report))])


def none_unlisted(report):
    parts = (('test', "the comparison's own classes"), ('captures', 'the captures'))
    missing = [where for name, where in parts if report['differences'][name]['unlisted'] is None]
    return 'None.' if not missing else f"None is known: {' and '.join(missing)} were not compared."


def departure(row):
    said = inline(f"{row['what']}. The Rust: {row['rust']}. The port: {row['port']}.")
    return row['number'], said, f"{row['captures']:,}", f"{row['provoked']:,}"


def listed(report):
    out = [Heading('Listed differences that were met')]
    if not report['listed']:
        return out + [Paragraph('None.')]
    return out + [
        Paragraph('Where the port answers otherwise than the Rust by intent, in the words of docs/DIFFERENCES.md, and how many answers were compared '
                  'by it: because a frame of a capture brought it along, or because the comparison provoked it, by the inputs of its own classes '
                  'and by lending too little room for what is written (answer 24), also for the frames of captures.'),
        Table(['No.', 'what', 'brought by captures', 'provoked'], [departure(row) for row in report['listed']]),
    ]


# What was compared


def relays(part):
    return (f"{many(part['relayed_routes'], 'frame')} with a route relayed by each of their repeaters: {many(part['relays'], 'relay')}, "
            f"{part['relayed']:,} of them passed on.")


def packets(part):
    numbers = part['packet_numbers']
    refused = [f', {count:,} refused by {number}' for number, count in numbers.items() if number != '0' and count]
    return f"{many(sum(numbers.values()), 'KISS packet')} read: {numbers['0']:,} accepted" + ''.join(refused) + '.'


def streams(part):
    counts = part['kiss_streams']
    return (f"{many(counts['streams'], 'KISS stream')} of {many(counts['octets'], 'octet')} read in pieces: "
            f"{many(counts['packets'], 'packet')} given out, {counts['dropped']:,} dropped.")


def pairs(part):
    """How the frames stand to what they are re-encoded as, and to one another (document 02, M-107)."""
    again, met = (', '.join(f'{name}: {count:,}' for name, count in part['pairs'][way].items()) or 'none'
                  for way in ('re-encoded as that', 'met with the same frame and info'))
    forgotten = part.get('not_remembered')
    rest = f" {many(forgotten, 'frame')} put beside earlier ones, but not remembered for later ones." if forgotten else ''
    return (f"Beside what it is re-encoded as each accepted frame is: {again}. {many(part['frames_again'], 'frame')} met with the frame and info "
            f"of an earlier one, which for {part['neither_canonical']:,} of them is no more canonical than they are; beside the canonical one of "
            f'the two the other is: {met}.{rest}')


def nulls(part):
    """How many frames a stuck line driver may have spoilt, and that both readers were held to what they owe these (document 02, M-108)."""
    frames = sum(capture['frames'] for capture in part['captures'])
    if part['leading_nulls'] == 0:
        return f'None of {frames:,} frames had leading nulls.'
    if part['mismatches']:
        outcome = 'what the decoder and the entry for old captures make of them was compared, and something above differs'
    else:
        outcome = 'the decoder refuses them by 10, and the entry for old captures answers as the Rust does, but for the listed differences'
    return f"{part['leading_nulls']:,} of {frames:,} frames had leading nulls: {outcome}."


def rooms(part):
    return 'Room lent to writers: ' + ', '.join(f"{name} {many(count, 'time')}" for name, count in part['rooms'].items()) + '.'


def records(part):
    """Parts of a buffer that one call reads (document 02, M-111)."""
    counts = part['records']
    return (f"{many(counts['records'], 'part')} of buffers read by {many(counts['calls'], 'call')} of ax25_captures: {counts['refused']:,} of them "
            f"refused, {counts['not_inside']:,} not inside the buffer.")


def offers(part):
    """Frames that links' records were offered (document 02, M-112)."""
    counts = part['offers']
    return (f"{many(counts['offers'], 'frame')} offered to links' records by ax25_link_offer. Of the I frames between their stations "
            f"{counts['in_order']:,} were in order, {counts['repeated']:,} repeated, {counts['gaps']:,} gaps and {counts['outside']:,} outside.")


def capture_row(capture):
    name = Code(capture['file'])
    if 'refused' in capture:
        return [name, 'refused', '', '', '', '', '', '']
    return [name, capture['format'], *(f'{capture[count]:,}' for count in ('octets', 'frames', 'packets', 'passed_over')),
            Code(capture['sha256']), len(capture['doubts']) or 'none']


def spelling_row(name, frames, counts):
    reasons = [counts['reasons'][word] for word in MEANINGS]
    return [name, *(f'{count:,}' for count in (frames - counts['accepted'], counts['accepted'], counts['canonical'], *reasons))]


def spellings(part, every):
    """How many frames of each capture are not canonical, and why (document 02, M-110)."""
    rows = [spelling_row(Code(capture['file']), capture['frames'], capture) for capture in every if capture['compared']]
    return [
        Heading('Frames that are not canonical'),
        Paragraph('A frame that is accepted is canonical where re-encoding would write it just as it came. Each that is not is counted once, by the '
                  'first of these reasons that holds of it, read in the short mode, in which sequence numbers are modulo 8:'),
        Items([f'{word}: {means}' for word, means in MEANINGS.items()]),
        Table(['file', 'refused', 'accepted', 'canonical', *MEANINGS], [*rows, spelling_row('all', part['decodes'], part)]),
    ]


def call_row(name, counts):
    kinds = ', '.join(f'{kind} {count:,}' for kind, count in counts['kinds'].items() if count)
    return [name, *(f'{counts[what]:,}' for what in ('calls', 'records', 'refused')), kinds or 'none']


def in_one_call(part, every):
    """What the frames of each capture are as one call reads them (document 02, M-111)."""
    rows = [call_row(Code(capture['file']), capture['in_one_call']) for capture in every if capture['compared']]
    return [
        Heading('Frames read in one call'),
        Paragraph("The frames of each capture were also laid one behind another in a buffer, with a record for each, and read by one call of "
                  'ax25_captures in the short mode, or by several where there are very many. Each record was held to what the Rust and the port '
                  'make of the frame by itself. What was owed to the records, and the kinds of those that are accepted:'),
        Table(['file', 'calls', 'records', 'refused', 'kinds'], [*rows, call_row('all', part['in_one_call'])]),
    ]


def link_row(name, counts):
    return [name, *(f'{counts[what]:,}' for what in ('followed', 'in_order', 'repeated', 'gaps', 'outside', 'not_followed'))]


def links(part, every):
    """Where the links of each capture lost data (document 02, M-112)."""
    rows = [link_row(Code(capture['file']), capture['links']) for capture in every if capture['compared']]
    return [
        Heading('Links followed'),
        Paragraph('Through each capture ax25_link_offer followed the links of the first 16 pairs of stations with an I frame between them, and each '
                  "record was held to document 02's words after each frame. The I frames of these links among the first 65,535 frames are in order; "
                  'repeated, the last one in order once more; gaps, which others should have come before; or outside, while the link was not up. '
                  'Beside them stand the I frames of no such link:'),
        Table(['file', 'links', 'in order', 'repeated', 'gaps', 'outside', 'of no such link'], [*rows, link_row('all', part['links'])]),
    ]


CAPTURE_HEADS = ['file', 'format', 'octets', 'frames', 'KISS packets', 'passed over', 'SHA-256', 'doubts']


def captures(report):
    part, every = report['captures_compared'], report['captures']
    out = [Heading('Captures', new_page=True)]
    if report['samples']:
        out += [Paragraph('No capture was given, so the samples in tests/captures/ were read.')]
    if every:
        out += [Table(CAPTURE_HEADS, [capture_row(capture) for capture in every])]
    doubts = [[Code(capture['file']), f": {doubt}"] for capture in every for doubt in capture.get('doubts', [])]
    doubts += [[Code(capture['file']), f": refused: {capture['refused']}"] for capture in every if 'refused' in capture]
    out += [Paragraph('What is doubtful in them:'), Items(doubts)] if doubts else []
    if part is None:
        return out + [Paragraph('Not compared.')]
    said = [f"{many(part['decodes'], 'decode')} and {many(part['writes'], 'write')} compared: {part['accepted']:,} accepted, "
            f"{part['canonical']:,} of them canonical."]
    out += [Paragraph('What came of them:'), Items(said + [of(part) for of in (nulls, relays, pairs, packets, streams, rooms)])]
    return out + spellings(part, every) + in_one_call(part, every) + links(part, every)


def compared(report):
    part = report['compared']
    out = [Heading('The Rust beside the port')]
    if part is None:
        return out + [Paragraph('Not compared.')]
    said = [f"{part['decodes']:,} decodes, {part['writes']:,} writes and {part['relays']:,} relays compared, {part['relayed']:,} of the relays "
            'passed on.']
    said += [of(part) for of in (records, offers, packets, streams, rooms)]
    return out + [Items(said), Paragraph(f"The {len(part['classes'])} classes of inputs stand in the first appendix.")]


def proved(report):
    versions = report['wrong_versions_refused']
    return [Heading('The proofs'), Items([
        f"Proved: {many(len(report['crates']), 'crate')}, {many(report['functions'], 'function')}.",
        f"Assumed of functions of C, by programs alone: {'; '.join(report['assumed']) or 'none'}.",
        f"Wrong versions refused: {len(versions)}.",
        checks(report['checks']),
    ])]


def checks(count):
    return f"Checks of ./test: {count['passed']} passed, {count['failed']} failed." if count else 'The test did not come to its end.'


# Appendices


def appendices(report):
    found = []
    if report['compared']:
        rows = [(line['name'], f"{line['inputs']:,}", f"{line['mismatches']:,}") for line in report['compared']['classes']]
        found.append(('the classes of the comparison', [Table(['class', 'inputs', 'mismatches'], rows)]))
    if report['ratios']:
        rows = [(ratio['input'], ratio['call'], f"{ratio['ratio']:.1f}") for ratio in report['ratios']]
        about = Paragraph("The Rust's time over the port's, in one process on the same inputs.")
        found.append(('speed', [about, Table(['input', 'call', 'ratio'], rows)]))
    if report['stack']:
        about = Paragraph('At most, in octets, by the code of the archive.')
        found.append(('stack', [about, Table(['call', 'octets'], list(report['stack'].items()))]))
    if report['crates']:
        rows = [(crate['crate'], crate['functions']) for crate in report['crates']]
        found.append(('the crates', [Table(['crate', 'functions'], rows)]))
    if report['wrong_versions_refused']:
        found.append(('the wrong versions that were refused', [Paragraph(', '.join(report['wrong_versions_refused']) + '.')]))
    out = []
    for letter, (heading, blocks) in zip('ABCDEFGH', found):
        out += [Heading(f'Appendix {letter}: {heading}', new_page=letter == 'A'), *blocks]
    return out


def document(report):
    """The blocks of the report, in their order."""
    return [
        *cover(report), *judged(report), *limits(report), *to_sign(report),
        *lines_of('Failed', report['failed']), *changed(report), *lines_of('Not checked on this host', report['skipped']),
        *unlisted(report), *listed(report), *captures(report), *compared(report), *proved(report), *appendices(report),
    ]
