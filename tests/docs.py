"""What the documents say of the sources, held to the sources: every public function has a contract and a row, every row its wrong
versions, every statement its file, every departure its definition, every rule that is cited its row. Prints one line a check; the last
is 'N passed, M failed'."""
import glob
import os
import re
import sys

sys.dont_write_bytecode = True
sys.path.insert(0, 'compare')
from reasons import MEANINGS

passed = failed = 0


def read(path):
    with open(path, encoding='utf-8') as file:
        return file.read()


def check(what, wrong):
    """One check: `wrong` lists what is wrong, and is empty where it holds."""
    global passed, failed
    wrong = list(wrong)
    if wrong:
        failed += 1
        print(f'FAILED: {what}: ' + '; '.join(wrong))
    else:
        passed += 1
        print(f'ok: {what}')


def sections(text):
    """The sections of a page by their headings."""
    parts = re.split(r'^## (.*)$', text, flags=re.M)
    return dict(zip(parts[1::2], parts[2::2]))


def tables(text):
    """Its tables, each a list of rows and a row a list of cells: the heading first, and no ruler."""
    for lines in re.findall(r'(?:^\|.*\n?)+', text, re.M):
        cells = [[cell.strip() for cell in line.strip('|').split(' | ')] for line in lines.rstrip('\n').split('\n')]
        yield [row for row in cells if not row[0].startswith('---')]


def rows(text):
    """The rows of its tables, without headings."""
    return [row for table in tables(text) for row in table[1:]]


def defines(path, name):
    """Whether a file defines this name, as a function, a statement, a record or a part of one."""
    head = rf'^\s*(?:pub |abbrev |unfoldable )*(?:(?:record|data) {re.escape(name)}(?![\w-])|{re.escape(name)}\s*:)'
    return os.path.exists(path) and re.search(head, read(path), re.M)


def crates():
    """What crates.txt lists, each with what it rests on."""
    lines = [line.split('#')[0] for line in read('crates.txt').split('\n')]
    return {line.split(':')[0].split()[0]: line.split(':')[1].split() for line in lines if ':' in line}


# Each archive that only exports the calls of a library, with that library: a crate is not both.
EXPORTS = {name: name[: -len('_c')] for name in crates() if name.endswith('_c') and name[: -len('_c')] in crates()}


# The head of a block of methods: the trait, if it implements one, and the type.
IMPL = re.compile(r'^impl(?:<.*?>)? (?:([\w:]+)(?:<\w+>)? for )?(\w+)(?:<.*?>)? \{$', re.M)


def functions():
    """Every function of the libraries: (crate, type or None, name, public, its text from the head to the body)."""
    for path in sorted(glob.glob('crates/*/src/**/*.rt', recursive=True)):
        crate = path.split('/')[1]
        if os.path.exists(f'crates/{crate}/src/main.rt') or crate in EXPORTS:
            continue
        text = re.sub(r'^\s*//.*$', '', read(path), flags=re.M)
        for head in re.finditer(r'^( *)(pub(?:\(crate\))? )?(?:extern "C" )?fn (\w+)(.*?)\{$', text, re.M | re.S):
            block = list(IMPL.finditer(text[: head.start()])) if head[1] else []
            # What implements a trait is as public as the trait, and where it has no clauses its block says what the trait's are of this type.
            trait, kind, rest = (block[-1][1], block[-1][2], text[block[-1].end() : head.start()]) if block else (None, None, '')
            clauses = head[4] + (re.sub(r'\bghost \w+ = ', 'ensures ', rest) if trait and 'ensures' not in head[4] else '')
            yield crate, kind, head[3], bool(trait) or (head[2] or '').strip() == 'pub', clauses


def full(crate, kind, name):
    return f'{kind}::{name}' if kind else name


PUBLIC = [(crate, kind, name, text) for crate, kind, name, public, text in functions() if public]
EDITS = {path[len('crates/') : -len('.edit')].replace('/must-fail/', '/') for path in glob.glob('crates/*/must-fail/*.edit')}
GUARANTEES = sections(read('docs/GUARANTEES.md'))
ADVERSARY = [row for row in rows(GUARANTEES['Every public function, read as an adversary']) if len(row) == 4]


def exported(crate):
    """The functions that a crate marks for C, by name: the text from the head to the body, and the body."""
    text = re.sub(r'^\s*//.*$', '', read(f'crates/{crate}/src/lib.rt'), flags=re.M)
    found = re.findall(r'^#\[unsafe\(no_mangle\)\]\npub extern "C" fn (\w+)(.*?)^\{\n(.*?)^\}$', text, re.M | re.S)
    return {name: (head, body.strip()) for name, head, body in found}


def contracts():
    check(
        f'each of the {len(PUBLIC)} public functions has a contract, and none asks anything of its caller',
        [f'{crate}: {full(crate, kind, name)}' for crate, kind, name, text in PUBLIC if 'ensures' not in text or 'requires' in text],
    )
    shown = []
    for path in sorted(glob.glob('crates/*/src/main.rt')):
        for file in glob.glob(os.path.dirname(path) + '/**/*.rt', recursive=True):
            shown += [f'{file}: {name}' for name in re.findall(r'^ *pub (?:extern "C" )?fn (\w+)', read(file), re.M)]
    check('the functions of the programs are their own', shown)
    for archive, library in EXPORTS.items():
        ours, theirs = exported(archive), exported(library)
        wrong = sorted(name for name in ours | theirs if ours.get(name, (0, 0))[0] != theirs.get(name, (1, 1))[0])
        wrong += [f'{name} calls another' for name, (_, body) in ours.items() if not re.fullmatch(rf'{library}::{name}\([\w, ]*\)', body)]
        check(f"the {len(ours)} calls of {archive} are those of {library}, by name, parameters and contract, and call nothing else", wrong if ours else ['there is none'])


def adversary():
    """docs/GUARANTEES.md has a row for each public function, and each row the wrong versions that try it."""
    named = [re.sub(r'`', '', row[0]).split('::') for row in ADVERSARY]
    names = [tuple(name[-2:]) if len(name) > 1 and name[-2][0].isupper() else (name[-1],) for name in named]
    have = [(kind, name) if kind else (name,) for crate, kind, name, text in PUBLIC]
    check('docs/GUARANTEES.md has a row for each public function', ['::'.join(n) for n in sorted(set(have) - set(names))])
    check('and no row for anything else', ['::'.join(n) for n in sorted(set(names) - set(have))])
    check('as many rows as functions', [f'{len(names)} rows, {len(have)} functions'] if len(names) != len(have) else [])
    cited = set(re.findall(r'\b([a-z]\w*/[a-z]\w*)\b', ' '.join(row[3] for row in ADVERSARY)))
    check(f'the {len(cited)} wrong versions that the rows name are there', sorted(cited - EDITS))
    elsewhere = set(re.findall(r'\b([a-z]\w*/[a-z]\w*)\b', GUARANTEES['Wrong versions']))
    tried = {label for label in elsewhere if os.path.isdir(f'crates/{label.split("/")[0]}')}
    check(f'so are the {len(tried)} that the lists of wrong versions name', sorted(tried - EDITS))
    check(f'each of the {len(EDITS)} wrong versions is named on the page', sorted(EDITS - cited - elsewhere))
    bare = [row for row in ADVERSARY if '/' not in row[3].split('none:')[0]]
    check('a row without a wrong version says why', [row[0] for row in bare if 'none: ' not in row[3]])
    many = [f'{len(bare)} of {len(ADVERSARY)}'] if 3 * len(bare) > len(ADVERSARY) else []
    check(f'at most a third of the rows are without one ({len(bare)} of {len(ADVERSARY)})', many)


def edits():
    """Each wrong version changes a text that stands in its file once, and the versions of a crate differ."""
    wrong, seen = [], {}
    for label in sorted(EDITS):
        crate, name = label.split('/')
        text = read(f'crates/{crate}/must-fail/{name}.edit')
        lines = [line for line in text.split('\n') if not line.startswith('#')]
        if seen.setdefault('\n'.join([crate] + lines), label) != label:
            wrong.append(f'{label} is {seen[chr(10).join([crate] + lines)]} again')
        if any(line.partition(': ')[0] not in ('file', 'old', 'new', '') for line in lines):
            wrong.append(f'{label} has a line of no kind')
    check('no wrong version stands there twice', wrong)


def statements():
    """The statements that docs/GUARANTEES.md names stand in the files that it names."""
    wrong, many, last = [], 0, []
    titles = (
        'Demand 1: every input gets an answer, bad input a number',
        'Relaying (document 02, M-100 and M-102)',
        'KISS packets (document 02, M-103)',
        'A serial line (document 02, M-104)',
        'The layer 3 octet (document 02, M-105)',
        'The reserved bits (document 02, M-106)',
        'Nothing unseen at equal length (document 02, M-107)',
        'Leading nulls and old captures (document 02, M-108)',
        'Smaller statements that stand for themselves',
    )
    for title in titles:
        for row in rows(GUARANTEES[title]):
            if len(row) != 3 or row[1].startswith('contracts'):
                continue
            files = []
            for folder, name in re.findall(r'(crates/[\w/]+/)?(\w+\.antt)', row[2]):
                files.append((folder or os.path.dirname(files[-1]) + '/') + name)
            last = files or last
            names = re.findall(r'`([\w-]+)`', row[1]) if 'same file' in row[2] or files else []
            for name in names:
                many += 1
                if not any(defines(path, name) for path in last):
                    wrong.append(f'{name} in {", ".join(last)}')
    check(f'the {many} statements that docs/GUARANTEES.md names stand where it says', wrong if many else ['none is named'])


def departures():
    entries = re.findall(r'^\| ([AB]\d+) \|', read('docs/DIFFERENCES.md'), re.M)
    specs = ' '.join(read(path) for path in glob.glob('crates/*/specs/**/*.antt', recursive=True))
    check(
        f'each of the {len(entries)} departures of docs/DIFFERENCES.md is named by a definition',
        [entry for entry in entries if not re.search(rf'\b{entry}\b', specs)],
    )
    for letter, whose, script in (('D', "direwolf's digipeaters", 'tests/digipeater.py'), ('E', 'kissutil', 'tests/modem.py')):
        listed = set(re.findall(rf'^\| ({letter}\d+) \|', read('docs/DIFFERENCES.md'), re.M))
        held = set(re.findall(rf"'({letter}\d+)'", read(script)))
        check(f'each of the {len(listed)} entries on {whose} is held by {script}, which holds no other', sorted(listed ^ held))
    named = set(re.findall(r'\b([ABC][1-9]\d?)\b(?=[^\n]*)', ' '.join(re.findall(r'DIFFERENCES\.md[^\n]*', specs))))
    every = set(re.findall(r'^\| ([ABC]\d+) \|', read('docs/DIFFERENCES.md'), re.M))
    check('and the definitions name no other', sorted(named - every))
    # On a page octets stand between backquotes, but for C0 and its like: A and B are followed by no 0 there.
    every |= set(re.findall(r'\b(A\d+)(?: was|,) that', read('docs/DIFFERENCES.md')))  # numbers that stay free
    pages = [path for path in glob.glob('*.md') + glob.glob('docs/*.md') + ['compare/README.md'] if path != 'docs/DIFFERENCES.md']
    signs = {(sign, path) for path in pages for sign in re.findall(r'\b[AB][1-9]\d?\b', re.sub('`.*?`', '', read(path)))}
    check(f'each of the {len(signs)} places of pages that cite a departure cites one that is there', [f'{path}: {sign}' for sign, path in sorted(signs) if sign not in every])


def opened():
    """Which crates unfold the definitions of another: decision 29 names them."""
    found = set()
    for path in glob.glob('crates/*/proofs/**/*.antt', recursive=True):
        crate, text, owner = path.split('/')[1], read(path), {}
        for use in re.finditer(r'^(?:pub )?use Rattle\.(\w+)\.(?:specs|proofs)\.[\w.]*?\{([^}]*)\}', text, re.M):
            owner |= {name.strip().split(' as ')[-1]: use[1] for name in use[2].split(',')}
        for names in re.findall(r'^\s*unfolding\s+(.*)$', text, re.M):
            found |= {(crate, owner[name]) for name in re.split(r'[,\s]+', names) if owner.get(name, crate) not in (crate, 'octets', 'std')}
    for path in glob.glob('crates/*/src/**/*.rt', recursive=True):
        crate = path.split('/')[1]
        for names in re.findall(r'\bunfolding\(([^)]*)\)', read(path)):
            found |= {(crate, name) for name in re.findall(r'(\w+)::(?:specs|proofs)::', names) if name not in ('crate', crate, 'octets', 'std')}
    decision = next(line for line in read('docs/DECISIONS.md').split('\n') if line.startswith('29. '))
    said = re.search(r'A proof unfolds (.*?)\. ', decision + ' ')
    listed = set()
    for crate, others in re.findall(r"`(\w+)` unfolds? those of ((?:`\w+`(?:, | and )?)+)", said[1] if said else ''):
        listed |= {(crate, other) for other in re.findall(r'`(\w+)`', others)}
    found = {pair for pair in found if pair[0] not in ('demands', 'demands_link')}
    check('the crates that unfold definitions of another are those of decision 29', [f'{a}: {b}' for a, b in sorted(found ^ listed)])


def layers():
    """README's section on the crates: each stands in the table of its kind, and in the drawing none stands below what it rests on."""
    text = sections(read('README.md'))['The crates']
    listed = crates()
    tops = ('loader_c', 'dumper', 'follow')
    product = {*tops} | {name for top in tops for name in listed[top] if name in listed}
    kinds = {table[0][0]: table[1:] for table in tables(text) if table[0][0] in ('product', 'statements', 'test support')}
    shown = {kind: {name for row in table for name in re.findall(r'`(\w+)`', row[0])} for kind, table in kinds.items()}
    every = [name for names in shown.values() for name in names]
    check('README has every crate in one of three tables', sorted(set(every) ^ set(listed)) + sorted({name for name in every if every.count(name) > 1}))
    check('its product is what the archive and the two programs are made of', sorted(shown['product'] ^ product))
    drawing = re.search(r'^```text\n(.*?)^```$', text, re.M | re.S)[1].split('\n')
    drawn = [(word, line) for line, words in enumerate(drawing) for word in re.findall(r'\w+', words) if word in listed]
    names = [name for name, _ in drawn]
    check('its drawing has each crate of the product once', sorted(set(names) ^ product) + sorted({name for name in names if names.count(name) > 1}))
    at = dict(drawn)
    check(
        'and none stands below what it rests on',
        [f'{name}: {under}' for name, line in drawn for under in listed[name] if at.get(under, line) < line],
    )


def decisions():
    numbers = re.findall(r'^(\d+)\. \*?', read('docs/DECISIONS.md'), re.M)
    check('no decision has the number of another', sorted({n for n in numbers if numbers.count(n) > 1}))


def figures():
    """docs/PERFORMANCE.md's table of checks is of these crates, these wrong versions and their sum, but for those that it says came after it."""
    page = read('docs/PERFORMANCE.md')
    heads, *table = next(tables(re.search(r'<!-- figures checks -->(.*?)<!-- end -->', page, re.S)[1]))
    shown = {row[0].strip('`'): row[heads.index('wrong versions')] for row in table}
    later = re.search(r'^Crates that came after this table: (.*)\.$', page, re.M)
    later = set(re.findall(r'`(\w+)`', later[1])) if later else set()
    owed = {name: str(sum(label.startswith(name + '/') for label in EDITS)) for name in crates() if name not in later - set(shown)}
    owed['all'] = str(sum(map(int, owed.values())))
    wrong = [f'{name}: {shown.get(name, "no row")}, not {owed.get(name, "there")}' for name in sorted(shown | owed) if shown.get(name) != owed.get(name)]
    check('docs/PERFORMANCE.md has the checks of these crates and their wrong versions', wrong + sorted(later - set(crates())))


RULES = read('docs/RULES.md')
# how a rule, a demand, an example and a request are cited, singly or in a list, and what the first cell of its row starts with
CITED = ((r'(?:[Rr]ules?|Reading) ', '', 'rule '), (r'[Dd]emands? ', '', 'demand '), ('P', 'P', 'P'), ('M-', 'M-', 'M-'))
CITING = ('*.md', 'docs/**/*', 'include/*', 'crates/*/*/**/*', 'compare/*', 'compare/src/*', 'tests/**/*')


def citing():
    """Every file that may cite a rule, but for the page that has them."""
    for path in sorted(path for pattern in CITING for path in glob.glob(pattern, recursive=True)):
        if path.endswith(('.md', '.h', '.antt', '.rt', '.rs', '.py', '.c')) and path != 'docs/RULES.md':
            yield path, read(path)


def cited_rows(text):
    """The rules, demands, examples and requests that a text cites, as their rows are called. Lists and ranges are taken apart."""
    for word, again, label in CITED:
        for found in re.findall(rf'\b{word}(\d+(?:(?:, | and | to ){again}\d+)*)', text):
            for first, last in re.findall(rf'(\d+)(?: to {again}(\d+))?', found):
                yield from (f'{label}{n}' for n in range(int(first), int(last or first) + 1))


def cited_sections(text):
    """The sections of document 01 that a text cites."""
    for found in re.findall(r'[Dd]ocument 01(?:, |\'s section ")([A-Z][A-Za-z ]*)', text):
        yield from (name.strip() for name in re.split(r' and (?=[A-Z])', found))


def all_cited(what):
    """What is cited anywhere, each with a file that does."""
    return {name: path for path, text in citing() for name in what(text)}


def enum():
    """The header's numbers, each with its name; an entry without a number of its own is one of no number."""
    text = re.search(r'^enum ax25_number \{(.*?)^\};', read('include/ax25.h'), re.M | re.S)[1]
    entries = [entry.split() for entry in re.sub(r'/\*.*?\*/', '', text, flags=re.S).split(',') if entry.strip()]
    return [(words[2] if words[1:2] == ['='] and len(words) == 3 else 'no number', words[0]) for words in entries]


def rules_named():
    """What docs/RULES.md names of the sources is there, and no file of definitions is left out."""
    named = []
    for crate, file, names in re.findall(r'\b(\w+)/(\w+): ((?:`[\w-]+`(?:, )?)+)', RULES):
        named += [(crate, file, name) for name in re.findall(r'[\w-]+', names)]
    wrong = [f'{crate}/{file}: {name}' for crate, file, name in named if not defines(f'crates/{crate}/specs/{file}.antt', name)]
    check(f'the {len(named)} definitions that docs/RULES.md names stand where it says', wrong if named else ['none is named'])
    owing = [row for table in tables(RULES) for row in table[1:] if table[0][-1] == 'definition']
    bare = [row[0] for row in owing if not re.search(r'\b\w+/\w+: `', row[-1])]
    check(f'each of its {len(owing)} rows of rules names a definition', bare if owing else ['there is no row'])
    paths = [path.split('/') for path in glob.glob('crates/*/specs/*.antt')]
    files = {f'{path[1]}/{path[3][: -len(".antt")]}' for path in paths if path[3] != 'Lib.antt'}
    shown = {f'{crate}/{file}' for crate, file, _ in named}
    bare = {file for row in rows(sections(RULES)['Files of specs/ that state no rule']) for file in row[0].split(', ')}
    check(f'each of the {len(files)} files of specs/ is named there, or listed as one without a rule', sorted(files - shown - bare))
    check('and none that is listed so is named, or is not there', sorted(bare & shown) + sorted(bare - files))


def rules_cited():
    """Whatever is cited of the customer's papers is found on docs/RULES.md, and so is every number that the header has."""
    labels = {row[0] for row in rows(RULES)}
    cited = all_cited(cited_rows)
    check(
        f'each of the {len(cited)} rules, demands, examples and requests that are cited has a row there',
        [f'{label} ({cited[label]})' for label in sorted(set(cited) - labels)] if cited else ['none is cited'],
    )
    cited = all_cited(cited_sections)
    lost = [name for name in sorted(cited) if not any(heading.startswith(name) for heading in sections(RULES))]
    check(
        f'each of the {len(cited)} sections of document 01 that are cited has a section there',
        [f'{name} ({cited[name]})' for name in lost] if cited else ['none is cited'],
    )
    lost = [' '.join(pair) for pair in enum() if pair[0] not in labels]
    check(f"each of the header's {len(enum())} numbers has a row there", lost if enum() else ['there is none'])


# The tables of numbers on docs/RULES.md, in their order, and the definitions whose rows they say in words.
ROWS = (('demands/Numbers', 'decode_table'), ('demands/Numbers', 'write_table'), ('demands/Numbers', 'text_table'), ('demands/Numbers', 'print_table'),
        ('demands/Relay', 'relay_rows', 'due_rows'), ('demands_kiss/Kiss', 'kiss_read_table'))


def rules_ordered():
    """The numbers stand on docs/RULES.md in the order of the definitions' rows. 0 is no row, and '1 to 10' stands for a table of its own."""
    shown = [[row[0] for row in table[1:] if row[0].isdigit() and row[0] != '0'] for table in tables(RULES) if table[0][1] == 'given where']
    wrong = [] if len(shown) == len(ROWS) else [f'{len(shown)} tables, not {len(ROWS)}']
    for numbers, (file, *names) in zip(shown, ROWS):
        text = read('crates/{}/specs/{}.antt'.format(*file.split('/')))
        owed = [number for name in names for number in re.findall(r'\((\d+), ', re.search(rf'^abbrev pub {name} :.*?(?=\n\n|\Z)', text, re.M | re.S)[0])]
        if numbers != owed or not owed:
            wrong.append(f"{names[-1]}: {' '.join(numbers)}, not {' '.join(owed)}")
    check(f"the numbers of its {len(ROWS)} tables stand in the definitions' order", wrong)


def octet_values():
    """The octets that docs/RULES.md has of kinds and of PIDs are those of the definitions."""
    control, pid = read('crates/control/specs/Control.antt'), read('crates/protocol/specs/Pid.antt')
    shown = {table[0][0]: table[1:] for table in tables(sections(RULES)['Reading'])}
    kinds = {'i': '00', **dict(re.findall(r'^(\w+) = 0x(\w\w)$', control, re.M))}
    said = {row[0].lower(): row[2] for row in shown['kind']}
    wrong = [f'{kind}: {said.get(kind)}, not {kinds.get(kind)}' for kind in sorted(said | kinds) if said.get(kind) != kinds.get(kind)]
    for kind, bits, octet, *_ in shown['kind']:
        if bits.strip('`') not in control or int(re.sub('[rsP]', '0', bits).strip('`').replace(' ', ''), 2) != int(octet, 16):
            wrong.append(f'{kind}: {bits}')
    check(f"the {len(said)} kinds there have the definitions' bits and octets", wrong)
    named = {name.lower(): octet for name, octet in re.findall(r'^octet_of (\w+) = 0x(\w\w)$', pid, re.M)}
    said = {re.sub(r'\W', '', name).lower(): octet for row in shown['octet'] for octet, name in (row[:2], row[2:4])}
    wrong = [f'{name}: {said.get(name)}, not {named.get(name)}' for name in sorted(said | named) if said.get(name) != named.get(name)]
    check(f"and the {len(said)} PIDs there the definitions' octets", wrong)


def listed(kind, octets):
    """What the list of `replay` has behind this input, word by word."""
    found = re.search(rf'^{kind} {octets or "-"} (.*)$', read('crates/replay/stdout'), re.M)
    return found[1].split(' ') if found else []


REASONS = ['none', *MEANINGS]


def example_frames(table, field):
    """What is wrong with the examples of frames; `field` is what [A] stands for."""
    for name, octets, number, details, canonical, why, again, _ in table:
        octets, respelled = (''.join(re.findall(r'\b[\dA-F]{2}\b', cell.replace('[A]', field))) for cell in (octets, again))
        told = dict(re.findall(r'(\w+) (\d+)', details))
        line = listed('D', octets)
        # number, start, end and length; info's place and the record; then number, canonical; reason, number, place; number, length, octets and
        # three more
        said = [number, *(told.get(key, '0') for key in ('start', 'end', 'length')), str(int(canonical == 'yes'))]
        said += [str(REASONS.index(why)), '0', '0'] if why in REASONS else [str(len(REASONS)), number, why.removeprefix('place ')]
        if line[:4] + line[8:12] != said or line[13] != str(len(respelled) // 2) or not line[14].startswith(respelled):
            yield f'{name}: {" ".join(line)}'


def example_texts(table):
    """What is wrong with the examples of text."""
    for text, number, address in table:
        line = listed('T', text.strip('`').encode().hex().upper())
        callsign, _, ssid = address.partition(', ')
        flat = f'{callsign:6}'.encode().hex().upper() + f'{int(ssid):02X}' if address else '.'
        if line[:1] != [number] or not line[1].startswith(flat):
            yield f'{text}: {" ".join(line)}'


def examples():
    """The examples on docs/RULES.md are those of the list of `replay`, which the Rust and the proved code both give."""
    section = sections(RULES)['Examples']
    field = re.search(r'\[A\] is its address field, `([\dA-F ]+)`', section)[1]
    frames, texts = (table[1:] for table in tables(section))
    check(f'the {len(frames)} examples of frames there are answered so', example_frames(frames, field) if frames else ['there is none'])
    check(f'and so are its {len(texts)} examples of text', example_texts(texts) if texts else ['there is none'])


def check_sequence(octets):
    """AX.25's FCS of a frame (CRC-16/X-25), as it follows the frame."""
    rest = 0xFFFF
    for octet in octets:
        rest ^= octet
        for _ in range(8):
            rest = rest >> 1 ^ (0x8408 if rest & 1 else 0)
    return (rest ^ 0xFFFF).to_bytes(2, 'little')


def numbers():
    """docs/NUMBERS.md has each number of the header, and ./look prints what it says of them: so that is plain text."""
    page = sections(read('docs/NUMBERS.md'))
    table = rows(page['The numbers'])
    shown = [tuple(row[:2]) for row in table]
    what = f"docs/NUMBERS.md has the {len(enum())} numbers of the header's enum, each once and by its name"
    check(what, [' '.join(pair) for pair in sorted(set(enum()) ^ set(shown))] or [' '.join(pair) for pair in shown if shown.count(pair) > 1])
    sentence = re.compile(r'[A-Z][^`*_<>\[\]|]*\.')
    check(
        'and says of each in plain sentences what it means and what to do',
        [row[0] for row in table if len(row) != 4 or not all(sentence.fullmatch(re.sub(r'\bax25_\w+', '', cell)) for cell in row[2:])],
    )
    dumped = {row[0]: row[1] for table in tables(sections(read('README.md'))['Looking at a frame']) if table[0][0] == 'answer' for row in table[1:]}
    # The dumper reads in the short mode, which has no 11 and 12; and 6 is no longer given.
    owed = {row[0]: row[2] for row in table if int(row[0]) in (*range(6), *range(7, 11), 50)}
    check("README's table of the dumper's answers has its words", [n for n in dumped | owed if dumped.get(n) != owed.get(n)])
    reasons = {row[0]: row[1] for table in tables(sections(read('README.md'))['Looking at a frame']) if table[0][0] == 'reason' for row in table[1:]}
    differs = [word for word in reasons | MEANINGS if not reasons.get(word, '').lower().startswith(MEANINGS.get(word, '-') + ':')]
    check("its table of reasons begins with the words that ./look and the laboratory's report have", differs if list(reasons) == list(MEANINGS) else list(reasons))
    octets = {row[0]: row[1].removeprefix('F ') for row in rows(page['What looks like a broken frame and is none'])}
    frame, left_on = (bytes.fromhex(octets[name]) for name in ('F, a frame as it should be', 'a frame with its check sequence'))
    check('its example has the right check sequence', [] if left_on == check_sequence(frame) else [check_sequence(frame).hex(' ')])


PARTS = (
    contracts, adversary, edits, statements, departures, opened, layers, decisions, figures, rules_named,
    rules_cited, rules_ordered, octet_values, examples, numbers,
)
for part in PARTS:
    part()
print(f'{passed} passed, {failed} failed')
sys.exit(failed > 0)
