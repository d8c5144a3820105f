"""Pages from blocks: the same document as Markdown and as HTML that prints. A text is a string, or a list of strings and of Code."""
import html
import re


class Code(str):
    """Text that is shown as it would be typed: digests, file names, commands."""


class Heading:
    def __init__(self, text, new_page=False):
        self.text, self.new_page = text, new_page


class Paragraph:
    def __init__(self, text, strong=False):
        self.text, self.strong = text, strong


class Items:
    def __init__(self, texts):
        self.texts = texts


class Table:
    """Without heads, the first column is what the second is about."""

    def __init__(self, heads, rows):
        self.heads, self.rows = heads, rows


class Verbatim:
    """Lines that are shown as they are."""

    def __init__(self, lines):
        self.lines = lines


class Signatures:
    """Lines to sign on, for two."""

    FIELDS = ('Laboratory', 'Name', 'Place and date', 'Signature')
    SIGNERS = 2


class Together:
    """Blocks that stand on one page."""

    def __init__(self, blocks):
        self.blocks = blocks


def parts_of(text):
    return text if isinstance(text, list) else [text]


def plain(text):
    """Without characters that no page can show; what a program printed may have some."""
    return re.sub('[\0-\x08\x0B-\x1F\x7F-\x9F\uD800-\uDFFF]', '?', str(text))


# Markdown

# What could be taken for a mark is written by its number, which every reader of Markdown shows as the character; in a table a backslash
# would not do. An underscore inside a word is none.
MARKS = re.compile(r'[\\`*\[\]<>|&~]|^#|(?<![A-Za-z0-9])_|_(?![A-Za-z0-9])')


def markdown_text(text):
    return ''.join(markdown_code(part) if isinstance(part, Code) else escaped(part) for part in parts_of(text))


def escaped(text):
    return MARKS.sub(lambda mark: f'&#{ord(mark[0])};', re.sub(r'\s+', ' ', plain(text)))


def markdown_code(text):
    """Between backquotes nothing is written by its number, so what has a mark that would matter there is no code."""
    text = plain(text)
    return escaped(text) if re.search(r'[`|\\\s]', text.replace(' ', '')) or text != text.strip() or not text else f'`{text}`'


def markdown_table(table):
    rows = [[markdown_text(cell) for cell in row] for row in table.rows]
    heads = [markdown_text(head) for head in table.heads or ('', '')]
    return ['| ' + ' | '.join(heads) + ' |', '|' + '---|' * len(heads)] + ['| ' + ' | '.join(row) + ' |' for row in rows]


def fenced(lines):
    longest = max([len(run) for line in lines for run in re.findall('`+', line)] + [2])
    return ['`' * (longest + 1) + 'text', *map(plain, lines), '`' * (longest + 1)]


def markdown_signatures():
    lines = [f'{field}: {"." * 60}' for field in Signatures.FIELDS]
    return '\n\n'.join(lines * Signatures.SIGNERS).split('\n')


def markdown_block(block):
    if isinstance(block, Heading):
        return ['## ' + markdown_text(block.text)]
    if isinstance(block, Paragraph):
        return [f'**{markdown_text(block.text)}**' if block.strong else markdown_text(block.text)]
    if isinstance(block, Items):
        return ['- ' + markdown_text(text) for text in block.texts]
    if isinstance(block, Table):
        return markdown_table(block)
    if isinstance(block, Verbatim):
        return fenced(block.lines)
    if isinstance(block, Together):
        return [line for inner in block.blocks for line in [*markdown_block(inner), '']][:-1]
    return markdown_signatures()


def markdown(title, blocks):
    lines = ['# ' + markdown_text(title), '']
    for block in blocks:
        lines += [*markdown_block(block), '']
    return '\n'.join(lines)


# HTML

STYLE = '''
@page { size: A4; margin: 16mm 15mm 18mm 15mm; @bottom-right { content: counter(page) " / " counter(pages); font: 8pt sans-serif; } }
html { font: 10pt/1.35 "Liberation Sans", Arial, Helvetica, sans-serif; color: #000; background: #fff; }
body { max-width: 180mm; margin: 0 auto; padding: 8mm 4mm; }
h1 { font-size: 20pt; margin: 0 0 4mm; }
h2 { font-size: 13pt; margin: 6mm 0 2mm; border-bottom: 0.3mm solid #000; break-after: avoid; page-break-after: avoid; }
p, ul { margin: 0 0 2.5mm; }
li { margin-bottom: 0.8mm; }
p, li, td, pre { overflow-wrap: break-word; }
p.verdict { font-size: 14pt; font-weight: bold; border: 0.6mm solid #000; padding: 3mm 4mm; margin: 3mm 0 4mm; }
table { border-collapse: collapse; width: 100%; margin: 0 0 4mm; font-size: 8.5pt; }
thead { display: table-header-group; }
tr { break-inside: avoid; page-break-inside: avoid; }
th, td { border: 0.2mm solid #555; padding: 0.7mm 1.5mm; text-align: left; vertical-align: top; }
thead th { border-bottom: 0.6mm solid #000; vertical-align: bottom; }
tbody th { width: 30mm; }
td.number { text-align: right; white-space: nowrap; }
code, pre { font-family: "Liberation Mono", "DejaVu Sans Mono", Courier, monospace; font-size: 0.9em; }
code { overflow-wrap: anywhere; }
code.digest { font-size: 0.82em; overflow-wrap: normal; }
td.name { min-width: 36mm; }
pre { border: 0.2mm solid #555; padding: 2mm; white-space: pre-wrap; }
section { break-inside: avoid; page-break-inside: avoid; padding-bottom: 2mm; }
table.sign { margin-top: 4mm; }
table.sign td { border: 0; border-bottom: 0.3mm solid #000; height: 10mm; width: 60mm; }
table.sign th { border: 0; vertical-align: bottom; width: 26mm; }
@media print { body { max-width: none; margin: 0; padding: 0 0.4mm; } .new-page { break-before: page; page-break-before: always; } }
'''
DIGEST = re.compile('[0-9a-f]{64}')


def html_code(text, narrow):
    """A digest is broken nowhere but in its middle, and there only where room is narrow."""
    if DIGEST.fullmatch(text):
        return f'<code class="digest">{text[:32]}{"<wbr>" if narrow else ""}{text[32:]}</code>'
    return f'<code>{html.escape(plain(text), quote=False)}</code>'


def html_text(text, narrow=False):
    return ''.join(html_code(part, narrow) if isinstance(part, Code) else html.escape(plain(part), quote=False) for part in parts_of(text))


def attribute(name, wanted):
    return f' class="{name}"' if wanted else ''


def cell_class(cell):
    if isinstance(cell, Code) and not DIGEST.fullmatch(cell):
        return 'name'
    return 'number' if re.fullmatch(r'[\d,]+(\.\d+)?', str(cell)) else ''


def html_cell(cell, narrow=False):
    kind = cell_class(cell)
    return f'<td{attribute(kind, kind)}>{html_text(cell, narrow)}</td>'


def html_table(table):
    if not table.heads:
        rows = [f'<tr><th scope="row">{html_text(row[0])}</th>{"".join(html_cell(cell) for cell in row[1:])}</tr>' for row in table.rows]
        return ['<table>', '<tbody>', *rows, '</tbody>', '</table>']
    narrow = len(table.heads) > 4
    heads = ''.join(f'<th scope="col">{html_text(head)}</th>' for head in table.heads)
    rows = ['<tr>' + ''.join(html_cell(cell, narrow) for cell in row) + '</tr>' for row in table.rows]
    return ['<table>', f'<thead><tr>{heads}</tr></thead>', '<tbody>', *rows, '</tbody>', '</table>']


def html_signatures():
    rows = ['<tr>' + f'<th scope="row">{field}</th><td></td>' * Signatures.SIGNERS + '</tr>' for field in Signatures.FIELDS]
    return ['<table class="sign">', '<tbody>', *rows, '</tbody>', '</table>']


def html_block(block):
    if isinstance(block, Heading):
        return [f'<h2{attribute("new-page", block.new_page)}>{html_text(block.text)}</h2>']
    if isinstance(block, Paragraph):
        return [f'<p{attribute("verdict", block.strong)}>{html_text(block.text)}</p>']
    if isinstance(block, Items):
        return ['<ul>', *(f'<li>{html_text(text)}</li>' for text in block.texts), '</ul>']
    if isinstance(block, Table):
        return html_table(block)
    if isinstance(block, Verbatim):
        return ['<pre>' + html.escape('\n'.join(map(plain, block.lines)), quote=False) + '</pre>']
    if isinstance(block, Together):
        return ['<section>', *(line for inner in block.blocks for line in html_block(inner)), '</section>']
    return html_signatures()


def page(title, blocks):
    """HTML that needs nothing outside itself: no script, no picture, no style or font of another place."""
    lines = ['<!DOCTYPE html>', '<html lang="en">', '<head>', '<meta charset="utf-8">', f'<title>{html_text(title)}</title>']
    lines += [f'<style>{STYLE}</style>', '</head>', '<body>', f'<h1>{html_text(title)}</h1>']
    for block in blocks:
        lines += html_block(block)
    return '\n'.join(lines + ['</body>', '</html>', ''])
