"""The report's three files, all from the same dictionary."""
import json
import os

import document
import evidence
import pages

FILES = ('report.html', 'report.md', 'report.json')


def made(root, folder, run):
    """The dictionary. Everything that the pages say stands in it."""
    report = evidence.collect(root, folder, run)
    report['not_shown'] = document.not_shown(report)
    return report


def write(folder, report):
    title, blocks = document.title(report), document.document(report)
    for name, text in zip(FILES, (pages.page(title, blocks), pages.markdown(title, blocks), json.dumps(report, indent=1) + '\n')):
        with open(os.path.join(folder, name), 'w', encoding='utf-8', newline='\n') as file:
            file.write(text)
