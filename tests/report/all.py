"""The laboratory's command and its report, but for the long run. Prints one line a check; the last is 'N passed, M failed'."""
import os
import shutil
import sys
import tempfile

ROOT = os.path.dirname(os.path.dirname(os.path.dirname(os.path.realpath(__file__))))
sys.path[1:1] = [os.path.join(ROOT, 'laboratory'), os.path.join(ROOT, 'compare')]

import of_lab
import of_pages
import of_sources
import of_verdicts
from held import finish
from small import Lab


def main():
    with tempfile.TemporaryDirectory() as work:
        for part in (of_sources.published, of_verdicts.verdicts, of_pages.agree, of_pages.documented, of_pages.real, of_lab.far):
            part(work)
        of_lab.in_place()
        if shutil.which('git') is None:
            print('skipped: the tree as committed, and ./lab in a small tree: there is no git on this host')
        else:
            of_sources.digests(work)
            lab = Lab(work, 'small tree')
            for part in (of_lab.checks, of_lab.other_rt, of_lab.whole_runs, of_lab.interruptions):
                part(lab)
    finish()


main()
