#!/usr/bin/env python3
"""Refuses each allocation of `replay`, one at a time, and compares what was written until it ended.

replay.py [SCRIPT ..]     examples/*.jsonl unless said otherwise

The built program reads a script with `refuse.so` (refuse.c) loaded before it, which refuses its k-th allocation, for k = 1, 2, .. until
it makes no k-th. Each run does all that one with memory does; or it ends with status 3, and says `line N: device` and `out of memory`:
then it wrote the answers to the lines before N, and a front of the answer to N; or, where its buffers or its words were refused, it wrote
nothing, and says nothing or `line 1: device`. A program with checks of memory has an allocator of its own, so it is not taken. The
status is 1 where a run did anything else.
"""
import glob
import os
import re
import subprocess
import sys
import tempfile

HERE = os.path.dirname(os.path.abspath(__file__))
sys.path[:0] = [HERE, os.path.dirname(HERE)]
from refuse import MOST, SECONDS, library, refused  # noqa: E402
from served import PROGRAM, TOP, has_checks, need_program, parser_of  # noqa: E402


def run(script, words):
    """The status of `replay` over a script, what it wrote and what it said."""
    with open(script, 'rb') as given:
        ran = subprocess.run([PROGRAM, 'replay'], stdin=given, capture_output=True, env={**os.environ, **words, 'DRUID_CLUSTER_EXPLAIN': '1'},
                             timeout=SECONDS, check=False)
    return ran.returncode, ran.stdout, ran.stderr.decode(errors='replace')


def is_right(got, whole):
    """Whether a run in which memory was refused may have gone so, where one with memory went like the other."""
    status, written, said = got
    if got == whole:
        return True
    if status != 3 or not whole[1].startswith(written):
        return False
    found = re.fullmatch(r'line ([1-9][0-9]*): device\n.*out of memory\n', said)
    return written.count(b'\n') == int(found[1]) - 1 if found else not written and said in ('', 'line 1: device\n')


def try_script(shared, folder, script):
    """How many allocations were refused, and in which run something else came."""
    whole, report = run(script, {}), os.path.join(folder, 'report')
    for k in range(1, MOST):
        got = run(script, {'LD_PRELOAD': shared, 'REFUSE_AT': str(k), 'REFUSE_REPORT': report})
        reported = refused(report)
        if not is_right(got, whole) or not reported.get('asked'):
            return k, f'allocation {k}: status {got[0]}, {got[1][-300:]} {got[2]!r}; {reported or "no report"}'
        if not reported['refused']:
            return k - 1, None
    return MOST, 'no end'


def main():
    parser = parser_of(__doc__)
    parser.add_argument('scripts', nargs='*', metavar='SCRIPT')
    scripts = parser.parse_args().scripts or sorted(glob.glob(os.path.join(TOP, 'examples', '*.jsonl')))
    need_program()
    if has_checks():
        sys.exit('a program with checks of memory has an allocator of its own: this test needs the proved one')
    refusals, faults = 0, 0
    with tempfile.TemporaryDirectory() as folder:
        shared = library(folder)
        for script in scripts:
            count, fault = try_script(shared, folder, script)
            refusals, faults = refusals + count, faults + bool(fault)
            print(f'{os.path.basename(script)}: {count} refusals{f"; {fault}" if fault else ""}', flush=True)
    print(f'{len(scripts)} scripts, {refusals} refusals, {faults} faults')
    return 1 if faults or not refusals else 0


if __name__ == '__main__':
    sys.exit(main())
