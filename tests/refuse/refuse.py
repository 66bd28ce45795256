#!/usr/bin/env python3
"""Refuses each allocation of each call that may want memory, one at a time.

refuse.py [--jobs N] [TEST ..]     all tests of crates/druid_refusal_tests, or these: `values::of_identifiers`

Each of them makes calls between two marks (crates/druid_refusal_tests/src/marks.rt). For each call of a test and for k = 1, 2, .. the
proved test program runs with `refuse.so` loaded before it, which refuses the k-th allocation of that call, until a run in which the call
ends before its k-th. Each run has to pass: then the call gave its value, or answered out of memory and left its value as it was.

The program is what `rt test` leaves in crates/druid_refusal_tests/out, or REFUSAL_TESTS names. The status is 1 where a run did not pass,
and where no allocation of a test's calls could be refused.
"""
import os
import re
import shutil
import subprocess
import sys
import tempfile
from concurrent.futures import ThreadPoolExecutor

HERE = os.path.dirname(os.path.abspath(__file__))
sys.path.insert(0, os.path.dirname(HERE))
from served import TOP, need, parser_of  # noqa: E402

CRATE = os.path.join(TOP, 'crates', 'druid_refusal_tests')
PROGRAM = os.environ.get('REFUSAL_TESTS') or os.path.join(CRATE, 'out', 'druid_refusal_tests_tests')
MOST, SECONDS = 20_000, 120  # Allocations of a call, and seconds of a run.


def tests_of_crate():
    for name in sorted(os.listdir(os.path.join(CRATE, 'src'))):
        with open(os.path.join(CRATE, 'src', name), encoding='utf-8') as file:
            for test in re.findall(r'#\[test\]\nfn (\w+)', file.read()):
                yield f'{name[:-3]}::{test}'


def compiler():
    """The toolchain's C compiler, or else the system's."""
    kit = os.path.dirname(os.path.dirname(os.path.realpath(shutil.which('rt') or '')))
    clang = os.path.join(kit, 'toolchain', 'bin', 'clang')
    if os.path.exists(clang):
        return [clang, '-fuse-ld=lld']
    need('cc')
    return ['cc']


def library(folder):
    """The path of `refuse.so`, which is made there."""
    path = os.path.join(folder, 'refuse.so')
    subprocess.run([*compiler(), '-O1', '-shared', '-fPIC', '-nostdlib', '-o', path, os.path.join(HERE, 'refuse.c')], check=True)
    return path


def refused(path):
    """What `refuse.so` reports in a file, which goes: calls, allocations and refusals. Nothing where the program was ended."""
    if not os.path.exists(path):
        return {}
    with open(path, encoding='utf-8') as file:
        reported = {key: int(value) for key, value in re.findall(r'(\w+)=(\d+)', file.read())}
    os.remove(path)
    return reported


def run(shared, folder, test, call, k):
    """Whether a run passes, and the calls, allocations and refusals that it reports."""
    path = os.path.join(folder, f'{test}-{call}-{k}'.replace(':', '.'))
    words = {'LD_PRELOAD': shared, 'REFUSE_CALL': str(call), 'REFUSE_AT': str(k), 'REFUSE_REPORT': path}
    try:
        ran = subprocess.run([PROGRAM, test], env={**os.environ, **words}, stdout=subprocess.PIPE, stderr=subprocess.STDOUT, errors='replace', timeout=SECONDS)
    except subprocess.TimeoutExpired:
        return False, {}, f'no end within {SECONDS} s'
    return ran.returncode == 0, refused(path), ran.stdout or f'it ended with {ran.returncode}'


def try_call(shared, folder, test, call):
    """How many allocations of a call were refused, and what did not pass."""
    for k in range(1, MOST):
        passed, reported, output = run(shared, folder, test, call, k)
        if not passed:
            return k, f'{test}, call {call}, allocation {k}: {output.strip()[-300:]}'
        if not reported.get('refused'):
            return k - 1, None
    return MOST, f'{test}, call {call}: no end'


def main():
    parser = parser_of(__doc__)
    parser.add_argument('tests', nargs='*', metavar='TEST')
    parser.add_argument('--jobs', type=int, default=2, metavar='N', help='so many runs at once')
    asked = parser.parse_args()
    tests = asked.tests or list(tests_of_crate())
    if not os.access(PROGRAM, os.X_OK):
        sys.exit(f'{PROGRAM} is not there: `rt test` in crates/druid_refusal_tests proves and builds it, or REFUSAL_TESTS has the path of another')
    faults, calls, refusals = [], 0, 0
    with tempfile.TemporaryDirectory() as folder:
        shared = library(folder)
        for test in tests:
            passed, reported, output = run(shared, folder, test, 0, 0)
            count = reported.get('calls', 0)
            if not passed or not count:
                faults.append(f'{test}: {"no calls" if passed else output.strip()[-300:]}')
                continue
            with ThreadPoolExecutor(asked.jobs) as pool:
                tried = list(pool.map(lambda call: try_call(shared, folder, test, call), range(1, count + 1)))
            made = sum(k for k, _ in tried)
            faults += [fault for _, fault in tried if fault] or ([] if made else [f'{test}: {count} calls, and no allocation to refuse'])
            calls, refusals = calls + count, refusals + made
            print(f'{test}: {count} calls, {made} refusals', flush=True)
    for fault in faults:
        print('NOT AS BEFORE', fault)
    print(f'{len(tests)} tests, {calls} calls, {refusals} refusals, {len(faults)} faults')
    return 1 if faults else 0


if __name__ == '__main__':
    sys.exit(main())
