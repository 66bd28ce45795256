#!/usr/bin/env python3
"""Tries the must-fail edits that stand beside the gate, `must-fail-beside/*.edit` of a crate: the prover has to refuse each.

edits.py [CRATE ..]     of these crates, or of all that have some

In a copy of the repository they take the place of those that the gate tries. What `rt ci` has passed before on this machine is kept;
else the crates, and all below them, are proved first.
"""
import glob, os, re, shutil, subprocess, sys, tempfile

sys.path.insert(0, os.path.dirname(os.path.dirname(os.path.abspath(__file__))))
from served import TOP, need, parser_of  # noqa: E402

BESIDE = 'must-fail-beside'


def put_in_place(copy, crates):
    """Makes those of these crates the only edits of a copy, and says how many there are."""
    for folder in glob.glob(f'{copy}/crates/*/must-fail'):
        shutil.rmtree(folder)
    for crate in crates:
        os.rename(f'{copy}/crates/{crate}/{BESIDE}', f'{copy}/crates/{crate}/must-fail')
    return len(glob.glob(f'{copy}/crates/*/must-fail/*.edit'))


def said_of(copy, crates):
    """What `rt ci` says of these crates in the copy, line by line; what it says of edits, and what fails, is printed as it comes."""
    with subprocess.Popen(['rt', 'ci', *crates], cwd=copy, stdin=subprocess.DEVNULL, stdout=subprocess.PIPE, stderr=subprocess.STDOUT,
                          text=True, errors='replace') as process:
        for line in process.stdout:
            if 'must-fail' in line or 'FAILED' in line or 'error' in line:
                print(line, end='', flush=True)
            yield line


def main():
    parser = parser_of(__doc__)
    every = sorted(path.split(os.sep)[-2] for path in glob.glob(f'{TOP}/crates/*/{BESIDE}'))
    parser.add_argument('crates', nargs='*', metavar='CRATE')
    crates = parser.parse_args().crates or every
    if not set(crates) <= set(every):
        parser.error(f'crates with such edits are {", ".join(every)}')
    need('rt')
    with tempfile.TemporaryDirectory(prefix='edits-') as folder:
        copy = f'{folder}/copy'
        shutil.copytree(TOP, copy, symlinks=True, ignore=shutil.ignore_patterns('out', '.git'))
        edits = put_in_place(copy, crates)
        refused = sum(bool(re.search(r'must-fail \S+: refused', line)) for line in said_of(copy, crates))
    print(f'{refused} passed, {edits - refused} failed')
    return 0 if refused == edits else 1


if __name__ == '__main__':
    sys.exit(main())
