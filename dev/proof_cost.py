#!/usr/bin/env python3
"""Says which functions of a crate took the longest to prove.

proof_cost.py CRATE [MOST]     after `rm -r out; rt check --jobs 1` in crates/CRATE (with --test for a crate of tests)

A check writes each module that it proved into out/incremental as it goes, several for a function. What a function took is the time
between the file before and its own, summed over its modules; in brackets the part of the module that says what its body does (`Lts`),
which grows with its early exits and with what is dropped at each. The lines that a check prints mislead here: what a caller's body
costs shows at the callee that is checked after it. Seconds by the clock, so only with little beside it.
"""
import collections, os, re, sys

sys.dont_write_bytecode = True
sys.path.insert(0, os.path.join(os.path.dirname(os.path.dirname(os.path.abspath(__file__))), 'tools'))
from built import TOP, parser_of  # noqa: E402


def main():
    parser = parser_of(__doc__)
    parser.add_argument('crate')
    parser.add_argument('most', nargs='?', type=int, default=20)
    asked = parser.parse_args()
    crate, most, files = asked.crate, asked.most, []
    top = os.path.join(TOP, 'crates', crate, 'out', 'incremental')
    if not os.path.isdir(top):
        sys.exit(f'{top} is not there: `rt check` in crates/{crate} leaves it')
    for folder, _, names in os.walk(top):
        if 'records' not in folder:
            files += [(os.stat(os.path.join(folder, name)).st_mtime, name) for name in names]
    files.sort()
    whole, bodies = collections.Counter(), collections.Counter()
    for (before, _), (now, name) in zip(files, files[1:]):
        module = re.match(rf'Rattle-{crate}-(?:proofs|specs)\.(.*)\.([A-Z][^.]*)\.oantt$', name)
        key = module[1] if module else "(libraries, the crate's own lemmas and what is kept)"
        whole[key] += now - before
        if module and module[2] == 'Lts':
            bodies[key] += now - before
    for key, seconds in whole.most_common(most):
        print(f'{seconds:8.1f} ({bodies[key]:6.1f})  {key}')
    return 0


if __name__ == '__main__':
    sys.exit(main())
