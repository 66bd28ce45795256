#!/usr/bin/env python3
"""Counts the chunks that an edit of a timeline looks at, over hour chunks under 20 chunks of a year each: `hours` come and go,
partitions of a year that stays complete (`level`), replicas of hours on a second node (`replica`), and chunks of two hours that
complete and are shown nowhere (`weaker`).

A search looks at a chunk by computing the length class of its interval, which is the one use of the instruction `bsr` in the
crates of timelines: valgrind counts how often it is executed, in two runs that differ by 200 edits. Where a chunk that was
visible goes, the chunks that start near it are compared with it: the script counts them by the rule of the search; the other
kinds look only for their own chunk. Needs Debian's packages valgrind and binutils.
"""
import re, subprocess, tempfile

from lib import build, need, parser_of

SIZES = (5_000, 10_000, 20_000)
EDITS = (100, 300)
KINDS = ('hours', 'level', 'replica', 'weaker')
CRATES = ('druid_timeline_chunks', 'druid_timeline')


def class_places(program):
    """The addresses at which the crates of timelines compute a length class."""
    text = subprocess.run(['objdump', '-d', '--no-show-raw-insn', program], capture_output=True, text=True, check=True).stdout
    found, is_ours = set(), False
    for line in text.splitlines():
        head = re.fullmatch(r'[0-9a-f]+ <(.*)>:', line)
        if head:
            is_ours = head[1].startswith(CRATES)
        elif is_ours and re.search(r'\tbsr\b', line):
            found.add(int(line.split(':')[0], 16))
    return found


def executions(report, program, places):
    """How often the instructions at these places of the program were executed, by a report of callgrind."""
    at, total, is_call, is_ours, names = 0, 0, False, False, {}
    for line in report:
        object_line = re.match(r'(c?)ob=\((\d+)\)(?: (.*))?', line)
        cost = re.match(r'(0x[0-9a-f]+|[+-]\d+|\*) \S+ (\d+)$', line)
        if object_line:
            called, number, name = object_line.groups()
            names[number] = name or names.get(number)
            is_ours = is_ours if called else names[number] == program
        elif line.startswith('calls='):
            is_call = True
        elif cost:
            place, count = cost.groups()
            at = int(place, 16) if place.startswith('0x') else at if place == '*' else at + int(place)
            total += 0 if is_call or not is_ours or at not in places else int(count)
            is_call = False
    return total


def classes(program, places, chunks, edits, kind):
    with tempfile.NamedTemporaryFile('r', suffix='.callgrind') as report:
        subprocess.run(['valgrind', '--tool=callgrind', '--dump-instr=yes', f'--callgrind-out-file={report.name}', program,
                        str(chunks), str(edits), kind], check=True, capture_output=True)
        return executions(report, program, places)


def near(hour, chunks):
    """The chunks whose class and start let them overlap an hour: an interval of a class is shorter than twice its least."""
    hours = range(max(0, hour - 1), min(chunks, hour + 1))
    years = [year for year in range(20) if hour - 9_544 < year <= hour]
    return len(hours) + len(years)


def main():
    parser_of(__doc__).parse_args()
    need('valgrind', 'objdump')
    program, _ = build('looks', ['druid_timeline', 'anyhow'], words=['100', '2', 'hours'])
    places = class_places(program)
    few, many = EDITS
    for chunks in SIZES:
        for kind in KINDS:
            spent = classes(program, places, chunks, many, kind) - classes(program, places, chunks, few, kind)
            most = max(near(31 * edit, chunks) for edit in range(many // 2)) if kind == 'hours' else 0
            print(f'{chunks:6} hour chunks, {kind}: an edit looks at {spent / (many - few):5.0f} by halving, and at most {most} near it', flush=True)


if __name__ == '__main__':
    main()
