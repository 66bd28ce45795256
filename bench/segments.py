#!/usr/bin/env python3
"""Builds the proved program of `bench/segments`, which reads, writes and holds segment files, and prints its speed and memory.

Segments of 10,000 and 100,000 rows, with three dimensions of 10, 1,000 and 50,000 values and two metrics, in both layouts. It is
built in the folder for temporary files, over copies of the crates; the first time that proves them, which takes some minutes.
"""
import os, random, subprocess
from lib import build, parser_of, room, run
from make_segments import DAY, Segment, file_of

HELD = 10


def segment(count):
    draw = random.Random(count)
    rows = [(at * DAY // count, [f'{name}{draw.randrange(many):05}' for name, many in (('a', 10), ('b', 1_000), ('c', 50_000))],
             [draw.randrange(1_000), draw.randrange(10**9)]) for at in range(count)]
    return Segment('bench', 0, DAY, 'v1', 0, 1, 0, ['few', 'some', 'many'], ['m', 'k'], rows)


def resident(process):
    with open(f'/proc/{process.pid}/status') as file:
        return next(int(line.split()[1]) * 1024 for line in file if line.startswith('VmRSS'))


def held_bytes(program, path):
    """What a segment takes that is held, in bytes: of many, less one."""
    found = []
    for count in (1, HELD + 1):
        child = subprocess.Popen([program, 'hold', str(count), path], stdin=subprocess.PIPE, stdout=subprocess.PIPE)
        child.stdout.readline()
        found.append(resident(child))
        child.communicate(b'\n')
    return (found[1] - found[0]) / HELD


def main():
    parser_of(__doc__).parse_args()
    place = room('segments_files')
    paths = []
    for count in (10_000, 100_000):
        made = segment(count)
        for layout in ('rows', 'columns'):
            paths.append((f'{count:,} rows, {layout}', layout, os.path.join(place, f'{count}.{layout}')))
            with open(paths[-1][2], 'wb') as file:
                file.write(file_of(made, layout == 'columns'))
    program, _ = build('segments', ['druid_segment_file', 'anyhow'], words=['read', paths[0][2]])
    for name, layout, path in paths:
        best = max((run(program, 'read', path)[0][0] for _ in range(5)), key=lambda line: int(line.split()[-2]))
        written = max((run(program, 'write', layout, path, os.devnull)[0][0] for _ in range(5)), key=lambda line: int(line.split()[-2]))
        size = os.path.getsize(path)
        print(f'{name}: {size / 1e6:.2f} MB; {best}; {written}; held {held_bytes(program, path) / size:.2f} of the file', flush=True)


if __name__ == '__main__':
    main()
