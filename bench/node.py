#!/usr/bin/env python3
"""Builds the proved program of `bench/node`, a data node of 100 segments of 10,000 rows each, and prints how fast it loads them
from a folder, its memory, and how many requests a second it answers over readers and writers in memory, to one client and to four.

It is built in the folder for temporary files, over copies of the crates; the first time that proves them, which takes some
minutes.
"""
import os
from lib import build, empty, parser_of, room, run


def main():
    parser_of(__doc__).parse_args()
    folder = room('node_files')
    empty(folder)
    program, _ = build('node', ['druid_node', 'druid_folder_store', 'anyhow'], words=['write', folder])
    size = sum(os.path.getsize(os.path.join(folder, name)) for name in os.listdir(folder)) / 2**20
    lines, peak = run(program, 'serve', folder)
    reported = [(name, int(count), int(spent), int(size)) for name, count, spent, size in map(str.split, lines)]
    for name, count, spent, sent in reported:
        if ':' not in name:
            print(f'{name:12} {count / spent * 1e6:12,.1f} a second  {sent // count:10,} bytes each', flush=True)
    for kind in ('one', 'all'):
        parts = [(name.split(':')[1], spent / count) for name, count, spent, _ in reported if name.startswith(kind + ':')]
        whole = sum(spent for _, spent in parts)
        print(f'{kind:12} ' + ', '.join(f'{name} {spent:,.1f} us ({spent / whole:.1%})' for name, spent in parts))
    one, four = ((count / spent * 1e6) for name, count, spent, _ in reported if name.startswith('clients:'))
    print(f'{"clients":12} one {one:,.1f} a second, four {four:,.1f} a second ({four / one:.2f} times as many)')
    print(f'{size:.0f} MiB of files, {peak:.0f} MiB of memory')


if __name__ == '__main__':
    main()
