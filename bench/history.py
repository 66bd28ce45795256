#!/usr/bin/env python3
"""Builds the proved program of `bench/history`, which records changes and answers asks, and prints its times and memory.

It is built in the folder for temporary files, over copies of the crates; the first time that proves them, which takes some
minutes.
"""
from lib import build, parser_of, run


def main():
    parser_of(__doc__).parse_args()
    program, _ = build('history', ['druid_sync_history', 'anyhow'])
    lines, peak = run(program)
    print('\n'.join(lines))
    print(f'{peak:.1f} MiB')


if __name__ == '__main__':
    main()
