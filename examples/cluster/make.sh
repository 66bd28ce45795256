#!/bin/sh
# Makes the segment files of the nodes n0, n1 and n2 out of the CSV files here, which stand in these folders as made.
#
# The orders of two days are on two nodes each, and the visits on n2 alone. At 10 o'clock of the second day the till left out the
# prices and wrote one order twice: the corrections replace that hour, in a later version.
set -eu
cd "$(dirname "$0")"

make() { python3 ../../tools/make_segments.py make "$@"; }
orders() { make --source orders --time time --dimensions country,product --metrics items,cents --rows 16 "$@"; }

rm -f n0/*.seg n1/*.seg n2/*.seg
for node in n0 n1; do orders --version v1 --by day --out $node first.csv; done
for node in n1 n2; do orders --version v1 --by day --out $node second.csv; done
for node in n0 n2; do orders --version v2 --by hour --out $node corrections.csv; done
make --source visits --time millis --dimensions page --metrics visitors --rows 16 --version v1 --by day --out n2 visits.csv
