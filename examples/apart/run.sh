#!/bin/sh
# Runs the cluster of cluster.json as five processes of this machine, each with its part, until Ctrl-C or a kill of this script ends all.
#
#   run.sh FOLDER [PART ..]     n0 n1 n2 broker:0 broker:1 unless said otherwise
#
# FOLDER has the nodes' folders, which begin with the segment files of examples/cluster, and of each part what it says and its process
# number, as n0.log and n0.pid. With PREVIEW=preview before the command the program is the unproved one.
set -eu
top=$(cd "$(dirname "$0")/../.." && pwd)
folder=${1:?"run.sh FOLDER [PART ..]"}
shift
[ $# -gt 0 ] || set -- n0 n1 n2 broker:0 broker:1

# The program is built once, before five processes ask for it.
"$top/druid_cluster" ${PREVIEW-} replay </dev/null

for node in n0 n1 n2; do
    [ -d "$folder/$node" ] || { mkdir -p "$folder/$node"; cp "$top/examples/cluster/$node"/*.seg "$folder/$node"; }
done
cd "$folder"

parts=
trap 'trap - INT TERM; kill $parts 2>/dev/null; wait; exit 0' INT TERM
for part; do
    DRUID_CLUSTER_PART=$part DRUID_CLUSTER_LOG=info "$top/druid_cluster" ${PREVIEW-} serve "$top/examples/apart/cluster.json" >>"$part.log" 2>&1 &
    echo $! >"$part.pid"
    parts="$parts $!"
done
wait
