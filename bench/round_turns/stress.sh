#!/usr/bin/env bash
# Runs a stress program, which is named, on 1, 2 and 4 processors, alone and next to busy loops: 20,000 runs in all, or RUNS each.
set -e
program="$1"
each="${RUNS:-3334}"
loops=""
trap '[ -z "$loops" ] || kill $loops' EXIT
seed=1
for busy in 0 4; do
    for ((i = 0; i < busy; i++)); do
        (while :; do :; done) &
        loops="$loops $!"
    done
    for processors in 0 0,1 0-3; do
        said="$(timeout 900 taskset -c "$processors" "$program" "$seed" "$each")" || { echo "seed $seed on $processors: did not end"; exit 1; }
        echo "processors $processors, $busy busy loops, seed $seed: $said"
        case "$said" in *" 0 wrong") ;; *) exit 1 ;; esac
        seed=$((seed + 1))
    done
done
