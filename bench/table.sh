#!/bin/sh
# Prints the table of docs/PERFORMANCE.md: instructions per operation of crates/bench, and of its twin in plain Rust.
# It needs rt, rustc, and valgrind with its tool callgrind. A count is the difference of two runs, divided by that of
# their turns, so that starting and ending cost nothing.
set -eu
cd "$(dirname "$0")/.."
work=$(mktemp -d)
trap 'rm -rf "$work"' EXIT
few=1000
many=11000

(cd crates/bench && rt run -- read 60 1) >"$work/build.log" 2>&1 || {
    cat "$work/build.log" >&2
    exit 1
}
rustc -O -C target-cpu=x86-64-v2 --edition 2021 bench/plain.rs -o "$work/plain"

# Instructions of a run: PROGRAM WORKLOAD LENGTH TURNS. Every turn must have done what it should.
instructions() {
    valgrind --tool=callgrind --callgrind-out-file=/dev/null "$@" >"$work/out" 2>"$work/err"
    if [ "$(cat "$work/out")" != "$2 $3 $4: $4" ]; then
        echo "table: $*: $(cat "$work/out")" >&2
        exit 1
    fi
    awk '/Collected/ { print $NF }' "$work/err"
}

# Instructions of a turn: PROGRAM WORKLOAD LENGTH.
per_turn() {
    a=$(instructions "$1" "$2" "$3" $few)
    b=$(instructions "$1" "$2" "$3" $many)
    echo $(((b - a + (many - few) / 2) / (many - few)))
}

# A ratio of two counts, to two places.
ratio() {
    awk -v a="$1" -v b="$2" 'BEGIN { printf "%.2f", a / b }'
}

sed -n 's/^model name[^:]*: /processor: /p' /proc/cpuinfo | head -n 1
ours=crates/bench/out/bench
echo "| Workload | Bytes | Ours | Plain | Ratio | Stripped to unstripped, ours |"
echo "|---|---|---|---|---|---|"
for len in 60 1518; do
    a=$(per_turn $ours place $len)
    b=$(per_turn "$work/plain" place $len)
    echo "| place | $len | $a | $b | $(ratio "$a" "$b") | |"
    s=$(per_turn $ours strip $len)
    b=$(per_turn "$work/plain" strip $len)
    echo "| strip | $len | $s | $b | $(ratio "$s" "$b") | $(ratio "$s" "$a") |"
done
for len in 60 1518; do
    for workload in serve insert; do
        a=$(per_turn $ours $workload $len)
        b=$(per_turn "$work/plain" $workload $len)
        echo "| $workload | $len | $a | $b | $(ratio "$a" "$b") | |"
    done
done
a=$(per_turn $ours idle 60)
b=$(per_turn "$work/plain" idle 60)
echo "| idle | | $a | $b | $(ratio "$a" "$b") | |"
echo "| read | | $(per_turn $ours read 60) | | | |"
