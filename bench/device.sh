#!/bin/sh
# Prints the table of docs/PERFORMANCE.md on the events of a device: instructions and nanoseconds an event of
# crates/bench_device, by `Device::take` and by the call by its name, over memories of its own and over bytes that it is lent. It needs rt, and
# valgrind with its tool callgrind. A count is the difference of two runs, divided by that of their turns, so that starting and ending cost
# nothing; times are the best of 400 rounds.
set -eu
cd "$(dirname "$0")/.."
work=$(mktemp -d)
trap 'rm -rf "$work"' EXIT

(cd crates/bench_device && rt run) >"$work/build.log" 2>&1 || {
    cat "$work/build.log" >&2
    exit 1
}
sed -n 's/^model name[^:]*: /processor: /p' /proc/cpuinfo | head -n 1
ours=crates/bench_device/out/bench_device
for memories in own lent; do
    $ours $memories times | sed '1,2d' >"$work/$memories"
done

# Instructions of a run: own|lent WORKLOAD WAY TURNS. Every turn must have done what it should.
instructions() {
    valgrind --tool=callgrind --callgrind-out-file=/dev/null "$ours" "$@" >"$work/out" 2>"$work/err"
    if [ "$(cat "$work/out")" != "$2 $3 $4: $4" ]; then
        echo "device: $*: $(cat "$work/out")" >&2
        exit 1
    fi
    awk '/Collected/ { print $NF }' "$work/err"
}

# Instructions of a turn: own|lent WORKLOAD WAY. Both runs end at full use of a ring, but for broadcasts, which take long.
per_turn() {
    few=4096
    if [ "$2" = broadcast ]; then few=200; fi
    a=$(instructions "$@" $few)
    b=$(instructions "$@" $((2 * few)))
    echo $(((b - a + few / 2) / few))
}

for memories in own lent; do
    echo "$memories memories"
    echo
    echo "| Workload | By \`take\`, ns | By name, ns | By \`take\`, instructions | By name, instructions |"
    echo "|---|---|---|---|---|"
    while read -r row; do
        workload=$(echo "$row" | cut -d ' ' -f 2)
        echo "$row $(per_turn $memories "$workload" take) | $(per_turn $memories "$workload" name) |"
    done <"$work/$memories"
    echo
done
