#!/bin/sh
# Prints what an event costs the modes `run` and `threads` of the program, on one port and on 64: instructions, and nanoseconds of
# wall time, the best of nine. Both read the same script of 50,000 events, register reads and memory writes in turn; `run` writes
# an answer for each, `threads` keeps each and replays all on a fresh device. The cost of starting and ending is in it. It wants
# rt and valgrind with its tool callgrind, and a machine that does nothing else.
set -eu
cd "$(dirname "$0")/.."
work=$(mktemp -d)
trap 'rm -rf "$work"' EXIT
events=50000
sed -n 's/^model name[^:]*: /processor: /p' /proc/cpuinfo | head -n 1

# A script for so many ports.
script() {
    awk -v ports="$1" -v events=$events 'BEGIN {
        print "vfs", ports, 65536
        for (p = 0; p < ports; p++) print "open", p
        print "go"
        for (n = 0; n < events / 2; n++) {
            printf "r %d 0x1010\n", n % ports
            printf "mw %d 0x100 00112233445566778899aabbccddeeff\n", n % ports
        }
    }'
}

# Instructions of a run: MODE SCRIPT.
instructions() {
    valgrind --tool=callgrind --callgrind-out-file=/dev/null crates/vfdev/out/vfdev "$1" <"$2" 2>"$work/err" >/dev/null
    awk '/Collected/ { print $NF }' "$work/err"
}

# The shortest of nine runs in nanoseconds: MODE SCRIPT.
wall() {
    least=
    for _ in 1 2 3 4 5 6 7 8 9; do
        from=$(date +%s%N)
        crates/vfdev/out/vfdev "$1" <"$2" >/dev/null
        took=$(($(date +%s%N) - from))
        if [ -z "$least" ] || [ $took -lt "$least" ]; then least=$took; fi
    done
    echo "$least"
}

./vfdev run <examples/one_frame.script >/dev/null
echo "| Ports | Mode | Instructions an event | Wall time an event, ns |"
echo "|---|---|---|---|"
for ports in 1 64; do
    script $ports >"$work/script"
    for mode in run threads; do
        echo "| $ports | $mode | $(($(instructions $mode "$work/script") / events)) | $(($(wall $mode "$work/script") / events)) |"
    done
done
