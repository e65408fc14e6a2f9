#!/bin/sh
# docs/pictures.sh [FOLDER]: draws front.svg, what is proved and what the hypervisor adds; crates.svg, the crates as crates.txt has them; and
# frame.svg, the way of one frame from the wire to a guest, into FOLDER, or into docs. Run it after a crate has come or gone, and look at
# what it drew. crates.svg wants graphviz (dot), the others awk alone. With --source it prints the graph of the crates as dot reads it.
#
# docs/check draws all anew. It compares front.svg and frame.svg byte by byte. Of crates.svg it compares the crates and the lines alone, since
# where dot puts them depends on its version and on the fonts of the machine.
set -eu
cd "$(dirname "$0")/.."

# What all pictures have: the head of one that is so wide and high, and a box with a name. The text has the middle of its box.
common='
function head(width, height, title) {
    printf "<svg xmlns=\"http://www.w3.org/2000/svg\" viewBox=\"0 0 %d %d\" role=\"img\" aria-label=\"%s\"\n", width, height, title
    print " font-family=\"sans-serif\" font-size=\"13\">"
    printf "<rect width=\"%d\" height=\"%d\" fill=\"#ffffff\"/>\n", width, height
}
function box(x, y, wide, high, name, fill) {
    printf "<rect x=\"%d\" y=\"%d\" width=\"%d\" height=\"%d\" rx=\"6\" fill=\"%s\" stroke=\"#33475b\"/>\n", x, y, wide, high, fill
    if (name != "") text(x + wide / 2, y + high / 2 + 5, "middle", name, "#1b2733")
}
function text(x, y, anchor, words, fill) {
    printf "<text x=\"%d\" y=\"%d\" text-anchor=\"%s\" fill=\"%s\">%s</text>\n", x, y, anchor, fill, words
}
function line(x1, y1, x2, y2, stroke) {
    printf "<path d=\"M%d %dL%d %d\" stroke=\"%s\" fill=\"none\"/>\n", x1, y1, x2, y2, stroke
}'

# The crates as a graph for graphviz. A line goes to what a crate stands on directly, where no other of these stands on it in turn. The
# tests and the benchmarks, behind the second comment of crates.txt, are left out. Which group a crate is drawn in is said here.
source_of_crates() {
    awk '
BEGIN {
    groups = split("bytes and memory|filters and switch|one function|device|C|PCI and vfio-user|threads|program", title, "|")
    split("wire_frame guest_memory live_memory mapped_memory shadow internet_checksum offload receive_checksum|pool_index addr_tables vlan_table pool_filter anti_spoof local_switch|" \
        "rings irq_causes rx_desc tx_desc sending_laws vf_unit|device lone live_run history mailbox mailbox_laws hosted card card_laws spare_memory transmit_page|vfdev_c|pci_function vfio_user vfio_session|" \
        "irq_line recorder device_lock guest_port wire_pump|script transcript workers modes host vfdev", members, "|")
    split("#e3eef9 #e3eef9 #e3eef9 #ffe9b8 #f6e1ee #fbe6d8 #e6f4e6 #eeeeee", fill, " ")
}
/^#/ { comments++; next }
comments < 2 && /:/ {
    split($0, halves, ":")
    split(halves[1], left, " ")
    names[++count] = left[1]
    used[left[1]] = halves[2] " "
}
# Whether one crate names another, whether it stands on it by others, and whether it does by itself alone.
function uses(a, b) { return index(used[a], " " b " ") > 0 }
function stands_on(a, b,   i) {
    if ((a, b) in known) return known[a, b]
    known[a, b] = uses(a, b)
    for (i = 1; i <= count && !known[a, b]; i++) if (uses(a, names[i]) && stands_on(names[i], b)) known[a, b] = 1
    return known[a, b]
}
function is_direct(a, b,   i) {
    for (i = 1; i <= count; i++) if (names[i] != b && uses(a, names[i]) && stands_on(names[i], b)) return 0
    return uses(a, b)
}
END {
    print "digraph crates {"
    print "  graph [rankdir=TB, nodesep=0.25, ranksep=0.45, fontname=\"sans-serif\", fontsize=14, bgcolor=white,"
    print "    tooltip=\"The crates of vfdev, each above those that it stands on\"]"
    print "  node [shape=box, style=\"rounded,filled\", fillcolor=white, color=\"#33475b\", fontname=\"sans-serif\", fontsize=13, height=0.4, margin=\"0.18,0.06\"]"
    print "  edge [color=\"#5d6d7e\", arrowsize=0.6]"
    for (g = 1; g <= groups; g++) {
        printf "  subgraph cluster_%d {\n    label=\"%s\"; labeljust=l; style=\"rounded,filled\"; color=\"#c3ccd5\"; fillcolor=\"%s\"\n", g, title[g], fill[g]
        for (i = 1; i <= count; i++) if (index(" " members[g] " ", " " names[i] " ")) printf "    %s\n", names[i]
        print "  }"
    }
    for (i = 1; i <= count; i++) {
        printf "  %s\n", names[i]
        for (j = 1; j <= count; j++) if (is_direct(names[i], names[j])) printf "  %s -> %s\n", names[i], names[j]
    }
    print "}"
}' crates.txt
}

crates() {
    source_of_crates | dot -Tsvg
}

# One step of a frame a line, in the order of the calls: who does it, and what is done. It is the way in the device, from C and Rust as from
# a script. (In the mode threads a pump and a lock stand before it, and a line of interrupt words behind it.)
frame() {
    awk -F '|' "$common"'
{ who[NR] = $1; what[NR] = $2 }
END {
    step = 52
    head(960, NR * step + 20, "The way of one frame from the wire to the memory of a guest, in the device")
    for (i = 1; i < NR; i++) line(105, 20 + (i - 1) * step + 32, 105, 20 + i * step, "#33475b")
    for (i = 1; i <= NR; i++) {
        box(20, 20 + (i - 1) * step, 170, 32, who[i], who[i] == "device" ? "#ffe9b8" : "#e3eef9")
        text(210, 20 + (i - 1) * step + 21, "start", what[i], "#1b2733")
    }
    print "</svg>"
}' <<'STEPS'
wire_frame|bytes of 14 to 9018 are a frame by their type
device|a frame that is longer than the device's limit is refused here; any other is switched
local_switch|asks which pools accept the frame; where none does, it is for the default pool
pool_filter|of the pools that have the frame's address, those that have its VLAN id; and broadcast, multicast, untagged
addr_tables, vlan_table|the pools of its address, and those of its VLAN id, each by one search
local_switch|last: of these pools, those that may receive
device|once for each of them, with the descriptors of all read ahead
vf_unit|is the function open, is its queue on?
rx_desc|cuts it into the buffers that the ring owns; nothing is written before all addresses are good
rings, live_memory|the bytes go into the memory of that guest, and each descriptor is written back
irq_causes|the cause of the queue becomes a message, where its vector is enabled
device|the messages of all pools go back to the caller: messages of the C call, marks of vfdev run
STEPS
}

# The guests, their functions, the filters and the switch, and the wire. Blue is proved; white is the hypervisor's.
front() {
    awk "$common"'
function arrow(x1, y1, x2, y2, from, to) {
    printf "<path d=\"M%d %dL%d %d\" stroke=\"%s\" fill=\"none\"%s%s/>\n", x1, y1, x2, y2, edge, from ? " marker-start=\"url(#tip)\"" : "", to ? " marker-end=\"url(#tip)\"" : ""
}
function small(x, y, words) {
    printf "<text x=\"%d\" y=\"%d\" text-anchor=\"middle\" font-size=\"11\" fill=\"#51606e\">%s</text>\n", x, y, words
}
function part(x, y, wide, high, name, below, fill) {
    box(x, y, wide, high, "", fill)
    text(x + wide / 2, y + high / 2 - 3, "middle", name, "#1b2733")
    text(x + wide / 2, y + high / 2 + 15, "middle", below, "#51606e")
}
BEGIN {
    proved = "#e3eef9"; yours = "#ffffff"; edge = "#33475b"
    head(1000, 400, "Guests, their virtual functions, the filters and the switch, and the wire: what is proved, and what is yours")
    printf "<defs><marker id=\"tip\" viewBox=\"0 0 8 8\" refX=\"7\" refY=\"4\" markerWidth=\"7\" markerHeight=\"7\" orient=\"auto-start-reverse\">"
    printf "<path d=\"M0 0L8 4L0 8z\" fill=\"%s\"/></marker></defs>\n", edge
    printf "<rect x=\"292\" y=\"20\" width=\"443\" height=\"330\" rx=\"10\" fill=\"#f6fafe\" stroke=\"%s\" stroke-dasharray=\"6 4\"/>\n", edge
    text(510, 44, "middle", "vfdev: proved", "#1b2733")
    part(305, 62, 410, 50, "physical function", "address, VLAN and sender filters of each function", proved)
    split("0 1 63", number, " ")
    for (i = 1; i <= 3; i++) {
        y = 140 + (i - 1) * 70
        part(10, y, 160, 50, "guest " number[i], "its driver and memory", yours)
        arrow(170, y + 14, 305, y + 14, 0, 1)
        small(229, y + 10, "register accesses")
        arrow(170, y + 30, 305, y + 30, 1, 0)
        small(229, y + 26, "interrupts")
        arrow(170, y + 46, 305, y + 46, 1, 1)
        small(229, y + 42, "descriptors, frames")
        part(305, y, 200, 50, "virtual function " number[i], "registers, rings, interrupts", proved)
        arrow(505, y + 25, 560, y + 25, 1, 1)
    }
    text(90, 273, "middle", "...", "#51606e")
    text(405, 273, "middle", "...", "#51606e")
    box(560, 140, 155, 190, "", proved)
    text(637, 230, "middle", "filters and switch", "#1b2733")
    text(637, 248, "middle", "who receives a frame", "#51606e")
    arrow(637, 112, 637, 140, 0, 1)
    arrow(715, 235, 835, 235, 1, 1)
    small(785, 229, "frames")
    part(835, 210, 150, 50, "wire", "a tap or a socket", yours)
    part(835, 62, 150, 50, "host", "chooses the filters", yours)
    arrow(835, 87, 715, 87, 0, 1)
    small(785, 81, "register writes")
    box(285, 366, 18, 18, "", proved)
    text(310, 380, "start", "proved, and linked into your program", "#1b2733")
    box(590, 366, 18, 18, "", yours)
    text(615, 380, "start", "yours: the hypervisor and what runs in it", "#1b2733")
    print "</svg>"
}'
}

case ${1:-docs} in
--source) source_of_crates ;;
*)
    to=$(CDPATH='' cd -- "${1:-docs}" && pwd)
    front >"$to/front.svg"
    frame >"$to/frame.svg"
    if command -v dot >/dev/null 2>&1; then
        crates >"$to/crates.svg"
    else
        echo "left out: crates.svg, since there is no dot: apt-get install graphviz" >&2
    fi
    ;;
esac
