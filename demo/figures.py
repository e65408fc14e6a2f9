"""The step that measures: the card beside QEMU's virtio-net-pci on `-netdev dgram`, between the same two guests, round by round."""

import contextlib
import dataclasses
import os
import re
import shutil
import socket
import statistics
import struct
import time

from guest import linux
from server import Server
from stage import ADDRESS, FUNCTION, OTHER, Differs, address_of

ROUNDS = 3
SECONDS = 5
FUNCTIONS = 64
# MiB of each guest.
MEMORY = 512
# Frames of the packet generator, without FCS: the shortest, and one of an MTU of 1,500.
SMALL, LARGE = 60, 1514
COUNT = 20000


@dataclasses.dataclass
class Card:
    """One of the two cards that each guest has."""

    name: str
    module: str
    device: str
    internet: dict
    address: dict


OURS = Card("vfdev-server", "ixgbevf", "eth0", ADDRESS, {name: address_of(name) for name in ADDRESS})
THEIRS = Card("virtio-net-pci", "virtio_net", "eth1", {"a": "10.82.60.1", "b": "10.82.60.2"},
              {"a": "52:54:00:82:59:01", "b": "52:54:00:82:59:02"})


def figures(stage):
    """how fast the card is, beside QEMU's virtio-net-pci on `-netdev dgram`; for a calm machine, some minutes"""
    setting = dataclasses.replace(stage.setting, inside=stage.setting.inside + "f", functions=FUNCTIONS)
    shutil.rmtree(setting.place, ignore_errors=True)
    with contextlib.ExitStack() as end:
        end.callback(shutil.rmtree, setting.place, True)
        server = Server(setting, "server-figures")
        end.callback(server.end)
        server.start()
        for name in ADDRESS:
            end.callback(stage.drop, name)
            boot = dataclasses.replace(linux(setting.kernels[name]), memory=MEMORY, words=their_words(name, setting))
            stage.start(name, boot=boot, setting=setting)
        for name in ADDRESS:
            stage.bring_up(name)
            bring_up_theirs(stage, stage.guests[name])
        print(f"  load of the machine: {' '.join(f'{load:.1f}' for load in os.getloadavg())} on {os.cpu_count()} processors", flush=True)
        table = measure(stage, server)
        crowd(stage, setting, table)
        show(table)
    return f"{ROUNDS} rounds, above; the load now: {os.getloadavg()[0]:.1f}"


def their_words(name, setting):
    """QEMU's words for its own card, whose cable is a datagram socket to that of the other guest's QEMU."""
    own, other = (f"{setting.inside}/{each}.net" for each in (name, OTHER[name]))
    return ("-netdev", f"dgram,id=n,local.type=unix,local.path={own},remote.type=unix,remote.path={other}",
            "-device", f"virtio-net-pci,netdev=n,romfile=,mac={THEIRS.address[name]}")


def bring_up_theirs(stage, guest):
    guest.ask("load virtio_pci && load virtio_net")
    stage.until(guest, "test -e /sys/class/net/eth1", 20, "no eth1 after virtio_net was loaded")
    up_theirs(stage, guest)


def up_theirs(stage, guest):
    guest.ask(f"ip addr add {THEIRS.internet[guest.name]}/24 dev eth1 && ip link set eth1 up")
    stage.until(guest, 'test "$(cat /sys/class/net/eth1/carrier)" = 1', 30, "eth1's link does not come up")


def measure(stage, server):
    """A table: for each figure and card the value of each round."""
    table = {}
    for number in range(ROUNDS):
        for card in (OURS, THEIRS):
            for figure, value in one_round(stage, card, server):
                table.setdefault(figure, {}).setdefault(card.name, []).append(value)
        print(f"  round {number + 1} of {ROUNDS} is done", flush=True)
    return table


def one_round(stage, card, server):
    a, b = (stage.guests[name] for name in ADDRESS)
    yield "driver loaded to link up, ms", link_up(stage, a, card)
    yield "ping of 56 bytes, ms", round_trip(stage, a, card)
    yield "TCP a to b, Mbit/s", iperf3(a, b, card, "")
    yield "TCP b to a, Mbit/s", iperf3(a, b, card, "-R")
    yield "UDP of 1,400 bytes a to b, Mbit/s", iperf3(a, b, card, "-u -b 0 -l 1400")
    for size in (SMALL, LARGE):
        rate, came, busy = flood(a, b, card, size, server)
        yield f"frames of {size} bytes a to b, that came, 1/s", rate
        if card is OURS:
            yield f"the server's processor time for a frame of {size} bytes, microseconds", busy / came


def link_up(stage, guest, card):
    """Milliseconds from the driver's load to the link, by the guest's own clock, which has steps of 10 ms."""
    clock = "cut -d ' ' -f 1 /proc/uptime"
    guest.ask(f"rmmod {card.module}")
    said = guest.ask(f"{clock}; load {card.module}; while ! ip link set {card.device} up; do :; done; "
                     f"while test \"$(cat /sys/class/net/{card.device}/carrier)\" != 1; do :; done; {clock}", 60)
    first, last = said.split()[0], said.split()[-1]
    if card is OURS:
        stage.load(guest)
    else:
        up_theirs(stage, guest)
    return 1000 * (float(last) - float(first))


def round_trip(stage, guest, card):
    """The average time of 300 pings, each sent when the one before was answered."""
    other = card.internet[OTHER[guest.name]]
    stage.until(guest, f"ping -c 1 -w 1 {other} > /dev/null", 40, f"{other} does not answer")
    said = guest.ask(f"ping -A -q -c 300 -w 60 {other}", 90)
    found = re.search(r"= [\d.]+/([\d.]+)/[\d.]+ ms", said)
    if not found:
        raise Differs(f"ping said: {said[-200:]}")
    return float(found[1])


def iperf3(a, b, card, words):
    """What the receiver got in Mbit/s."""
    b.ask("iperf3 -s -D -1 > /dev/null; sleep 1")
    said = a.ask(f"iperf3 -c {card.internet[b.name]} {words} -t {SECONDS} -f m", SECONDS + 60)
    found = re.search(r"([\d.]+) Mbits/sec.*receiver", said)
    if not found:
        raise Differs(f"iperf3 said: {' '.join(said.split())[-300:]}")
    return float(found[1])


def flood(a, b, card, size, server):
    """The kernel's packet generator, without a pause: frames a second that came, how many, and the server's microseconds meanwhile."""
    words = (f"count {COUNT}", "delay 0", f"pkt_size {size}", "clone_skb 0", f"src_mac {card.address['a']}",
             f"dst_mac {card.address['b']}", f"src_min {card.internet['a']}", f"src_max {card.internet['a']}",
             f"dst {card.internet['b']}", "udp_dst_min 9", "udp_dst_max 9")
    count = f"cat /sys/class/net/{card.device}/statistics/rx_packets"
    a.ask("load pktgen; cd /proc/net/pktgen; echo rem_device_all > kpktgend_0; "
          f"echo add_device {card.device} > kpktgend_0; "
          f"for word in {' '.join(repr(word) for word in words)}; do echo $word > {card.device} || exit 1; done", 60)
    before, busy = int(b.ask(count)), server.busy()
    said = a.ask(f"echo start > /proc/net/pktgen/pgctrl; cat /proc/net/pktgen/{card.device}; "
                 "echo rem_device_all > /proc/net/pktgen/kpktgend_0", 120)
    came = int(b.ask(f"sleep 1; {count}")) - before
    busy = server.busy() - busy
    microseconds = re.search(r"OK: (\d+)\(", said)
    if not microseconds or came <= 0:
        raise Differs(f"of {COUNT} frames {came} came; the generator said: {said.splitlines()[-1]}")
    return came * 1e6 / int(microseconds[1]), came, busy


def crowd(stage, setting, table):
    """The ping once more while the other functions have clients too, which propose a version and say no more."""
    clients = []
    try:
        began = time.monotonic()
        for function in range(FUNCTIONS):
            if function not in FUNCTION.values():
                clients.append(attached(os.path.join(setting.place, f"vf{function}")))
        table[f"{len(clients)} more clients attach, ms each"] = {OURS.name: [1000 * (time.monotonic() - began) / len(clients)]}
        seen = [round_trip(stage, stage.guests["a"], OURS) for _ in range(ROUNDS)]
        table[f"ping of 56 bytes with {FUNCTIONS} functions attached, ms"] = {OURS.name: seen}
    finally:
        for client in clients:
            client.close()


def attached(path):
    """A client that has proposed version 0.0 of vfio-user, and was answered."""
    body = struct.pack("<HH", 0, 0) + b'{"capabilities":{"max_msg_fds":8}}\0'
    client = socket.socket(socket.AF_UNIX)
    client.settimeout(30)
    client.connect(path)
    client.sendall(struct.pack("<HHIII", 1, 1, 16 + len(body), 0, 0) + body)
    if len(client.recv(4096)) < 16:
        raise Differs(f"{path}: no answer to the proposal of a version")
    return client


def show(table):
    """A row for each figure: the rounds of each card, and how the medians compare."""
    print(f"  | | {OURS.name} | {THEIRS.name} | ratio of the medians |\n  |---|---|---|---|")
    for figure, cards in table.items():
        rounds = [" ".join(f"{value:.3g}" if value < 100 else f"{value:.0f}" for value in cards.get(card.name, []))
                  for card in (OURS, THEIRS)]
        both = [statistics.median(cards[card.name]) for card in (OURS, THEIRS) if card.name in cards]
        ratio = f"{both[0] / both[1]:.2f}" if len(both) == 2 and both[1] else ""
        print(f"  | {figure} | {rounds[0]} | {rounds[1]} | {ratio} |")
