"""The steps that show what the card does while nothing goes wrong: each gives the line to show, or raises Differs."""

import re

from stage import ADDRESS, CARD_ADDRESS, Differs, address_of, ping

DEVICE = "/sys/class/net/eth0/device"


def bind(stage):
    """the kernel's own driver finds the card and takes it"""
    seen = []
    for guest in stage.pair():
        linux = guest.ask("uname -r")
        identity = guest.ask(f"cat {DEVICE}/vendor {DEVICE}/device").split()
        driver = guest.ask(f"basename $(readlink {DEVICE}/driver)")
        address = guest.ask("cat /sys/class/net/eth0/address")
        if identity != ["0x8086", "0x10ed"] or driver != "ixgbevf":
            raise Differs(f"guest {guest.name}: device {identity} with the driver {driver}, not 8086:10ed with ixgbevf")
        if address != address_of(guest.name):
            raise Differs(f"guest {guest.name}: address {address}, not {address_of(guest.name)}")
        seen.append(f"guest {guest.name}: Linux {linux}, ixgbevf on 8086:10ed, address {address}")
    return "; ".join(seen)


def link(stage):
    """the link comes up"""
    for guest in stage.pair():
        said = guest.ask("ethtool eth0")
        if "Speed: 10000Mb/s" not in said or "Link detected: yes" not in said:
            raise Differs(f"guest {guest.name}: ethtool says {' '.join(said.split())}")
    return "up at 10 Gb/s in both guests"


def small_ping(stage):
    """the guests ping each other"""
    a, b = stage.pair()
    return "; ".join([ping(a, 100).whole("a to b, 56 bytes"), ping(b, 100).whole("b to a, 56 bytes")])


def large_ping(stage):
    """a ping of 8,000 bytes: in fragments, and whole where the card lets frames be that long"""
    a, b = stage.pair()
    seen = [ping(a, 20, 8000).whole("8,000 bytes in fragments (MTU 1500)")]
    asked = [guest.run("ip link set eth0 mtu 9000") for guest in (a, b)]
    try:
        if all(status == 0 for _, status in asked):
            for guest in (a, b):
                stage.carrier(guest)
            stage.answers(a)
            seen.append(ping(a, 20, 8000).whole("whole (MTU 9000)"))
        elif stage.setting.frame >= 9018:
            raise Differs(f"MTU 9000 is refused ({asked[0][0] or asked[1][0]}) though the card's frames have 9,018 bytes")
        else:
            seen.append(f"MTU 9000 is refused, as it has to be with frames of {stage.setting.frame} bytes")
    finally:
        for guest in (a, b):
            guest.run("ip link set eth0 mtu 1500")
            stage.carrier(guest)
        stage.answers(a)
    return "; ".join(seen)


def tcp(stage):
    """a file goes each way over TCP, and its SHA-256 is compared; then how fast TCP is"""
    pair = stage.pair()
    seen = [left_to_card(stage), copied(*pair, 4), copied(*reversed(pair), 4)]
    a, b = pair
    b.ask("iperf3 -s -D -1 > /dev/null; sleep 1")
    seen.append(f"a to b {rate(a.ask(f'iperf3 -c {ADDRESS[b.name]} -t 5 -f m', 60))}")
    b.ask("iperf3 -s -D -1 > /dev/null; sleep 1")
    seen.append(f"b to a {rate(a.ask(f'iperf3 -c {ADDRESS[b.name]} -R -t 5 -f m', 60))}")
    return "; ".join(seen)


def left_to_card(stage):
    """What the drivers leave to the card of TCP, by the guests' own word."""
    is_off = stage.setting.offloads == "none"
    for guest in stage.pair():
        said = guest.ask("ethtool -k eth0")
        for name in ("tx-checksumming", "tcp-segmentation-offload"):
            if f"{name}: {'off' if is_off else 'on'}" not in said:
                raise Differs(f"guest {guest.name}: `ethtool -k eth0` says {' '.join(said.split())[:300]}")
    return ("without offloads: `ethtool -K eth0 tx off tso off`, and a card that does none" if is_off else
            "sums and segments are left to the card, as the driver comes (`ethtool -k eth0`)")


def copied(source, sink, mebibytes, at=None):
    """Copies a file of random bytes from one guest to the other over HTTP. `at` has their internet addresses, where it isn't ADDRESS."""
    source.ask(f"mkdir -p /srv; dd if=/dev/urandom of=/srv/file bs=1M count={mebibytes}")
    source.ask("test -e /served || { httpd -p 80 -h /srv && touch /served; }")
    expected = source.ask("sha256sum < /srv/file").split()[0]
    sink.ask(f"wget -q -T 20 -O /copy http://{(at or ADDRESS)[source.name]}/file", 120)
    found = sink.ask("sha256sum < /copy; rm /copy").split()[0]
    if found != expected:
        raise Differs(f"{source.name} to {sink.name}: SHA-256 {found}, sent {expected}")
    return f"{mebibytes} MiB {source.name} to {sink.name}, SHA-256 {found[:12]}.. on both sides"


def rate(said):
    found = re.search(r"([\d.]+ [KMG]?bits/sec) +receiver", said)
    if not found:
        raise Differs(f"iperf3 said: {' '.join(said.split())[-200:]}")
    return found[1].replace("bits/sec", "bit/s")


def forged(stage):
    """frames with a source that is not the function's own are dropped"""
    a, b = stage.pair()
    stage.answers(a)
    own = datagrams(a, b, address_of("a"), address_of("b"))
    if own < 90:
        raise Differs(f"of 100 datagrams with its own source {own} came")
    for source in (address_of("b"), CARD_ADDRESS.format(3), "02:00:00:00:00:66"):
        came = datagrams(a, b, source, address_of("b"))
        if came:
            raise Differs(f"of 100 datagrams with the source {source} {came} came")
    return (f"of 100 datagrams with its own source {own} came; with b's, with a third function's "
            "and with a source that nobody has 0 of 100 each")


def datagrams(guest, other, source, destination):
    """Sends 100 datagrams by the kernel's packet generator; gives how many of them the other guest's kernel got.

    They go to a port that nobody has, so each that comes counts once as such.
    """
    count = "awk '/^Udp: [0-9]/ {print $3}' /proc/net/snmp"
    before = int(other.ask(count))
    generate(guest, source, destination, ADDRESS[other.name])
    return int(other.ask(f"sleep 1; {count}")) - before


def generate(guest, source, destination, internet):
    """100 frames with these addresses, one each 2 ms."""
    words = ("count 100", "delay 2000000", "pkt_size 100", "clone_skb 0", f"src_mac {source}", f"dst_mac {destination}",
             f"src_min {ADDRESS[guest.name]}", f"src_max {ADDRESS[guest.name]}", f"dst {internet}",
             "udp_dst_min 9", "udp_dst_max 9")
    guest.ask("load pktgen; cd /proc/net/pktgen; echo rem_device_all > kpktgend_0; echo add_device eth0 > kpktgend_0; "
              f"for word in {' '.join(repr(word) for word in words)}; do echo $word > eth0 || exit 1; done; echo start > pgctrl", 60)
    said = guest.ask("cat /proc/net/pktgen/eth0; echo rem_device_all > /proc/net/pktgen/kpktgend_0")
    if not re.search(r"pkts-sofar: 100\b", said):
        raise Differs(f"guest {guest.name} could not send 100 frames: {said.splitlines()[-1]}")


def address(stage):
    """another guest's address is refused"""
    a, _ = stage.pair()
    said, status = a.run(f"ip link set eth0 address {address_of('b')}")
    now = a.ask("cat /sys/class/net/eth0/address")
    if status == 0 or now != address_of("a"):
        raise Differs(f"asked for {address_of('b')}: status {status}, address now {now}")
    stage.answers(a)
    return f"`ip link set eth0 address {address_of('b')}` in a: {said.splitlines()[-1]}; a keeps {now}"


def promiscuous(stage):
    """a guest that asks to see everything sees nothing of others'"""
    a, b = stage.pair()
    stage.answers(a)
    count = "cat /sys/class/net/eth0/statistics/rx_packets"
    b.ask("ip link set eth0 promisc on; sleep 1")
    try:
        before = int(b.ask(count))
        generate(a, address_of("a"), CARD_ADDRESS.format(3), ADDRESS["b"])
        others = int(b.ask(f"sleep 1; {count}")) - before
        own = datagrams(a, b, address_of("a"), address_of("b"))
    finally:
        b.run("ip link set eth0 promisc off")
    # A stray question for an address (ARP) is no frame of another's.
    if others > 4 or own < 90:
        raise Differs(f"of 100 frames to a third function b saw {others}, of 100 to itself {own}")
    return f"b asks by `ip link set eth0 promisc on`; of 100 frames to a third function it saw {others}, of 100 to itself {own}"
