"""The steps about what a driver leaves to the card: tags of VLAN interfaces, and vectors that are masked by themselves."""

from figures import OURS, iperf3
from stage import FUNCTION, OTHER, Differs, LeftOut, address_of, ping
from steps import copied

# The VLAN of both guests, the one of guest a alone, and their internet addresses there.
BOTH, ALONE = 5, 6
TAGGED = {BOTH: {"a": "10.82.61.1", "b": "10.82.61.2"}, ALONE: {"a": "10.82.62.1", "b": "10.82.62.2"}}
# An MTU with which a frame and its tag have the 9,018 bytes that the card takes, and the ping that fills it.
LONG_MTU = 9000
LONG_PING = LONG_MTU - 28
# Everything but what makes interrupts fewer: vectors that are masked, and intervals between messages.
UNMASKED = "vlan,checksum,segmentation,legacy-receive,receive-checksum"
MASKED = UNMASKED + ",auto-mask"
ROUNDS = 3


def tags(stage):
    """a VLAN interface in each guest, whose tags the card inserts"""
    if stage.setting.offloads == "none":
        raise LeftOut("with --no-offloads the card inserts no tags for its drivers")
    try:
        stage.again(joining(0, BOTH, ALONE))
        a, b = stage.pair()
        for guest in (a, b):
            guest.ask("load 8021q; " + up(f"eth0.{BOTH}", TAGGED[BOTH][guest.name]))
        other = TAGGED[BOTH]["b"]
        stage.until(a, f"ping -c 1 -w 1 {other} > /dev/null", 40, f"{other} does not answer in VLAN {BOTH}")
        seen = [f"eth0.{BOTH} in both guests"]
        for guest in (a, b):
            there = TAGGED[BOTH][OTHER[guest.name]]
            seen.append(ping(guest, 50, to=there).whole(f"{guest.name} to {OTHER[guest.name]}, 56 bytes"))
        seen.append(ping(a, 20, 8000, to=other).whole("8,000 bytes in fragments (MTU 1500)"))
        seen += [copied(a, b, 4, TAGGED[BOTH]), copied(b, a, 4, TAGGED[BOTH])]
        if stage.setting.frame >= LONG_MTU + 18:
            seen.append(whole(stage, a, b))
        seen.append(alone(a, b))
        return "; ".join(seen)
    finally:
        stage.again()


def joining(*ids):
    """A configuration of the server by which both guests' drivers may join these VLANs."""
    text = f"vlans = {list(ids)}\n"
    for name, function in FUNCTION.items():
        text += f'\n[[function]]\nnumber = {function}\nname = "{name}"\naddress = "{address_of(name)}"\nvlans = {list(ids)}\n'
    return text


def up(device, internet):
    """The command that brings a VLAN interface up."""
    real, _, identity = device.partition(".")
    return (f"ip link add link {real} name {device} type vlan id {identity} && ip addr add {internet}/24 dev {device} && "
            f"ip link set {device} up")


def whole(stage, a, b):
    """A ping that fills the longest frame, with its tag."""
    for guest in (a, b):
        guest.ask(f"ip link set eth0 mtu {LONG_MTU}")
        stage.carrier(guest)
        guest.ask(f"ip link set eth0.{BOTH} mtu {LONG_MTU}")
    other = TAGGED[BOTH]["b"]
    stage.until(a, f"ping -c 1 -w 1 {other} > /dev/null", 40, f"{other} does not answer with MTU {LONG_MTU}")
    what = f"{LONG_PING:,} bytes whole (MTU {LONG_MTU}, frames of {LONG_MTU + 18:,} bytes with their tag)"
    return ping(a, 20, LONG_PING, to=other).whole(what)


def alone(a, b):
    """Guest a has a VLAN that b hasn't joined: b has the address that a asks for, without a tag, and its card lets nothing through."""
    left, arrived = (f"cat /sys/class/net/eth0/statistics/{which}_packets" for which in ("tx", "rx"))
    a.ask(up(f"eth0.{ALONE}", TAGGED[ALONE]["a"]))
    b.ask(f"ip addr add {TAGGED[ALONE]['b']}/24 dev eth0")
    before = int(a.ask(f"sleep 1; {left}")), int(b.ask(arrived))
    lost = ping(a, 5, seconds=5, to=TAGGED[ALONE]["b"])
    sent, came = (now - then for now, then in zip((int(a.ask(left)), int(b.ask(arrived))), before))
    # Stray questions for addresses (ARP) in the other networks are none of these.
    if lost.received or sent < 3 or came > sent - 3:
        raise Differs(f"VLAN {ALONE} of a alone: {lost.received} answers; a sent {sent} frames, and {came} came to b")
    return f"eth0.{ALONE} in a alone: 0 of {lost.sent} answers, of {sent} frames {came} came to b"


def interrupts(stage):
    """how many interrupts a frame costs, with vectors that the card masks (VTEIAM) and without; for a calm machine"""
    before = stage.setting.offloads
    table = {}
    try:
        for masked, offloads in (("with VTEIAM", MASKED), ("without", UNMASKED)):
            stage.setting.offloads = offloads
            stage.again()
            pair = stage.pair()
            for _ in range(ROUNDS):
                for traffic, words in (("TCP", ""), ("UDP of 1,400 bytes", "-u -b 0 -l 1400")):
                    for row, value in measured(*pair, words):
                        table.setdefault(f"{traffic}, {row}", {}).setdefault(masked, []).append(value)
            print(f"  {ROUNDS} rounds {masked} are done", flush=True)
    finally:
        stage.setting.offloads = before
        stage.again()
    show(table)
    return f"{ROUNDS} rounds each, above: interrupts of eth0 by /proc/interrupts, for each frame that came or left"


def measured(a, b, words):
    """One round from a to b: interrupts a frame at both, and what came."""
    before = [counted(guest) for guest in (a, b)]
    rate = iperf3(a, b, OURS, words)
    after = [counted(guest) for guest in (a, b)]
    for role, old, new in zip(("the sender's", "the receiver's"), before, after):
        told, frames = (later - earlier for later, earlier in zip(new, old))
        yield f"{role} interrupts a frame", told / max(1, frames)
    yield "Mbit/s", rate


def counted(guest):
    """How many interrupts the card had, and how many frames came and left."""
    said = guest.ask("grep eth0 /proc/interrupts; cd /sys/class/net/eth0/statistics; echo frames $(cat rx_packets tx_packets)")
    lines = [line.split() for line in said.splitlines()]
    frames = next(line for line in lines if line[0] == "frames")
    return sum(int(line[1]) for line in lines if line is not frames), sum(map(int, frames[1:]))


def show(table):
    """A row for each figure: the rounds with and without."""
    print("  | from a to b | with VTEIAM | without |\n  |---|---|---|")
    for row, values in table.items():
        cells = (" ".join(f"{value:.3g}" for value in values.get(masked, [])) for masked in ("with VTEIAM", "without"))
        print(f"  | {row} | {' | '.join(cells)} |")
