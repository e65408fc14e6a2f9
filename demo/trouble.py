"""The steps in which something ends and begins anew: the driver, the function, QEMU, the memory, the server."""

import re
import time

from guest import MEBIBYTE, Broken
from stage import ADDRESS, FUNCTION, Differs, Ping, address_of, ping
from steps import DEVICE, copied


def reload(stage):
    """the driver is unloaded and loaded again"""
    a, _ = stage.pair()
    a.ask("rmmod ixgbevf")
    if a.run("test -e /sys/class/net/eth0")[1] == 0:
        raise Differs("eth0 is still there after `rmmod ixgbevf`")
    stage.load(a)
    stage.answers(a)
    return "`rmmod ixgbevf`, then loaded anew; " + ping(a, 20).whole("a to b")


def reset(stage):
    """the function is reset under its driver"""
    a, _ = stage.pair()
    ways = a.ask(f"cat {DEVICE}/reset_method")
    if "flr" not in ways.split():
        raise Differs(f"the kernel would reset the function by `{ways}`, not by a function-level reset")
    a.ask(f"echo flr > {DEVICE}/reset_method; echo 1 > {DEVICE}/reset")
    seconds = stage.answers(a)
    return f"function-level reset by sysfs; b answers again after {seconds:.0f} s; " + ping(a, 20).whole("a to b")


def killed(stage):
    """one guest's QEMU is killed under traffic: the other goes on, and a new QEMU attaches"""
    a, _ = stage.pair()
    stage.answers(a)
    a.send(f"ping -A -q -w 6 {ADDRESS['b']}", 40)
    time.sleep(2.5)
    stage.drop("b")
    said, _ = a.answer()
    during = Ping.of(said)
    if not 0 < during.received < during.sent:
        raise Differs(f"b was killed under a ping that had {during.received} answers to {during.sent} packets")
    if a.run('test "$(cat /sys/class/net/eth0/carrier)" = 1')[1]:
        raise Differs("a's link went down when b's QEMU was killed")
    stage.start("b")
    stage.bring_up("b")
    stage.answers(a)
    return (f"b killed after {during.received} answers, a goes on with its link up; b's new QEMU attached; "
            + ping(a, 20).whole("a to b"))


def unsealed(stage):
    """a guest whose memory could shrink under the server is refused, and the other goes on"""
    a, _ = stage.pair()
    stage.start("b", ",seal=off")
    b = stage.guests["b"]
    try:
        b.boot()
        b.run(f"load ixgbevf && ip addr add {ADDRESS['b']}/24 dev eth0 && ip link set eth0 up && sleep 5")
        came = ping(b, 3, seconds=5).received
    except (Broken, Differs):
        came = 0
    said = b.last(1).rpartition("}}: ")[2]
    stage.drop("b")
    if came:
        raise Differs(f"with `seal=off` b had {came} answers")
    if a.run('test "$(cat /sys/class/net/eth0/carrier)" = 1')[1]:
        raise Differs("a's link went down")
    stage.pair()
    stage.answers(a)
    return f"b with `seal=off` has no answer, and QEMU says `{said}`; sealed again, " + ping(a, 20).whole("a to b")


def memory(stage):
    """memory is plugged in and out, and the card uses what was plugged in"""
    a, b = stage.pair()
    before = total(a)
    a.ask("echo offline > /sys/devices/system/memory/auto_online_blocks")
    for name in ("first", "second"):
        a.qmp("object-add", **{"qom-type": "memory-backend-memfd", "id": f"file-{name}", "size": 128 * MEBIBYTE, "share": True})
        a.qmp("device_add", driver="pc-dimm", id=name, memdev=f"file-{name}")
    blocks = "grep -l offline /sys/devices/system/memory/memory*/state | wc -l"
    stage.until(a, f"test $({blocks}) = 2", 30, "the guest does not see two new blocks of memory")
    a.qmp("device_del", id="second")
    a.control.event("DEVICE_DELETED", 60)
    stage.until(a, f"test $({blocks}) = 1", 30, "the guest still sees the block that was plugged out")
    # The kernel prefers memory above 4 GiB, so the driver's rings go there when it is loaded anew.
    a.ask("for state in $(grep -l offline /sys/devices/system/memory/memory*/state); do echo online_kernel > $state; done")
    a.ask("rmmod ixgbevf")
    stage.load(a)
    stage.answers(a)
    grown, place = total(a) - before, ring(a)
    if grown < 100 or place < 1 << 32:
        raise Differs(f"a has {grown} MiB more, and its receive ring at {place:#x}, not in the memory above 4 GiB")
    return "; ".join([
        f"twice 128 MiB plugged into a by QMP, one of them out again: {grown} MiB more, and the receive ring at {place:#x}",
        copied(a, b, 4), copied(b, a, 4)])


def total(guest):
    """The guest's memory in MiB."""
    return int(re.search(r"MemTotal: +(\d+) kB", guest.ask("cat /proc/meminfo"))[1]) // 1024


def ring(guest):
    """Where the driver's first receive ring lies, by the registers that it wrote."""
    said = guest.ask("ethtool -d eth0")
    low = re.search(r"VFRDBAL\(0\).*(0x[0-9A-Fa-f]+)", said)
    high = re.search(r"VFRDBAH\(0\).*(0x[0-9A-Fa-f]+)", said)
    if not low or not high:
        raise Differs(f"`ethtool -d eth0` does not show the ring: {said[:200]}")
    return int(high[1], 16) << 32 | int(low[1], 16)


def vlans(stage):
    """the administrator puts the guests into two VLANs, and into one again"""
    try:
        stage.again(ports(a=7, b=7))
        a, b = stage.pair()
        seen = [ping(a, 20).whole("both in VLAN 7 by the server's configuration")]
        stage.server.reread(ports(a=7, b=8))
        # Another VLAN comes with a reset of the function: what is shown is the state after it.
        time.sleep(15)
        stage.carrier(b)
        apart = [ping(guest, 5, seconds=5) for guest in (a, b)]
        if any(each.received for each in apart):
            raise Differs(f"a in VLAN 7 and b in VLAN 8: {apart[0].received} answers to a, {apart[1].received} to b")
        seen.append(f"b moved to VLAN 8 (SIGHUP): 0 of {apart[0].sent + apart[1].sent} answers")
        stage.server.reread(ports(a=7, b=7))
        stage.answers(a)
        seen.append(ping(a, 20).whole("b back in VLAN 7"))
        return "; ".join(seen)
    finally:
        stage.again()


def ports(**ids):
    """A configuration of the server in which each guest's function has this VLAN as its port's."""
    text = f"vlans = {sorted({7, 8, *ids.values()})}\n"
    for name, identity in ids.items():
        text += (f'\n[[function]]\nnumber = {FUNCTION[name]}\nname = "{name}"\n'
                 f'address = "{address_of(name)}"\nport_vlan = {identity}\n')
    return text


def restart(stage):
    """the server ends and is started again"""
    pair = stage.pair()
    status = stage.server.end()
    if status != 0:
        raise Differs(f"the server ended with status {status} at SIGTERM")
    for guest in pair:
        guest.ask("true")
    stage.server.start()
    for name in ADDRESS:
        stage.drop(name)
    a, _ = stage.pair()
    stage.answers(a)
    return ("it ended with status 0 at SIGTERM, both guests went on without the card; their new QEMUs attached to the "
            "new server; " + ping(a, 20).whole("a to b"))
