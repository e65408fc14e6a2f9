"""The step in which each guest's server is on a host of its own, with a tap in a bridge, and the kernel's VXLAN goes between the bridges.

A host is a network namespace that a process holds: where that process ends, and the server with it, the kernel removes all that is in it.
"""

import contextlib
import dataclasses
import json
import os
import shutil
import subprocess
import time

from guest import Broken, held
from server import Server
from stage import ADDRESS, FUNCTION, Differs, LeftOut, address_of, ping
from steps import copied

# The hosts' own network, of those that are for examples (RFC 5737), and the number of the VXLAN.
HOST_ADDRESS = {"a": "192.0.2.1", "b": "192.0.2.2"}
NETWORK = 82
# VXLAN adds 50 bytes to each frame, so the hosts' frames are that much longer than the guests'.
GUEST_MTU = 1500
HOST_MTU = GUEST_MTU + 50


class Host:
    """A network namespace. `name` is that of the guest whose server is there."""

    def __init__(self, name, stage):
        self.name = name
        self.setting = dataclasses.replace(stage.setting, inside=f"{stage.setting.inside}{FUNCTION[name] + 1}")
        self.clear()
        self.process = subprocess.Popen(
            held(["unshare", "--net", "sleep", "infinity"]), stdin=subprocess.DEVNULL, stdout=subprocess.DEVNULL,
            stderr=subprocess.PIPE)
        self.wait()
        within = ["nsenter", f"--net=/proc/{self.process.pid}/ns/net"]
        self.server = Server(self.setting, f"server-{name}", within, ["--wire", "tap:tap0"])

    def clear(self):
        shutil.rmtree(self.setting.place, ignore_errors=True)

    def wait(self):
        """Waits until the namespace is there."""
        here = os.readlink("/proc/self/ns/net")
        end = time.monotonic() + 20
        while time.monotonic() < end:
            if self.process.poll() is not None:
                said = self.process.stderr.read().decode(errors="replace").strip()
                raise LeftOut(f"no network namespace can be made here: {said}")
            with contextlib.suppress(OSError):
                if os.readlink(f"/proc/{self.process.pid}/ns/net") != here:
                    return
            time.sleep(0.05)
        raise LeftOut("no network namespace was made within 20 s")

    def ip(self, *commands):
        """Does these commands of `ip` on the host. A kind of interface that can't be made isn't in this machine's kernel."""
        for command in commands:
            said = subprocess.run(self.server.within + ["ip"] + command.split(), capture_output=True, text=True)
            if said.returncode:
                kind = LeftOut if command.startswith(("link add", "tuntap add")) else Broken
                raise kind(f"`ip {command}` on a host says: {' '.join(said.stderr.split())}")

    def connect(self, other):
        """A cable between the two hosts."""
        self.ip(f"link add cable type veth peer name cable netns {other.process.pid}")

    def build(self):
        """The host's network: a bridge with the server's tap and one end of the VXLAN."""
        own, far = HOST_ADDRESS[self.name], next(each for name, each in HOST_ADDRESS.items() if name != self.name)
        self.ip(f"addr add {own}/24 dev cable", f"link set cable mtu {HOST_MTU} up",
                f"link add vxlan0 type vxlan id {NETWORK} local {own} remote {far} dstport 4789 dev cable",
                "tuntap add dev tap0 mode tap", "link add br0 type bridge",
                "link set tap0 master br0 up", "link set vxlan0 master br0 up", "link set br0 up")

    def serve(self):
        """Starts the server. Its card has this guest's address alone: frames to others' leave by the wire."""
        self.server.start(f"vlans = [0]\n\n[[function]]\nnumber = {FUNCTION[self.name]}\n"
                          f'name = "{self.name}"\naddress = "{address_of(self.name)}"\nvlans = [0]\n')

    def encapsulated(self):
        """How many frames left in VXLAN."""
        said = subprocess.run(self.server.within + ["ip", "-j", "-s", "link", "show", "vxlan0"], capture_output=True, check=True)
        return json.loads(said.stdout)[0]["stats64"]["tx"]["packets"]

    def end(self):
        self.server.end()
        self.process.kill()
        self.process.wait()
        self.process.stderr.close()
        self.clear()


def hosts(stage):
    """the guests are on two hosts, with VXLAN between them"""
    if not shutil.which("ip") or not shutil.which("nsenter"):
        raise LeftOut("there is no ip or no nsenter: `apt-get install iproute2 util-linux`")
    with contextlib.ExitStack() as end:
        both = []
        for name in ADDRESS:
            host = Host(name, stage)
            end.callback(host.end)
            both.append(host)
        both[0].connect(both[1])
        for host in both:
            host.build()
            host.serve()
        for host in both:
            end.callback(stage.drop, host.name)
            stage.start(host.name, setting=host.setting)
        for name in ADDRESS:
            stage.bring_up(name)
        return across(stage, both)


def across(stage, both):
    """What the two guests see of each other."""
    a, b = (stage.guests[name] for name in ADDRESS)
    stage.answers(a)
    before = both[0].encapsulated()
    seen = [ping(a, 100).whole("a to b, 56 bytes")]
    carried = both[0].encapsulated() - before
    if carried < 100:
        raise Differs(f"of 100 pings {carried} left in VXLAN")
    seen += [f"{carried} frames of it in VXLAN", copied(a, b, 1), copied(b, a, 1)]
    both[0].ip("link set vxlan0 down")
    cut = ping(a, 5, seconds=5)
    both[0].ip("link set vxlan0 up")
    if cut.received:
        raise Differs(f"without VXLAN {cut.received} of {cut.sent} pings came back")
    stage.answers(a)
    seen.append(f"VXLAN down: 0 of {cut.sent} came back; " + ping(a, 20).whole("up again"))
    return "; ".join([f"a server each in two network namespaces, its tap in a bridge, VXLAN {NETWORK} between them"] + seen)
