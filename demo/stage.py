"""What the steps play on: the server, two guests on its functions 0 and 1, and how they are brought up."""

import os
import re
import shutil
import time
from dataclasses import dataclass

from guest import Broken, Guest, linux
from server import Server

# What a function's address is where no configuration says otherwise, and the internet address that we give its guest.
CARD_ADDRESS = "02:82:59:00:00:{:02x}"
ADDRESS = {"a": "10.82.59.1", "b": "10.82.59.2"}
FUNCTION = {"a": 0, "b": 1}
OTHER = {"a": "b", "b": "a"}


class Differs(Exception):
    """A step saw something other than what it has to see; the text says what."""


class LeftOut(Exception):
    """This machine can't do what a step is about; the text says why."""


@dataclass
class Setting:
    """What a run is made with. `place` is the folder of sockets as the host names it, `inside` as the chroot does; `offloads` is what the
    server is told of them, nothing where it is empty, and with "none" the guests' drivers are told too; `words` are more words for it."""

    chroot: str
    logs: str
    program: str
    kernels: dict
    accelerator: str
    frame: int
    offloads: str
    verbose: bool
    functions: int = 4
    words: tuple = ()
    inside: str = "/run/vfdev"

    @property
    def place(self):
        return self.chroot + self.inside


def address_of(name):
    """The address that the card gives to this guest's function."""
    return CARD_ADDRESS.format(FUNCTION[name] + 1)


class Stage:
    """The server and the guests; each is started when a step first asks for it, and anew after it has gone."""

    def __init__(self, setting):
        self.setting = setting
        self.clear()
        os.makedirs(setting.place, mode=0o700)
        for old in os.listdir(setting.logs):
            if old.endswith((".serial.log", ".qemu.log")):
                os.unlink(os.path.join(setting.logs, old))
        self.server = Server(setting)
        self.guests = {}

    def clear(self):
        shutil.rmtree(self.setting.place, ignore_errors=True)

    def serve(self):
        """The server, to which guests attach."""
        if not self.server.alive():
            if self.server.process:
                raise Broken("there is no server to attach to")
            self.server.start()

    def pair(self):
        """Both guests, with the driver loaded, the link up and an internet address."""
        self.serve()
        fresh = [name for name in FUNCTION if not self.there(name)]
        for name in fresh:
            self.start(name)
        for name in fresh:
            self.bring_up(name)
        return self.guests["a"], self.guests["b"]

    def there(self, name):
        return name in self.guests and self.guests[name].alive()

    def start(self, name, more="", boot=None, setting=None):
        """Starts the guest's QEMU, with a setting that isn't the stage's where one is given; `bring_up` waits for the guest."""
        self.drop(name)
        boot = boot or linux(self.setting.kernels[name])
        self.guests[name] = Guest(name, FUNCTION[name], boot, setting or self.setting, more)

    def bring_up(self, name):
        guest = self.guests[name]
        guest.boot()
        self.load(guest)

    def load(self, guest):
        """Loads the driver and brings its interface up."""
        guest.ask("load ixgbevf")
        self.until(guest, "test -e /sys/class/net/eth0", 20, "no eth0 after the driver was loaded")
        if self.setting.offloads == "none":
            guest.ask("ethtool -K eth0 tx off tso off")
        guest.ask(f"ip addr add {ADDRESS[guest.name]}/24 dev eth0 && ip link set eth0 up")
        self.carrier(guest)

    def carrier(self, guest):
        self.until(guest, 'test "$(cat /sys/class/net/eth0/carrier)" = 1', 30, "the link does not come up")

    def until(self, guest, command, seconds, otherwise):
        """Repeats a command until it does; gives the seconds that it took."""
        began = time.monotonic()
        while True:
            said, status = guest.run(command)
            if status == 0:
                return time.monotonic() - began
            if time.monotonic() - began > seconds:
                raise Differs(f"guest {guest.name}: {otherwise} within {seconds} s")
            time.sleep(0.3)

    def answers(self, guest, seconds=40):
        """Waits until the other guest answers this one's ping; gives the seconds that it took."""
        other = ADDRESS[OTHER[guest.name]]
        return self.until(guest, f"ping -c 1 -w 1 {other} > /dev/null", seconds, "the other guest does not answer")

    def again(self, config=None):
        """Ends the guests and the server, and starts the server with this configuration."""
        for name in list(self.guests):
            self.drop(name)
        self.server.end()
        self.server.start(config)

    def anew(self):
        """Ends the guests, and a server that has ended by itself is forgotten: the next step starts them."""
        for name in list(self.guests):
            self.drop(name)
        if not self.server.alive():
            self.server.process = None

    def drop(self, name):
        guest = self.guests.pop(name, None)
        if guest:
            guest.kill()

    def end(self):
        for name in list(self.guests):
            self.drop(name)
        self.server.end()
        self.clear()


@dataclass
class Ping:
    """The last lines of busybox's ping."""

    sent: int
    received: int
    times: str

    @classmethod
    def of(cls, said):
        counts = re.search(r"(\d+) packets transmitted, (\d+) packets received", said)
        if not counts:
            raise Differs(f"ping said: {said.splitlines()[-1] if said else 'nothing'}")
        times = re.search(r"= ([\d.]+)/([\d.]+)/([\d.]+) ms", said)
        shown = "{} / {} / {} ms at least, on average, at most".format(*times.groups()) if times else "no times"
        return cls(int(counts[1]), int(counts[2]), shown)

    def whole(self, what):
        """Demands that every packet came back; gives the line to show."""
        if self.received != self.sent:
            raise Differs(f"{what}: {self.received} of {self.sent} came back")
        return f"{what}: {self.sent} of {self.sent} came back, {self.times}"


def ping(guest, count, size=56, seconds=60, to=None):
    """Pings the other guest, or the internet address `to`, as fast as it answers."""
    said, _ = guest.run(f"ping -A -q -c {count} -s {size} -w {seconds} {to or ADDRESS[OTHER[guest.name]]}", seconds + 30)
    return Ping.of(said)
