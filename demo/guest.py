"""A guest: a QEMU in the chroot with one virtual function, driven by its serial line and, for plugging, by QMP."""

import contextlib
import json
import os
import select
import signal
import socket
import subprocess
import time
from dataclasses import dataclass

MEBIBYTE = 1 << 20


class Broken(Exception):
    """A guest, or the QEMU that it runs in, does not do what a step needs of it."""


@dataclass(frozen=True)
class Boot:
    """What a guest is started with: a kernel and its first file system, as the chroot names them, words for the kernel,
    MiB of memory, and words for QEMU besides."""

    kernel: str
    initrd: str
    append: str
    memory: int = 256
    words: tuple = ()


def linux(kernel, initrd="initrd", append="", memory=256):
    """Linux of the cache, which takes commands on its serial line."""
    words = "console=ttyS0 quiet panic=1 tsc=reliable no_timer_check mitigations=off ipv6.disable=1" + append
    return Boot(f"/guests/{kernel}/vmlinuz", f"/guests/{kernel}/{initrd}", words, memory)


class Guest:
    """A guest from its start to its end.

    `name` is the guest's name in what is printed, `function` the number of its virtual function (None: no card),
    `boot` what it is started with, `setting` how this run is made, `more` what else is said of the file that is its memory.
    """

    def __init__(self, name, function, boot, setting, more=""):
        self.name = name
        self.function = function
        self.booted = boot
        self.setting = setting
        self.more = more
        self.number = 0
        self.unread = b""
        self.control = None
        self.errors = os.path.join(setting.logs, f"{name}.qemu.log")
        self.record = open(os.path.join(setting.logs, f"{name}.serial.log"), "ab")
        with open(self.errors, "ab") as errors:
            self.said_before = errors.tell()
            self.process = subprocess.Popen(
                held(["chroot", setting.chroot] + self.command()),
                stdin=subprocess.PIPE, stdout=subprocess.PIPE, stderr=errors, bufsize=0)

    def command(self):
        """QEMU's own words. The memory is a file that QEMU seals, so that it cannot shrink: the server maps no other."""
        setting, boot = self.setting, self.booted
        command = [
            "qemu-system-x86_64",
            "-object", f"memory-backend-memfd,id=m,size={boot.memory}M,share=on{self.more}",
            "-machine", "pc,memory-backend=m",
            "-m", f"{boot.memory}M,slots=2,maxmem=4G",
            "-accel", setting.accelerator,
            "-cpu", "max" if setting.accelerator == "tcg" else "host",
            "-kernel", boot.kernel,
            "-initrd", boot.initrd,
            "-append", boot.append,
            *boot.words,
            "-nodefaults", "-no-user-config", "-no-reboot", "-display", "none",
            "-serial", "stdio",
            "-qmp", f"unix:{setting.inside}/{self.name}.qmp,server=on,wait=off",
        ]
        if self.function is not None:
            card = {"driver": "vfio-user-pci", "id": "card",
                    "socket": {"type": "unix", "path": f"{setting.inside}/vf{self.function}"}}
            command += ["-device", json.dumps(card, separators=(",", ":"))]
        return command

    def boot(self, seconds=300):
        """Waits until the guest takes commands."""
        self.until(b"guest-is-ready\n", seconds)

    def send(self, command, seconds=30):
        """Has the guest begin a command, which it ends after so many seconds."""
        assert "\n" not in command
        self.number += 1
        self.seconds = seconds
        try:
            self.process.stdin.write(f"{self.number} {seconds} {command}\n".encode())
        except OSError:
            raise Broken(self.why_gone()) from None
        if self.setting.verbose:
            print(f"    {self.name}$ {command}", flush=True)

    def answer(self):
        """What the command that was sent last printed, and its status."""
        self.until(f"begin {self.number}\n".encode(), self.seconds + 60)
        said = self.until(f"\nend {self.number} ".encode(), 60)
        status = int(self.until(b"\n", 60))
        if self.setting.verbose:
            for line in said.splitlines() + ([f"[status {status}]"] if status else []):
                print(f"      {line}", flush=True)
        return said.strip(), status

    def run(self, command, seconds=30):
        """Runs a command; gives what it printed and its status."""
        self.send(command, seconds)
        return self.answer()

    def ask(self, command, seconds=30):
        """Runs a command that has to do; gives what it printed."""
        said, status = self.run(command, seconds)
        if status:
            raise Broken(f"guest {self.name}: `{command}` ended with {status}: {said or 'nothing printed'}")
        return said

    def until(self, mark, seconds):
        end = time.monotonic() + seconds
        while mark not in self.unread:
            ready, _, _ = select.select([self.process.stdout], [], [], max(0, end - time.monotonic()))
            if not ready:
                tail = self.unread[-300:].decode(errors="replace").strip()
                raise Broken(f"guest {self.name} says nothing for {seconds} s; last: {tail or 'nothing'}")
            more = os.read(self.process.stdout.fileno(), 65536)
            if not more:
                raise Broken(self.why_gone())
            self.record.write(more)
            self.record.flush()
            self.unread += more
        said, self.unread = self.unread.split(mark, 1)
        return said.decode(errors="replace")

    def why_gone(self):
        with contextlib.suppress(subprocess.TimeoutExpired):
            self.process.wait(5)
        return f"QEMU of guest {self.name} has ended (status {self.process.returncode}): {self.last(3)}"

    def last(self, count):
        """The last lines that QEMU itself said."""
        with open(self.errors, "rb") as log:
            log.seek(self.said_before)
            lines = log.read().decode(errors="replace").strip().splitlines()
        return " / ".join(lines[-count:]) or "it said nothing"

    def alive(self):
        return self.process.poll() is None

    def qmp(self, name, **arguments):
        """One command of QEMU's machine protocol; gives what it returns."""
        if self.control is None:
            self.control = Control(os.path.join(self.setting.place, f"{self.name}.qmp"))
        return self.control.command(name, arguments)

    def kill(self):
        """Ends QEMU as a power cut does."""
        if self.alive():
            self.process.send_signal(signal.SIGKILL)
        self.process.wait()
        for end in (self.process.stdin, self.process.stdout, self.record):
            end.close()
        if self.control:
            self.control.close()


class Control:
    """QEMU's machine protocol (QMP): a line of JSON each way; events between them are skipped unless one is awaited."""

    def __init__(self, path):
        self.socket = socket.socket(socket.AF_UNIX)
        self.socket.settimeout(60)
        self.socket.connect(path)
        self.lines = self.socket.makefile("r")
        self.events = []
        self.lines.readline()
        self.command("qmp_capabilities", {})

    def command(self, name, arguments):
        self.socket.sendall((json.dumps({"execute": name, "arguments": arguments}) + "\n").encode())
        while True:
            said = self.read()
            if "error" in said:
                raise Broken(f"QEMU refuses {name}: {said['error']['desc']}")
            if "return" in said:
                return said["return"]
            self.events.append(said)

    def read(self):
        try:
            line = self.lines.readline()
        except OSError as error:
            raise Broken(f"QEMU's control socket: {error}") from None
        if not line:
            raise Broken("QEMU's control socket has ended")
        return json.loads(line)

    def event(self, name, seconds):
        """Waits for an event of this name, one that came already too."""
        end = time.monotonic() + seconds
        while True:
            for event in self.events:
                if event["event"] == name:
                    self.events.remove(event)
                    return event["data"]
            self.socket.settimeout(max(0.1, end - time.monotonic()))
            try:
                self.events.append(self.read())
            finally:
                self.socket.settimeout(60)

    def close(self):
        self.lines.close()
        self.socket.close()


def held(command):
    """The command such that it ends with this program, however that ends, and leaves the processors to others."""
    return ["setpriv", "--pdeathsig", "KILL", "nice", "-n", "10"] + command
