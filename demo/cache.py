"""The folder that the demonstration keeps between runs: a chroot of Debian with QEMU, and the guests' kernels."""

import fcntl
import os
import shutil
import subprocess

import initrd

HERE = os.path.dirname(os.path.abspath(__file__))
KERNELS = ("6.1", "6.12")
MIRROR = "http://deb.debian.org/debian"
# What this machine has to have: a program, or a file, and the Debian package that it is in.
NEEDS = (
    ("debootstrap", "debootstrap"),
    ("chroot", "coreutils"),
    ("unshare", "util-linux"),
    ("setpriv", "util-linux"),
    ("mount", "mount"),
    ("/usr/share/keyrings/debian-archive-keyring.gpg", "debian-archive-keyring"),
)


class Lacking(Exception):
    """This machine lacks something that the demonstration needs; the text says what to do."""


def default():
    home = os.environ.get("XDG_CACHE_HOME") or os.path.join(os.path.expanduser("~"), ".cache")
    return os.path.join(home, "vfdev-demo")


def check():
    """Raises Lacking, with everything that is lacking, unless this machine has what is needed."""
    if os.geteuid() != 0:
        raise Lacking("this needs root: QEMU and its libraries are run in a chroot. Run it by `sudo`")
    if os.uname().machine != "x86_64":
        raise Lacking("this needs a machine with x86-64 processors: the chroot's programs are for those")
    packages = []
    for thing, package in NEEDS:
        there = os.path.exists(thing) if thing.startswith("/") else shutil.which(thing)
        if not there and package not in packages:
            packages.append(package)
    if packages:
        raise Lacking(f"this machine lacks {', '.join(packages)}: `apt-get install {' '.join(packages)}`")


class Cache:
    """The folder, locked against a second run as long as this lives."""

    def __init__(self, folder):
        self.folder = os.path.abspath(folder)
        self.chroot = os.path.join(self.folder, "chroot")
        self.logs = os.path.join(self.folder, "logs")
        os.makedirs(self.logs, exist_ok=True)
        self.lock = open(os.path.join(self.folder, "lock"), "w")
        try:
            fcntl.flock(self.lock, fcntl.LOCK_EX | fcntl.LOCK_NB)
        except OSError:
            raise Lacking(f"another run uses {self.folder}: wait for it, or name another folder by --cache") from None

    def ready(self):
        """Whether all is there, with each module that guests may need now."""
        names = ["vmlinuz"] + [os.path.join("modules", f"{module}.order") for module in initrd.MODULES]
        parts = [os.path.join(self.kernel(kernel), name) for kernel in KERNELS for name in names]
        return all(map(os.path.exists, [*parts, self.chroot + initrd.DPDK[0], self.chroot + "/guests/ipxe/ipxe.lkrn"]))

    def kernel(self, kernel):
        return os.path.join(self.chroot, "guests", kernel)

    def make(self, mirror):
        """Makes the chroot and picks from the kernels; what is printed meanwhile goes to a file.

        In namespaces of its own nothing stays mounted, and no process stays, however this ends.
        """
        record = os.path.join(self.logs, "setup.log")
        with open(record, "wb") as out:
            made = subprocess.run(
                ["setpriv", "--pdeathsig", "KILL", "unshare", "--mount", "--pid", "--fork", "--kill-child",
                 os.path.join(HERE, "make_chroot"), self.folder, mirror],
                stdin=subprocess.DEVNULL, stdout=out, stderr=subprocess.STDOUT)
        if made.returncode:
            with open(record, errors="replace") as lines:
                last = "".join(lines.readlines()[-5:])
            raise Lacking(f"the chroot could not be made; the last lines of {record}:\n{last}")
        for kernel in KERNELS:
            package = os.path.join(self.kernel(kernel), "package")
            initrd.pick(package, self.kernel(kernel))
            shutil.rmtree(package)

    def initrd(self, kernel):
        """Builds the first file system of guests of this kernel."""
        initrd.build(self.chroot, self.kernel(kernel), os.path.join(HERE, "guest_init"),
                     os.path.join(self.kernel(kernel), "initrd"))

    def dpdk_initrd(self):
        """Builds the first file system of a guest of the newest kernel that has DPDK too."""
        newest = self.kernel(KERNELS[-1])
        initrd.build(self.chroot, newest, os.path.join(HERE, "guest_init"), os.path.join(newest, "initrd.dpdk"), initrd.DPDK)

    def serving_initrd(self, kernels):
        """Builds the first file system of a guest a that has what a guest b boots over the network, in /boot."""
        served = self.kernel(kernels["b"])
        files = {f"boot/{name}": os.path.join(served, name) for name in ("vmlinuz", "initrd")}
        own = self.kernel(kernels["a"])
        initrd.build(self.chroot, own, os.path.join(HERE, "guest_init"), os.path.join(own, "initrd.serving"), files=files)

    def qemu(self):
        """What QEMU calls itself."""
        said = subprocess.run(["chroot", self.chroot, "qemu-system-x86_64", "--version"], capture_output=True, text=True)
        return said.stdout.splitlines()[0] if said.stdout else "QEMU that does not start: " + said.stderr.strip()


def mirror_here():
    """The mirror of Debian that this machine's apt uses, else the one that everybody can use."""
    try:
        said = subprocess.run(
            ["apt-get", "indextargets", "--format", "$(REPO_URI)", "Created-By: Packages", "Origin: Debian", "Label: Debian"],
            capture_output=True, text=True).stdout.split()
    except FileNotFoundError:
        said = []
    return said[0].rstrip("/") if said else MIRROR
