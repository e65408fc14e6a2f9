"""A guest's first file system: busybox, ethtool and iperf3 of the chroot, and modules of the guest's own kernel."""

import lzma
import os
import re
import shutil
import stat
import subprocess

PROGRAMS = ("/usr/bin/busybox", "/usr/sbin/ethtool", "/usr/bin/iperf3")
# DPDK's own test program, and its drivers of the card and of memory.
PLUGINS = "/usr/lib/x86_64-linux-gnu/dpdk/pmds-25.0/"
DPDK = ("/guests/dpdk/dpdk-testpmd", PLUGINS + "librte_net_ixgbe.so.25", PLUGINS + "librte_mempool_ring.so.25")
LOADER = "/lib64/ld-linux-x86-64.so.2"
# The C library opens this one by itself when a thread is cancelled, so no program names it.
UNNAMED = "/usr/lib/x86_64-linux-gnu/libgcc_s.so.1"
# The card's driver, tagged VLANs, the kernel's packet generator, which sends frames with any source, what lets a program drive a card, and
# the drivers of QEMU's own card.
MODULES = ("ixgbevf", "8021q", "pktgen", "uio_pci_generic", "virtio_pci", "virtio_net")


class Missing(Exception):
    """A kernel package has not what the guests need."""


def pick(package, kernel):
    """Leaves in the folder `kernel` what a guest needs of an unpacked kernel package: its image and its modules.

    Modules that a kernel package compresses are stored plain, under their names with underscores, and for each of
    MODULES a file NAME.order has the names to load, what is needed first.
    """
    tree = [os.path.join(package, top, "modules") for top in ("usr/lib", "lib")]
    tree = next((each for each in tree if os.path.isdir(each)), None)
    images = [each for each in os.listdir(os.path.join(package, "boot")) if each.startswith("vmlinuz-")]
    if tree is None or len(images) != 1:
        raise Missing(f"{package} is not an unpacked kernel package")
    tree = os.path.join(tree, os.listdir(tree)[0])
    files = {}
    for folder, _, names in os.walk(tree):
        for name in names:
            match = re.fullmatch(r"(.+)\.ko(\.xz)?", name)
            if match:
                files[match[1].replace("-", "_")] = os.path.join(folder, name)
    with open(os.path.join(tree, "modules.builtin")) as lines:
        built_in = {os.path.basename(line.strip())[:-3].replace("-", "_") for line in lines}

    modules = os.path.join(kernel, "modules")
    os.makedirs(modules, exist_ok=True)
    for name in MODULES:
        order = []
        add(name, files, built_in, modules, order)
        with open(os.path.join(modules, name + ".order"), "w") as out:
            out.write("".join(each + "\n" for each in order))
    shutil.copy(os.path.join(package, "boot", images[0]), os.path.join(kernel, "vmlinuz"))


def add(name, files, built_in, modules, order):
    """Stores the module `name` after all that it depends on."""
    if name in order or name in built_in:
        return
    if name not in files:
        raise Missing(f"the kernel has no module {name}")
    with open(files[name], "rb") as source:
        code = source.read()
    if files[name].endswith(".xz"):
        code = lzma.decompress(code)
    needs = re.search(rb"\0depends=([^\0]*)\0", code)
    for need in needs[1].decode().split(",") if needs else ():
        if need:
            add(need.replace("-", "_"), files, built_in, modules, order)
    with open(os.path.join(modules, name + ".ko"), "wb") as out:
        out.write(code)
    order.append(name)


def build(chroot, kernel, init, out, more=(), files=()):
    """Writes the file system, as a cpio archive in the `newc` form, to `out`; `more` are programs and libraries besides, and `files` says
    where others stand in it and where they are here."""
    archive = Archive()
    for folder in ("bin", "boot", "lib", "lib64", "modules", "dev"):
        archive.folder(folder)
    archive.file("init", init, executable=True)
    libraries = {LOADER, UNNAMED}
    for program in (*PROGRAMS, *more):
        archive.file("bin/" + os.path.basename(program), os.path.realpath(chroot + program), executable=True)
        listed = subprocess.run(["chroot", chroot, "ldd", program], capture_output=True, text=True).stdout
        libraries.update(re.findall(r"(?<==> )/\S+", listed))
    for library in sorted(libraries):
        place = "lib64/" if library == LOADER else "lib/"
        archive.file(place + os.path.basename(library), chroot + library, executable=True)
    for name in sorted(os.listdir(os.path.join(kernel, "modules"))):
        archive.file("modules/" + name, os.path.join(kernel, "modules", name))
    for name, path in dict(files).items():
        archive.file(name, path)
    with open(out, "wb") as file:
        file.write(archive.bytes())


class Archive:
    """A cpio archive in the `newc` form, as the kernel reads it (its file early-userspace/buffer-format)."""

    def __init__(self):
        self.parts = []
        self.count = 0

    def folder(self, name):
        self.member(name, stat.S_IFDIR | 0o755, b"")

    def file(self, name, path, executable=False):
        with open(path, "rb") as source:
            self.member(name, stat.S_IFREG | (0o755 if executable else 0o644), source.read())

    def member(self, name, mode, data):
        self.count += 1
        path = name.encode() + b"\0"
        fields = (self.count, mode, 0, 0, 1, 0, len(data), 0, 0, 0, 0, len(path), 0)
        head = b"070701" + b"".join(b"%08X" % field for field in fields) + path
        self.parts += [head, bytes(-len(head) % 4), data, bytes(-len(data) % 4)]

    def bytes(self):
        self.member("TRAILER!!!", 0, b"")
        return b"".join(self.parts)
