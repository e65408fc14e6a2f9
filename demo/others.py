"""The steps in which a guest has another driver than Linux's: DPDK's, and iPXE's."""

import os
import re
import secrets

from guest import MEBIBYTE, Boot, linux
from stage import ADDRESS, Differs, LeftOut, address_of, ping

# The guest's own pages of 2 MiB for DPDK, and where the card is on its bus.
PAGES = 64
SLOT = "0000:00:02.0"
DRIVERS = "-d /bin/librte_mempool_ring.so.25 -d /bin/librte_net_ixgbe.so.25"
# What its test program does: it answers questions for addresses (ARP) and pings, whatever address they are for.
ECHO = "--forward-mode=icmpecho --nb-cores=1 --total-num-mbufs=4096 --rxd=256 --txd=256"


def dpdk(stage):
    """DPDK's own driver takes a card, and its test program answers pings"""
    a, _ = stage.pair()
    stage.start("b", boot=linux("6.12", "initrd.dpdk", f" hugepages={PAGES}", 512))
    b = stage.guests["b"]
    try:
        b.boot()
        b.ask("load uio_pci_generic; echo 8086 10ed > /sys/bus/pci/drivers/uio_pci_generic/new_id; "
              "chmod 755 /; mkdir -p /huge /var/run; mount -t hugetlbfs none /huge; mkfifo /silent")
        b.send(f"timeout -s INT 60 dpdk-testpmd {DRIVERS} --lcores 0@0,1@0 -n 1 --huge-dir /huge -m 96 -a {SLOT} -- {ECHO} 0<> /silent", 90)
        a.ask("ip neigh flush dev eth0")
        stage.answers(a)
        seen = ping(a, 100).whole("its `icmpecho` answers a")
        said, _ = b.answer()
        counts = re.search(r"RX-packets: (\d+).*?TX-packets: (\d+)", said, re.DOTALL)
        if address_of("b").upper() not in said or not counts or int(counts[1]) < 100 or int(counts[2]) < 100:
            raise Differs(f"dpdk-testpmd said: {' '.join(said.split())[-400:]}")
        return f"dpdk-testpmd on {address_of('b')}: {seen}; it counts {counts[1]} frames received and {counts[2]} sent"
    finally:
        stage.drop("b")


def ipxe(stage):
    """iPXE, by its own driver, boots a Linux that guest a serves by DHCP and HTTP"""
    if stage.setting.offloads == "none":
        raise LeftOut("with --no-offloads the card takes no legacy receive descriptors, by which iPXE receives")
    setting = stage.setting
    token = secrets.token_hex(8)
    with open(os.path.join(setting.chroot, "guests/ipxe/script"), "w") as script:
        script.write("#!ipxe\nifopen net0\nifstat net0\nautoboot net0\nshell\n")
    stage.serve()
    try:
        stage.start("a", boot=linux(setting.kernels["a"], "initrd.serving", memory=384))
        stage.bring_up("a")
        serve(stage.guests["a"], token)
        stage.start("b", boot=Boot(
            "/guests/ipxe/ipxe.lkrn", "/guests/ipxe/script", "", 384,
            ("-vga", "none", "-fw_cfg", "name=etc/sercon-port,file=/guests/ipxe/serial")))
        return booted(stage, token)
    finally:
        for name in ADDRESS:
            stage.drop(name)


def serve(guest, token):
    """Has the guest give the other one an address, and what it boots: the kernel's words have the token."""
    here = ADDRESS[guest.name]
    words = linux("", append=f" booted-by-ipxe={token}").append
    pool = here.rpartition(".")[0]
    guest.ask(f"cd /boot && printf '#!ipxe\\nkernel vmlinuz {words}\\ninitrd initrd\\nboot\\n' > boot.ipxe && httpd -p 80 -h /boot")
    guest.ask(f"cd /tmp && touch leases && printf 'interface eth0\\nstart {pool}.50\\nend {pool}.60\\noption subnet 255.255.255.0\\n"
              f"siaddr {here}\\nboot_file http://{here}/boot.ipxe\\nlease_file /tmp/leases\\npidfile /tmp/udhcpd.pid\\n' > udhcpd.conf && "
              "udhcpd udhcpd.conf")


def booted(stage, token):
    """What iPXE says until Linux runs, and what that Linux says."""
    a, b = (stage.guests[name] for name in ADDRESS)
    said = b.until(b"guest-is-ready\n", 300)
    words = " ".join(re.sub(r"\x1b\[[0-9;]*[A-Za-z]", "", said).split())
    driver = re.search(r"net0: ([0-9a-f:]{17}) using (\S+) on \S+ \([^)]*\) \[open\] \[Link:up", words)
    if not driver or driver[1] != address_of("b"):
        raise Differs(f"iPXE said: {words[-400:]}")
    told = b.ask("cat /proc/cmdline")
    if f"booted-by-ipxe={token}" not in told:
        raise Differs(f"what booted has the words `{told}`, and not {token}")
    size = sum(int(count) for count in a.ask("stat -c %s /boot/vmlinuz /boot/initrd").split())
    version = re.search(r"iPXE [0-9][^ ]*", words)
    seen = (f"{version[0] if version else 'iPXE'}: its {driver[2]} opens {driver[1]}, the link is up; an address by DHCP, and "
            f"{size / MEBIBYTE:.0f} MiB by HTTP, both of guest a; what booted is Linux {b.ask('uname -r')}, whose words have this run's "
            f"{token}")
    stage.load(b)
    stage.answers(a)
    return f"{seen}; its ixgbevf takes the card: " + ping(a, 20).whole("a to b")
