//! Registers and descriptors of the 82599 that the device has, by the datasheet's names:
//! made by bindings/registers from bindings/registers.txt.
//!
//! A register is its offset in bytes, and one of an array a function of its index. A bit is named behind its register;
//! where a field has more bits, a function puts a number at its place. `docs/REGISTERS.md` says what each does.

/// VFCTRL: control.
pub const VFCTRL: u32 = 0x0;
/// Bit 26 of VFCTRL: resets the function.
pub const VFCTRL_RST: u32 = 1 << 26;

/// VFLINKS: state of the link.
pub const VFLINKS: u32 = 0x10;
/// Bit 30 of VFLINKS: the link is up.
pub const VFLINKS_LINK_UP: u32 = 1 << 30;
/// Bits 29:28 of VFLINKS: 3 for 10 Gb/s.
pub const VFLINKS_LINK_SPEED_MASK: u32 = 0x3000_0000;
/// These bits of VFLINKS, of a number: 3 for 10 Gb/s.
#[must_use]
pub const fn vflinks_link_speed(x: u32) -> u32 {
    (x << 28) & VFLINKS_LINK_SPEED_MASK
}

/// VTEICR: interrupt causes: a read takes them away.
pub const VTEICR: u32 = 0x100;

/// VTEICS: raises interrupt causes.
pub const VTEICS: u32 = 0x104;

/// VTEIMS: enables interrupt vectors.
pub const VTEIMS: u32 = 0x108;

/// VTEIMC: disables interrupt vectors.
pub const VTEIMC: u32 = 0x10c;

/// VTEIAC: the causes that are cleared automatically.
pub const VTEIAC: u32 = 0x110;

/// VTEIAM: the vectors that are masked automatically.
pub const VTEIAM: u32 = 0x114;

/// VTIVAR: the vectors of the queues.
pub const VTIVAR: u32 = 0x120;
/// Bits 7:0 of VTIVAR: of receive queue 0.
pub const VTIVAR_RX0_MASK: u32 = 0xff;
/// These bits of VTIVAR, of a number: of receive queue 0.
#[must_use]
pub const fn vtivar_rx0(x: u32) -> u32 {
    x & VTIVAR_RX0_MASK
}
/// Bits 15:8 of VTIVAR: of transmit queue 0.
pub const VTIVAR_TX0_MASK: u32 = 0xff00;
/// These bits of VTIVAR, of a number: of transmit queue 0.
#[must_use]
pub const fn vtivar_tx0(x: u32) -> u32 {
    (x << 8) & VTIVAR_TX0_MASK
}
/// Bits 23:16 of VTIVAR: of receive queue 1.
pub const VTIVAR_RX1_MASK: u32 = 0x00ff_0000;
/// These bits of VTIVAR, of a number: of receive queue 1.
#[must_use]
pub const fn vtivar_rx1(x: u32) -> u32 {
    (x << 16) & VTIVAR_RX1_MASK
}
/// Bits 31:24 of VTIVAR: of transmit queue 1.
pub const VTIVAR_TX1_MASK: u32 = 0xff00_0000;
/// These bits of VTIVAR, of a number: of transmit queue 1.
#[must_use]
pub const fn vtivar_tx1(x: u32) -> u32 {
    (x << 24) & VTIVAR_TX1_MASK
}

/// VTIVAR_MISC: the vector of the cause "other", which the mailbox raises.
pub const VTIVAR_MISC: u32 = 0x140;
/// Bits 1:0 of VTIVAR_MISC: the vector.
pub const VTIVAR_MISC_INT_ALLOC_MASK: u32 = 0x3;
/// These bits of VTIVAR_MISC, of a number: the vector.
#[must_use]
pub const fn vtivar_misc_int_alloc(x: u32) -> u32 {
    x & VTIVAR_MISC_INT_ALLOC_MASK
}
/// Bit 7 of VTIVAR_MISC: it is valid.
pub const VTIVAR_MISC_INT_ALLOC_VAL: u32 = 1 << 7;

/// VTEITR(q), q below 3: how far apart the messages of a vector are to be.
#[must_use]
pub const fn vteitr(q: u32) -> u32 {
    0x820 + 0x4 * q
}
/// Bits 11:3 of VTEITR: at least so many units of 2 microseconds.
pub const VTEITR_ITR_INTERVAL_MASK: u32 = 0xff8;
/// These bits of VTEITR, of a number: at least so many units of 2 microseconds.
#[must_use]
pub const fn vteitr_itr_interval(x: u32) -> u32 {
    (x << 3) & VTEITR_ITR_INTERVAL_MASK
}

/// RDBAL(q), q below 2: receive ring: the low half of its base.
#[must_use]
pub const fn rdbal(q: u32) -> u32 {
    0x1000 + 0x40 * q
}

/// RDBAH(q), q below 2: receive ring: the high half of its base.
#[must_use]
pub const fn rdbah(q: u32) -> u32 {
    0x1004 + 0x40 * q
}

/// RDLEN(q), q below 2: receive ring: its length in bytes.
#[must_use]
pub const fn rdlen(q: u32) -> u32 {
    0x1008 + 0x40 * q
}

/// RDH(q), q below 2: receive ring: its head.
#[must_use]
pub const fn rdh(q: u32) -> u32 {
    0x1010 + 0x40 * q
}

/// SRRCTL(q), q below 2: receive buffers.
#[must_use]
pub const fn srrctl(q: u32) -> u32 {
    0x1014 + 0x40 * q
}
/// Bits 4:0 of SRRCTL: the size of a buffer in KiB.
pub const SRRCTL_BSIZEPACKET_MASK: u32 = 0x1f;
/// These bits of SRRCTL, of a number: the size of a buffer in KiB.
#[must_use]
pub const fn srrctl_bsizepacket(x: u32) -> u32 {
    x & SRRCTL_BSIZEPACKET_MASK
}
/// Bits 27:25 of SRRCTL: the type of the descriptors: 1 is advanced with one buffer, 0 is legacy.
pub const SRRCTL_DESCTYPE_MASK: u32 = 0x0e00_0000;
/// These bits of SRRCTL, of a number: the type of the descriptors: 1 is advanced with one buffer, 0 is legacy.
#[must_use]
pub const fn srrctl_desctype(x: u32) -> u32 {
    (x << 25) & SRRCTL_DESCTYPE_MASK
}
/// Bit 28 of SRRCTL: frames without room are dropped; always 1.
pub const SRRCTL_DROP_EN: u32 = 1 << 28;

/// RDT(q), q below 2: receive ring: its tail.
#[must_use]
pub const fn rdt(q: u32) -> u32 {
    0x1018 + 0x40 * q
}

/// VFGPRC: frames received.
pub const VFGPRC: u32 = 0x101c;

/// RXDCTL(q), q below 2: receive queue.
#[must_use]
pub const fn rxdctl(q: u32) -> u32 {
    0x1028 + 0x40 * q
}
/// Bit 25 of RXDCTL: it is on.
pub const RXDCTL_ENABLE: u32 = 1 << 25;
/// Bit 30 of RXDCTL: VLAN tags are stripped.
pub const RXDCTL_VME: u32 = 1 << 30;

/// TDBAL(q), q below 2: transmit ring: the low half of its base.
#[must_use]
pub const fn tdbal(q: u32) -> u32 {
    0x2000 + 0x40 * q
}

/// TDBAH(q), q below 2: transmit ring: the high half of its base.
#[must_use]
pub const fn tdbah(q: u32) -> u32 {
    0x2004 + 0x40 * q
}

/// TDLEN(q), q below 2: transmit ring: its length in bytes.
#[must_use]
pub const fn tdlen(q: u32) -> u32 {
    0x2008 + 0x40 * q
}

/// TDH(q), q below 2: transmit ring: its head.
#[must_use]
pub const fn tdh(q: u32) -> u32 {
    0x2010 + 0x40 * q
}

/// TDT(q), q below 2: transmit ring: its tail.
#[must_use]
pub const fn tdt(q: u32) -> u32 {
    0x2018 + 0x40 * q
}

/// VFGPTC: frames sent.
pub const VFGPTC: u32 = 0x201c;

/// TXDCTL(q), q below 2: transmit queue.
#[must_use]
pub const fn txdctl(q: u32) -> u32 {
    0x2028 + 0x40 * q
}
/// Bit 25 of TXDCTL: it is on.
pub const TXDCTL_ENABLE: u32 = 1 << 25;

/// PFVFLRE(i), i below 2: the functions that were reset.
#[must_use]
pub const fn pfvflre(i: u32) -> u32 {
    0x600 - 0x440 * i
}

/// PFVFLREC(i), i below 2: clears bits of PFVFLRE.
#[must_use]
pub const fn pfvflrec(i: u32) -> u32 {
    0x700 + 0x4 * i
}

/// VLNCTRL: VLAN control.
pub const VLNCTRL: u32 = 0x5088;
/// Bit 30 of VLNCTRL: VLANs are filtered.
pub const VLNCTRL_VFE: u32 = 1 << 30;

/// MCSTCTRL: multicast control.
pub const MCSTCTRL: u32 = 0x5090;
/// Bits 1:0 of MCSTCTRL: which bits of an address are its hash.
pub const MCSTCTRL_MO_MASK: u32 = 0x3;
/// These bits of MCSTCTRL, of a number: which bits of an address are its hash.
#[must_use]
pub const fn mcstctrl_mo(x: u32) -> u32 {
    x & MCSTCTRL_MO_MASK
}
/// Bit 2 of MCSTCTRL: the multicast table is used.
pub const MCSTCTRL_MFE: u32 = 1 << 2;

/// PF_VT_CTL: virtualization control.
pub const PF_VT_CTL: u32 = 0x51b0;
/// Bit 0 of PF_VT_CTL: virtualization is on; always 1.
pub const PF_VT_CTL_VT_ENA: u32 = 1 << 0;
/// Bits 12:7 of PF_VT_CTL: the default pool.
pub const PF_VT_CTL_DEF_PL_MASK: u32 = 0x1f80;
/// These bits of PF_VT_CTL, of a number: the default pool.
#[must_use]
pub const fn pf_vt_ctl_def_pl(x: u32) -> u32 {
    (x << 7) & PF_VT_CTL_DEF_PL_MASK
}
/// Bit 29 of PF_VT_CTL: there is no default pool.
pub const PF_VT_CTL_DIS_DEF_POOL: u32 = 1 << 29;
/// Bit 30 of PF_VT_CTL: replication is on; always 1.
pub const PF_VT_CTL_RPL_EN: u32 = 1 << 30;

/// PFVFRE(i), i below 2: the pools that may receive.
#[must_use]
pub const fn pfvfre(i: u32) -> u32 {
    0x51e0 + 0x4 * i
}

/// MTA(i), i below 128: the multicast table.
#[must_use]
pub const fn mta(i: u32) -> u32 {
    0x5200 + 0x4 * i
}

/// VMVIR(i), i below 64: the port VLAN of a pool.
#[must_use]
pub const fn vmvir(i: u32) -> u32 {
    0x8000 + 0x4 * i
}
/// Bits 15:0 of VMVIR: its tag control.
pub const VMVIR_PORT_VLAN_ID_MASK: u32 = 0xffff;
/// These bits of VMVIR, of a number: its tag control.
#[must_use]
pub const fn vmvir_port_vlan_id(x: u32) -> u32 {
    x & VMVIR_PORT_VLAN_ID_MASK
}
/// Bits 31:30 of VMVIR: the rule: 1 always inserts the tag, 2 never inserts one.
pub const VMVIR_VLANA_MASK: u32 = 0xc000_0000;
/// These bits of VMVIR, of a number: the rule: 1 always inserts the tag, 2 never inserts one.
#[must_use]
pub const fn vmvir_vlana(x: u32) -> u32 {
    (x << 30) & VMVIR_VLANA_MASK
}

/// PFVFTE(i), i below 2: the pools that may transmit.
#[must_use]
pub const fn pfvfte(i: u32) -> u32 {
    0x8110 + 0x4 * i
}

/// PFVFSPOOF(i), i below 8: the pools whose sources are checked.
#[must_use]
pub const fn pfvfspoof(i: u32) -> u32 {
    0x8200 + 0x4 * i
}
/// Bits 7:0 of PFVFSPOOF: by the address, of eight pools.
pub const PFVFSPOOF_MACAS_MASK: u32 = 0xff;
/// These bits of PFVFSPOOF, of a number: by the address, of eight pools.
#[must_use]
pub const fn pfvfspoof_macas(x: u32) -> u32 {
    x & PFVFSPOOF_MACAS_MASK
}
/// Bits 15:8 of PFVFSPOOF: by the VLAN, of the same pools.
pub const PFVFSPOOF_VLANAS_MASK: u32 = 0xff00;
/// These bits of PFVFSPOOF, of a number: by the VLAN, of the same pools.
#[must_use]
pub const fn pfvfspoof_vlanas(x: u32) -> u32 {
    (x << 8) & PFVFSPOOF_VLANAS_MASK
}

/// PFDTXGSWC: switching.
pub const PFDTXGSWC: u32 = 0x8220;
/// Bit 0 of PFDTXGSWC: frames go from pool to pool.
pub const PFDTXGSWC_LBE: u32 = 1 << 0;

/// VFTA(i), i below 128: the VLAN table.
#[must_use]
pub const fn vfta(i: u32) -> u32 {
    0xa000 + 0x4 * i
}

/// RAL(i), i below 128: receive address: bytes 0 to 3.
#[must_use]
pub const fn ral(i: u32) -> u32 {
    0xa200 + 0x8 * i
}

/// RAH(i), i below 128: receive address: bytes 4 and 5.
#[must_use]
pub const fn rah(i: u32) -> u32 {
    0xa204 + 0x8 * i
}
/// Bit 31 of RAH: the entry is valid.
pub const RAH_AV: u32 = 1 << 31;

/// MPSAR(i), i below 256: the pools of a receive address, 32 in a word.
#[must_use]
pub const fn mpsar(i: u32) -> u32 {
    0xa600 + 0x4 * i
}

/// VMOLR(i), i below 64: what a pool accepts.
#[must_use]
pub const fn vmolr(i: u32) -> u32 {
    0xf000 + 0x4 * i
}
/// Bit 24 of VMOLR: untagged frames.
pub const VMOLR_AUPE: u32 = 1 << 24;
/// Bit 25 of VMOLR: multicast frames by the multicast table.
pub const VMOLR_ROMPE: u32 = 1 << 25;
/// Bit 27 of VMOLR: broadcast frames.
pub const VMOLR_BAM: u32 = 1 << 27;
/// Bit 28 of VMOLR: all multicast frames.
pub const VMOLR_MPE: u32 = 1 << 28;

/// VLVF(i), i below 64: a VLAN entry.
#[must_use]
pub const fn vlvf(i: u32) -> u32 {
    0xf100 + 0x4 * i
}
/// Bits 11:0 of VLVF: its id.
pub const VLVF_VLAN_ID_MASK: u32 = 0xfff;
/// These bits of VLVF, of a number: its id.
#[must_use]
pub const fn vlvf_vlan_id(x: u32) -> u32 {
    x & VLVF_VLAN_ID_MASK
}
/// Bit 31 of VLVF: it is valid.
pub const VLVF_VI_EN: u32 = 1 << 31;

/// VLVFB(i), i below 128: the pools of a VLAN entry, 32 in a word.
#[must_use]
pub const fn vlvfb(i: u32) -> u32 {
    0xf200 + 0x4 * i
}

/// Bit 0 of RXD: done.
pub const RXD_DD: u64 = 1 << 0;
/// Bit 1 of RXD: the last of the frame.
pub const RXD_EOP: u64 = 1 << 1;
/// Bit 3 of RXD: a tag was stripped.
pub const RXD_VP: u64 = 1 << 3;
/// Bit 5 of RXD: the checksum of TCP or UDP was looked at.
pub const RXD_L4CS: u64 = 1 << 5;
/// Bit 6 of RXD: that of the IPv4 header was.
pub const RXD_IPCS: u64 = 1 << 6;
/// Bit 18 of RXD: another pool sent the frame.
pub const RXD_LB: u64 = 1 << 18;
/// Bit 30 of RXD: the checksum of TCP or UDP does not verify.
pub const RXD_L4E: u64 = 1 << 30;
/// Bit 31 of RXD: that of the IPv4 header does not.
pub const RXD_IPE: u64 = 1 << 31;
/// Bits 47:32 of RXD: bytes of the piece.
pub const RXD_LENGTH_MASK: u64 = 0xffff_0000_0000;
/// These bits of RXD, of a number: bytes of the piece.
#[must_use]
pub const fn rxd_length(x: u64) -> u64 {
    (x << 32) & RXD_LENGTH_MASK
}
/// Bits 63:48 of RXD: the tag control that was stripped.
pub const RXD_VLAN_MASK: u64 = 0xffff_0000_0000_0000;
/// These bits of RXD, of a number: the tag control that was stripped.
#[must_use]
pub const fn rxd_vlan(x: u64) -> u64 {
    (x << 48) & RXD_VLAN_MASK
}

/// Bits 15:0 of RXL: bytes of the piece.
pub const RXL_LENGTH_MASK: u64 = 0xffff;
/// These bits of RXL, of a number: bytes of the piece.
#[must_use]
pub const fn rxl_length(x: u64) -> u64 {
    x & RXL_LENGTH_MASK
}
/// Bit 32 of RXL: done.
pub const RXL_DD: u64 = 1 << 32;
/// Bit 33 of RXL: the last of the frame.
pub const RXL_EOP: u64 = 1 << 33;
/// Bit 35 of RXL: a tag was stripped.
pub const RXL_VP: u64 = 1 << 35;
/// Bit 37 of RXL: the checksum of TCP or UDP was looked at.
pub const RXL_L4CS: u64 = 1 << 37;
/// Bit 38 of RXL: that of the IPv4 header was.
pub const RXL_IPCS: u64 = 1 << 38;
/// Bit 46 of RXL: the checksum of TCP or UDP does not verify.
pub const RXL_L4E: u64 = 1 << 46;
/// Bit 47 of RXL: that of the IPv4 header does not.
pub const RXL_IPE: u64 = 1 << 47;
/// Bits 63:48 of RXL: the tag control that was stripped.
pub const RXL_VLAN_MASK: u64 = 0xffff_0000_0000_0000;
/// These bits of RXL, of a number: the tag control that was stripped.
#[must_use]
pub const fn rxl_vlan(x: u64) -> u64 {
    (x << 48) & RXL_VLAN_MASK
}

/// Bits 15:0 of TXD: bytes.
pub const TXD_LENGTH_MASK: u64 = 0xffff;
/// These bits of TXD, of a number: bytes.
#[must_use]
pub const fn txd_length(x: u64) -> u64 {
    x & TXD_LENGTH_MASK
}
/// Bits 23:20 of TXD: of an advanced one: 3 is data, 2 is context.
pub const TXD_DTYP_MASK: u64 = 0x00f0_0000;
/// These bits of TXD, of a number: of an advanced one: 3 is data, 2 is context.
#[must_use]
pub const fn txd_dtyp(x: u64) -> u64 {
    (x << 20) & TXD_DTYP_MASK
}
/// Bit 24 of TXD: the last of the frame.
pub const TXD_EOP: u64 = 1 << 24;
/// Bit 27 of TXD: report the status.
pub const TXD_RS: u64 = 1 << 27;
/// Bit 29 of TXD: advanced.
pub const TXD_DEXT: u64 = 1 << 29;
/// Bit 30 of TXD: insert a tag.
pub const TXD_VLE: u64 = 1 << 30;
/// Bit 31 of TXD: of an advanced one: segment.
pub const TXD_TSE: u64 = 1 << 31;
/// Bit 32 of TXD: done.
pub const TXD_DD: u64 = 1 << 32;
/// Bit 36 of TXD: of an advanced one: which context is meant.
pub const TXD_IDX: u64 = 1 << 36;
/// Bit 40 of TXD: of an advanced one: sum the IPv4 header.
pub const TXD_IXSM: u64 = 1 << 40;
/// Bit 41 of TXD: of an advanced one: sum what stands behind the IP header.
pub const TXD_TXSM: u64 = 1 << 41;
/// Bits 63:48 of TXD: of a legacy one: the tag control.
pub const TXD_VLAN_MASK: u64 = 0xffff_0000_0000_0000;
/// These bits of TXD, of a number: of a legacy one: the tag control.
#[must_use]
pub const fn txd_vlan(x: u64) -> u64 {
    (x << 48) & TXD_VLAN_MASK
}

/// Bits 8:0 of TXC_FIRST: bytes of the IP header.
pub const TXC_FIRST_IPLEN_MASK: u64 = 0x1ff;
/// These bits of TXC_FIRST, of a number: bytes of the IP header.
#[must_use]
pub const fn txc_first_iplen(x: u64) -> u64 {
    x & TXC_FIRST_IPLEN_MASK
}
/// Bits 15:9 of TXC_FIRST: bytes in front of it.
pub const TXC_FIRST_MACLEN_MASK: u64 = 0xfe00;
/// These bits of TXC_FIRST, of a number: bytes in front of it.
#[must_use]
pub const fn txc_first_maclen(x: u64) -> u64 {
    (x << 9) & TXC_FIRST_MACLEN_MASK
}
/// Bits 31:16 of TXC_FIRST: the tag control to insert.
pub const TXC_FIRST_VLAN_MASK: u64 = 0xffff_0000;
/// These bits of TXC_FIRST, of a number: the tag control to insert.
#[must_use]
pub const fn txc_first_vlan(x: u64) -> u64 {
    (x << 16) & TXC_FIRST_VLAN_MASK
}

/// Bit 10 of TXC_SECOND: the IP header is one of IPv4, else of IPv6.
pub const TXC_SECOND_IPV4: u64 = 1 << 10;
/// Bits 12:11 of TXC_SECOND: the protocol behind it: 0 is UDP, 1 TCP, 2 SCTP.
pub const TXC_SECOND_L4T_MASK: u64 = 0x1800;
/// These bits of TXC_SECOND, of a number: the protocol behind it: 0 is UDP, 1 TCP, 2 SCTP.
#[must_use]
pub const fn txc_second_l4t(x: u64) -> u64 {
    (x << 11) & TXC_SECOND_L4T_MASK
}
/// Bit 36 of TXC_SECOND: which context it sets.
pub const TXC_SECOND_IDX: u64 = 1 << 36;
/// Bits 47:40 of TXC_SECOND: bytes of the TCP header.
pub const TXC_SECOND_L4LEN_MASK: u64 = 0xff00_0000_0000;
/// These bits of TXC_SECOND, of a number: bytes of the TCP header.
#[must_use]
pub const fn txc_second_l4len(x: u64) -> u64 {
    (x << 40) & TXC_SECOND_L4LEN_MASK
}
/// Bits 63:48 of TXC_SECOND: the most bytes of payload of a segment.
pub const TXC_SECOND_MSS_MASK: u64 = 0xffff_0000_0000_0000;
/// These bits of TXC_SECOND, of a number: the most bytes of payload of a segment.
#[must_use]
pub const fn txc_second_mss(x: u64) -> u64 {
    (x << 48) & TXC_SECOND_MSS_MASK
}
