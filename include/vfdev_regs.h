/* vfdev_regs.h: registers and descriptors of the 82599 that the device has, by the datasheet's names;
 * made by bindings/registers from bindings/registers.txt.
 *
 * VFDEV_X is the offset of register X in bytes, and VFDEV_X(i) that of one of an array. VFDEV_X_F is the bit F of it; where F
 * has more bits, VFDEV_X_F(x) is x at its place, and VFDEV_X_F_MASK all of its bits. docs/REGISTERS.md says what each does. */
#ifndef VFDEV_REGS_H
#define VFDEV_REGS_H

#include <stdint.h>

/* ---- registers of a virtual function ---- */

/* Control. */
#define VFDEV_VFCTRL 0x0u
#define VFDEV_VFCTRL_RST (1u << 26) /* resets the function */

/* State of the link. */
#define VFDEV_VFLINKS 0x10u
#define VFDEV_VFLINKS_LINK_UP (1u << 30) /* the link is up */
#define VFDEV_VFLINKS_LINK_SPEED(x) ((uint32_t)(x) << 28) /* 3 for 10 Gb/s */
#define VFDEV_VFLINKS_LINK_SPEED_MASK 0x30000000u

/* Interrupt causes: a read takes them away. */
#define VFDEV_VTEICR 0x100u

/* Raises interrupt causes. */
#define VFDEV_VTEICS 0x104u

/* Enables interrupt vectors. */
#define VFDEV_VTEIMS 0x108u

/* Disables interrupt vectors. */
#define VFDEV_VTEIMC 0x10Cu

/* The causes that are cleared automatically. */
#define VFDEV_VTEIAC 0x110u

/* The vectors that are masked automatically. */
#define VFDEV_VTEIAM 0x114u

/* The vectors of the queues. */
#define VFDEV_VTIVAR 0x120u
#define VFDEV_VTIVAR_RX0(x) ((uint32_t)(x) << 0) /* of receive queue 0 */
#define VFDEV_VTIVAR_RX0_MASK 0xFFu
#define VFDEV_VTIVAR_TX0(x) ((uint32_t)(x) << 8) /* of transmit queue 0 */
#define VFDEV_VTIVAR_TX0_MASK 0xFF00u
#define VFDEV_VTIVAR_RX1(x) ((uint32_t)(x) << 16) /* of receive queue 1 */
#define VFDEV_VTIVAR_RX1_MASK 0xFF0000u
#define VFDEV_VTIVAR_TX1(x) ((uint32_t)(x) << 24) /* of transmit queue 1 */
#define VFDEV_VTIVAR_TX1_MASK 0xFF000000u

/* The vector of the cause "other", which the mailbox raises. */
#define VFDEV_VTIVAR_MISC 0x140u
#define VFDEV_VTIVAR_MISC_INT_ALLOC(x) ((uint32_t)(x) << 0) /* the vector */
#define VFDEV_VTIVAR_MISC_INT_ALLOC_MASK 0x3u
#define VFDEV_VTIVAR_MISC_INT_ALLOC_VAL (1u << 7) /* it is valid */

/* How far apart the messages of a vector are to be, q below 3. */
#define VFDEV_VTEITR(q) (0x820u + 0x4u * (uint32_t)(q))
#define VFDEV_VTEITR_ITR_INTERVAL(x) ((uint32_t)(x) << 3) /* at least so many units of 2 microseconds */
#define VFDEV_VTEITR_ITR_INTERVAL_MASK 0xFF8u

/* Receive ring: the low half of its base, q below 2. */
#define VFDEV_RDBAL(q) (0x1000u + 0x40u * (uint32_t)(q))

/* Receive ring: the high half of its base, q below 2. */
#define VFDEV_RDBAH(q) (0x1004u + 0x40u * (uint32_t)(q))

/* Receive ring: its length in bytes, q below 2. */
#define VFDEV_RDLEN(q) (0x1008u + 0x40u * (uint32_t)(q))

/* Receive ring: its head, q below 2. */
#define VFDEV_RDH(q) (0x1010u + 0x40u * (uint32_t)(q))

/* Receive buffers, q below 2. */
#define VFDEV_SRRCTL(q) (0x1014u + 0x40u * (uint32_t)(q))
#define VFDEV_SRRCTL_BSIZEPACKET(x) ((uint32_t)(x) << 0) /* the size of a buffer in KiB */
#define VFDEV_SRRCTL_BSIZEPACKET_MASK 0x1Fu
#define VFDEV_SRRCTL_DESCTYPE(x) ((uint32_t)(x) << 25) /* the type of the descriptors: 1 is advanced with one buffer, 0 is legacy */
#define VFDEV_SRRCTL_DESCTYPE_MASK 0xE000000u
#define VFDEV_SRRCTL_DROP_EN (1u << 28) /* frames without room are dropped; always 1 */

/* Receive ring: its tail, q below 2. */
#define VFDEV_RDT(q) (0x1018u + 0x40u * (uint32_t)(q))

/* Frames received. */
#define VFDEV_VFGPRC 0x101Cu

/* Receive queue, q below 2. */
#define VFDEV_RXDCTL(q) (0x1028u + 0x40u * (uint32_t)(q))
#define VFDEV_RXDCTL_ENABLE (1u << 25) /* it is on */
#define VFDEV_RXDCTL_VME (1u << 30) /* VLAN tags are stripped */

/* Transmit ring: the low half of its base, q below 2. */
#define VFDEV_TDBAL(q) (0x2000u + 0x40u * (uint32_t)(q))

/* Transmit ring: the high half of its base, q below 2. */
#define VFDEV_TDBAH(q) (0x2004u + 0x40u * (uint32_t)(q))

/* Transmit ring: its length in bytes, q below 2. */
#define VFDEV_TDLEN(q) (0x2008u + 0x40u * (uint32_t)(q))

/* Transmit ring: its head, q below 2. */
#define VFDEV_TDH(q) (0x2010u + 0x40u * (uint32_t)(q))

/* Transmit ring: its tail, q below 2. */
#define VFDEV_TDT(q) (0x2018u + 0x40u * (uint32_t)(q))

/* Frames sent. */
#define VFDEV_VFGPTC 0x201Cu

/* Transmit queue, q below 2. */
#define VFDEV_TXDCTL(q) (0x2028u + 0x40u * (uint32_t)(q))
#define VFDEV_TXDCTL_ENABLE (1u << 25) /* it is on */

/* ---- registers of the physical function ---- */

/* The functions that were reset, i below 2. */
#define VFDEV_PFVFLRE(i) (0x600u - 0x440u * (uint32_t)(i))

/* Clears bits of PFVFLRE, i below 2. */
#define VFDEV_PFVFLREC(i) (0x700u + 0x4u * (uint32_t)(i))

/* VLAN control. */
#define VFDEV_VLNCTRL 0x5088u
#define VFDEV_VLNCTRL_VFE (1u << 30) /* VLANs are filtered */

/* Multicast control. */
#define VFDEV_MCSTCTRL 0x5090u
#define VFDEV_MCSTCTRL_MO(x) ((uint32_t)(x) << 0) /* which bits of an address are its hash */
#define VFDEV_MCSTCTRL_MO_MASK 0x3u
#define VFDEV_MCSTCTRL_MFE (1u << 2) /* the multicast table is used */

/* Virtualization control. */
#define VFDEV_PF_VT_CTL 0x51B0u
#define VFDEV_PF_VT_CTL_VT_ENA (1u << 0) /* virtualization is on; always 1 */
#define VFDEV_PF_VT_CTL_DEF_PL(x) ((uint32_t)(x) << 7) /* the default pool */
#define VFDEV_PF_VT_CTL_DEF_PL_MASK 0x1F80u
#define VFDEV_PF_VT_CTL_DIS_DEF_POOL (1u << 29) /* there is no default pool */
#define VFDEV_PF_VT_CTL_RPL_EN (1u << 30) /* replication is on; always 1 */

/* The pools that may receive, i below 2. */
#define VFDEV_PFVFRE(i) (0x51E0u + 0x4u * (uint32_t)(i))

/* The multicast table, i below 128. */
#define VFDEV_MTA(i) (0x5200u + 0x4u * (uint32_t)(i))

/* The port VLAN of a pool, i below 64. */
#define VFDEV_VMVIR(i) (0x8000u + 0x4u * (uint32_t)(i))
#define VFDEV_VMVIR_PORT_VLAN_ID(x) ((uint32_t)(x) << 0) /* its tag control */
#define VFDEV_VMVIR_PORT_VLAN_ID_MASK 0xFFFFu
#define VFDEV_VMVIR_VLANA(x) ((uint32_t)(x) << 30) /* the rule: 1 always inserts the tag, 2 never inserts one */
#define VFDEV_VMVIR_VLANA_MASK 0xC0000000u

/* The pools that may transmit, i below 2. */
#define VFDEV_PFVFTE(i) (0x8110u + 0x4u * (uint32_t)(i))

/* The pools whose sources are checked, i below 8. */
#define VFDEV_PFVFSPOOF(i) (0x8200u + 0x4u * (uint32_t)(i))
#define VFDEV_PFVFSPOOF_MACAS(x) ((uint32_t)(x) << 0) /* by the address, of eight pools */
#define VFDEV_PFVFSPOOF_MACAS_MASK 0xFFu
#define VFDEV_PFVFSPOOF_VLANAS(x) ((uint32_t)(x) << 8) /* by the VLAN, of the same pools */
#define VFDEV_PFVFSPOOF_VLANAS_MASK 0xFF00u

/* Switching. */
#define VFDEV_PFDTXGSWC 0x8220u
#define VFDEV_PFDTXGSWC_LBE (1u << 0) /* frames go from pool to pool */

/* The VLAN table, i below 128. */
#define VFDEV_VFTA(i) (0xA000u + 0x4u * (uint32_t)(i))

/* Receive address: bytes 0 to 3, i below 128. */
#define VFDEV_RAL(i) (0xA200u + 0x8u * (uint32_t)(i))

/* Receive address: bytes 4 and 5, i below 128. */
#define VFDEV_RAH(i) (0xA204u + 0x8u * (uint32_t)(i))
#define VFDEV_RAH_AV (1u << 31) /* the entry is valid */

/* The pools of a receive address, 32 in a word, i below 256. */
#define VFDEV_MPSAR(i) (0xA600u + 0x4u * (uint32_t)(i))

/* What a pool accepts, i below 64. */
#define VFDEV_VMOLR(i) (0xF000u + 0x4u * (uint32_t)(i))
#define VFDEV_VMOLR_AUPE (1u << 24) /* untagged frames */
#define VFDEV_VMOLR_ROMPE (1u << 25) /* multicast frames by the multicast table */
#define VFDEV_VMOLR_BAM (1u << 27) /* broadcast frames */
#define VFDEV_VMOLR_MPE (1u << 28) /* all multicast frames */

/* A VLAN entry, i below 64. */
#define VFDEV_VLVF(i) (0xF100u + 0x4u * (uint32_t)(i))
#define VFDEV_VLVF_VLAN_ID(x) ((uint32_t)(x) << 0) /* its id */
#define VFDEV_VLVF_VLAN_ID_MASK 0xFFFu
#define VFDEV_VLVF_VI_EN (1u << 31) /* it is valid */

/* The pools of a VLAN entry, 32 in a word, i below 128. */
#define VFDEV_VLVFB(i) (0xF200u + 0x4u * (uint32_t)(i))

/* ---- words of descriptors ---- */

/* The second word of an advanced receive descriptor that was written back. */
#define VFDEV_RXD_DD ((uint64_t)1 << 0) /* done */
#define VFDEV_RXD_EOP ((uint64_t)1 << 1) /* the last of the frame */
#define VFDEV_RXD_VP ((uint64_t)1 << 3) /* a tag was stripped */
#define VFDEV_RXD_L4CS ((uint64_t)1 << 5) /* the checksum of TCP or UDP was looked at */
#define VFDEV_RXD_IPCS ((uint64_t)1 << 6) /* that of the IPv4 header was */
#define VFDEV_RXD_LB ((uint64_t)1 << 18) /* another pool sent the frame */
#define VFDEV_RXD_L4E ((uint64_t)1 << 30) /* the checksum of TCP or UDP does not verify */
#define VFDEV_RXD_IPE ((uint64_t)1 << 31) /* that of the IPv4 header does not */
#define VFDEV_RXD_LENGTH(x) ((uint64_t)(x) << 32) /* bytes of the piece */
#define VFDEV_RXD_LENGTH_MASK 0xFFFF00000000ull
#define VFDEV_RXD_VLAN(x) ((uint64_t)(x) << 48) /* the tag control that was stripped */
#define VFDEV_RXD_VLAN_MASK 0xFFFF000000000000ull

/* The second word of a legacy receive descriptor that was written back. */
#define VFDEV_RXL_LENGTH(x) ((uint64_t)(x) << 0) /* bytes of the piece */
#define VFDEV_RXL_LENGTH_MASK 0xFFFFull
#define VFDEV_RXL_DD ((uint64_t)1 << 32) /* done */
#define VFDEV_RXL_EOP ((uint64_t)1 << 33) /* the last of the frame */
#define VFDEV_RXL_VP ((uint64_t)1 << 35) /* a tag was stripped */
#define VFDEV_RXL_L4CS ((uint64_t)1 << 37) /* the checksum of TCP or UDP was looked at */
#define VFDEV_RXL_IPCS ((uint64_t)1 << 38) /* that of the IPv4 header was */
#define VFDEV_RXL_L4E ((uint64_t)1 << 46) /* the checksum of TCP or UDP does not verify */
#define VFDEV_RXL_IPE ((uint64_t)1 << 47) /* that of the IPv4 header does not */
#define VFDEV_RXL_VLAN(x) ((uint64_t)(x) << 48) /* the tag control that was stripped */
#define VFDEV_RXL_VLAN_MASK 0xFFFF000000000000ull

/* The second word of a transmit descriptor. */
#define VFDEV_TXD_LENGTH(x) ((uint64_t)(x) << 0) /* bytes */
#define VFDEV_TXD_LENGTH_MASK 0xFFFFull
#define VFDEV_TXD_DTYP(x) ((uint64_t)(x) << 20) /* of an advanced one: 3 is data, 2 is context */
#define VFDEV_TXD_DTYP_MASK 0xF00000ull
#define VFDEV_TXD_EOP ((uint64_t)1 << 24) /* the last of the frame */
#define VFDEV_TXD_RS ((uint64_t)1 << 27) /* report the status */
#define VFDEV_TXD_DEXT ((uint64_t)1 << 29) /* advanced */
#define VFDEV_TXD_VLE ((uint64_t)1 << 30) /* insert a tag */
#define VFDEV_TXD_TSE ((uint64_t)1 << 31) /* of an advanced one: segment */
#define VFDEV_TXD_DD ((uint64_t)1 << 32) /* done */
#define VFDEV_TXD_IDX ((uint64_t)1 << 36) /* of an advanced one: which context is meant */
#define VFDEV_TXD_IXSM ((uint64_t)1 << 40) /* of an advanced one: sum the IPv4 header */
#define VFDEV_TXD_TXSM ((uint64_t)1 << 41) /* of an advanced one: sum what stands behind the IP header */
#define VFDEV_TXD_VLAN(x) ((uint64_t)(x) << 48) /* of a legacy one: the tag control */
#define VFDEV_TXD_VLAN_MASK 0xFFFF000000000000ull

/* The first word of a context descriptor. */
#define VFDEV_TXC_FIRST_IPLEN(x) ((uint64_t)(x) << 0) /* bytes of the IP header */
#define VFDEV_TXC_FIRST_IPLEN_MASK 0x1FFull
#define VFDEV_TXC_FIRST_MACLEN(x) ((uint64_t)(x) << 9) /* bytes in front of it */
#define VFDEV_TXC_FIRST_MACLEN_MASK 0xFE00ull
#define VFDEV_TXC_FIRST_VLAN(x) ((uint64_t)(x) << 16) /* the tag control to insert */
#define VFDEV_TXC_FIRST_VLAN_MASK 0xFFFF0000ull

/* The second word of a context descriptor, whose DTYP and DEXT are those of TXD. */
#define VFDEV_TXC_SECOND_IPV4 ((uint64_t)1 << 10) /* the IP header is one of IPv4, else of IPv6 */
#define VFDEV_TXC_SECOND_L4T(x) ((uint64_t)(x) << 11) /* the protocol behind it: 0 is UDP, 1 TCP, 2 SCTP */
#define VFDEV_TXC_SECOND_L4T_MASK 0x1800ull
#define VFDEV_TXC_SECOND_IDX ((uint64_t)1 << 36) /* which context it sets */
#define VFDEV_TXC_SECOND_L4LEN(x) ((uint64_t)(x) << 40) /* bytes of the TCP header */
#define VFDEV_TXC_SECOND_L4LEN_MASK 0xFF0000000000ull
#define VFDEV_TXC_SECOND_MSS(x) ((uint64_t)(x) << 48) /* the most bytes of payload of a segment */
#define VFDEV_TXC_SECOND_MSS_MASK 0xFFFF000000000000ull

#endif
