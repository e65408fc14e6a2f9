//! Scripts by chance: four functions with rings and addresses, and then events of all kinds.

use super::chance::Chance;
use std::fmt::Write;

const EVENTS: u32 = 300;

// First words of destinations: each function's own, one that nobody has, broadcast and multicast.
const STATIONS: [&str; 8] = [
    "020000000000",
    "020000000001",
    "020000000002",
    "020000000003",
    "020000000077",
    "020000000001",
    "ffffffffffff",
    "01005e000001",
];
const TAGS: [&str; 6] = ["", "", "", "", "81000001", "8100a005"];
const LENGTHS: [u64; 6] = [42, 42, 42, 90, 700, 1490];
// Second words of transmit descriptors, without their lengths: whole frames, parts, tags, context, and what faults.
const COMMANDS: [u64; 10] = [
    0x2930_0000,
    0x2930_0000,
    0x2930_0000,
    0x0900_0000,
    0x2830_0000,
    0x0001_0000_4900_0000,
    0x2130_0000,
    0x2020_0000,
    0xa930_0000,
    0x2920_0000,
];
const VF_REGISTERS: [u32; 22] = [
    0x0, 0x8, 0x10, 0x100, 0x104, 0x108, 0x10c, 0x110, 0x120, 0x1000, 0x1008, 0x1010, 0x1014,
    0x1018, 0x101c, 0x1028, 0x2010, 0x2018, 0x201c, 0x2028, 0x2, 0x4000,
];
// The first offset, the step and the count of arrays of registers of the physical function.
const PF_REGISTERS: [(u64, u64, u64); 12] = [
    (0x51e0, 4, 2),
    (0x8110, 4, 2),
    (0x8200, 4, 8),
    (0x8220, 4, 1),
    (0xa200, 8, 8),
    (0xa204, 8, 8),
    (0xa600, 4, 16),
    (0xf000, 4, 4),
    (0xf100, 4, 4),
    (0x51b0, 4, 1),
    (0x700, 4, 2),
    (0x2, 4, 1),
];
const NUMBERS: [u64; 9] = [
    0,
    1,
    3,
    0xf,
    0x80,
    0x0200_0000,
    0x0200_0002,
    0x8000_0000,
    0xffff_ffff,
];

struct Script {
    text: String,
    events: u32,
    chance: Chance,
}

/// The script of a seed.
pub fn script(seed: u64) -> String {
    let mut script = Script {
        text: "vfs 4 32768\n".to_owned(),
        events: 0,
        chance: Chance(seed),
    };
    script.set_up();
    while script.events < EVENTS {
        script.draw();
    }
    script.text
}

impl Script {
    fn event(&mut self, line: &str) {
        self.events += 1;
        writeln!(self.text, "{line}").expect("a string grows");
    }

    // Most scripts have everything on.
    fn set_up(&mut self) {
        for line in [
            "pw 0x51e0 0xf",
            "pw 0x8110 0xf",
            "pw 0x8220 1",
            "pw 0xf004 0x08000000",
        ] {
            if self.chance.below(8) > 0 {
                self.event(line);
            }
        }
        for p in 0..4u64 {
            self.event(&format!("open {p}"));
            self.event(&format!("pw {:#x} 2", 0xa200 + 8 * p));
            self.event(&format!(
                "pw {:#x} {:#x}",
                0xa204 + 8 * p,
                0x8000_0000 | p << 8
            ));
            self.event(&format!("pw {:#x} {:#x}", 0xa600 + 8 * p, 1 << p));
            self.event(&format!("pw {:#x} 0x09000000", 0xf000 + 4 * p));
            self.rings(p);
        }
    }

    // Rings of eight descriptors, on, with an interrupt for each queue that clears itself.
    fn rings(&mut self, p: u64) {
        let mut descriptors = String::new();
        for i in 0..8u64 {
            let at = 0x4000 + 0x400 * i;
            write!(descriptors, "{}0000000000000000", hex(&at.to_le_bytes()))
                .expect("a string grows");
        }
        self.event(&format!("mw {p} 0x1000 {descriptors}"));
        for (offset, word) in [
            (0x1000, 0x1000),
            (0x1008, 128),
            (0x1014, 0x0200_0001),
            (0x1028, 0x0200_0000),
            (0x1018, 7),
            (0x2000, 0x2000),
            (0x2008, 128),
            (0x2028, 0x0200_0000),
            (0x120, 0x8180),
            (0x110, 7),
            (0x108, 7u32),
        ] {
            self.event(&format!("w {p} {offset:#x} {word:#x}"));
        }
    }

    // A frame, and how long it is.
    fn frame(&mut self, from: u64) -> (String, u64) {
        let (to, tag) = (self.chance.of(&STATIONS), self.chance.of(&TAGS));
        let from = if self.chance.below(6) == 0 {
            self.chance.below(4)
        } else {
            from
        };
        let (rest, fill) = (self.chance.of(&LENGTHS), self.chance.below(256));
        let length = 18 + rest + tag.len() as u64 / 2 - 4;
        (
            format!("{to}02000000000{from}{tag}0800.{fill:02x}*{rest}"),
            length,
        )
    }

    // One to three frames are sent, of descriptors from the head on.
    fn send(&mut self, p: u64) {
        let (frame, length) = self.frame(p);
        self.event(&format!("mw {p} 0x6000 {frame}"));
        let mut descriptors = String::new();
        for _ in 0..8 {
            let command = self.chance.of(&COMMANDS);
            let length = if self.chance.below(12) == 0 {
                self.chance.below(2000)
            } else {
                length
            };
            let words = [0x6000, command | length];
            write!(
                descriptors,
                "{}{}",
                hex(&words[0].to_le_bytes()),
                hex(&words[1].to_le_bytes())
            )
            .expect("a string grows");
        }
        self.event(&format!("mw {p} 0x2000 {descriptors}"));
        let tail = self.chance.below(8);
        self.event(&format!("w {p} 0x2018 {tail}"));
        for _ in 0..=self.chance.below(4) {
            self.event(&format!("serve {p} 0"));
        }
    }

    fn draw(&mut self) {
        let p = self.chance.below(4);
        match self.chance.below(40) {
            0..=11 => self.send(p),
            12..=19 => {
                let (frame, _) = self.frame(9);
                self.event(&format!("wire {frame}"));
            }
            20..=23 => {
                let tail = self.chance.below(8);
                self.event(&format!("w {p} 0x1018 {tail}"));
            }
            24..=26 => {
                let (offset, none) = (self.chance.of(&VF_REGISTERS), self.chance_of_none());
                self.event(&format!("r {} {offset:#x}", p + none));
            }
            27 | 28 => {
                let (offset, word) = (self.chance.of(&VF_REGISTERS), self.number());
                self.event(&format!("w {p} {offset:#x} {word:#x}"));
            }
            29..=31 => {
                let (offset, word) = (self.pf_register(), self.number());
                self.event(&format!("pw {offset:#x} {word:#x}"));
            }
            32 | 33 => {
                let offset = self.pf_register();
                self.event(&format!("pr {offset:#x}"));
            }
            34 | 35 => {
                let (at, count) = (
                    self.chance
                        .of(&[0x1000, 0x2000, 0x4000, 0x4400, 0x7ff8, 0x8000]),
                    self.chance.of(&[0, 8, 16, 128, 2049]),
                );
                self.event(&format!("mr {p} {at:#x} {count}"));
            }
            36 => self.event(&format!("serve {p} 1")),
            37 => {
                let what = self.chance.of(&["flr", "end", "open"]);
                self.event(&format!("{what} {p}"));
                self.event(&format!("open {p}"));
                self.rings(p);
            }
            38 if self.chance.below(12) == 0 => {
                self.event("preset");
                self.set_up();
            }
            _ => self.event(&format!("w {p} 0x100 7")),
        }
    }

    // Now and then a function that is not there.
    fn chance_of_none(&mut self) -> u64 {
        if self.chance.below(16) == 0 {
            self.chance.below(250)
        } else {
            0
        }
    }

    fn number(&mut self) -> u64 {
        if self.chance.below(3) == 0 {
            self.chance.below(1 << 32)
        } else {
            self.chance.of(&NUMBERS)
        }
    }

    fn pf_register(&mut self) -> u64 {
        let (first, step, count) = self.chance.of(&PF_REGISTERS);
        first + step * self.chance.below(count)
    }
}

fn hex(bytes: &[u8]) -> String {
    bytes.iter().map(|byte| format!("{byte:02x}")).collect()
}
