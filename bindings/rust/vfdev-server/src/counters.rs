//! What is counted, and its text for Prometheus. The text is bounded: a card has 64 functions at most, and a name 64 bytes.

use std::fmt::{self, Write};
use vfdev::{Counts, Queue, QueueFault};

/// What is counted of one function.
#[derive(Clone, Debug, Default)]
pub struct Counters {
    /// Clients that attached.
    pub attached: u64,
    /// Connections that ended, by the word of the reason.
    pub ended: Vec<(&'static str, u64)>,
    /// Messages of its clients.
    pub messages: u64,
    /// How often something was found in the page of its registers, beside the looks before each message.
    pub looks: u64,
    /// How often its transmit queues were served.
    pub services: u64,
    /// Interrupts that were signalled.
    pub interrupts: u64,
    /// Frames that it sent, and that left by the wire.
    pub sent_frames: u64,
    /// The bytes of these.
    pub sent_bytes: u64,
    /// Frames of its that were lost at the wire, for want of one or of room.
    pub lost_frames: u64,
}

impl Counters {
    /// Counts the end of a connection. There are few words, so there is little to search.
    pub fn count_end(&mut self, word: &'static str) {
        match self.ended.iter_mut().find(|(known, _)| *known == word) {
            Some((_, count)) => *count += 1,
            None => self.ended.push((word, 1)),
        }
    }
}

/// What is counted of all functions together.
#[derive(Clone, Debug, Default)]
pub struct Totals {
    /// Frames that came from the wire.
    pub received_frames: u64,
    /// Those of them that the card refused, as too long or as no frame.
    pub refused_frames: u64,
    /// Those of them that no function accepted.
    pub unclaimed_frames: u32,
    /// How often the program woke.
    pub turns: u64,
}

/// One function, for the text.
#[derive(Clone, Debug)]
pub struct Shown<'a> {
    /// Its number.
    pub number: u8,
    /// Its name, of letters, digits and signs that need no quoting.
    pub name: String,
    /// Whether a client is attached.
    pub is_attached: bool,
    /// How many bytes of its guest's memory are mapped, and in how many regions.
    pub mapped: (u64, usize),
    /// What the card counts of it.
    pub counts: Counts,
    /// What was counted.
    pub counters: &'a Counters,
}

// A number of one function.
type Number = fn(&Shown<'_>) -> u64;

// The name, the kind and the meaning of each number.
const NUMBERS: [(&str, &str, &str, Number); 16] = [
    ("attached", "gauge", "Whether a client is attached.", |f| {
        f.is_attached.into()
    }),
    (
        "mapped_bytes",
        "gauge",
        "Bytes of the guest's memory that are mapped.",
        |f| f.mapped.0,
    ),
    (
        "mapped_regions",
        "gauge",
        "Regions of the guest's memory that are mapped.",
        |f| f.mapped.1 as u64,
    ),
    ("attaches_total", "counter", "Clients that attached.", |f| {
        f.counters.attached
    }),
    (
        "messages_total",
        "counter",
        "Messages of the clients.",
        |f| f.counters.messages,
    ),
    (
        "looks_total",
        "counter",
        "Looks at the page of transmit registers, beside those before each message, that found something.",
        |f| f.counters.looks,
    ),
    (
        "services_total",
        "counter",
        "Services of the transmit queues.",
        |f| f.counters.services,
    ),
    (
        "interrupts_total",
        "counter",
        "Interrupts that were signalled.",
        |f| f.counters.interrupts,
    ),
    (
        "shortfalls_total",
        "counter",
        "Sums and segments of frames that could not be made, since the guest came or was reset.",
        |f| f.counts.shortfalls.into(),
    ),
    (
        "dropped_no_room_total",
        "counter",
        "Frames for the guest that found no room, since it came or was reset.",
        |f| f.counts.no_room.into(),
    ),
    (
        "refused_total",
        "counter",
        "Frames of the guest that the check of senders refused, since it came or was reset.",
        |f| f.counts.refused.into(),
    ),
    (
        "unclaimed_total",
        "counter",
        "Frames of the function that nobody got.",
        |f| f.counts.unclaimed.into(),
    ),
    (
        "queue_faults_total",
        "counter",
        "Faults that stopped a queue, since the guest came or was reset.",
        |f| f.counts.faults.into(),
    ),
    (
        "wire_sent_frames_total",
        "counter",
        "Frames that left by the wire.",
        |f| f.counters.sent_frames,
    ),
    (
        "wire_sent_bytes_total",
        "counter",
        "Bytes of the frames that left by the wire.",
        |f| f.counters.sent_bytes,
    ),
    (
        "wire_lost_frames_total",
        "counter",
        "Frames that were lost at the wire.",
        |f| f.counters.lost_frames,
    ),
];

/// The text of all counters.
#[must_use]
pub fn text(functions: &[Shown<'_>], totals: &Totals) -> String {
    let mut out = String::new();
    // (a write to a string never fails)
    let _ = write_functions(&mut out, functions);
    let _ = write_totals(&mut out, totals);
    out
}

fn write_functions(out: &mut String, functions: &[Shown<'_>]) -> fmt::Result {
    for (name, kind, help, number) in NUMBERS {
        head(out, name, kind, help)?;
        for f in functions {
            let (place, called) = (f.number, &f.name);
            writeln!(
                out,
                "vfdev_{name}{{function=\"{place}\",name=\"{called}\"}} {}",
                number(f)
            )?;
        }
    }
    head(
        out,
        "ended_total",
        "counter",
        "Connections that ended, by reason.",
    )?;
    for f in functions {
        for (reason, count) in &f.counters.ended {
            let (place, called) = (f.number, &f.name);
            writeln!(
                out,
                "vfdev_ended_total{{function=\"{place}\",name=\"{called}\",reason=\"{reason}\"}} {count}"
            )?;
        }
    }
    write_last_faults(out, functions)
}

fn write_last_faults(out: &mut String, functions: &[Shown<'_>]) -> fmt::Result {
    head(
        out,
        "last_queue_fault",
        "gauge",
        "1 for the last fault that stopped a queue, since the guest came or was reset.",
    )?;
    for f in functions {
        let Some(fault) = f.counts.last_fault else {
            continue;
        };
        let (place, called) = (f.number, &f.name);
        let (queue, reason) = (queue_word(fault), reason_word(fault));
        writeln!(
            out,
            "vfdev_last_queue_fault{{function=\"{place}\",name=\"{called}\",queue=\"{queue}\",reason=\"{reason}\"}} 1"
        )?;
    }
    Ok(())
}

fn queue_word(fault: QueueFault) -> &'static str {
    match fault.queue() {
        None => "receive",
        Some(Queue::Q0) => "transmit 0",
        Some(Queue::Q1) => "transmit 1",
    }
}

fn reason_word(fault: QueueFault) -> &'static str {
    match fault {
        QueueFault::ReceiveBuffer | QueueFault::PastMemory(_) => "buffer",
        QueueFault::UnknownType(_) => "type",
        QueueFault::NotOffered(_) => "not offered",
        _ => "other",
    }
}

fn write_totals(out: &mut String, totals: &Totals) -> fmt::Result {
    for (name, help, count) in [
        (
            "wire_received_frames_total",
            "Frames that came from the wire.",
            totals.received_frames,
        ),
        (
            "wire_refused_frames_total",
            "Frames from the wire that the card refused.",
            totals.refused_frames,
        ),
        (
            "wire_unclaimed_frames_total",
            "Frames from the wire that no function accepted.",
            totals.unclaimed_frames.into(),
        ),
        ("turns_total", "Turns of the program's loop.", totals.turns),
    ] {
        head(out, name, "counter", help)?;
        writeln!(out, "vfdev_{name} {count}")?;
    }
    Ok(())
}

fn head(out: &mut String, name: &str, kind: &str, help: &str) -> fmt::Result {
    writeln!(out, "# HELP vfdev_{name} {help}")?;
    writeln!(out, "# TYPE vfdev_{name} {kind}")
}

#[cfg(test)]
mod tests {
    use super::*;

    #[test]
    fn the_text_has_a_line_for_each_number_and_function() {
        let mut counters = Counters {
            messages: 7,
            ..Counters::default()
        };
        counters.count_end("closed");
        counters.count_end("closed");
        let shown = Shown {
            number: 3,
            name: "web".to_owned(),
            is_attached: true,
            mapped: (4096, 1),
            counts: Counts {
                no_room: 6,
                faults: 2,
                last_fault: Some(QueueFault::NotOffered(Queue::Q1)),
                shortfalls: 5,
                ..Counts::default()
            },
            counters: &counters,
        };
        let totals = Totals {
            unclaimed_frames: 9,
            ..Totals::default()
        };
        let text = text(&[shown], &totals);
        for line in [
            "# TYPE vfdev_attached gauge",
            "vfdev_attached{function=\"3\",name=\"web\"} 1",
            "vfdev_mapped_bytes{function=\"3\",name=\"web\"} 4096",
            "vfdev_messages_total{function=\"3\",name=\"web\"} 7",
            "vfdev_shortfalls_total{function=\"3\",name=\"web\"} 5",
            "vfdev_dropped_no_room_total{function=\"3\",name=\"web\"} 6",
            "vfdev_refused_total{function=\"3\",name=\"web\"} 0",
            "vfdev_unclaimed_total{function=\"3\",name=\"web\"} 0",
            "vfdev_queue_faults_total{function=\"3\",name=\"web\"} 2",
            "vfdev_last_queue_fault{function=\"3\",name=\"web\",queue=\"transmit 1\",reason=\"not offered\"} 1",
            "vfdev_wire_unclaimed_frames_total 9",
            "vfdev_wire_lost_frames_total{function=\"3\",name=\"web\"} 0",
            "vfdev_ended_total{function=\"3\",name=\"web\",reason=\"closed\"} 2",
            "vfdev_turns_total 0",
        ] {
            assert!(
                text.lines().any(|other| other == line),
                "{line} isn't in\n{text}"
            );
        }
    }

    // What a socket takes at once: its buffer has 212,992 bytes where nobody changed that. A million of something each second are fewer than
    // 10^15 in 30 years.
    #[test]
    fn the_text_is_bounded() {
        const MOST: u64 = 999_999_999_999_999;
        let counters = Counters {
            attached: MOST,
            ended: vec![("protocol", MOST); 8],
            messages: MOST,
            looks: MOST,
            services: MOST,
            interrupts: MOST,
            sent_frames: MOST,
            sent_bytes: MOST,
            lost_frames: MOST,
        };
        let name = "n".repeat(64);
        let shown = |number| Shown {
            number,
            name: name.clone(),
            is_attached: true,
            mapped: (1 << 46, 64),
            counts: Counts {
                no_room: u32::MAX,
                refused: u32::MAX,
                unclaimed: u32::MAX,
                faults: u32::MAX,
                last_fault: Some(QueueFault::NotOffered(Queue::Q0)),
                shortfalls: u32::MAX,
                ..Counts::default()
            },
            counters: &counters,
        };
        let functions: Vec<_> = (0..64).map(shown).collect();
        let length = text(&functions, &Totals::default()).len();
        assert!(length < 210_000, "{length}");
    }
}
