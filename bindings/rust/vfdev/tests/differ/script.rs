//! A script through the crate, with what `vfdev run` writes of it.

use std::collections::VecDeque;
use std::fmt::Write;
use vfdev::{Device, Fault, Messages, Queue, Replayed, Served, MOST_FRAME};

/// How many frames that left are kept.
const KEPT: usize = 1024;

struct Run {
    device: Device<'static>,
    out: Box<[u8; MOST_FRAME]>,
    left: VecDeque<Vec<u8>>,
}

/// What is written of a script without bad lines.
pub fn run(text: &str) -> String {
    let (functions, memory, limit) = asked(text);
    let device = Device::new(functions, memory, limit).expect("the device is made");
    through(device, text).0
}

/// The same by a device whose calls are recorded. The recording replays on a device as it is made. After that it doesn't replay on
/// the same device once more.
pub fn run_recorded(text: &str) -> String {
    let (functions, memory, limit) = asked(text);
    let calls = text.lines().count() as u32;
    let device = Device::recorded(functions, memory, limit, calls).expect("the device is made");
    let (written, mut device) = through(device, text);
    let mut other = Device::new(functions, memory, limit).expect("the device is made");
    assert_eq!(device.replay(&mut other), Replayed::Same);
    // the other one counts frames now, and has functions that are open
    assert_eq!(device.replay(&mut other), Replayed::Different);
    assert!(device.kept() < calls as usize);
    written
}

// The functions, the size of a memory and the limit of the first line.
fn asked(text: &str) -> (u32, u64, u16) {
    let first: Vec<u64> = text
        .lines()
        .next()
        .expect("a first line")
        .split(' ')
        .skip(1)
        .map(number)
        .collect();
    let limit = first.get(2).map_or(1518, |limit| *limit as u16);
    (first[0] as u32, first[1], limit)
}

// What is written of a script by a device, and the device.
fn through(device: Device<'static>, text: &str) -> (String, Device<'static>) {
    let mut run = Run {
        device,
        out: Box::new([0; MOST_FRAME]),
        left: VecDeque::new(),
    };
    let mut written = String::new();
    for (index, line) in text.lines().skip(1).enumerate() {
        let (reply, messages) = run
            .event(line)
            .unwrap_or_else(|fault| (format!("refused {}", fault.number()), Messages::NONE));
        write!(written, "{} {reply}", index + 1).expect("a string grows");
        for (pool, vectors) in messages.iter() {
            write!(written, " !{}:{vectors}", pool.get()).expect("a string grows");
        }
        written.push('\n');
    }
    for frame in &run.left {
        writeln!(written, "out {}", digits(frame)).expect("a string grows");
    }
    (written, run.device)
}

type Told = Result<(String, Messages), Fault>;

impl Run {
    fn event(&mut self, line: &str) -> Told {
        let words: Vec<&str> = line.split(' ').collect();
        let at = |i: usize| number(words[i]);
        let function = |i: usize| number(words[i]) as u8;
        let d = &mut self.device;
        match words[0] {
            "open" => d.open(function(1)).map(|()| ok(Messages::NONE)),
            "end" => d.end(function(1)).map(|()| ok(Messages::NONE)),
            "flr" => d.flr(function(1)).map(|()| ok(Messages::NONE)),
            "r" => d.vf_read(function(1), at(2) as u32).map(value),
            "w" => d.vf_write(function(1), at(2) as u32, at(3) as u32).map(ok),
            "mr" => {
                let mut out = vec![0; at(3) as usize];
                d.mem_read(function(1), at(2), &mut out)
                    .map(|()| (format!("bytes {}", digits(&out)), Messages::NONE))
            }
            "mw" => d
                .mem_write(function(1), at(2), &bytes(words[3]))
                .map(|()| ok(Messages::NONE)),
            "serve" => self.serve(function(1), if at(2) == 0 { Queue::Q0 } else { Queue::Q1 }),
            "pr" => d.pf_read(at(1) as u32).map(value),
            "pw" => d
                .pf_write(at(1) as u32, at(2) as u32)
                .map(|()| ok(Messages::NONE)),
            "preset" => d.pf_reset().map(|()| ok(Messages::NONE)),
            "wire" => d.wire(&bytes(words[1])).map(ok),
            other => panic!("no event {other}"),
        }
    }

    fn serve(&mut self, function: u8, queue: Queue) -> Told {
        let (served, messages) = self.device.serve(function, queue, &mut self.out)?;
        let reply = match served {
            Served::Idle => "idle",
            Served::More => "more",
            Served::Sent(left) => {
                if let Some(length) = left {
                    if self.left.len() == KEPT {
                        self.left.pop_front();
                    }
                    self.left.push_back(self.out[..length].to_vec());
                }
                "sent"
            }
            Served::Dropped => "dropped",
            Served::Faulted => "faulted",
        };
        Ok((reply.to_owned(), messages))
    }
}

fn ok(messages: Messages) -> (String, Messages) {
    ("ok".to_owned(), messages)
}

fn value(word: u32) -> (String, Messages) {
    (format!("= {word:#010x}"), Messages::NONE)
}

fn digits(bytes: &[u8]) -> String {
    if bytes.is_empty() {
        return "-".to_owned();
    }
    bytes.iter().map(|byte| format!("{byte:02x}")).collect()
}

// A number as scripts write it.
fn number(word: &str) -> u64 {
    match word.strip_prefix("0x") {
        Some(digits) => u64::from_str_radix(digits, 16).expect("a number"),
        None => word.parse().expect("a number"),
    }
}

// Bytes as scripts write them: chunks joined by dots, of digits or of one byte and how often.
fn bytes(word: &str) -> Vec<u8> {
    let mut all = Vec::new();
    for chunk in word.split('.').filter(|_| word != "-") {
        match chunk.split_once('*') {
            Some((byte, count)) => {
                let byte = u8::from_str_radix(byte, 16).expect("a byte");
                all.resize(all.len() + count.parse::<usize>().expect("a count"), byte);
            }
            None => all.extend(
                (0..chunk.len() / 2)
                    .map(|i| u8::from_str_radix(&chunk[2 * i..2 * i + 2], 16).expect("a byte")),
            ),
        }
    }
    all
}
