//! What the program costs without QEMU: frames between two guests, while two or all functions are attached. It tests nothing, and is for
//! `bench/server`.

use crate::driver::Guest;
use crate::program::{Folder, Server};
use std::env;
use std::fs;
use std::thread::sleep;
use std::time::{Duration, Instant};
use vfdev::regs;

const ROUNDS: usize = 3;
// How long a round takes.
const ROUND: Duration = Duration::from_secs(2);
const FUNCTIONS: u8 = 64;
// Frames of so many bytes without FCS, and so many that are under way at a time.
const KINDS: [(usize, u32); 4] = [(60, 1), (60, 64), (1514, 1), (1514, 64)];

// The words for the server, of `bench/server`.
const WORDS: &str = "VFDEV_SERVER_WORDS";
// How long a guest waits before it sends a frame, in microseconds, and how many it sends so.
const PAUSES: [u64; 4] = [0, 100, 1000, 10_000];
const SINGLE_FRAMES: usize = 200;
// How long nobody says anything.
const SILENCE: Duration = Duration::from_secs(2);

// How long the server has had a processor, in microseconds.
fn busy(server: &Server) -> f64 {
    let text = fs::read_to_string(format!("/proc/{}/schedstat", server.process()));
    let text = text.expect("a process");
    let nanoseconds = text.split(' ').next().and_then(|word| word.parse().ok());
    nanoseconds.unwrap_or(0.0) / 1000.0
}

// Frames a second, and the server's microseconds for each.
fn frames(
    server: &Server,
    [one, two]: [&mut Guest; 2],
    (size, together): (usize, u32),
) -> (f64, f64) {
    let frame = one.frame(two.mac, &vec![0x5A; size - 14]);
    let (begun, before) = (Instant::now(), busy(server));
    let mut count = 0;
    while begun.elapsed() < ROUND {
        for _ in 0..together {
            one.send(&frame);
        }
        for number in 0..together {
            assert!(two.wait() == frame, "frame {number}");
        }
        count += together;
    }
    let (seconds, busy) = (begun.elapsed().as_secs_f64(), busy(server) - before);
    (f64::from(count) / seconds, busy / f64::from(count))
}

// The rounds of each kind of frame, a row of a table each.
fn tell(server: &Server, guests: &mut [Guest]) {
    let attached = guests.len();
    let [one, two] = &mut guests[..2] else {
        panic!("two guests");
    };
    for kind in KINDS {
        let rounds: Vec<_> = (0..ROUNDS)
            .map(|_| frames(server, [&mut *one, &mut *two], kind))
            .collect();
        let rates: Vec<_> = rounds
            .iter()
            .map(|round| format!("{:.0}", round.0))
            .collect();
        let costs: Vec<_> = rounds
            .iter()
            .map(|round| format!("{:.2}", round.1))
            .collect();
        let (size, together) = kind;
        println!(
            "| {attached} | {size} | {together} | {} | {} |",
            rates.join(" "),
            costs.join(" ")
        );
    }
}

// How long frames take that come by themselves, and what a server costs whose guests say nothing.
fn tell_single(server: &Server, guests: &mut [Guest]) {
    let [one, two] = &mut guests[..2] else {
        panic!("two guests");
    };
    println!("| Pause before a frame, microseconds | Until it is there: median, of ten the longest but one | Microseconds of the server's for each |");
    println!("|---|---|---|");
    for pause in PAUSES {
        let before = busy(server);
        let mut times: Vec<Duration> = (0..SINGLE_FRAMES)
            .map(|_| {
                sleep(Duration::from_micros(pause));
                let begun = Instant::now();
                one.send(&one.frame(two.mac, b"single"));
                two.wait();
                begun.elapsed()
            })
            .collect();
        times.sort();
        let [median, long] = [5, 9].map(|tenth| times[SINGLE_FRAMES * tenth / 10].as_micros());
        let cost = (busy(server) - before) / SINGLE_FRAMES as f64;
        println!("| {pause} | {median} {long} | {cost:.1} |");
    }
    sleep(Duration::from_millis(200));
    let (begun, before) = (Instant::now(), busy(server));
    sleep(SILENCE);
    let part = (busy(server) - before) / begun.elapsed().as_micros() as f64;
    println!(
        "while nobody says anything: {:.2} % of a processor",
        100.0 * part
    );
}

#[test]
#[ignore = "it measures"]
fn frames_are_counted() {
    let given = env::var(WORDS).unwrap_or_default();
    let mut words: Vec<&str> = given.split_whitespace().collect();
    let attach = match words.contains(&"--transmit-page") {
        true => Guest::attach_with_page,
        false => Guest::attach,
    };
    words.extend(["--log-level", "error"]);
    let server = Server::with(Folder::new(), FUNCTIONS, &words);
    let mut guests: Vec<Guest> = (0..2).map(|function| attach(&server, function)).collect();
    tell_single(&server, &mut guests);
    println!("| Functions attached | Bytes | Under way | Frames a second | Microseconds of the server's for each |");
    println!("|---|---|---|---|---|");
    tell(&server, &mut guests);
    let begun = Instant::now();
    guests.extend((2..FUNCTIONS).map(|function| attach(&server, function)));
    let each = begun.elapsed().as_secs_f64() * 1e6 / f64::from(FUNCTIONS - 2);
    for guest in &mut guests {
        let links = guest.client.read(regs::VFLINKS);
        assert_ne!(links & regs::VFLINKS_LINK_UP, 0, "the link is up");
    }
    tell(&server, &mut guests);
    println!("from the connection to a driver whose link is up and whose queues are on: {each:.0} microseconds, of {} functions one by one", FUNCTIONS - 2);
}
