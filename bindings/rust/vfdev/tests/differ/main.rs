//! 200 scripts by chance: what this crate answers, written as `vfdev run` writes it, is that program's output byte for byte. A
//! device whose calls are recorded answers the same, and the recording replays.
//!
//! `VFDEV_PROGRAM` names the program; where it is unset it is the one that is built in this repository. The comparison fails where there
//! is none.

mod chance;
mod generate;
mod script;

use std::env;
use std::io::Write;
use std::path::{Path, PathBuf};
use std::process::{Command, Stdio};

// The program, which is there.
fn program() -> PathBuf {
    let built = concat!(
        env!("CARGO_MANIFEST_DIR"),
        "/../../../crates/vfdev/out/vfdev"
    );
    let program = env::var_os("VFDEV_PROGRAM").map_or_else(|| PathBuf::from(built), PathBuf::from);
    assert!(
        program.is_file(),
        "there is no program {}: at the top of the repository './vfdev run <examples/one_frame.script' builds it, and VFDEV_PROGRAM \
         names another",
        program.display()
    );
    program
}

// What the program writes for a script.
fn by_program(program: &Path, text: &str) -> Vec<u8> {
    let mut child = Command::new(program)
        .arg("run")
        .stdin(Stdio::piped())
        .stdout(Stdio::piped())
        .spawn()
        .unwrap_or_else(|error| panic!("{} doesn't start: {error}", program.display()));
    let mut input = child.stdin.take().expect("its input is a pipe");
    // the program reads the whole script before it writes
    input.write_all(text.as_bytes()).expect("the program reads");
    drop(input);
    let output = child.wait_with_output().expect("the program ends");
    assert!(
        output.status.success(),
        "the program refuses the script:\n{text}"
    );
    output.stdout
}

#[test]
fn scripts_by_chance_answer_alike() {
    let program = program();
    let mut left = 0;
    let mut told = 0;
    for seed in 0..200 {
        let text = generate::script(seed);
        let ours = script::run(&text);
        let theirs = by_program(&program, &text);
        assert!(ours.as_bytes() == theirs, "seed {seed} differs");
        left += ours.lines().filter(|line| line.starts_with("out ")).count();
        told += ours.lines().filter(|line| line.contains('!')).count();
    }
    // the scripts reach what they are for
    assert!(left > 1000, "only {left} frames left");
    assert!(told > 1000, "only {told} events issued messages");
}

#[test]
fn kept_scripts_answer_alike_and_replay() {
    for seed in 0..200 {
        let text = generate::script(seed);
        let kept = script::run_recorded(&text);
        assert!(kept == script::run(&text), "seed {seed} differs");
    }
}
