//! Old files through the listings tool, and what it lists through the runner.

use std::io::Write;
use std::process::{Command, Stdio};

use layout::refusal::EMPTY_CELL;
use layout::runner::BYTES;

use crate::image::{Image, at_the_edge, refused};
use crate::{course, old, recorded};

#[derive(Default)]
struct Tally {
    refused: usize,
    listed: usize,
    same: usize,
    leaning: usize,
    long: usize,
}

pub fn run(list: &str, lister: &str, runner: &str) {
    let mut tally = Tally::default();
    for (file, due) in old::files() {
        match due {
            Ok(image) => hold(&mut tally, lister, runner, &image, &file, &at_the_edge(&image)),
            Err(due) => {
                assert_eq!(printed(lister, &["loss"], &file), due, "{:?}", String::from_utf8_lossy(&file));
                assert_eq!(printed(lister, &[], &file), due, "{:?}", String::from_utf8_lossy(&file));
                tally.refused += 1;
            }
        }
    }
    for (image, due) in course::programs() {
        hold(&mut tally, lister, runner, &image, image.lines().as_bytes(), &due(&image));
    }
    for (image, due) in recorded::programs(list) {
        hold(&mut tally, lister, runner, &image, image.lines().as_bytes(), &due);
    }
    let Tally { refused, listed, same, leaning, long } = tally;
    println!(
        "old files: {refused} refused and {listed} listed as they are due; of the listings the runner gives {same} the old result, {leaning} that took an empty cell's word or kind the one with word 0 there, and {long} are too long for it"
    );
}

/// The listing of an old file is due, and running it gives what the old runner gave, or, where the run leaned on a gap, what word 0 gives there.
fn hold(tally: &mut Tally, lister: &str, runner: &str, image: &Image, file: &[u8], before: &str) {
    let listing = image.listing();
    let without = if image.has_gap() { refused(EMPTY_CELL, 0) } else { listing.clone() };
    assert_eq!(printed(lister, &["loss"], file), listing, "the listing of\n{}", image.lines());
    for arguments in [&[][..], &["lost"], &["Loss"], &["loss "], &["los"], &["loss", "loss"]] {
        assert_eq!(printed(lister, arguments, file), without, "{arguments:?} on\n{}", image.lines());
    }
    tally.listed += 1;
    let start = file.split_inclusive(|b| *b == b'\n').next().expect("a start line");
    let text = [start, listing.as_bytes()].concat();
    if text.len() > BYTES {
        tally.long += 1;
        return;
    }
    let now = printed(runner, &[], &text);
    let due = at_the_edge(&image.listed());
    assert_eq!(now, due, "the run of\n{}", String::from_utf8_lossy(&text));
    if now == before {
        tally.same += 1;
    } else {
        assert!(image.has_gap(), "no gap, and another result than before:\n{}", image.lines());
        tally.leaning += 1;
    }
}

/// What a program prints on standard output.
fn printed(program: &str, arguments: &[&str], input: &[u8]) -> String {
    let mut child = Command::new(program)
        .args(arguments)
        .stdin(Stdio::piped())
        .stdout(Stdio::piped())
        .stderr(Stdio::null())
        .spawn()
        .expect("the program starts");
    // A program that needs no more of its input ends before it is written.
    let _ = child.stdin.take().expect("a pipe").write_all(input);
    let output = child.wait_with_output().expect("the program ends");
    String::from_utf8(output.stdout).expect("text")
}
