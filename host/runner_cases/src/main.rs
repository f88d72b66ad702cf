//! The runner's cases, and the old files of the listings tool.
//! `runner_cases write LIST FOLDER` writes the files of crates/runner_cases: inputs of the runner, each with the text that is due: the course's programs by the
//! judge's answers, refused files, and the recorded list's programs.
//! `runner_cases old LIST LISTER RUNNER` holds the listings tool to the same programs in their old lines, and the runner to what it lists.

mod course;
mod held;
mod image;
mod malformed;
mod old;
mod recorded;

use std::path::Path;

use image::{Image, at_the_edge};

/// An input, and the whole output that is due.
pub struct Case {
    pub input: Vec<u8>,
    pub due: String,
}

/// The replaying program reads no longer file.
const MOST: usize = 65_000;

/// The recorded programs whose files are no longer are kept as cases; `old` runs all of them.
const SHORT: usize = 2_500;

fn main() {
    let arguments: Vec<String> = std::env::args().collect();
    match arguments.iter().map(String::as_str).collect::<Vec<_>>()[1..] {
        ["write", list, folder] => {
            write(folder, "course", &course());
            write(folder, "refused", &malformed::cases());
            write(folder, "recorded", &recorded(&read(list)));
        }
        ["old", list, lister, runner] => held::run(&read(list), lister, runner),
        _ => {
            eprintln!("usage: runner_cases write LIST FOLDER | old LIST LISTER RUNNER");
            std::process::exit(2);
        }
    }
}

fn read(list: &str) -> String {
    std::fs::read_to_string(list).expect("the recorded list can be read")
}

/// A program as text; its gaps are word 0.
fn case(image: &Image, due: fn(&Image) -> String) -> Case {
    Case { input: image.file().into_bytes(), due: due(&image.listed()) }
}

fn course() -> Vec<Case> {
    course::programs().iter().map(|(image, due)| case(image, *due)).collect()
}

fn recorded(list: &str) -> Vec<Case> {
    let all = recorded::programs(list);
    all.iter()
        .filter(|(image, _)| image.file().len() <= SHORT)
        .map(|(image, _)| case(image, at_the_edge))
        .collect()
}

/// Writes the cases to NAME-1, NAME-2, .., each short enough, and says how many they are.
fn write(folder: &str, name: &str, cases: &[Case]) {
    let mut files: Vec<(Vec<u8>, usize)> = vec![(Vec::new(), 0)];
    for case in cases {
        let text = text_of(case);
        if files.last().is_some_and(|(bytes, _)| bytes.len() + text.len() > MOST) {
            files.push((Vec::new(), 0));
        }
        let (bytes, count) = files.last_mut().expect("there is always one");
        bytes.extend(text);
        *count += 1;
    }
    for (number, (bytes, count)) in (1..).zip(files) {
        let file = format!("{name}-{number}");
        std::fs::write(Path::new(folder).join(&file), bytes).expect("the file can be written");
        println!("{file}: passed {count} of {count}");
    }
}

fn text_of(case: &Case) -> Vec<u8> {
    let mut text = format!("{:07},{:07}\n", case.input.len(), case.due.len()).into_bytes();
    text.extend(&case.input);
    text.extend(case.due.as_bytes());
    text
}
