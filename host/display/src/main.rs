//! Listings and the Rust: a cell's line is what the original's `Display` writes, runs of spaces folded into one, and behind `.word` for a
//! word or an empty cell.

use draws::edges::WORDS;
use draws::every;
use layout::cell::{self, EMPTY, TAG_LEAST_INSTRUCTION};
use layout::form::{Form, LEGAL};

/// The library's line of a cell, without its end.
fn line(cell: [i64; 3]) -> String {
    let mut text = [0; 80];
    let told = z33::list(&cell[..], &mut text[..], 1);
    assert_eq!((told.refusal, told.place), (0, 0), "{cell:?} was not listed");
    let line = std::str::from_utf8(&text[..told.count as usize]).expect("a listing is ASCII");
    line.strip_suffix('\n').expect("a line has an end").to_string()
}

/// What the original writes, each run of spaces as one.
fn shown(cell: [i64; 3]) -> String {
    let text = judge::shown(cell).expect("the cell is sound");
    let folded: Vec<&str> = text.split(' ').filter(|word| !word.is_empty()).collect();
    if cell[0] < TAG_LEAST_INSTRUCTION { format!(".word {}", folded.join(" ")) } else { folded.join(" ") }
}

fn main() {
    let instructions = every::instructions();
    let words = WORDS.iter().map(|&w| cell::word(w)).chain([EMPTY]);
    let mut forms = vec![false; layout::form::FORMS];
    let mut count = 0;
    for cell in instructions.iter().copied().chain(words) {
        assert_eq!(line(cell), shown(cell), "the line of {cell:?}, and what the Rust displays");
        if cell[0] >= TAG_LEAST_INSTRUCTION {
            forms[Form::of_tag(cell[0]).entry()] = true;
        }
        count += 1;
    }
    assert_eq!(forms.iter().filter(|seen| **seen).count(), LEGAL, "a form was not seen");
    println!(
        "display: {count} cells of all {LEGAL} forms: the listing's line is the Rust's own display, spaces folded"
    );
}
