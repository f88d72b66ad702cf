//! Programs written as text: the library held to an assembler written from document 02, to texts whose image is known by
//! construction, and to answers written by hand; and images written as text, held to a lister written from document 02.

mod directed;
mod listed;
mod made;

use written::assembler::{Answer, assemble};

/// What lies around a lent image and must stay.
const GUARD: i64 = 0x5A5A_5A5A_5A5A_5A5A;

/// The library's answer for an image of so many numbers, with everything behind the cells written as it was.
fn library(text: &[u8], numbers: usize) -> Answer {
    let mut lent = vec![GUARD; numbers + 6];
    let told = z33::assemble(text, &mut lent[3..3 + numbers]);
    let written = 3 * told.count as usize;
    assert!(written <= numbers, "more cells than room");
    assert!(told.refusal == 0 || told.count == 0, "a refusal with a count");
    for (i, n) in lent.iter().enumerate() {
        assert!((3..3 + written).contains(&i) || *n == GUARD, "number {i} has changed: {:?}", String::from_utf8_lossy(text));
    }
    Answer { refusal: told.refusal, place: told.place, cells: lent[3..3 + written].chunks(3).map(|c| [c[0], c[1], c[2]]).collect() }
}

/// Holds the library to an answer.
pub fn hold(text: &[u8], numbers: usize, due: &Answer) {
    let got = library(text, numbers);
    assert!(got == *due, "{:?}\nin {numbers} numbers gives {got:?}\nand is due {due:?}", String::from_utf8_lossy(text));
}

fn main() {
    let directed = directed::run();
    let (texts, lines, changes) = made::run(20_000, 1);
    println!("text: {directed} written cases, {texts} made texts of {lines} lines, {changes} changed bytes: as they are due");
    let listed::Seen { cells, done, image, empty, room } = listed::run(20_000);
    println!("text: {done} listings of {cells} cells as they are due and assembled again, refused {image} by 9, {empty} by 16, {room} by 17");
}

/// The plain assembler and the library, on the same text and room.
pub fn compare(text: &[u8], numbers: usize) -> Answer {
    let due = assemble(text, numbers);
    hold(text, numbers, &due);
    due
}
