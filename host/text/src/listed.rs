//! Listings: the library held to a lister written from document 02, and each listing assembled again.

use draws::edges;
use draws::every;
use draws::rng::Rng;
use written::lister::line;

type Cell = [i64; 3];

/// What lies around a lent buffer and must stay.
const GUARD: u8 = 0xA5;

const EMPTY: Cell = [0, 0, 0];

/// Refusal, place and text: 9, then "16 empty cell without leave; 17 text buffer too short".
fn due(image: &[i64], room: usize, allow_empty: u64) -> (u64, u64, String) {
    let cells: Vec<Cell> = image.chunks_exact(3).map(|c| [c[0], c[1], c[2]]).collect();
    let none = String::new();
    if image.len() % 3 != 0 || !cells.iter().all(|cell| ::plain::sound(*cell)) {
        return (9, 0, none);
    }
    if allow_empty == 0 && cells.contains(&EMPTY) {
        return (16, 0, none);
    }
    let text: String = cells.iter().map(|cell| line(*cell)).collect();
    if room < text.len() { (17, 0, none) } else { (0, 0, text) }
}

/// How often each outcome was met: done, 9, 16, 17.
#[derive(Default)]
pub struct Seen {
    pub cells: usize,
    pub done: usize,
    pub image: usize,
    pub empty: usize,
    pub room: usize,
}

/// Holds the library's listing into so much room to what is due, and assembles it again.
fn hold(seen: &mut Seen, image: &[i64], room: usize, allow_empty: u64) {
    let (refusal, place, text) = due(image, room, allow_empty);
    let mut lent = vec![GUARD; room + 16];
    let told = z33::list(image, &mut lent[8..8 + room], allow_empty);
    assert_eq!(
        (told.refusal, told.place, told.count),
        (refusal, place, text.len() as u64),
        "{image:?} into {room}"
    );
    assert_eq!(&lent[8..8 + text.len()], text.as_bytes(), "the text of {image:?}");
    assert!(
        lent[..8].iter().chain(&lent[8 + text.len()..]).all(|b| *b == GUARD),
        "bytes around the text of {image:?}"
    );
    match refusal {
        0 => seen.done += 1,
        9 => seen.image += 1,
        16 => seen.empty += 1,
        _ => seen.room += 1,
    }
    if refusal == 0 {
        seen.cells += image.len() / 3;
        let kept: Vec<i64> = image
            .chunks_exact(3)
            .flat_map(|c| if c == EMPTY { [1, 0, 0] } else { [c[0], c[1], c[2]] })
            .collect();
        let mut back = vec![7; image.len()];
        let told = z33::assemble(text.as_bytes(), &mut back[..]);
        assert_eq!(
            (told.refusal, told.place, told.count),
            (0, 0, image.len() as u64 / 3),
            "{text:?} assembled"
        );
        assert_eq!(back, kept, "{text:?} assembled");
    }
}

/// Every form at every edge, its line with the room that it takes and with one byte less.
fn each_form(seen: &mut Seen) {
    let words = edges::WORDS.iter().map(|&w| [1, w, 0]);
    for cell in every::instructions().into_iter().chain(words) {
        let length = line(cell).len();
        hold(seen, &cell, length, 0);
        hold(seen, &cell, length - 1, 1);
    }
}

/// The edges of each refusal, and their order.
fn directed(seen: &mut Seen) {
    let damaged = [1, 0, 1];
    let nop = [
        every::instructions().into_iter().find(|cell| line(*cell) == "nop\n").expect("nop is a form")[0],
        0,
        0,
    ];
    for numbers in 0..7 {
        hold(seen, &[nop, nop, nop].concat()[..numbers], 100, 0);
    }
    let images = [
        vec![],
        vec![EMPTY],
        vec![nop],
        vec![EMPTY, nop],
        vec![damaged],
        vec![EMPTY, damaged],
        vec![nop, damaged],
        vec![nop, EMPTY, [1, i64::MIN, 0]],
    ];
    for image in images {
        for room in 0..60 {
            for allow_empty in [0, 1, 2, 1 << 32, u64::MAX] {
                hold(seen, &image.concat(), room, allow_empty);
            }
        }
    }
    assert_eq!(z33::list(None, None, 0), z33::Counted::default(), "nothing into nothing");
}

/// Drawn images, now and then with a number changed, in drawn rooms about the one that they take.
fn drawn(seen: &mut Seen, images: usize) {
    let mut rng = Rng::new(3);
    for _ in 0..images {
        let allow_empty = if rng.once_in(3) { 0 } else { rng.draw() };
        let mut image: Vec<i64> = (0..rng.below(12)).flat_map(|_| edges::cell(&mut rng)).collect();
        if !image.is_empty() && rng.once_in(8) {
            let at = rng.below(image.len());
            image[at] = edges::word(&mut rng);
        }
        if rng.once_in(16) {
            image.pop();
        }
        let length = due(&image, usize::MAX, 1).2.len();
        let room = if rng.once_in(3) { rng.below(length + 8) } else { length + rng.below(3) };
        hold(seen, &image, room, allow_empty);
    }
}

pub fn run(images: usize) -> Seen {
    let mut seen = Seen::default();
    each_form(&mut seen);
    directed(&mut seen);
    drawn(&mut seen, images);
    assert!(seen.done > 0 && seen.image > 0 && seen.empty > 0 && seen.room > 0, "an outcome was not met");
    seen
}
