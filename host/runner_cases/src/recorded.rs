//! The recorded list's programs for the runner (host/recorded/FORMAT.md, "Cases for the runner").

use layout::{ROW, Row, at};

use crate::image::{Image, Ran, eight_lines};

/// Each program and the eight lines that were recorded of it.
pub fn programs(list: &str) -> Vec<(Image, String)> {
    let mut all = Vec::new();
    let mut open: Option<(Image, Row, Ran)> = None;
    for line in list.lines() {
        let numbers: Vec<i64> = line.split(',').map(|field| field.parse().expect("a number")).collect();
        let [kind, a, b, c, d] = numbers[..] else { panic!("five numbers stand in a line") };
        match (kind, &mut open) {
            (1, _) => open = (d == 1).then(|| (Image::default(), [0; ROW], [0; 4])),
            (2, Some((image, _, _))) => image.cells.push((a, [b, c, d])),
            (3, Some((image, row, _))) => {
                let place = place(a);
                row[place] = b;
                image.start[place - at::PC] = b;
            }
            (7, Some((_, _, ran))) => ran[3] = answer(a),
            (10, Some((_, _, ran))) => [ran[0], ran[1], ran[2]] = [b, c, d].map(answer),
            (21, Some((_, row, _))) => row[place(a)] = b,
            (29, Some((image, row, ran))) => {
                all.push((image.clone(), eight_lines(*ran, row)));
                open = None;
            }
            _ => {}
        }
    }
    all
}

fn answer(number: i64) -> u64 {
    number.try_into().expect("no negative answer")
}

fn place(from_1: i64) -> usize {
    usize::try_from(from_1 - 1).expect("a place of the row")
}
