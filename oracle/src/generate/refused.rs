//! Cases with one more thing wrong that refusals 1 to 3 look at.

use crate::case::{Begin, Case};
use crate::random::Random;
use crate::rows::{FIELDS, MOST_ROWS};

/// The case with one thing broken; now and then it happens to stay right.
pub fn refuse(random: &mut Random, case: &Case) -> Case {
    let mut broken = case.clone();
    match random.below(14) {
        0 => {
            let wrong = *random.pick(&[0, 11, 12, 32, u32::MAX]);
            match &mut broken.begin {
                Begin::Start { k } => *k = wrong,
                Begin::Given(state) => state.k = wrong,
            }
        }
        1 => broken.nodes.push(0),
        2 => broken.nodes.clear(),
        3 => broken.nodes.resize(3 * 4097, 0),
        4 => {
            let length = broken.values.len();
            let other = [0, length.saturating_sub(1), length + 1];
            broken.values.resize(*random.pick(&other), 0);
        }
        5 => broken.work.truncate(16 * (case.nodes.len() / 3) + 1023),
        _ => break_rows(random, &mut broken.rows),
    }
    broken
}

fn break_rows(random: &mut Random, rows: &mut Vec<u32>) {
    let count = rows.len() / FIELDS;
    if count == 0 {
        return;
    }
    let last = FIELDS * (count - 1);
    let some = FIELDS * random.below(count);
    match random.below(8) {
        0 => rows.truncate(random.below(FIELDS * count)),
        1 => rows.clear(),
        2 => {
            let row = rows[last..last + FIELDS].to_vec();
            let more = random.between(MOST_ROWS + 1, MOST_ROWS + 2);
            while rows.len() < FIELDS * more {
                rows.extend(&row);
            }
        }
        3 | 4 => rows[some + random.below(FIELDS)] = random.number(),
        5 => rows[random.below(FIELDS)] = random.number(),
        6 => {
            // An atom of any count, for a predicate that the made rules use.
            let (predicate, arguments) = (random.between(1, 3) as u32, random.below(4) as u32);
            let atom = [2, predicate, arguments, 0, 0, 0, 0, 0, 0];
            rows[some..some + FIELDS].copy_from_slice(&atom);
        }
        _ => rows[last..last + FIELDS].copy_from_slice(&[2, 9, 1, 0, 2, 0, 0, 0, 0]),
    }
}
