//! Cards from a seed: moments over blocks as they may lie, and damage.

use super::{bytes_of, card_of, check, Block, Record, BLOCK, MOST_RECORDS};
use crate::random::Random;

/// The kinds of damage, so that a run can say that it met each.
pub const DAMAGES: [&str; 9] = [
    "none",
    "a changed byte",
    "a changed byte with a new check",
    "a cut",
    "a block lost",
    "a block twice",
    "two blocks swapped",
    "a flag turned",
    "an open end",
];

pub fn record(random: &mut Random, stamp: u32, last: bool) -> Record {
    let count = random.below(4);
    Record {
        stamp,
        predicate: random.number(),
        values: (0..count).map(|_| random.number()).collect(),
        last,
    }
}

/// Some moments; stamps may repeat and go back.
pub fn moments(random: &mut Random, most: usize) -> Vec<Vec<Record>> {
    let count = random.below(most + 1);
    let mut stamp = random.number();
    (0..count)
        .map(|_| {
            if !random.once_in(3) {
                stamp = random.number();
            }
            let size = random.between(1, 8);
            (1..=size)
                .map(|at| record(random, stamp, at == size))
                .collect()
        })
        .collect()
}

/// The records in blocks that are filled as it comes, with empty ones between and gaps after whole moments.
pub fn blocks(random: &mut Random, moments: &[Vec<Record>]) -> Vec<Block> {
    let high = random.once_in(4);
    let mut number = if high {
        u32::MAX - 12
    } else if random.once_in(3) {
        random.below(5) as u32
    } else {
        0
    };
    let records = moments.concat();
    let mut blocks = Vec::new();
    let mut at = 0;
    while at < records.len() || (blocks.len() < 2 && random.once_in(2)) {
        let room = if random.once_in(3) {
            MOST_RECORDS
        } else {
            random.below(6)
        };
        let end = records.len().min(at + room);
        blocks.push(Block {
            number,
            records: records[at..end].to_vec(),
        });
        let whole = end == 0 || end == records.len() || records[end - 1].last;
        let step = if whole && random.once_in(4) {
            random.between(2, 4) as u32
        } else {
            1
        };
        at = end;
        match number.checked_add(step) {
            Some(next) => number = next,
            None => break,
        }
    }
    blocks
}

fn remade(card: &mut [u8], place: usize) {
    let start = place * BLOCK;
    if card.len() >= start + BLOCK {
        let check = check(&card[start..start + 510]);
        card[start + 510..start + 512].copy_from_slice(&check);
    }
}

/// The card of a seed and index, and which damages it has.
pub fn card(seed: u64, index: u64) -> (Vec<u8>, Vec<usize>) {
    let mut random = Random::of_case(seed, index);
    let moments = moments(&mut random, 12);
    let mut all = blocks(&mut random, &moments);
    let mut damages = Vec::new();
    for _ in 0..random.below(4) {
        if all.is_empty() {
            break;
        }
        let place = random.below(all.len());
        match random.below(5) {
            0 => {
                all.remove(place);
                damages.push(4);
            }
            1 => {
                all.insert(place, all[place].clone());
                damages.push(5);
            }
            2 => {
                let other = random.below(all.len());
                all.swap(place, other);
                damages.push(6);
            }
            3 => {
                if let Some(record) = all[place].records.first_mut() {
                    record.last = !record.last;
                    damages.push(7);
                }
            }
            _ => {
                all[place].records.pop();
                damages.push(8);
            }
        }
    }
    let mut card = card_of(&all);
    for _ in 0..random.below(3) {
        if card.is_empty() {
            break;
        }
        let at = random.below(card.len());
        card[at] = if random.once_in(2) {
            random.below(256) as u8
        } else {
            card[at].wrapping_add(1)
        };
        if random.once_in(2) {
            remade(&mut card, at / BLOCK);
            damages.push(2);
        } else {
            damages.push(1);
        }
    }
    if random.once_in(6) {
        card.truncate(random.below(card.len() + 1));
        damages.push(3);
    }
    if damages.is_empty() {
        damages.push(0);
    }
    (card, damages)
}

/// Cards that are damaged in every byte of a block, with the old check and with a new one, and cut at every byte of one.
pub fn systematic() -> Vec<Vec<u8>> {
    let mut random = Random::of_case(10, 10);
    let moments: Vec<Vec<Record>> = (0..9)
        .map(|at| {
            let size = 1 + at % 8;
            (1..=size)
                .map(|place| record(&mut random, at as u32, place == size))
                .collect()
        })
        .collect();
    let records = moments.concat();
    let mut all = vec![
        Block {
            number: 3,
            records: records[..10].to_vec(),
        },
        Block {
            number: 4,
            records: records[10..25].to_vec(),
        },
        Block {
            number: 5,
            records: Vec::new(),
        },
        Block {
            number: 6,
            records: records[25..].to_vec(),
        },
    ];
    all[1].records.truncate(15);
    let card = card_of(&all);
    let mut cards = vec![card.clone()];
    for at in BLOCK..2 * BLOCK {
        let mut damaged = card.clone();
        damaged[at] = damaged[at].wrapping_add(1);
        cards.push(damaged.clone());
        remade(&mut damaged, 1);
        cards.push(damaged);
    }
    for at in 0..BLOCK {
        cards.push(card[..BLOCK + at].to_vec());
    }
    // The last number of all, a ninth record, and 0 for 255.
    cards.push(bytes_of(&Block {
        number: u32::MAX,
        records: records[..1].to_vec(),
    }));
    let mut nine = vec![record(&mut random, 1, false); 9];
    nine[8].last = true;
    cards.push(bytes_of(&Block {
        number: 0,
        records: nine,
    }));
    let mut unseen = bytes_of(&Block {
        number: 0,
        records: records[..1].to_vec(),
    });
    unseen[2] = 255;
    cards.push(unseen);
    cards
}
