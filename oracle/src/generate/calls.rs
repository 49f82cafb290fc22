//! Trials of the two calls, each from a seed and an index.

use crate::case::{Begin, Case};
use crate::event::{Answer, State};
use crate::generate::bases::{either, from_start, from_state};
use crate::generate::disguise::{disguise, renaming};
use crate::generate::disturb::{disturb, CLAUSES};
use crate::generate::moments;
use crate::generate::refused::refuse;
use crate::generate::smear::{smear, smeared, within_reach};
use crate::monitor::{event, start};
use crate::random::Random;
use crate::trial::Trial;

pub fn trial(seed: u64, index: u64) -> Trial {
    let mut random = Random::of_case(seed, index);
    let random = &mut random;
    match index % 11 {
        0 | 1 => Trial::Alone(from_start(random)),
        2 | 3 => Trial::Alone(from_state(random)),
        4 | 5 => disturbed(random),
        6 => at_room(random),
        7 => Trial::Alone(broken(random)),
        8 => Trial::Alone(smeared(random)),
        9 => disguised(random),
        _ => reordered(random),
    }
}

fn disturbed(random: &mut Random) -> Trial {
    let clause = *random.pick(&CLAUSES);
    loop {
        let neighbour = from_state(random);
        if let Some(disturbed) = disturb(random, &neighbour, clause) {
            return Trial::Disturbed {
                neighbour,
                disturbed,
            };
        }
    }
}

/// The most room that an event of the case needs, if it is started and C is large enough.
fn most_room(case: &Case) -> u32 {
    let mut case = case.clone();
    let mut state = match case.begin {
        Begin::Given(state) => state,
        Begin::Start { k } => start(k, &case.rows, &mut case.nodes, &mut case.values).0,
    };
    let mut most = 0;
    for facts in &case.events {
        let (next, answer) = event(
            state,
            &case.rows,
            &mut case.nodes,
            &mut case.values,
            &mut case.work,
            facts,
        );
        state = next;
        if let Answer::Verdict { room, .. } = answer {
            most = most.max(room);
        }
    }
    most
}

fn at_room(random: &mut Random) -> Trial {
    loop {
        let case = either(random);
        let most = most_room(&case.with_count(4096)) as usize;
        let kept = match case.begin {
            Begin::Given(State { kept, .. }) => kept as usize,
            Begin::Start { .. } => 0,
        };
        if most > 1 && most > kept {
            return Trial::AtRoom {
                enough: case.with_count(most),
                short: case.with_count(most - 1),
            };
        }
    }
}

/// Something that refusals 1 to 3 look at is broken.
fn broken(random: &mut Random) -> Case {
    loop {
        let whole = either(random);
        let mut broken = refuse(random, &whole);
        // More that is wrong shows in which order the refusals are looked at.
        if random.once_in(3) {
            broken = refuse(random, &broken);
        }
        if random.once_in(3) {
            smear(random, &mut broken);
        }
        if within_reach(&broken) {
            return broken;
        }
    }
}

fn disguised(random: &mut Random) -> Trial {
    let plain = from_start(random);
    let renaming = renaming(random, &plain);
    Trial::Disguised {
        disguised: disguise(random, &plain, &renaming),
        plain,
        renaming,
    }
}

/// A log in which some event has several facts, and the same with its facts in another order.
fn reordered(random: &mut Random) -> Trial {
    loop {
        let mut one = from_start(random);
        if one.events.iter().any(|event| event.facts.len() > 1) {
            // With no node to spare one order may be taken alone.
            if random.once_in(2) {
                let most = most_room(&one.with_count(4096)) as usize;
                one = one.with_count(most.max(1));
            }
            return Trial::Reordered {
                other: moments::reordered(random, &one),
                one,
            };
        }
    }
}
