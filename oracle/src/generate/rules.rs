//! Rules that no refusal 2 meets.

use crate::random::Random;
use crate::rows::{Argument, Row, Rule, FIELDS, MOST_ROWS, VARIABLES};

/// What a made rule may use.
#[derive(Clone, Copy, Debug)]
pub struct Wish {
    pub variables: usize,
    pub rows: usize,
}

/// The constants that atoms use. Small ones look like numbers given to values.
pub const CONSTANTS: [u32; 4] = [6, 0, 1, u32::MAX];

/// The predicates that atoms use.
pub const PREDICATES: [u32; 3] = [1, 2, 3];

/// The nine numbers of a row.
pub fn encode(row: &Row) -> [u32; FIELDS] {
    let mut fields = [0; FIELDS];
    let head = match row {
        Row::True => [1, 0, 0],
        Row::Atom {
            predicate,
            arguments,
        } => {
            for (pair, argument) in fields[3..].chunks_mut(2).zip(arguments) {
                match *argument {
                    Argument::Variable(variable) => pair[1] = variable as u32,
                    Argument::Constant(value) => pair.copy_from_slice(&[1, value]),
                }
            }
            [2, *predicate, arguments.len() as u32]
        }
        Row::And(left, right) => [3, *left as u32, *right as u32],
        Row::Not(below) => [4, *below as u32, 0],
        Row::Since { left, right } => [5, *left as u32, *right as u32],
        Row::Previous(below) => [6, *below as u32, 0],
        Row::Exists { variable, row } => [7, *variable as u32, *row as u32],
    };
    fields[..3].copy_from_slice(&head);
    fields
}

/// A rule of at least one row, and at most as many as wished and four more that close it.
pub fn rule(random: &mut Random, wish: Wish) -> Vec<u32> {
    let counts: Vec<usize> = PREDICATES.iter().map(|_| random.below(4)).collect();
    let named: Vec<usize> = named_variables(random, wish.variables);
    let mut rows: Vec<Row> = Vec::new();
    for place in 0..random.between(1, wish.rows) {
        let row = if place == 0 || random.once_in(4) {
            leaf(random, &counts, &named)
        } else {
            inner(random, place)
        };
        rows.push(row);
    }
    close(random, &mut rows);
    rows.iter().flat_map(encode).collect()
}

/// A rule over atoms of one predicate whose variables are turned round, so that one event asks one variable many numbers.
pub fn turned(random: &mut Random, count: usize) -> Vec<u32> {
    let named = named_variables(random, count);
    let mut rows: Vec<Row> = (0..count)
        .map(|turn| Row::Atom {
            predicate: PREDICATES[0],
            arguments: (0..count)
                .map(|place| Argument::Variable(named[(place + turn) % count]))
                .collect(),
        })
        .collect();
    for place in count..random.between(count, count + 4) {
        rows.push(inner(random, place));
    }
    close(random, &mut rows);
    rows.iter().flat_map(encode).collect()
}

/// Which of the four variables a rule names.
fn named_variables(random: &mut Random, count: usize) -> Vec<usize> {
    let mut named: Vec<usize> = (0..VARIABLES).collect();
    while named.len() > count {
        named.remove(random.below(named.len()));
    }
    named
}

fn leaf(random: &mut Random, counts: &[usize], named: &[usize]) -> Row {
    if random.once_in(8) {
        return Row::True;
    }
    let which = random.below(counts.len());
    let argument = |random: &mut Random| {
        if named.is_empty() || random.once_in(6) {
            Argument::Constant(*random.pick(&CONSTANTS))
        } else {
            Argument::Variable(*random.pick(named))
        }
    };
    Row::Atom {
        predicate: PREDICATES[which],
        arguments: (0..counts[which]).map(|_| argument(random)).collect(),
    }
}

fn inner(random: &mut Random, place: usize) -> Row {
    // Rows near by are taken more often, so that rules grow deep and not only wide.
    let mut below = || {
        let back = if random.once_in(3) {
            place
        } else {
            place.min(3)
        };
        place - 1 - random.below(back)
    };
    let (one, two) = (below(), below());
    match random.below(10) {
        0 | 1 => Row::And(one, two),
        2 | 3 => Row::Not(one),
        4..=6 => Row::Since {
            left: one,
            right: two,
        },
        7 => Row::Previous(one),
        _ => Row::Exists {
            variable: random.below(VARIABLES),
            row: one,
        },
    }
}

/// Adds exists rows until the last row has no free variable, sometimes with a not between.
pub fn close(random: &mut Random, rows: &mut Vec<Row>) {
    let free = free_in_last(rows);
    for variable in (0..VARIABLES).filter(|&variable| free[variable]) {
        rows.push(Row::Exists {
            variable,
            row: rows.len() - 1,
        });
        if random.once_in(3) && rows.len() < MOST_ROWS - VARIABLES {
            rows.push(Row::Not(rows.len() - 1));
        }
    }
}

fn free_in_last(rows: &[Row]) -> [bool; VARIABLES] {
    let mut closed: Vec<Row> = rows.to_vec();
    closed.push(Row::True);
    let numbers: Vec<u32> = closed.iter().flat_map(encode).collect();
    let rule = Rule::read(&numbers).expect("the rows are right and the last is closed");
    rule.free[rows.len() - 1]
}
