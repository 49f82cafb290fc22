//! The rows of a rule: what they say, which variables are free in them, and which row is refused with 2.

/// How many numbers make a row.
pub const FIELDS: usize = 9;
/// How many rows a rule has at most.
pub const MOST_ROWS: usize = 64;
/// How many variables there are.
pub const VARIABLES: usize = 4;

#[derive(Clone, Copy, Debug, PartialEq, Eq)]
pub enum Argument {
    Variable(usize),
    Constant(u32),
}

#[derive(Clone, Debug, PartialEq, Eq)]
pub enum Row {
    True,
    Atom {
        predicate: u32,
        arguments: Vec<Argument>,
    },
    And(usize, usize),
    Not(usize),
    Since {
        left: usize,
        right: usize,
    },
    Previous(usize),
    Exists {
        variable: usize,
        row: usize,
    },
}

/// The rows of a rule that no refusal 2 meets, with the free variables of each.
#[derive(Clone, Debug)]
pub struct Rule {
    pub rows: Vec<Row>,
    pub free: Vec<[bool; VARIABLES]>,
}

impl Rule {
    /// Reads a row slice, or gives the place of refusal 2.
    pub fn read(numbers: &[u32]) -> Result<Rule, u32> {
        let count = numbers.len() / FIELDS;
        if !numbers.len().is_multiple_of(FIELDS) || !(1..=MOST_ROWS).contains(&count) {
            return Err(0);
        }
        let mut rule = Rule {
            rows: Vec::new(),
            free: Vec::new(),
        };
        for (place, fields) in numbers.chunks(FIELDS).enumerate() {
            let row = read_row(fields, place).ok_or(place as u32)?;
            if rule.disagrees_in_count(&row) {
                return Err(place as u32);
            }
            rule.free.push(rule.free_in(&row));
            rule.rows.push(row);
        }
        if rule.free[count - 1] != [false; VARIABLES] {
            return Err(count as u32 - 1);
        }
        Ok(rule)
    }

    /// The argument count that the rule gives a predicate, if it names it.
    pub fn count_of(&self, named: u32) -> Option<usize> {
        self.rows.iter().find_map(|row| match row {
            Row::Atom {
                predicate,
                arguments,
            } if *predicate == named => Some(arguments.len()),
            _ => None,
        })
    }

    /// The variables that some row of the rule has free. No function of a row depends on any other.
    pub fn variables(&self) -> Vec<usize> {
        (0..VARIABLES)
            .filter(|&variable| self.free.iter().any(|free| free[variable]))
            .collect()
    }

    fn disagrees_in_count(&self, row: &Row) -> bool {
        match row {
            Row::Atom {
                predicate,
                arguments,
            } => self
                .count_of(*predicate)
                .is_some_and(|count| count != arguments.len()),
            _ => false,
        }
    }

    fn free_in(&self, row: &Row) -> [bool; VARIABLES] {
        let mut free = [false; VARIABLES];
        match row {
            Row::True => {}
            Row::Atom { arguments, .. } => {
                for argument in arguments {
                    if let Argument::Variable(variable) = argument {
                        free[*variable] = true;
                    }
                }
            }
            Row::And(left, right) | Row::Since { left, right } => {
                for (variable, is_free) in free.iter_mut().enumerate() {
                    *is_free = self.free[*left][variable] || self.free[*right][variable];
                }
            }
            Row::Not(below) | Row::Previous(below) => free = self.free[*below],
            Row::Exists { variable, row } => {
                free = self.free[*row];
                free[*variable] = false;
            }
        }
        free
    }
}

/// Reads the nine numbers of the row at a place, or nothing if they break a row rule.
fn read_row(fields: &[u32], place: usize) -> Option<Row> {
    let (kind, p, q, pairs) = (fields[0], fields[1], fields[2], &fields[3..]);
    let below = |row: u32| Some(row as usize).filter(|&row| row < place);
    let bare = pairs.iter().all(|&number| number == 0);
    match kind {
        1 if bare && p == 0 && q == 0 => Some(Row::True),
        2 => read_atom(p, q, pairs),
        3 if bare => Some(Row::And(below(p)?, below(q)?)),
        4 if bare && q == 0 => Some(Row::Not(below(p)?)),
        5 if bare => Some(Row::Since {
            left: below(p)?,
            right: below(q)?,
        }),
        6 if bare && q == 0 => Some(Row::Previous(below(p)?)),
        7 if bare && p < VARIABLES as u32 => Some(Row::Exists {
            variable: p as usize,
            row: below(q)?,
        }),
        _ => None,
    }
}

fn read_atom(predicate: u32, count: u32, pairs: &[u32]) -> Option<Row> {
    if count > 3 {
        return None;
    }
    let (used, unused) = pairs.split_at(2 * count as usize);
    if unused.iter().any(|&number| number != 0) {
        return None;
    }
    let arguments = used
        .chunks(2)
        .map(|pair| match (pair[0], pair[1]) {
            (0, variable) if variable < VARIABLES as u32 => {
                Some(Argument::Variable(variable as usize))
            }
            (1, value) => Some(Argument::Constant(value)),
            _ => None,
        })
        .collect::<Option<Vec<Argument>>>()?;
    Some(Row::Atom {
        predicate,
        arguments,
    })
}
