//! The rows of a tree: derived operators unfold, and each different part makes one row, left before right and parts before the whole.

use super::tree::{note, value, Operator, Prefix, Term, Tree};

/// What a text is answered with: a refusal and its place, or rows.
#[derive(Clone, Debug, PartialEq, Eq)]
pub enum Answer {
    Refused(u32, usize),
    Rows(Vec<[u32; 9]>),
}

struct Table {
    predicates: Vec<String>,
    variables: Vec<String>,
    rows: Vec<[u32; 9]>,
}

impl Table {
    fn row(&mut self, row: [u32; 9]) -> u32 {
        let place = self.rows.iter().position(|other| *other == row);
        let place = place.unwrap_or_else(|| {
            self.rows.push(row);
            self.rows.len() - 1
        });
        place as u32
    }

    fn plain(&mut self, kind: u32, p: u32, q: u32) -> u32 {
        self.row([kind, p, q, 0, 0, 0, 0, 0, 0])
    }

    fn not(&mut self, p: u32) -> u32 {
        self.plain(4, p, 0)
    }

    fn atom(&mut self, name: &str, terms: &[Term]) -> u32 {
        let place = |names: &[String], name: &str| {
            names
                .iter()
                .position(|other| other == name)
                .expect("the name was noted") as u32
        };
        let mut row = [0; 9];
        row[0] = 2;
        row[1] = place(&self.predicates, name);
        row[2] = terms.len() as u32;
        for (i, term) in terms.iter().enumerate() {
            let (mark, number) = match term {
                Term::Variable(name) => (0, place(&self.variables, name)),
                Term::Constant(digits) => (1, value(digits).expect("the constant is small")),
            };
            row[3 + 2 * i] = mark;
            row[4 + 2 * i] = number;
        }
        self.row(row)
    }

    fn tree(&mut self, tree: &Tree) -> u32 {
        match tree {
            Tree::Truth(true) => self.plain(1, 0, 0),
            Tree::Truth(false) => {
                let truth = self.plain(1, 0, 0);
                self.not(truth)
            }
            Tree::Atom(name, terms) => self.atom(name, terms),
            Tree::Under(Prefix::Not, f) => {
                let f = self.tree(f);
                self.not(f)
            }
            Tree::Under(Prefix::Previously, f) => {
                let f = self.tree(f);
                self.plain(6, f, 0)
            }
            // once f is: true since f
            Tree::Under(Prefix::Once, f) => {
                let truth = self.plain(1, 0, 0);
                let f = self.tree(f);
                self.plain(5, truth, f)
            }
            // always f so far is: not once not f
            Tree::Under(Prefix::Historically, f) => {
                let truth = self.plain(1, 0, 0);
                let f = self.tree(f);
                let f = self.not(f);
                let once = self.plain(5, truth, f);
                self.not(once)
            }
            Tree::Joined(Operator::Since, f, g) => {
                let (f, g) = (self.tree(f), self.tree(g));
                self.plain(5, f, g)
            }
            Tree::Joined(Operator::And, f, g) => {
                let (f, g) = (self.tree(f), self.tree(g));
                self.plain(3, f, g)
            }
            // f or g is: not (not f and not g)
            Tree::Joined(Operator::Or, f, g) => {
                let f = self.tree(f);
                let f = self.not(f);
                self.either(f, g)
            }
            // f implies g is: (not f) or g
            Tree::Joined(Operator::Implies, f, g) => {
                let f = self.tree(f);
                let f = self.not(f);
                let f = self.not(f);
                self.either(f, g)
            }
            Tree::Quantified(all, name, f) => {
                let variable = self.variables.iter().position(|other| other == name);
                let variable = variable.expect("the name was noted") as u32;
                let f = self.tree(f);
                if !all {
                    return self.plain(7, variable, f);
                }
                let f = self.not(f);
                let some = self.plain(7, variable, f);
                self.not(some)
            }
        }
    }

    /// An or, whose left side is there negated.
    fn either(&mut self, f: u32, g: &Tree) -> u32 {
        let g = self.tree(g);
        let g = self.not(g);
        let both = self.plain(3, f, g);
        self.not(both)
    }
}

/// Refusals 4 to 9 of a tree, in their order, or its rows.
pub fn answer(tree: &Tree) -> Answer {
    let mut atoms = Vec::new();
    tree.atoms(&mut atoms);
    let large = |terms: &[Term]| {
        terms
            .iter()
            .any(|term| matches!(term, Term::Constant(digits) if value(digits).is_none()))
    };
    if atoms.iter().any(|(_, terms)| large(terms)) {
        return Answer::Refused(4, 0);
    }
    if atoms.iter().any(|(_, terms)| terms.len() > 3) {
        return Answer::Refused(5, 0);
    }
    let mut variables = Vec::new();
    tree.variables(&mut variables);
    if variables.len() > 4 {
        return Answer::Refused(6, 0);
    }
    let count = |name: &str| {
        atoms
            .iter()
            .find(|(other, _)| *other == name)
            .map(|(_, terms)| terms.len())
    };
    if atoms
        .iter()
        .any(|(name, terms)| count(name) != Some(terms.len()))
    {
        return Answer::Refused(7, 0);
    }
    if tree.loose(&mut Vec::new()) {
        return Answer::Refused(8, 0);
    }
    let mut predicates = Vec::new();
    for (name, _) in &atoms {
        note(name, &mut predicates);
    }
    let mut table = Table {
        predicates,
        variables,
        rows: Vec::new(),
    };
    table.tree(tree);
    if table.rows.len() > 64 {
        return Answer::Refused(9, 0);
    }
    Answer::Rows(table.rows)
}
