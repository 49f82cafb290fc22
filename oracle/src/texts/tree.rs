//! Trees of rule texts, and what refusals 4 to 8 say of them.

#[derive(Clone, Debug, PartialEq, Eq)]
pub enum Term {
    Variable(String),
    Constant(String),
}

#[derive(Clone, Copy, Debug, PartialEq, Eq)]
pub enum Prefix {
    Once,
    Historically,
    Previously,
    Not,
}

#[derive(Clone, Copy, Debug, PartialEq, Eq)]
pub enum Operator {
    Since,
    And,
    Or,
    Implies,
}

#[derive(Clone, Debug, PartialEq, Eq)]
pub enum Tree {
    Truth(bool),
    Atom(String, Vec<Term>),
    Under(Prefix, Box<Tree>),
    Joined(Operator, Box<Tree>, Box<Tree>),
    Quantified(bool, String, Box<Tree>),
}

impl Tree {
    /// Its atoms, in order.
    pub fn atoms<'a>(&'a self, out: &mut Vec<(&'a str, &'a [Term])>) {
        match self {
            Tree::Truth(_) => {}
            Tree::Atom(name, terms) => out.push((name, terms)),
            Tree::Under(_, tree) | Tree::Quantified(_, _, tree) => tree.atoms(out),
            Tree::Joined(_, left, right) => {
                left.atoms(out);
                right.atoms(out);
            }
        }
    }

    /// Its variables in order of first use, a quantifier's own mention being one.
    pub fn variables(&self, out: &mut Vec<String>) {
        match self {
            Tree::Truth(_) => {}
            Tree::Atom(_, terms) => {
                for term in terms {
                    if let Term::Variable(name) = term {
                        note(name, out);
                    }
                }
            }
            Tree::Under(_, tree) => tree.variables(out),
            Tree::Joined(_, left, right) => {
                left.variables(out);
                right.variables(out);
            }
            Tree::Quantified(_, name, tree) => {
                note(name, out);
                tree.variables(out);
            }
        }
    }

    /// Whether some variable stands outside of its quantifier.
    pub fn loose(&self, bound: &mut Vec<String>) -> bool {
        match self {
            Tree::Truth(_) => false,
            Tree::Atom(_, terms) => terms
                .iter()
                .any(|term| matches!(term, Term::Variable(name) if !bound.contains(name))),
            Tree::Under(_, tree) => tree.loose(bound),
            Tree::Joined(_, left, right) => left.loose(bound) || right.loose(bound),
            Tree::Quantified(_, name, tree) => {
                bound.push(name.clone());
                let loose = tree.loose(bound);
                bound.pop();
                loose
            }
        }
    }
}

/// Adds a name unless it is there.
pub fn note(name: &str, out: &mut Vec<String>) {
    if !out.iter().any(|other| other == name) {
        out.push(name.to_string());
    }
}

/// The value of a constant, if it is at most 2^32 − 1.
pub fn value(digits: &str) -> Option<u32> {
    let digits = digits.trim_start_matches('0');
    if digits.is_empty() {
        return Some(0);
    }
    if digits.len() > 10 {
        return None;
    }
    digits
        .parse::<u64>()
        .ok()
        .and_then(|n| u32::try_from(n).ok())
}
