//! Seeded texts: trees that are written out, with spaces and parentheses at will, and texts that are damaged.

use super::tree::{Operator, Prefix, Term, Tree};
use crate::random::Random;

const PREDICATES: [&str; 8] = [
    "p",
    "q",
    "confirmed",
    "shelved",
    "Pp",
    "pSq",
    "forallx",
    "x",
];
const VARIABLES: [&str; 6] = ["x", "y", "z", "true1", "p", "lot_7"];

fn term(random: &mut Random) -> Term {
    if random.once_in(4) {
        let constants = [
            "0",
            "7",
            "007",
            "4294967295",
            "4294967296",
            "00000000000000000001",
            "99999999999999999999",
        ];
        let most = if random.once_in(12) {
            constants.len()
        } else {
            4
        };
        return Term::Constant(constants[random.below(most)].to_string());
    }
    let most = if random.once_in(8) {
        VARIABLES.len()
    } else {
        2
    };
    Term::Variable(VARIABLES[random.below(most)].to_string())
}

/// A tree of at most so many operators.
pub fn tree(random: &mut Random, size: usize) -> Tree {
    if size == 0 {
        if random.once_in(8) {
            return Tree::Truth(random.once_in(2));
        }
        let predicate = random.below(PREDICATES.len());
        // One count for each name, but now and then.
        let count = if random.once_in(20) {
            random.below(5)
        } else {
            [1, 2, 1, 1, 0, 0, 3, 1][predicate]
        };
        let terms = (0..count).map(|_| term(random)).collect();
        return Tree::Atom(PREDICATES[predicate].to_string(), terms);
    }
    match random.below(4) {
        0 => {
            let prefix = *random.pick(&[
                Prefix::Once,
                Prefix::Historically,
                Prefix::Previously,
                Prefix::Not,
            ]);
            Tree::Under(prefix, Box::new(tree(random, size - 1)))
        }
        1 => {
            let most = if random.once_in(8) {
                VARIABLES.len()
            } else {
                2
            };
            let name = VARIABLES[random.below(most)].to_string();
            Tree::Quantified(random.once_in(2), name, Box::new(tree(random, size - 1)))
        }
        _ => {
            let operator = *random.pick(&[
                Operator::Since,
                Operator::And,
                Operator::Or,
                Operator::Implies,
            ]);
            let left = random.below(size);
            let (f, g) = (tree(random, left), tree(random, size - 1 - left));
            Tree::Joined(operator, Box::new(f), Box::new(g))
        }
    }
}

/// The tree under quantifiers for the variables that it uses most.
pub fn closed(random: &mut Random, size: usize) -> Tree {
    let mut whole = tree(random, size);
    let mut names = Vec::new();
    whole.variables(&mut names);
    for name in names {
        if !random.once_in(10) {
            whole = Tree::Quantified(random.once_in(2), name, Box::new(whole));
        }
    }
    whole
}

/// The level of an operator, and those that its operands may have.
fn levels(operator: Operator) -> (usize, usize, usize, &'static str) {
    match operator {
        Operator::Since => (1, 1, 0, "S"),
        Operator::And => (2, 2, 1, "&"),
        Operator::Or => (3, 3, 2, "|"),
        Operator::Implies => (4, 3, 4, "->"),
    }
}

/// The words of a tree where a formula of a level up to `room` may stand, and whether they end in what a quantifier reaches over.
fn words(
    random: &mut Random,
    tree: &Tree,
    room: usize,
    closed: bool,
    out: &mut Vec<String>,
) -> bool {
    let from = out.len();
    let (rank, open) = match tree {
        Tree::Truth(yes) => {
            out.push(yes.to_string());
            (0, false)
        }
        Tree::Atom(name, terms) => {
            out.push(name.clone());
            for (i, term) in terms.iter().enumerate() {
                out.push(if i == 0 { "(" } else { "," }.to_string());
                let (Term::Variable(word) | Term::Constant(word)) = term;
                out.push(word.clone());
            }
            if !terms.is_empty() {
                out.push(")".to_string());
            }
            (0, false)
        }
        Tree::Under(prefix, f) => {
            let sign = match prefix {
                Prefix::Once => "P",
                Prefix::Historically => "H",
                Prefix::Previously => "@",
                Prefix::Not => "!",
            };
            out.push(sign.to_string());
            (0, words(random, f, 0, false, out))
        }
        Tree::Joined(operator, f, g) => {
            let (level, left, right, sign) = levels(*operator);
            words(random, f, left, true, out);
            out.push(sign.to_string());
            (level, words(random, g, right, false, out))
        }
        Tree::Quantified(all, name, f) => {
            out.push(if *all { "forall" } else { "exists" }.to_string());
            out.push(name.clone());
            out.push(".".to_string());
            words(random, f, 4, false, out);
            (0, true)
        }
    };
    if rank > room || (closed && open) || random.once_in(10) {
        out.insert(from, "(".to_string());
        out.push(")".to_string());
        return false;
    }
    open
}

/// Words as bytes, with spaces where they must stand and here and there.
pub fn spell(random: &mut Random, words: &[String]) -> Vec<u8> {
    let of_word = |byte: &u8| byte.is_ascii_alphanumeric() || *byte == b'_';
    let mut text = Vec::new();
    for word in words {
        let touch =
            text.last().is_some_and(of_word) && word.as_bytes().first().is_some_and(of_word);
        let spaces = if random.once_in(3) {
            random.below(3)
        } else {
            0
        };
        text.extend(std::iter::repeat(b' ').take(spaces.max(usize::from(touch))));
        text.extend(word.as_bytes());
    }
    if random.once_in(5) {
        text.push(b' ');
    }
    text
}

/// A tree as a text.
pub fn text(random: &mut Random, tree: &Tree) -> Vec<u8> {
    let mut out = Vec::new();
    words(random, tree, 4, false, &mut out);
    spell(random, &out)
}

/// A text with one or two changes of a byte, or cut.
pub fn damaged(random: &mut Random, text: &[u8]) -> Vec<u8> {
    let mut text = text.to_vec();
    for _ in 0..random.between(1, 2) {
        let place = random.below(text.len() + 1);
        let bytes = b"pxPHS@!&|->(),.01_ \t~forall";
        let byte = bytes[random.below(bytes.len())];
        match random.below(4) {
            0 => text.insert(place, byte),
            1 if place < text.len() => text[place] = byte,
            2 if place < text.len() => {
                text.remove(place);
            }
            _ => text.truncate(place),
        }
    }
    text
}

/// Any words.
pub fn any(random: &mut Random) -> Vec<u8> {
    let all = [
        "p", "x", "S", "P", "&", "|", "->", "!", "@", "(", ")", ",", ".", "exists", "forall",
        "true", "12",
    ];
    let count = random.between(0, 9);
    let words: Vec<String> = (0..count)
        .map(|_| (*random.pick(&all)).to_string())
        .collect();
    spell(random, &words)
}
