//! Which words can come: a chart over the words so far, after Earley. The grammar is the document's, with closed formulas (c), which don't end
//! in what a quantifier reaches over, apart from open ones (o): a left operand is closed.

use std::collections::HashSet;

/// A kind of word: `n` a name, `d` a constant's digits, `t` true or false, `p` a prefix operator, `q` a quantifier, and each other sign as it is,
/// with `>` for `->`.
pub type Kind = char;

/// Rules: what they make, by a letter and a level, and of what. Upper case letters are kinds of formulas, others are kinds of words.
const RULES: [(char, &str); 30] = [
    ('G', "E"),
    ('G', "I"),
    ('E', "D>E"),
    ('E', "D"),
    ('I', "D>I"),
    ('I', "J"),
    ('D', "D|C"),
    ('D', "C"),
    ('J', "D|K"),
    ('J', "K"),
    ('C', "C&B"),
    ('C', "B"),
    ('K', "C&L"),
    ('K', "L"),
    ('B', "BSA"),
    ('B', "A"),
    ('L', "BSM"),
    ('L', "M"),
    ('A', "pA"),
    ('A', "t"),
    ('A', "(G)"),
    ('A', "n"),
    ('A', "n(T)"),
    ('M', "pM"),
    ('M', "qn.G"),
    ('T', "V"),
    ('T', "V,T"),
    ('V', "n"),
    ('V', "d"),
    ('R', "G"),
];

type Item = (usize, usize, usize);

pub struct Chart {
    sets: Vec<Vec<Item>>,
}

impl Default for Chart {
    fn default() -> Chart {
        Chart::new()
    }
}

impl Chart {
    pub fn new() -> Chart {
        let mut chart = Chart { sets: Vec::new() };
        chart.close(vec![(29, 0, 0)]);
        chart
    }

    fn next(item: &Item) -> Option<char> {
        RULES[item.0].1.chars().nth(item.1)
    }

    /// Adds a set, with all that follows from these items.
    fn close(&mut self, first: Vec<Item>) {
        let here = self.sets.len();
        let mut items = Vec::new();
        let mut seen = HashSet::new();
        let mut todo = first;
        while let Some(item) = todo.pop() {
            if !seen.insert(item) {
                continue;
            }
            items.push(item);
            match Chart::next(&item) {
                Some(kind) if kind.is_ascii_uppercase() && kind != 'S' => {
                    let made = RULES.iter().enumerate().filter(|(_, rule)| rule.0 == kind);
                    todo.extend(made.map(|(rule, _)| (rule, 0, here)));
                }
                Some(_) => {}
                // No rule makes nothing, so what waits for this stands in an earlier set.
                None => {
                    let made = RULES[item.0].0;
                    let waiting = self.sets[item.2]
                        .iter()
                        .filter(|other| Chart::next(other) == Some(made));
                    todo.extend(waiting.map(|other| (other.0, other.1 + 1, other.2)));
                }
            }
        }
        self.sets.push(items);
    }

    /// Whether a word of the kind can come.
    pub fn takes(&self, kind: Kind) -> bool {
        let last = self.sets.last().expect("there is a set");
        last.iter().any(|item| Chart::next(item) == Some(kind))
    }

    /// A word of the kind comes.
    pub fn give(&mut self, kind: Kind) {
        let last = self.sets.last().expect("there is a set");
        let moved = last.iter().filter(|item| Chart::next(item) == Some(kind));
        let moved = moved.map(|item| (item.0, item.1 + 1, item.2)).collect();
        self.close(moved);
    }

    /// Whether the words so far are a rule.
    pub fn whole(&self) -> bool {
        self.sets
            .last()
            .expect("there is a set")
            .contains(&(29, 1, 0))
    }
}
