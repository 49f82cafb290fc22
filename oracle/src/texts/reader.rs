//! Reads a rule text: its words, the place of refusal 3, and its tree.

use super::chart::{Chart, Kind};
use super::rows::{answer, Answer};
use super::tree::{note, Operator, Prefix, Term, Tree};

const LETTER_WORDS: [&str; 7] = ["forall", "exists", "P", "H", "S", "true", "false"];

fn kind(word: &str) -> Kind {
    match word {
        "true" | "false" => 't',
        "P" | "H" | "@" | "!" => 'p',
        "forall" | "exists" => 'q',
        "->" => '>',
        "S" | "&" | "|" | "(" | ")" | "," | "." => word.chars().next().expect("a sign"),
        _ if word.as_bytes()[0].is_ascii_digit() => 'd',
        _ => 'n',
    }
}

/// Whether some word that begins with the letters can come.
fn can_grow(chart: &Chart, letters: &str) -> bool {
    let reserved = LETTER_WORDS.iter().filter(|word| word.starts_with(letters));
    chart.takes('n') || reserved.into_iter().any(|word| chart.takes(kind(word)))
}

/// The words of a text, or the place at which no rule text can go on.
pub fn words(text: &[u8]) -> Result<Vec<String>, usize> {
    let mut chart = Chart::new();
    let mut words: Vec<String> = Vec::new();
    let mut pending = String::new();
    for (place, &byte) in text.iter().enumerate() {
        let of_word = byte.is_ascii_alphanumeric() || byte == b'_';
        if pending == "-" {
            if byte != b'>' {
                return Err(place);
            }
            chart.give('>');
            words.push("->".to_string());
            pending.clear();
            continue;
        }
        if !pending.is_empty() && of_word {
            pending.push(byte as char);
            let digits = pending.as_bytes()[0].is_ascii_digit();
            let good = if digits {
                byte.is_ascii_digit()
            } else {
                can_grow(&chart, &pending)
            };
            if !good {
                return Err(place);
            }
            continue;
        }
        if !pending.is_empty() {
            if !chart.takes(kind(&pending)) {
                return Err(place);
            }
            chart.give(kind(&pending));
            words.push(std::mem::take(&mut pending));
        }
        let one = (byte as char).to_string();
        let good = match byte {
            b' ' => continue,
            b'-' => chart.takes('>'),
            b'0'..=b'9' => chart.takes('d'),
            b'@' | b'!' | b'&' | b'|' | b'(' | b')' | b',' | b'.' => chart.takes(kind(&one)),
            _ if byte.is_ascii_alphabetic() => can_grow(&chart, &one),
            _ => false,
        };
        if !good {
            return Err(place);
        }
        if of_word || byte == b'-' {
            pending = one;
        } else {
            chart.give(kind(&one));
            words.push(one);
        }
    }
    if pending == "-" {
        return Err(text.len());
    }
    if !pending.is_empty() {
        if !chart.takes(kind(&pending)) {
            return Err(text.len());
        }
        chart.give(kind(&pending));
        words.push(pending);
    }
    if chart.whole() {
        Ok(words)
    } else {
        Err(text.len())
    }
}

/// A descent over words that are a rule text.
struct Descent<'a> {
    words: &'a [String],
    at: usize,
}

impl Descent<'_> {
    fn peek(&self) -> &str {
        self.words.get(self.at).map_or("", String::as_str)
    }

    fn take(&mut self) -> String {
        self.at += 1;
        self.words[self.at - 1].clone()
    }

    fn whole(&mut self) -> Tree {
        let left = self.level(0);
        if self.peek() != "->" {
            return left;
        }
        self.take();
        let right = self.whole();
        Tree::Joined(Operator::Implies, Box::new(left), Box::new(right))
    }

    /// `|`, `&` and `S`, each to the left and tighter than the one before.
    fn level(&mut self, level: usize) -> Tree {
        const LEVELS: [(&str, Operator); 3] = [
            ("|", Operator::Or),
            ("&", Operator::And),
            ("S", Operator::Since),
        ];
        if level == LEVELS.len() {
            return self.operand();
        }
        let mut left = self.level(level + 1);
        while self.peek() == LEVELS[level].0 {
            self.take();
            let right = self.level(level + 1);
            left = Tree::Joined(LEVELS[level].1, Box::new(left), Box::new(right));
        }
        left
    }

    fn operand(&mut self) -> Tree {
        let word = self.take();
        let under = |prefix, tree| Tree::Under(prefix, Box::new(tree));
        match word.as_str() {
            "true" => Tree::Truth(true),
            "false" => Tree::Truth(false),
            "P" => under(Prefix::Once, self.operand()),
            "H" => under(Prefix::Historically, self.operand()),
            "@" => under(Prefix::Previously, self.operand()),
            "!" => under(Prefix::Not, self.operand()),
            "(" => {
                let tree = self.whole();
                self.take();
                tree
            }
            "forall" | "exists" => {
                let name = self.take();
                self.take();
                Tree::Quantified(word == "forall", name, Box::new(self.whole()))
            }
            _ => Tree::Atom(word, self.arguments()),
        }
    }

    fn arguments(&mut self) -> Vec<Term> {
        let mut terms = Vec::new();
        if self.peek() != "(" {
            return terms;
        }
        while self.take() != ")" {
            let word = self.take();
            let digits = word.as_bytes()[0].is_ascii_digit();
            terms.push(if digits {
                Term::Constant(word)
            } else {
                Term::Variable(word)
            });
            if self.peek() == ")" {
                self.take();
                break;
            }
        }
        terms
    }
}

/// The tree of words that are a rule text.
pub fn tree(words: &[String]) -> Tree {
    let mut descent = Descent { words, at: 0 };
    let tree = descent.whole();
    assert_eq!(descent.at, words.len(), "every word is read");
    tree
}

/// What a text is answered with, the row slice being of 576 numbers.
pub fn read(text: &[u8]) -> Answer {
    if text.len() > 4096 {
        return Answer::Refused(2, 0);
    }
    match words(text) {
        Err(place) => Answer::Refused(3, place),
        Ok(words) => answer(&tree(&words)),
    }
}

/// The names of a rule text, a line each: predicates and then variables, in order of first use.
pub fn names(text: &[u8]) -> String {
    let tree = tree(&words(text).expect("the text is a rule text"));
    let (mut atoms, mut predicates, mut variables) = (Vec::new(), Vec::new(), Vec::new());
    tree.atoms(&mut atoms);
    for (name, _) in atoms {
        note(name, &mut predicates);
    }
    tree.variables(&mut variables);
    let lines = |what: &str, names: &[String]| {
        let lines = names.iter().enumerate();
        lines
            .map(|(i, name)| format!("{what} {i} {name}\n"))
            .collect::<String>()
    };
    lines("predicate", &predicates) + &lines("variable", &variables)
}
