//! The comparison of the two sides of a law: it can fail, and does where one side is another formula.

use oracle::coverage::{Coverage, BY_CALLS};
use oracle::generate::laws::pair;
use oracle::generate::rules::encode;
use oracle::laws::{Pair, LAWS};
use oracle::monitor::Stepping;
use oracle::rows::{Row, Rule, FIELDS};

const SEED: u64 = 77;
const PAIRS: u64 = 1_200;

/// Puts another formula in place of the pair's first side.
fn exchange(pair: &mut Pair) {
    let place = pair.sides[0];
    let rule = Rule::read(&pair.case.rows).expect("made rules are right");
    let other = match rule.rows[place] {
        Row::And(below, _) | Row::Exists { row: below, .. } => Row::Not(below),
        Row::Not(below) => Row::And(below, below),
        _ => unreachable!("a law's first side is and, not or exists"),
    };
    pair.case.rows[FIELDS * place..FIELDS * (place + 1)].copy_from_slice(&encode(&other));
}

#[test]
fn another_formula_for_a_side_is_found() {
    for law in LAWS {
        let pairs = (0..PAIRS).map(|index| pair(SEED, index));
        let found: Vec<String> = pairs
            .filter(|pair| pair.law == law)
            .filter_map(|mut pair| {
                exchange(&mut pair);
                let mut coverage = Coverage::of(BY_CALLS);
                pair.run(&mut Stepping, &mut coverage).err()
            })
            .collect();
        println!(
            "{law:?}: {} of {}",
            found.len(),
            PAIRS as usize / LAWS.len()
        );
        assert!(found.len() > 20, "{law:?}: found in {} pairs", found.len());
        // Both monitors work the exchanged rule alike: it is the references that tell.
        let told = format!("{law:?}: the rows ");
        assert!(found.iter().all(|message| message.starts_with(&told)));
    }
}
