//! Rules of full size, 64 states, 32 events and 8 pairs, of which something is measured.

use crate::dice::Dice;
use crate::monitor::{Pair, Rule};

pub fn rule(class: usize, rows: Vec<Vec<usize>>, pairs: Vec<Pair>) -> Rule {
    Rule { class, states: rows.len(), events: rows[0].len(), initial: 0, mode: 0, note: vec![], rows, pairs }
}

pub fn set(states: std::ops::Range<usize>) -> Vec<usize> {
    states.collect()
}

/// Tables by chance over 56 states, with eight more that are never left.
pub fn by_chance() -> Rule {
    let mut dice = Dice::new(2, 0);
    let rows = (0..64).map(|s| (0..32).map(|_| if s < 56 { dice.below(64) } else { s }).collect()).collect();
    let pairs = (0..8).map(|i| Pair { r: set(56..57 + i), p: if i % 2 == 1 { set(0..56) } else { vec![] } }).collect();
    rule(3, rows, pairs)
}

/// Each state leads to the next one only.
pub fn chain() -> Rule {
    let rows = (0..64usize).map(|s| vec![(s + 1).min(63); 32]).collect();
    let pairs = (0..8).map(|i| Pair { r: set(63 - i..64), p: if i % 2 == 1 { set(0..1 + i) } else { vec![] } }).collect();
    rule(3, rows, pairs)
}

/// No state is ever left.
pub fn self_loops() -> Rule {
    let rows = (0..64).map(|s| vec![s; 32]).collect();
    let pairs = (0..8).map(|i| Pair { r: set(0..8 * i + 1), p: set(32..40 + i) }).collect();
    rule(3, rows, pairs)
}

/// The only way from state 0 to pair 0 goes through all states. The events below `on` stay where they are, and event 0 of state 0 always does.
pub fn long_way(on: usize) -> Rule {
    let rows = (0..64usize).map(|s| (0..32).map(|e| if e < on.max((s == 0) as usize) { s } else { (s + 1).min(63) }).collect()).collect();
    let pairs = (0..8).map(|i| Pair { r: set(63 - 7 * i..64), p: if i % 2 == 1 { set(0..1 + i) } else { vec![] } }).collect();
    rule(3, rows, pairs)
}

/// A way through all states in another order: each leads to the next one of the order by the last event and stays where it is by the others, and the last
/// one is what every pair wants.
fn through(order: &[usize]) -> Rule {
    let mut rows: Vec<Vec<usize>> = (0..64).map(|s| vec![s; 32]).collect();
    for step in order.windows(2) {
        rows[step[0]][31] = step[1];
    }
    Rule { initial: order[0], ..rule(3, rows, vec![Pair { r: vec![order[63]], p: vec![] }; 8]) }
}

/// Backwards from the end: 63, 0, 62, 1 and so on. So of sweeps over the states, downwards, upwards and so on, each finds one more that reaches the end, the
/// last that it looks at, and reads every row of the others in vain to its end: the most that there is to read.
pub fn zigzag() -> Rule {
    through(&(0..64).map(|i| if i % 2 == 0 { 63 - i / 2 } else { i / 2 }).rev().collect::<Vec<_>>())
}

/// All of them, by name.
pub fn all() -> Vec<(&'static str, Rule)> {
    vec![
        ("random", by_chance()),
        ("chain", chain()),
        ("self-loops", self_loops()),
        ("zigzag", zigzag()),
        ("a way of 63", long_way(0)),
        ("a way of 63 by the last event", long_way(31)),
        ("a chain upwards", through(&(0..64).collect::<Vec<_>>())),
        ("a chain downwards", through(&(0..64).rev().collect::<Vec<_>>())),
    ]
}
