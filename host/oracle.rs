//! What a whole run owes the rule, judged from the list of taken events alone.
//!
//! It knows nothing of sheets, operations or reach: it looks at every beginning of the list by the definition of
//! acceptance, and asks whether a beginning could still be accepted by searching on from the state it ends in.

use crate::monitor::{Rule, JOINT};

/// The state after some events, from the initial state.
fn after(rule: &Rule, events: &[u8]) -> usize {
    events.iter().fold(rule.initial, |s, &e| rule.rows[s][e as usize])
}

/// Does every pair have the state in R or in P?
fn accepts(rule: &Rule, s: usize) -> bool {
    rule.pairs.iter().all(|pair| pair.r.contains(&s) || pair.p.contains(&s))
}

/// The definition of acceptance.
pub fn accepted(rule: &Rule, events: &[u8]) -> bool {
    events.is_empty() || accepts(rule, after(rule, events))
}

/// Is there a sequence that begins with these events (one at least) and is accepted? A breadth-first search.
fn hope(rule: &Rule, from: usize) -> bool {
    let mut queue = vec![from];
    let mut next = 0;
    while next < queue.len() {
        let s = queue[next];
        next += 1;
        if accepts(rule, s) {
            return true;
        }
        for &t in &rule.rows[s] {
            if !queue.contains(&t) {
                queue.push(t);
            }
        }
    }
    false
}

/// The history of one run: the taken events in order with the operation each was answered, what was released in
/// order, what is held at the end.
pub struct History {
    pub taken: Vec<u8>,
    pub operations: Vec<u8>,
    pub released: Vec<u8>,
    pub held: Vec<u8>,
}

/// Judges a history against the rule; a fault is told in words.
pub fn judge(rule: &Rule, history: &History) -> Result<(), String> {
    let taken = &history.taken;
    let longest = (0..=taken.len()).rev().find(|&n| accepted(rule, &taken[..n])).unwrap_or(0);
    if history.released != taken[..longest] {
        return Err(format!("released {:?}, but the longest accepted beginning is {:?}", history.released, &taken[..longest]));
    }
    let halt = history.operations.iter().position(|&operation| operation == 0);
    let before = &taken[..halt.unwrap_or(taken.len())];
    if [&history.released[..], &history.held[..]].concat() != before {
        return Err(format!(
            "released {:?} then held {:?} is not what came before the first halt, {:?}",
            history.released, history.held, before
        ));
    }
    let mut hopes: Vec<Option<bool>> = vec![None; rule.states];
    for n in 1..=taken.len() {
        let s = after(rule, &taken[..n]);
        let hopeful = *hopes[s].get_or_insert_with(|| hope(rule, s));
        let halts = history.operations[n - 1] == 0;
        if halts && hopeful {
            return Err(format!("a halt at event {} of the taken ones, where more events could still be accepted", n));
        }
        if !halts && !hopeful && (rule.pairs.len() == 1 || rule.mode == JOINT) {
            return Err(format!("no halt at event {} of the taken ones, where nothing can be accepted any more", n));
        }
        if !halts && halt.map_or(false, |h| h < n - 1) {
            return Err(format!(
                "event {} of the taken ones was not answered halt, though event {} was",
                n,
                halt.unwrap_or(0) + 1
            ));
        }
    }
    Ok(())
}
