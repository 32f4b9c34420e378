//! Rules, damaged rule files, sheets and buffers for the comparison, all from one seed.

use crate::dice::Dice;
use crate::monitor::{self, Pair, Rule};

// ---------------------------------------------------------------------------------------------- sound rules

/// States and events: the corners first, then mostly small ones, and every size up to the limits.
fn size(dice: &mut Dice, place: usize) -> (usize, usize) {
    match place {
        0 => (1, 1),
        1 => (64, 32),
        2 => (64, 1),
        3 => (1, 32),
        _ => match dice.below(12) {
            0..=6 => (1 + dice.below(7), 1 + dice.below(4)),
            7 | 8 => (1 + dice.below(20), 1 + dice.below(8)),
            9 | 10 => (1 + dice.below(64), 1 + dice.below(32)),
            _ => (dice.pick(&[1, 2, 7, 8, 9, 63, 64]), dice.pick(&[1, 2, 31, 32])),
        },
    }
}

/// A table of moves in one of five manners.
fn table(dice: &mut Dice, n: usize, k: usize) -> Vec<Vec<usize>> {
    let manner = dice.below(5);
    // a rank for each state: in the layered manner no move goes to a lower one
    let ranks = 1 + dice.below(6);
    let rank: Vec<usize> = (0..n).map(|_| dice.below(ranks)).collect();
    let sinks = dice.some_states(n, 4);
    let mut order: Vec<usize> = (0..n).collect();
    for i in (1..n).rev() {
        order.swap(i, dice.below(i + 1));
    }
    let mut next_in_chain = vec![0; n];
    for i in 0..n {
        next_in_chain[order[i]] = order[(i + 1).min(n - 1)];
    }
    let mut rows = Vec::new();
    for s in 0..n {
        let mut row = Vec::new();
        for e in 0..k {
            let t = dice.below(n);
            row.push(match manner {
                0 => t,
                1 => {
                    if rank[t] < rank[s] || dice.one_in(3) {
                        s
                    } else {
                        t
                    }
                }
                2 => {
                    if e == 0 || dice.one_in(4) {
                        next_in_chain[s]
                    } else {
                        s
                    }
                }
                3 => {
                    if dice.one_in(6) {
                        t
                    } else {
                        s
                    }
                }
                _ => {
                    if sinks.contains(&s) {
                        s
                    } else {
                        t
                    }
                }
            });
        }
        rows.push(row);
    }
    rows
}

/// The states that some events lead to from the given ones: a set that no move leaves.
fn closed(rows: &[Vec<usize>], from: &[usize]) -> Vec<usize> {
    let mut set = vec![false; rows.len()];
    let mut todo = from.to_vec();
    while let Some(s) = todo.pop() {
        if !set[s] {
            set[s] = true;
            todo.extend(&rows[s]);
        }
    }
    (0..rows.len()).filter(|&s| set[s]).collect()
}

fn others(n: usize, set: &[usize]) -> Vec<usize> {
    (0..n).filter(|s| !set.contains(s)).collect()
}

/// A set that no move leaves: some states and what they lead to, or some states whose moves are bent back.
fn trap(dice: &mut Dice, rows: &mut Vec<Vec<usize>>, bend: bool) -> Vec<usize> {
    let odds = dice.pick(&[2, 3, 6, 12]);
    let seeds = dice.some_states(rows.len(), odds);
    if bend && !seeds.is_empty() {
        for &s in &seeds {
            for e in 0..rows[s].len() {
                if !seeds.contains(&rows[s][e]) {
                    rows[s][e] = dice.pick(&seeds);
                }
            }
        }
    }
    closed(rows, &seeds)
}

fn note(dice: &mut Dice, place: usize) -> Vec<u8> {
    let len = match dice.below(12) {
        _ if place == 1 => 1024,
        0..=4 => 0,
        5..=9 => dice.below(24),
        10 => dice.below(1025),
        _ => 1024,
    };
    let mut note = dice.bytes(len);
    if len > 12 && dice.one_in(2) {
        // a note that looks like the end of a rule file
        let end = [4, 1, 1, 1, 0, 0, 29, 0, 28, 0, 72, 82];
        note[len - 12..].copy_from_slice(&end);
    }
    note
}

/// Two pairs, each of which accepts one of two states that are never left, and not the other: where both can be reached, each pair has hope, and the two
/// together may have none.
fn tear(dice: &mut Dice, rows: &[Vec<usize>], pairs: &mut [Pair], ends: (usize, usize)) {
    let first = dice.below(pairs.len());
    let second = (first + 1 + dice.below(pairs.len() - 1)) % pairs.len();
    for (pair, yes, no) in [(first, ends.0, ends.1), (second, ends.1, ends.0)] {
        let pair = &mut pairs[pair];
        // what leads to the other state would leave R
        pair.r.retain(|&s| !closed(rows, &[s]).contains(&no));
        pair.p.retain(|&s| s != no);
        if !pair.r.contains(&yes) {
            pair.r.push(yes);
            pair.r.sort();
        }
    }
}

fn attempt(dice: &mut Dice, place: usize, class: usize) -> Rule {
    let (n, k) = size(dice, place);
    // a third of the rules are in joint mode
    let mode = if place % 3 == 2 { monitor::JOINT } else { 0 };
    let mut rows = table(dice, n, k);
    let bend = dice.one_in(2);
    let ends = (dice.below(n), dice.below(n));
    let torn = class == 3 && ends.0 != ends.1 && (mode == monitor::JOINT || dice.one_in(2));
    if torn {
        rows[ends.0].fill(ends.0);
        rows[ends.1].fill(ends.1);
    }
    let pairs: Vec<Pair> = match class {
        1 => {
            let bad = trap(dice, &mut rows, bend);
            vec![Pair { r: vec![], p: others(n, &bad) }]
        }
        2 => vec![Pair { r: trap(dice, &mut rows, bend), p: vec![] }],
        3 => {
            let m = if place == 1 { 8 } else { 1 + dice.below(8) };
            let mut pairs: Vec<Pair> = (0..m)
                .map(|_| {
                    // bending for a second pair would open the first one's sets
                    let r = if dice.one_in(4) { vec![] } else { trap(dice, &mut rows, false) };
                    let p = if dice.one_in(3) { vec![] } else { others(n, &trap(dice, &mut rows, false)) };
                    Pair { r, p }
                })
                .collect();
            if torn && m > 1 {
                tear(dice, &rows, &mut pairs, ends);
            }
            pairs
        }
        _ => {
            let odds = dice.pick(&[2, 4, 8, 15, 30]);
            vec![Pair { r: dice.some_states(n, odds), p: vec![] }]
        }
    };
    let initial = dice.below(n);
    Rule { class, states: n, events: k, initial, mode, note: note(dice, place), rows, pairs }
}

/// Do the moves that a run from the initial state can meet have two operations or more?
fn lively(rule: &Rule) -> bool {
    let operation = monitor::operations(rule);
    let reached = monitor::reach(rule);
    let mut met: Vec<_> = (0..rule.states).filter(|&s| reached[rule.initial][s]).map(|s| operation[s]).collect();
    met.sort();
    met.dedup();
    met.len() > 1
}

/// A rule of the class that passes every check, and mostly a lively one (after some tries; the last one is taken as
/// it is).
pub fn sound(dice: &mut Dice, place: usize, class: usize) -> Rule {
    let content = dice.one_in(5);
    let mut rule = attempt(dice, place, class);
    let mut last_sound = None;
    for _ in 0..40 {
        if monitor::check(&rule).is_ok() {
            if content || lively(&rule) {
                return rule;
            }
            last_sound = Some(rule.clone());
        }
        if dice.one_in(2) {
            rule = attempt(dice, place, class);
        } else {
            rule.initial = dice.below(rule.states);
        }
    }
    last_sound.unwrap_or(rule)
}

// ---------------------------------------------------------------------------------------------- damaged rule files

/// How many ways of damage there are.
pub const DAMAGES: usize = 41;

/// A rule file with one damage of the given way, and what was done to it.
pub fn damaged(dice: &mut Dice, place: usize, way: usize) -> (Vec<u8>, String) {
    // the ways that need a class of their own get one
    let class = match way {
        21 => dice.pick(&[1, 2, 4]),
        22 => dice.pick(&[1, 2, 3]),
        33 => dice.pick(&[1, 2, 4]),
        24 | 36 | 39 | 40 => 3,
        _ => 1 + dice.below(4),
    };
    let joint = way == 40 || (way == 24 && dice.one_in(2));
    let mut rule = sound(dice, if joint { 3 * place + 5 } else { place + 4 }, class);
    if way == 37 {
        rule.note = dice.bytes(1024);
    }
    let mut file = monitor::layout(&rule);
    let end = file.len() - 12;
    let n = rule.states;
    let said = match way {
        0..=11 => {
            let old = file[end + way];
            while file[end + way] == old {
                file[end + way] = dice.byte();
            }
            format!("trailer byte {} was {}", way, old)
        }
        12 => {
            let i = dice.below(12);
            let step = dice.pick(&[1, 255]);
            file[end + i] = file[end + i].wrapping_add(step);
            format!("trailer byte {} moved by one", i)
        }
        13 => {
            let cut = 1 + dice.below(file.len().min(rule.note.len() + 4));
            file.drain(..cut);
            format!("{} bytes cut from the front", cut)
        }
        14 => {
            let cut = 1 + dice.below(file.len().min(20));
            file.truncate(file.len() - cut);
            format!("{} bytes cut from the end", cut)
        }
        15 => {
            let keep = dice.below(12);
            file.drain(..file.len() - keep);
            format!("only the last {} bytes", keep)
        }
        16 => {
            let len = 1025 + dice.below(1200);
            rule.note = dice.bytes(len);
            file = monitor::layout(&rule);
            format!("a note of {} bytes", rule.note.len())
        }
        17 => {
            let size = 3213 + dice.below(900);
            rule.note = dice.bytes(size - (file.len() - rule.note.len()));
            file = monitor::layout(&rule);
            format!("{} bytes long", file.len())
        }
        18 => {
            match dice.below(3) {
                0 => {
                    file.swap(end + 6, end + 8);
                    file.swap(end + 7, end + 9);
                }
                1 => {
                    file.swap(end + 6, end + 7);
                    file.swap(end + 8, end + 9);
                }
                _ => {
                    file[end + 6] = file[end + 6].wrapping_add(1);
                    file[end + 8] = file[end + 8].wrapping_add(1);
                }
            }
            "the distances exchanged or moved".to_string()
        }
        19 => {
            for _ in 0..1 + dice.below(3) {
                let (s, e) = (dice.below(n), dice.below(rule.events));
                rule.rows[s][e] = dice.pick(&[n, n + 1, 64, 128, 255]).max(n);
            }
            file = monitor::layout(&rule);
            "table entries past the states".to_string()
        }
        20 => {
            for _ in 0..1 + dice.below(3) {
                let (i, past) = (dice.below(rule.pairs.len()), n + dice.below(65 - n));
                if past < 64 {
                    if dice.one_in(2) {
                        rule.pairs[i].r.push(past);
                    } else {
                        rule.pairs[i].p.push(past);
                    }
                }
            }
            file = monitor::layout(&rule);
            "pairs that name states past the last".to_string()
        }
        21 => {
            let s = dice.below(n);
            if class == 1 {
                rule.pairs[0].r.push(s);
            } else {
                rule.pairs[0].p.push(s);
            }
            file = monitor::layout(&rule);
            "a set that the class wants empty".to_string()
        }
        22 => {
            for _ in 0..20 {
                let (s, e, t) = (dice.below(n), dice.below(rule.events), dice.below(n));
                let pair = &rule.pairs[dice.below(rule.pairs.len())];
                let enters = class != 2 && !pair.p.contains(&s) && pair.p.contains(&t);
                let leaves = class != 1 && pair.r.contains(&s) && !pair.r.contains(&t);
                if enters || leaves {
                    rule.rows[s][e] = t;
                    if dice.one_in(2) {
                        break;
                    }
                }
            }
            file = monitor::layout(&rule);
            "moves that the class forbids".to_string()
        }
        23 => {
            let stops = if monitor::check(&rule).is_ok() { monitor::stopping(&rule) } else { vec![] };
            if !stops.is_empty() {
                rule.initial = dice.pick(&stops);
            }
            file = monitor::layout(&rule);
            "begins at a stopping state".to_string()
        }
        24 => {
            let i = dice.below(rule.pairs.len());
            rule.pairs[i] = Pair::default();
            file = monitor::layout(&rule);
            format!("pair {} emptied", i)
        }
        25 => {
            file[end] = 1 + dice.below(4) as u8;
            "another class".to_string()
        }
        26 => {
            let i = dice.below(file.len());
            file[i] = dice.byte();
            format!("byte {} changed", i)
        }
        27 => {
            let i = dice.below(file.len());
            file[i] ^= 1 << dice.below(8);
            format!("one bit of byte {} changed", i)
        }
        28 => {
            for _ in 0..2 + dice.below(3) {
                let i = dice.below(file.len());
                file[i] = dice.byte();
            }
            let i = dice.below(12);
            file[end + i] = file[end + i].wrapping_sub(1);
            "several bytes changed".to_string()
        }
        29 => {
            let (n, k, m) = (1 + dice.below(4), 1 + dice.below(3), 1 + dice.below(3));
            let class = 1 + dice.below(4);
            let m = if class == 3 { m } else { 1 };
            rule = Rule {
                class,
                states: n,
                events: k,
                initial: dice.below(n),
                mode: dice.below(2),
                note: vec![],
                rows: (0..n).map(|_| (0..k).map(|_| dice.below(n)).collect()).collect(),
                pairs: (0..m).map(|_| Pair { r: dice.some_states(n, 2), p: dice.some_states(n, 3) }).collect(),
            };
            file = monitor::layout(&rule);
            "a small table and sets by chance".to_string()
        }
        30 => {
            let len = dice.below(60);
            file = dice.bytes(len);
            "bytes by chance".to_string()
        }
        31 => {
            let (states, events) = dice.pick(&[(65, 1), (1, 33), (65, 33), (64, 33), (0, 1), (1, 0)]);
            rule.states = states;
            rule.events = events;
            rule.initial = 0;
            rule.rows = vec![vec![0; events]; states];
            file = monitor::layout(&rule);
            format!("{} states and {} events", states, events)
        }
        32 => {
            let m = dice.pick(&[0, 9, 10]);
            rule.pairs = vec![Pair { r: vec![0], p: vec![] }; m];
            file = monitor::layout(&rule);
            format!("{} pairs", m)
        }
        33 => {
            let m = 2 + dice.below(7);
            rule.pairs = vec![rule.pairs[0].clone(); m];
            file = monitor::layout(&rule);
            format!("class {} with {} pairs", class, m)
        }
        34 => {
            rule.initial = dice.pick(&[n, n + 1, 64, 255]).max(n);
            file = monitor::layout(&rule);
            format!("begins at state {} of {}", rule.initial, n)
        }
        35 => {
            // faults of several numbers at once: the lowest number must be given
            let (s, e, i) = (dice.below(n), dice.below(rule.events), dice.below(rule.pairs.len()));
            if dice.one_in(2) {
                rule.rows[s][e] = n;
            }
            if dice.one_in(2) && n < 64 {
                rule.pairs[i].p.push(63);
            }
            if dice.one_in(2) {
                rule.pairs[i].r = dice.some_states(n, 2);
            }
            if dice.one_in(2) {
                rule.pairs[i].p = dice.some_states(n, 2);
            }
            file = monitor::layout(&rule);
            "several faults in table and pairs".to_string()
        }
        36 => {
            // the lowest pair by which the initial state stops need not be the first
            for pair in rule.pairs.iter_mut().skip(1) {
                if dice.one_in(2) {
                    *pair = Pair::default();
                }
            }
            file = monitor::layout(&rule);
            "some pairs after the first emptied".to_string()
        }
        38 => {
            file[end + 5] = dice.pick(&[2, 3, 128, 255]);
            format!("mode {}", file[end + 5])
        }
        39 => {
            file[end + 5] ^= 1;
            "in the other mode".to_string()
        }
        40 => {
            // stopping in joint mode by no single pair
            let (joint, single) = (monitor::operations(&rule), monitor::operations(&Rule { mode: 0, ..rule.clone() }));
            let torn: Vec<usize> = (0..n).filter(|&s| joint[s] != single[s]).collect();
            if !torn.is_empty() {
                rule.initial = dice.pick(&torn);
            }
            file = monitor::layout(&rule);
            "begins where each pair has hope, and all together may have none".to_string()
        }
        _ => {
            // one byte more than the longest note
            file.insert(0, dice.byte());
            "a note of 1025 bytes".to_string()
        }
    };
    (file, said)
}

// ---------------------------------------------------------------------------------------------- damaged sheets

/// A sheet that was not made, or was spoiled afterwards.
pub fn spoiled(dice: &mut Dice, sheet: &[u8]) -> Vec<u8> {
    let mut bytes = sheet.to_vec();
    let foot = bytes.len() - 6;
    let (n, k) = (bytes[foot] as usize, bytes[foot + 1] as usize);
    match dice.below(14) {
        0 => {
            let cut = 1 + dice.below(bytes.len());
            bytes.truncate(bytes.len() - cut);
        }
        1 => {
            let cut = 1 + dice.below(bytes.len());
            bytes.drain(..cut);
        }
        2 => bytes.insert(0, dice.byte()),
        3 => bytes.push(dice.byte()),
        4 => bytes[foot + 3] = dice.byte(),
        5 => {
            let i = dice.below(6);
            bytes[foot + i] = dice.byte();
        }
        6 => {
            let i = dice.below(6);
            bytes[foot + i] = bytes[foot + i].wrapping_add(dice.pick(&[1, 255]));
        }
        7 => {
            // a size out of range with a distance and a length that agree
            let (n, k) = dice.pick(&[(65, 1), (1, 33), (0, 3), (3, 0), (65, 33), (255, 1)]);
            bytes = vec![0; n * k];
            let distance = n * k + 6;
            bytes.extend([n as u8, k as u8, 0, 77, (distance % 256) as u8, (distance / 256) as u8]);
        }
        8 => bytes[foot + 2] = dice.pick(&[n, n + 1, 255]) as u8,
        9 => {
            let len = dice.below(40);
            bytes = dice.bytes(len);
        }
        _ => {
            // the foot stays; cells get operation 3, or a next state past the last, or anything
            let odds = dice.pick(&[1, 2, 5]);
            for i in 0..n * k {
                if dice.one_in(odds) {
                    bytes[i] = match dice.below(3) {
                        0 => 192 + bytes[i] % 64,
                        1 => (64 * dice.below(4) + dice.pick(&[n, n + 1, 63]).min(63)) as u8,
                        _ => dice.byte(),
                    };
                }
            }
        }
    }
    bytes
}

// ---------------------------------------------------------------------------------------------- lent bytes

/// A slice to lend, with guard bytes before and after it; all of it is compared.
#[derive(Clone, PartialEq, Eq)]
pub struct Lent {
    all: Vec<u8>,
    len: usize,
}

const GUARD: usize = 16;

impl Lent {
    /// A slice of bytes by chance.
    pub fn blank(dice: &mut Dice, len: usize) -> Lent {
        Lent { all: dice.bytes(len + 2 * GUARD), len }
    }
    /// A slice with this content.
    pub fn of(dice: &mut Dice, content: &[u8]) -> Lent {
        let mut lent = Lent::blank(dice, content.len());
        lent.bytes_mut().copy_from_slice(content);
        lent
    }
    pub fn bytes(&self) -> &[u8] {
        &self.all[GUARD..GUARD + self.len]
    }
    pub fn bytes_mut(&mut self) -> &mut [u8] {
        &mut self.all[GUARD..GUARD + self.len]
    }
    pub fn guards(&self) -> (&[u8], &[u8]) {
        (&self.all[..GUARD], &self.all[GUARD + self.len..])
    }
}
