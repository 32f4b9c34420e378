//! Why an event is answered as it is: compared on files of every kind, held against the made sheet, and the ways followed in the monitor.

use crate::dice::Dice;
use crate::draw::Lent;
use crate::library::{self, Reason};
use crate::monitor::{self, Refusal, Rule};
use crate::{differ, hex, list, mode, pairs, same_bytes, untouched, Comparison, ENOUGH};

#[derive(Default)]
pub struct ReasonCounts {
    /// By operation, and by refusal.
    told: [usize; 3],
    refused: [usize; 17],
    /// Halts and stores of mode 0 whose pair is not the first.
    later: [usize; 2],
    /// In joint mode of several pairs: halts by one pair, halts by all together, stores.
    joint: [usize; 3],
    /// Ways of more than one event, ways that filled their output, and the longest.
    ways: usize,
    exact: usize,
    longest: usize,
    /// Answers with an output of no bytes, and ways that were followed to a dump.
    roomless: usize,
    followed: usize,
}

fn expected(answer: Result<monitor::Reason, Refusal>) -> Reason {
    match answer {
        Ok(x) => {
            Reason { refusal: 0, a: 0, b: 0, operation: x.operation.number(), pair: x.pair as u8, length: x.way.len() }
        }
        Err(r) => Reason { refusal: r.no, a: r.a, b: r.b, operation: 0, pair: 0, length: 0 },
    }
}

impl Comparison {
    /// One question to both sides. Gives the answer and the way.
    pub fn why(&mut self, dice: &mut Dice, file: &[u8], state: u8, event: u8, room: usize) -> Result<(Reason, Vec<u8>), String> {
        self.file = file.to_vec();
        let call = format!("pachallu_why(rule file of {} bytes, state {}, event {}, way of {} bytes)", file.len(), state, event, room);
        let lent = Lent::of(dice, file);
        let kept = lent.clone();
        let mut out = Lent::blank(dice, room);
        let mut twin = out.clone();
        let library = library::why(lent.bytes(), state, event, out.bytes_mut());
        let second = expected(monitor::why(file, state, event, twin.bytes_mut()));
        if library != second {
            return Err(differ(&call, library, second));
        }
        same_bytes(&call, "way", &out, &twin)?;
        untouched(&call, "rule file", &kept, &lent)?;
        let c = &mut self.reasons;
        if second.refusal != 0 {
            c.refused[second.refusal as usize] += 1;
            return Ok((library, vec![]));
        }
        c.told[second.operation as usize] += 1;
        if mode(file) == monitor::JOINT && pairs(file) > 1 && second.operation < 2 {
            let together = second.pair as usize == pairs(file);
            c.joint[if second.operation == 1 { 2 } else { together as usize }] += 1;
        } else if second.operation < 2 && mode(file) == 0 {
            c.later[second.operation as usize] += (second.pair > 0) as usize;
        }
        c.ways += (second.length > 1) as usize;
        c.exact += (second.length > 0 && second.length == room) as usize;
        c.longest = c.longest.max(second.length);
        c.roomless += (room == 0) as usize;
        Ok((library, out.bytes()[..second.length].to_vec()))
    }

    /// Questions to a file that is refused: any state, any event, any room.
    pub fn why_refused(&mut self, dice: &mut Dice, file: &[u8]) -> Result<(), String> {
        let (state, event, room) = (dice.pick(&[0, 1, 63, 255]), dice.pick(&[0, 1, 31, 255]), dice.pick(&[0, 1, 63, 70]));
        self.why(dice, file, state, event, room).map(|_| ())
    }

    /// Questions to a sound file: of its states and events, and of others.
    pub fn whys(&mut self, dice: &mut Dice, rule: &Rule, file: &[u8], sheet: &[u8]) -> Result<(), String> {
        let (n, k) = (rule.states, rule.events);
        let single = monitor::operations(&Rule { mode: 0, ..rule.clone() });
        let torn: Vec<usize> = (0..n * k).filter(|&i| sheet[i] / 64 != single[rule.rows[i / k][i % k]].number()).collect();
        for turn in 0..4 {
            let (mut s, mut e) = (dice.below(n), dice.below(k));
            for _ in 0..dice.pick(&[0, 3, 12]) {
                // mostly of an event that is held
                if sheet[s * k + e] / 64 != 1 {
                    (s, e) = (dice.below(n), dice.below(k));
                }
            }
            if turn < 2 && !torn.is_empty() {
                // twice of an event that halts in joint mode only
                let cell = dice.pick(&torn);
                (s, e) = (cell / k, cell % k);
            }
            let (answer, way) = self.why(dice, file, s as u8, e as u8, 63)?;
            if answer.operation != sheet[s * k + e] / 64 {
                return Err(format!("state {}, event {}: the reason is of operation {}, the sheet is {}", s, e, answer.operation, hex(sheet)));
            }
            let (length, any) = (answer.length, dice.below(80));
            let room = dice.pick(&[0, length, length.saturating_sub(1), length + 1, any]);
            self.why(dice, file, s as u8, e as u8, room)?;
            if answer.operation == 1 && (rule.pairs.len() == 1 || rule.mode == monitor::JOINT) {
                self.follow(dice, sheet, s as u8, &[&[e as u8], &way[..]].concat())?;
            }
        }
        let past = |dice: &mut Dice, most: usize| dice.pick(&[most, most + 1, 64, 255]).max(most) as u8;
        let (s, e) = (dice.below(n) as u8, dice.below(k) as u8);
        let (no_state, no_event) = (past(dice, n), past(dice, k));
        for (state, event) in [(no_state, e), (s, no_event), (no_state, no_event)] {
            let room = dice.pick(&[0, 63]);
            self.why(dice, file, state, event, room)?;
        }
        Ok(())
    }

    /// With one pair or in joint mode the events of a way, taken after the event that is held, are held too, but for the last one: it releases all.
    fn follow(&mut self, dice: &mut Dice, sheet: &[u8], state: u8, log: &[u8]) -> Result<(), String> {
        let count = dice.below(4);
        let held = dice.bytes(count);
        let mut memory = [&held[..], &vec![0; log.len()]].concat();
        let mut output = vec![0; held.len() + log.len()];
        let end = library::events(sheet, state, held.len(), log, &mut memory, &mut output);
        if end.refusal != 0 || end.taken != log.len() || end.held != 0 || output != [&held[..], log].concat() {
            return Err(format!("the way after an event does not release it: state {}, events {:?}\n  {:?}\n  sheet     {}", state, log, end, hex(sheet)));
        }
        self.reasons.followed += 1;
        Ok(())
    }

    /// The answers that can be read off the paper's rules A and O, and the longest way.
    pub fn whys_of_the_paper(&mut self, dice: &mut Dice, a: &Rule, o: &Rule) -> Result<(), String> {
        let rows = (0..64usize).map(|s| vec![s, (s + 1).min(63)]).collect();
        let chain = Rule { states: 64, events: 2, rows, pairs: vec![monitor::Pair { r: vec![63], p: vec![] }], ..a.clone() };
        let long = [1; 63];
        // rule, state, event, operation, pair, way
        let cases: [(&str, &Rule, u8, u8, u8, u8, &[u8]); 8] = [
            ("A", a, 0, 0, 1, 0, &[1]),
            ("A", a, 0, 1, 0, 0, &[]),
            ("A", a, 0, 2, 2, 0, &[]),
            ("A", a, 1, 1, 2, 0, &[]),
            ("O", o, 0, 0, 0, 1, &[]),
            ("O", o, 0, 1, 0, 0, &[]),
            ("O", o, 0, 2, 1, 0, &[0]),
            ("a chain of 64 states", &chain, 0, 0, 1, 0, &long),
        ];
        for (name, rule, state, event, operation, pair, way) in cases.iter() {
            let file = monitor::layout(rule);
            let (answer, told) = self.why(dice, &file, *state, *event, 63)?;
            if (answer.refusal, answer.operation, answer.pair, &told[..]) != (0, *operation, *pair, *way) {
                return Err(format!("why, rule {}, state {}, event {}: {:?}, way {:?}", name, state, event, answer, told));
            }
        }
        Ok(())
    }
}

pub fn report(c: &ReasonCounts) {
    println!(
        "reasons      halt {}, store {}, dump {} ({} and {} by a later pair); refused {}",
        c.told[0],
        c.told[1],
        c.told[2],
        c.later[0],
        c.later[1],
        list(&c.refused, 1..=16)
    );
    println!("             in joint mode of several pairs: halt by one {}, by all together {}, store {}", c.joint[0], c.joint[1], c.joint[2]);
    println!(
        "             {} ways of more than one event, the longest of {}, {} in an output of just that length; {} followed to a dump",
        c.ways, c.longest, c.exact, c.followed
    );
}

/// What the questions of a run must have met.
pub fn lacking(c: &ReasonCounts) -> Vec<String> {
    let mut faults = Vec::new();
    let mut want = |what: String, met: usize| {
        if met < ENOUGH {
            faults.push(format!("why: {}: met {} times; at least {} are wanted", what, met, ENOUGH));
        }
    };
    for no in (1..=9).chain([12, 13, 16]) {
        want(format!("refusal {}", no), c.refused[no]);
    }
    for (operation, name) in ["halt", "store", "dump"].iter().enumerate() {
        want(name.to_string(), c.told[operation]);
    }
    want("halts by a later pair".to_string(), c.later[0]);
    want("stores by a later pair".to_string(), c.later[1]);
    want("joint halts by one pair".to_string(), c.joint[0]);
    want("joint halts by all pairs together".to_string(), c.joint[1]);
    want("joint stores of several pairs".to_string(), c.joint[2]);
    want("ways of more than one event".to_string(), c.ways);
    want("outputs of just the way's length".to_string(), c.exact);
    want("answers with an output of no bytes".to_string(), c.roomless);
    want("ways followed to a dump".to_string(), c.followed);
    if c.longest != 63 {
        faults.push(format!("why: the longest way had {} events; one of 63 is wanted", c.longest));
    }
    faults
}
