//! Compares the proved library, through its C interface, with a second monitor written from the paper alone.
//!
//!     compare [--seed N] [--files N] [--only N]
//!
//! Rule files (sound and damaged), sheets (made and spoiled), run states, events and lent buffers all come from the
//! seed, so a run can be repeated. Every answer and every byte of every buffer, guard bytes around it included, must
//! be equal; each history on a made sheet is judged by the oracle; what the program `table` prints is compared where
//! the environment variable PACHALLU_TABLE holds the shell words that start it. An evening of events in one call is
//! compared with the second monitor and with the library's own single calls. The run fails, too, where one of the
//! refusals 1 to 9, 11, 12, 14 to 18 and 26, or, of evenings, 19, 11, 12 and 14 to 16, or, of reasons, 1 to 9, 12, 13
//! and 16, was met fewer than 20 times.

mod books;
mod dice;
mod draw;
mod library;
mod monitor;
mod oracle;
mod reasons;

use dice::Dice;
use draw::Lent;
use library::{Answer, Evening, Made, Start};
use monitor::{Pair, Refusal, Rule, Run};
use oracle::History;
use std::io::Write;
use std::process::{exit, Command, Stdio};

/// Every empty buffer is lent as NULL (host/library.rs).
pub const NULL_FOR_EMPTY: bool = true;

/// The operation of an event that is ignored.
const IGNORED: u8 = 3;
/// The number of no refusal: it was that of a pair with R and P both empty, which is refused 9 before (M-106).
const UNUSED: usize = 10;
/// How often each refusal must be met at least.
const ENOUGH: usize = 20;
/// How many files of one kind (a class, or a refusal number) are printed by `table`: starting it takes time.
const PRINTED_SOUND: usize = 40;
const PRINTED_REFUSED: usize = 15;

// ---------------------------------------------------------------------------------------------- the expected answers

fn expected_made(answer: Result<usize, Refusal>) -> Made {
    match answer {
        Ok(written) => Made { refusal: 0, a: 0, b: 0, written },
        Err(r) => Made { refusal: r.no, a: r.a, b: r.b, written: 0 },
    }
}

fn expected_start(answer: Result<Run, Refusal>) -> Start {
    match answer {
        Ok(run) => Start { refusal: 0, a: 0, b: 0, state: run.state, held: run.held },
        Err(r) => Start { refusal: r.no, a: r.a, b: r.b, state: 0, held: 0 },
    }
}

fn expected_answer(given: Run, answer: Result<monitor::Answer, Refusal>) -> Answer {
    let nothing = Answer { refusal: 0, a: 0, b: 0, operation: 0, state: given.state, held: given.held, released: 0 };
    match answer {
        Ok(monitor::Answer::Ignored) => Answer { operation: IGNORED, ..nothing },
        Ok(monitor::Answer::Taken(t)) => Answer {
            refusal: 0,
            a: 0,
            b: 0,
            operation: t.operation.number(),
            state: t.run.state,
            held: t.run.held,
            released: t.released,
        },
        Err(r) => Answer { refusal: r.no, a: r.a, b: r.b, ..nothing },
    }
}

fn expected_evening(e: monitor::Evening) -> Evening {
    let r = e.refusal.unwrap_or(Refusal { no: 0, a: 0, b: 0 });
    let Run { state, held } = e.run;
    Evening { refusal: r.no, a: r.a, b: r.b, state, held, taken: e.taken, released: e.released, ignored: e.ignored }
}

// ---------------------------------------------------------------------------------------------- telling a difference

fn hex(bytes: &[u8]) -> String {
    let mut text = format!("({} bytes)", bytes.len());
    for (i, byte) in bytes.iter().enumerate() {
        text.push_str(if i % 32 == 0 && bytes.len() > 32 { "\n            " } else { " " });
        text.push_str(&format!("{:02x}", byte));
    }
    text
}

fn differ<T: std::fmt::Debug>(call: &str, library: T, second: T) -> String {
    format!("{}\n  the answers differ\n  library   {:?}\n  second    {:?}", call, library, second)
}

/// What the call was given, for the message.
fn situation(sheet: &Lent, memory: Option<&Lent>) -> String {
    let mut text = format!("\n  sheet     {}", hex(sheet.bytes()));
    if let Some(memory) = memory {
        text.push_str(&format!("\n  memory    {} before the call", hex(memory.bytes())));
    }
    text
}

/// Are both buffers the same, guards included? If not, says where.
fn same_bytes(call: &str, name: &str, library: &Lent, second: &Lent) -> Result<(), String> {
    if library == second {
        return Ok(());
    }
    let mut text = format!("{}\n  the answers agree, but not the bytes of the {}", call, name);
    if library.guards() != second.guards() {
        text.push_str(&format!("\n  bytes OUTSIDE the lent {} were written", name));
    }
    text.push_str(&format!("\n  library   {}\n  second    {}", hex(library.bytes()), hex(second.bytes())));
    Err(text)
}

/// Bytes that are only read must stay.
fn untouched(call: &str, name: &str, before: &Lent, after: &Lent) -> Result<(), String> {
    if before == after {
        return Ok(());
    }
    Err(format!("{}\n  the library wrote into the {}, which is only to be read", call, name))
}

// ---------------------------------------------------------------------------------------------- counting

#[derive(Default)]
struct Counts {
    files: usize,
    sound: [usize; 5],
    /// Sound rules by their number of pairs, and those of the least and the greatest size.
    pairs: [usize; 9],
    least: usize,
    greatest: usize,
    /// Sound rules in joint mode by their class, those of them with several pairs, and moves that halt in joint mode only.
    joint: [usize; 5],
    joint_several: usize,
    joint_halts: usize,
    damaged_but_sound: usize,
    made: [usize; 17],
    /// Refusal 9 in joint mode of several pairs: by one of them, and by none on its own.
    made_joint: [usize; 2],
    events: usize,
    /// Events by their operation, the ignored ones last; those ignored with events held and those after a halt; those refused 11 and 12.
    taken: [usize; 4],
    ignored_held: usize,
    ignored_halted: usize,
    remarks_refused: [usize; 2],
    dumped_held: usize,
    event: [usize; 17],
    /// Evenings by refusal; those refused after an event was taken, and after one was ignored; the longest that was not refused, and those of them that
    /// ignored some; those with nothing but remarks.
    evening: [usize; 20],
    evening_late: usize,
    evening_late_ignored: usize,
    evening_longest: usize,
    evening_ignored: usize,
    evening_all_ignored: usize,
    starts: [usize; 2],
    histories: usize,
    halted: usize,
    /// Texts that `pachallu_print` refused for want of room, and those that it printed.
    texts: [usize; 2],
    printed_sound: [usize; 5],
    printed_refused: [usize; 17],
    printed_other: usize,
    /// Refusals whose places were not the easy ones: 5, 8 and 14 with both places over 0, 6 in P only and not in the
    /// first pair, 9 by a later pair.
    places: [usize; 17],
    memory_lengths: Vec<bool>,
    output_lengths: Vec<bool>,
}

struct Comparison {
    counts: Counts,
    /// The shell words that start the program `table`.
    table: Option<String>,
    /// The rule file that the calls at hand go back to.
    file: Vec<u8>,
    books: books::BookCounts,
    reasons: reasons::ReasonCounts,
}

impl Comparison {
    // ------------------------------------------------------------------------------------------ the calls

    fn make(&mut self, dice: &mut Dice, file: &[u8], room: usize) -> Result<(Made, Lent), String> {
        self.file = file.to_vec();
        let call = format!("pachallu_make(rule file of {} bytes, sheet of {} bytes)", file.len(), room);
        let lent = Lent::of(dice, file);
        let kept = lent.clone();
        let mut sheet = Lent::blank(dice, room);
        let mut twin = sheet.clone();
        let library = library::make(lent.bytes(), sheet.bytes_mut());
        let second = expected_made(monitor::make(file, twin.bytes_mut()));
        if library != second {
            return Err(differ(&call, library, second));
        }
        same_bytes(&call, "sheet", &sheet, &twin)?;
        untouched(&call, "rule file", &kept, &lent)?;
        self.counts.made[second.refusal as usize] += 1;
        let hard = match second.refusal {
            5 | 8 => second.a > 0 && second.b > 0,
            6 => second.a > 0 && second.b == 1,
            9 => second.a > 0,
            _ => false,
        };
        self.counts.places[second.refusal as usize] += hard as usize;
        if second.refusal == 9 && mode(file) == monitor::JOINT && pairs(file) > 1 {
            self.counts.made_joint[(second.a as usize == pairs(file)) as usize] += 1;
        }
        Ok((library, sheet))
    }

    /// The text of a file: into an output of no bytes, of one byte too few, of just enough, and of more.
    fn text(&mut self, dice: &mut Dice, file: &[u8]) -> Result<(), String> {
        self.file = file.to_vec();
        let text = monitor::printed(file).into_bytes();
        let lent = Lent::of(dice, file);
        let kept = lent.clone();
        for room in [0, text.len() - 1, text.len(), text.len() + 1 + dice.below(40)] {
            let call = format!("pachallu_print(rule file of {} bytes, text of {} bytes)", file.len(), room);
            let mut out = Lent::blank(dice, room);
            let mut twin = out.clone();
            let library = library::print(lent.bytes(), out.bytes_mut());
            let fits = text.len() <= room;
            if fits {
                twin.bytes_mut()[..text.len()].copy_from_slice(&text);
            }
            let second = expected_made(if fits { Ok(text.len()) } else { Err(Refusal { no: 16, a: 0, b: 0 }) });
            if library != second {
                return Err(differ(&call, library, second));
            }
            same_bytes(&call, "text", &out, &twin)?;
            untouched(&call, "rule file", &kept, &lent)?;
            self.counts.texts[fits as usize] += 1;
        }
        Ok(())
    }

    fn fresh(&mut self, sheet: &Lent) -> Result<Start, String> {
        let call = format!("pachallu_fresh(sheet of {} bytes)", sheet.bytes().len());
        let kept = sheet.clone();
        let library = library::fresh(sheet.bytes());
        let second = expected_start(monitor::fresh(sheet.bytes()));
        if library != second {
            return Err(differ(&call, library, second) + &situation(sheet, None));
        }
        untouched(&call, "sheet", &kept, sheet)?;
        self.counts.starts[(second.refusal != 0) as usize] += 1;
        Ok(library)
    }

    /// One event on both sides; the memory is left as both left it. Gives the answer and the output.
    fn event(
        &mut self,
        dice: &mut Dice,
        sheet: &Lent,
        run: Run,
        event: u8,
        memory: &mut Lent,
        room: usize,
    ) -> Result<(Answer, Lent), String> {
        let before = memory.clone();
        let call = || {
            format!(
                "pachallu_event(sheet of {} bytes, state {}, held {}, event {}, memory of {} bytes, output of {} bytes)",
                sheet.bytes().len(),
                run.state,
                run.held,
                event,
                before.bytes().len(),
                room
            )
        };
        let around = |fault: String| fault + &situation(sheet, Some(&before));
        let kept = sheet.clone();
        let mut twin = memory.clone();
        let mut output = Lent::blank(dice, room);
        let mut twin_output = output.clone();
        let library = library::event(sheet.bytes(), run.state, run.held, event, memory.bytes_mut(), output.bytes_mut());
        let second = expected_answer(run, monitor::event(sheet.bytes(), run, event, twin.bytes_mut(), twin_output.bytes_mut()));
        if library != second {
            return Err(around(differ(&call(), library, second)));
        }
        if *memory != twin || output != twin_output || kept != *sheet {
            same_bytes(&call(), "memory", memory, &twin).map_err(around)?;
            same_bytes(&call(), "output", &output, &twin_output).map_err(around)?;
            untouched(&call(), "sheet", &kept, sheet).map_err(around)?;
        }
        self.counts.events += 1;
        self.counts.event[second.refusal as usize] += 1;
        if second.refusal == 0 {
            self.counts.taken[second.operation as usize] += 1;
            self.counts.dumped_held += (second.released > 1) as usize;
            self.counts.ignored_held += (second.operation == IGNORED && run.held > 0) as usize;
        }
        if is_remark(sheet, event) && (second.refusal == 11 || second.refusal == 12) {
            self.counts.remarks_refused[second.refusal as usize - 11] += 1;
        }
        self.counts.places[14] += (second.refusal == 14 && second.a > 0 && second.b > 0) as usize;
        mark(&mut self.counts.memory_lengths, before.bytes().len());
        mark(&mut self.counts.output_lengths, room);
        Ok((library, output))
    }

    /// An evening on both sides, and the same by single calls of the library. Gives the answer, the output and the operations of the single calls.
    fn evening(
        &mut self,
        dice: &mut Dice,
        sheet: &Lent,
        run: Run,
        log: &[u8],
        memory: &mut Lent,
        room: usize,
    ) -> Result<(Evening, Lent, Vec<u8>), String> {
        let before = memory.clone();
        let lent = Lent::of(dice, log);
        let (kept, kept_log) = (sheet.clone(), lent.clone());
        let mut output = Lent::blank(dice, room);
        let (mut twin, mut twin_output) = (memory.clone(), output.clone());
        let (mut third, mut third_output) = (memory.clone(), output.clone());
        let library = library::events(sheet.bytes(), run.state, run.held, lent.bytes(), memory.bytes_mut(), output.bytes_mut());
        let second = expected_evening(monitor::events(sheet.bytes(), run, log, twin.bytes_mut(), twin_output.bytes_mut()));
        let call = || {
            format!(
                "pachallu_events(sheet of {} bytes, state {}, held {}, log of {} events, memory of {} bytes, output of {} bytes)\n  log       {}",
                sheet.bytes().len(),
                run.state,
                run.held,
                log.len(),
                before.bytes().len(),
                room,
                hex(log)
            )
        };
        let around = |fault: String| fault + &situation(sheet, Some(&before));
        if library != second {
            return Err(around(differ(&call(), library, second)));
        }
        same_bytes(&call(), "memory", memory, &twin).map_err(around)?;
        same_bytes(&call(), "output", &output, &twin_output).map_err(around)?;
        untouched(&call(), "sheet", &kept, sheet).map_err(around)?;
        untouched(&call(), "log", &kept_log, &lent).map_err(around)?;
        let mut operations = Vec::new();
        if !log.is_empty() && log.len() <= monitor::EVENING {
            let singly = single_calls(sheet, run, log, &mut third, &mut third_output, &mut operations);
            if library != singly {
                return Err(around(differ(&format!("{}\n  and single calls", call()), library, singly)));
            }
            same_bytes(&call(), "memory (single calls)", memory, &third).map_err(around)?;
            same_bytes(&call(), "output (single calls)", &output, &third_output).map_err(around)?;
        }
        if second.ignored > 0 {
            self.left_out(sheet, run, log, &before, memory, &output, second).map_err(around)?;
        }
        self.counts.evening[second.refusal as usize] += 1;
        self.counts.evening_late += (second.refusal != 0 && second.taken > 0) as usize;
        self.counts.evening_late_ignored += (second.refusal != 0 && second.ignored > 0) as usize;
        if second.refusal == 0 {
            self.counts.evening_longest = self.counts.evening_longest.max(second.taken + second.ignored);
            self.counts.evening_ignored += (second.ignored > 0) as usize;
            self.counts.evening_all_ignored += (second.ignored > 0 && second.taken == 0) as usize;
        }
        Ok((library, output, operations))
    }

    /// Leaving the remarks out of a log changes nothing but how many were ignored.
    #[allow(clippy::too_many_arguments)]
    fn left_out(&self, sheet: &Lent, run: Run, log: &[u8], before: &Lent, memory: &Lent, output: &Lent, told: Evening) -> Result<(), String> {
        let log: Vec<u8> = log.iter().copied().filter(|&e| !is_remark(sheet, e)).collect();
        let mut lent = before.clone();
        let mut written = vec![0; output.bytes().len()];
        let again = library::events(sheet.bytes(), run.state, run.held, &log, lent.bytes_mut(), &mut written);
        let same = Evening { ignored: told.ignored, ..again } == told && again.ignored == 0;
        if !same || lent != *memory || written[..again.released] != output.bytes()[..told.released] {
            return Err(format!("pachallu_events without the remarks of its log is answered {:?}, and with them {:?}\n  log       {}", again, told, hex(&log)));
        }
        Ok(())
    }

    // ------------------------------------------------------------------------------------------ one rule file

    /// Makes sheets from the file with outputs of several lengths, then runs the sheet.
    fn file(&mut self, dice: &mut Dice, file: &[u8]) -> Result<(), String> {
        self.counts.files += 1;
        let drawn = monitor::read(file);
        self.text(dice, file)?;
        self.table(file, &drawn)?;
        let rule = match drawn {
            Ok(rule) => rule,
            Err(_) => {
                let room = dice.pick(&[0, 5, 40, 2054, 2100]);
                self.make(dice, file, room)?;
                return self.why_refused(dice, file);
            }
        };
        if rule.pairs.iter().any(|pair| pair.r.is_empty() && pair.p.is_empty()) {
            return Err("a rule is accepted that has a pair with R and P both empty".to_string());
        }
        self.counts.sound[rule.class] += 1;
        self.counts.pairs[rule.pairs.len()] += 1;
        self.counts.least += (rule.states == 1 && rule.events == 1) as usize;
        self.counts.greatest += (rule.states == monitor::STATES && rule.events == monitor::EVENTS) as usize;
        if rule.mode == monitor::JOINT {
            self.counts.joint[rule.class] += 1;
            self.counts.joint_several += (rule.pairs.len() > 1) as usize;
        }
        self.round_trip(&rule, file)?;
        let size = rule.states * rule.events + 6;
        for room in [0, dice.below(size), size - 1, size + 1 + dice.below(40)] {
            if dice.one_in(3) {
                self.make(dice, file, room)?;
            }
        }
        let (made, sheet) = self.make(dice, file, size)?;
        if made.written != size {
            return Err(format!("a sheet of {} bytes was expected, {} were written", size, made.written));
        }
        self.whys(dice, &rule, file, sheet.bytes())?;
        self.other_mode(dice, &rule, file, sheet.bytes())?;
        for _ in 0..3 {
            self.history(dice, &rule, &sheet)?;
        }
        self.wild(dice, &sheet)?;
        for _ in 0..3 {
            let bytes = draw::spoiled(dice, sheet.bytes());
            let spoiled = Lent::of(dice, &bytes);
            self.wild(dice, &spoiled)?;
        }
        Ok(())
    }

    /// The same rule in the other mode. With one pair the sheet is the same, and so is every reason but for the pair that a store names; with several, joint
    /// mode dumps where mode 0 does, and halts where mode 0 does, and maybe elsewhere too.
    fn other_mode(&mut self, dice: &mut Dice, rule: &Rule, file: &[u8], sheet: &[u8]) -> Result<(), String> {
        let other = monitor::layout(&Rule { mode: 1 - rule.mode, ..rule.clone() });
        let (made, lent) = self.make(dice, &other, sheet.len())?;
        if made.refusal == 9 && rule.mode == 0 && rule.pairs.len() > 1 {
            return Ok(());
        }
        let (single, joint) = if rule.mode == 0 { (sheet, lent.bytes()) } else { (lent.bytes(), sheet) };
        let cells = || single.iter().zip(joint).take(rule.states * rule.events).map(|(x, y)| (x / 64, y / 64));
        let follows = cells().all(|(x, y)| x == y || (x, y) == (1, 0));
        if made.refusal != 0 || !follows || (rule.pairs.len() == 1 && single != joint) {
            return Err(format!("the two modes do not go together: {:?}\n  mode 0    {}\n  joint     {}", made, hex(single), hex(joint)));
        }
        self.counts.joint_halts += cells().filter(|(x, y)| x != y).count();
        if rule.pairs.len() == 1 {
            let (s, e) = (dice.below(rule.states) as u8, dice.below(rule.events) as u8);
            let (one, way) = self.why(dice, file, s, e, 63)?;
            let (two, other_way) = self.why(dice, &other, s, e, 63)?;
            if (one.operation, one.length, way) != (two.operation, two.length, other_way) || (one.operation != 1 && one.pair != two.pair) {
                return Err(format!("state {}, event {}: the reasons of the two modes differ: {:?} and {:?}", s, e, one, two));
            }
        }
        Ok(())
    }

    /// The second monitor with itself: writing what was read gives the file back, one byte less room is refused 16.
    fn round_trip(&self, rule: &Rule, file: &[u8]) -> Result<(), String> {
        let mut exact = vec![0; file.len()];
        let mut short = vec![0; file.len() - 1];
        let told = (monitor::write(rule, &mut exact), monitor::write(rule, &mut short).map_err(|r| r.no));
        if told != (Ok(file.len()), Err(16)) || exact != file || short.iter().any(|&byte| byte != 0) {
            return Err(format!("the second monitor does not write back what it read: {:?}", told));
        }
        Ok(())
    }

    /// A run from a fresh start on a made sheet, with one memory and an output of any length for each call.
    fn history(&mut self, dice: &mut Dice, rule: &Rule, sheet: &Lent) -> Result<(), String> {
        let start = self.fresh(sheet)?;
        let mut run = Run { state: start.state, held: start.held };
        let room = match dice.below(8) {
            0 => 0,
            1..=3 => 1 + dice.below(4),
            4 => dice.below(65),
            5 => 200,
            _ => 5 + dice.below(20),
        };
        let mut memory = Lent::blank(dice, room);
        let mut told = History { taken: vec![], operations: vec![], released: vec![], held: vec![] };
        let mut left = dice.below(120);
        let holding = dice.one_in(2);
        let remarks = dice.pick(&[3, 12, 40]);
        while left > 0 {
            left -= 1;
            let mut e = dice.below(rule.events);
            for _ in 0..dice.pick(&[0, 4, 40]) {
                // mostly go on, and in some histories rather hold than release
                let cell = sheet.bytes()[run.state as usize * rule.events + e];
                if cell < 64 || (holding && cell >= 128) {
                    e = dice.below(rule.events);
                }
            }
            if dice.one_in(remarks) {
                e = remark(dice, rule.events) as usize;
            }
            let lent = match dice.below(8) {
                0 => dice.below(run.held + 2),
                1 => dice.below(40),
                2 | 3 => run.held + 1,
                _ => run.held + 1 + dice.below(6),
            };
            if dice.one_in(8) {
                // some of the events in one call
                let count = dice.below(13);
                let log = some_events(dice, count, rule.events, remarks);
                let lent = dice.pick(&[0, run.held + 1, run.held + log.len(), run.held + log.len() + 3]);
                let (evening, output, operations) = self.evening(dice, sheet, run, &log, &mut memory, lent)?;
                for (&e, &operation) in log.iter().zip(&operations).filter(|(_, &operation)| operation != IGNORED) {
                    told.taken.push(e);
                    told.operations.push(operation);
                }
                told.released.extend_from_slice(&output.bytes()[..evening.released]);
                run = Run { state: evening.state, held: evening.held };
                continue;
            }
            if dice.one_in(4) {
                // what lies past the held events is nobody's, and may change between two calls
                let held = run.held;
                for byte in memory.bytes_mut()[held..].iter_mut() {
                    *byte = dice.byte();
                }
            }
            let (answer, output) = self.event(dice, sheet, run, e as u8, &mut memory, lent)?;
            if answer.operation == IGNORED {
                self.counts.ignored_halted += (told.operations.last() == Some(&0)) as usize;
            } else if answer.refusal == 0 {
                told.taken.push(e as u8);
                told.operations.push(answer.operation);
                told.released.extend_from_slice(&output.bytes()[..answer.released]);
                if answer.operation == 0 {
                    left = left.min(dice.below(8));
                }
            }
            run = Run { state: answer.state, held: answer.held };
        }
        told.held = memory.bytes()[..run.held].to_vec();
        self.counts.histories += 1;
        self.counts.halted += told.operations.contains(&0) as usize;
        oracle::judge(rule, &told).map_err(|fault| {
            format!(
                "a history on a made sheet is against the rule: {}\n  taken     {:?}\n  answered  {:?} (0 halt, 1 store, 2 dump)\n  sheet     {}",
                fault,
                told.taken,
                told.operations,
                hex(sheet.bytes())
            )
        })
    }

    /// Calls from anywhere on a sheet of any kind: run states, events and lengths by chance, the impossible ones too.
    fn wild(&mut self, dice: &mut Dice, sheet: &Lent) -> Result<(), String> {
        self.fresh(sheet)?;
        let (n, k) = match monitor::open(sheet.bytes()) {
            Ok(opened) => (opened.states, opened.events),
            Err(_) => (1 + dice.below(64), 1 + dice.below(32)),
        };
        let room = dice.below(10);
        let mut memory = Lent::blank(dice, room);
        let mut run = Run { state: dice.below(n) as u8, held: dice.below(room + 1) };
        for _ in 0..8 {
            match dice.below(10) {
                0 => run.state = dice.pick(&[n, n + 1, 64, 128, 255]) as u8,
                1 => run.held = dice.pick(&[room + 1, room + 7, usize::MAX, usize::MAX / 2 + 1, 1 << 32]),
                2 => run = Run { state: dice.byte(), held: dice.below(room + 3) },
                3..=5 => run = Run { state: dice.below(n) as u8, held: dice.below(room + 1) },
                _ => {}
            }
            let e = if dice.one_in(6) { remark(dice, k) } else { dice.below(k) as u8 };
            let lent = dice.below(12);
            let (answer, _) = self.event(dice, sheet, run, e, &mut memory, lent)?;
            run = Run { state: answer.state, held: answer.held };
            if answer.refusal == 12 {
                run = Run { state: dice.below(n) as u8, held: dice.below(room + 1) };
            }
        }
        // an evening from there, mostly of the rule's events: none, a few, as many as one call takes, more
        let long = dice.pick(&[4095, 4096, 4096, 4097, 4098, 5000]);
        let count = if dice.one_in(12) { long } else { dice.pick(&[0, 1, 2, 6, 20]) };
        let remarks = dice.pick(&[1, 2, 5, 1000]);
        let log = some_events(dice, count, k, remarks);
        let lent = dice.pick(&[0, 1, 4, run.held.min(room) + count, 4096 + room]);
        if dice.one_in(8) {
            run = Run { state: dice.pick(&[n, 255]) as u8, held: dice.below(room + 3) };
        }
        self.evening(dice, sheet, run, &log, &mut memory, lent)?;
        Ok(())
    }

    // ------------------------------------------------------------------------------------------ the program `table`

    fn table(&mut self, file: &[u8], drawn: &Result<Rule, Refusal>) -> Result<(), String> {
        let (done, most) = match drawn {
            Ok(rule) => (&mut self.counts.printed_sound[rule.class], PRINTED_SOUND),
            Err(refusal) => (&mut self.counts.printed_refused[refusal.no as usize], PRINTED_REFUSED),
        };
        if self.table.is_none() || *done >= most {
            return Ok(());
        }
        *done += 1;
        self.print(file)
    }

    fn print(&mut self, file: &[u8]) -> Result<(), String> {
        let words = match &self.table {
            Some(words) => words,
            None => return Ok(()),
        };
        self.file = file.to_vec();
        let call = format!("{} < a rule file of {} bytes", words, file.len());
        let printed = run_program(words, file).map_err(|fault| format!("{}\n  {}", call, fault))?;
        let wanted = monitor::printed(file);
        if printed == wanted.as_bytes() {
            return Ok(());
        }
        let text = String::from_utf8_lossy(&printed).into_owned();
        let (mut ours, mut theirs) = (wanted.split('\n'), text.split('\n'));
        let mut line = 0;
        loop {
            line += 1;
            let (second, program) = (ours.next(), theirs.next());
            if second != program || second.is_none() {
                return Err(format!(
                    "{}\n  the printed texts differ in line {}\n  program   {:?}\n  second    {:?}",
                    call, line, program, second
                ));
            }
        }
    }
}

fn run_program(words: &str, input: &[u8]) -> Result<Vec<u8>, String> {
    let mut child = Command::new("sh")
        .arg("-c")
        .arg(format!("exec {}", words))
        .stdin(Stdio::piped())
        .stdout(Stdio::piped())
        .spawn()
        .map_err(|e| format!("the program cannot be started: {}", e))?;
    if let Some(mut pipe) = child.stdin.take() {
        // a program that has seen enough may stop reading
        let _ = pipe.write_all(input);
    }
    let done = child.wait_with_output().map_err(|e| format!("the program's output cannot be read: {}", e))?;
    match done.status.code() {
        Some(code) if code < 126 => Ok(done.stdout),
        Some(code) => Err(format!("the program cannot be run (exit status {})", code)),
        None => Err(format!("the program was ended by a signal ({})", done.status)),
    }
}

/// The library's own single calls, each given the unwritten rest of the output, up to the first refusal; and their operations.
fn single_calls(sheet: &Lent, run: Run, log: &[u8], memory: &mut Lent, output: &mut Lent, operations: &mut Vec<u8>) -> Evening {
    let mut evening = Evening { refusal: 0, a: 0, b: 0, state: run.state, held: run.held, taken: 0, released: 0, ignored: 0 };
    for &code in log {
        let rest = &mut output.bytes_mut()[evening.released..];
        let answer = library::event(sheet.bytes(), evening.state, evening.held, code, memory.bytes_mut(), rest);
        if answer.refusal != 0 {
            return Evening { refusal: answer.refusal, a: answer.a, b: answer.b, ..evening };
        }
        operations.push(answer.operation);
        let ignored = (answer.operation == IGNORED) as usize;
        evening = Evening {
            state: answer.state,
            held: answer.held,
            taken: evening.taken + 1 - ignored,
            released: evening.released + answer.released,
            ignored: evening.ignored + ignored,
            ..evening
        };
    }
    evening
}

/// An event that is not one of the rule's k: the first ones and the last one more often.
fn remark(dice: &mut Dice, k: usize) -> u8 {
    let any = k + dice.below(256 - k);
    dice.pick(&[k, k, k + 1, 255, any, any]) as u8
}

/// So many events, a remark with the chance of one in `remarks`.
fn some_events(dice: &mut Dice, count: usize, k: usize, remarks: usize) -> Vec<u8> {
    (0..count).map(|_| if dice.one_in(remarks) { remark(dice, k) } else { dice.below(k) as u8 }).collect()
}

/// Is the event past those of the sheet, or, where that is none, of any sheet?
fn is_remark(sheet: &Lent, event: u8) -> bool {
    event as usize >= monitor::open(sheet.bytes()).map_or(monitor::EVENTS, |opened| opened.events)
}

/// The mode and the number of pairs that a rule file tells, one of 12 bytes at least.
fn mode(file: &[u8]) -> usize {
    file[file.len() - 7] as usize
}

fn pairs(file: &[u8]) -> usize {
    file[file.len() - 9] as usize
}

fn mark(lengths: &mut Vec<bool>, len: usize) {
    if lengths.len() <= len {
        lengths.resize(len + 1, false);
    }
    lengths[len] = true;
}

/// The first length that was not met.
fn gap(lengths: &[bool]) -> usize {
    lengths.iter().position(|&met| !met).unwrap_or(lengths.len())
}

// ---------------------------------------------------------------------------------------------- the paper's own examples

fn rule(class: usize, rows: &[&[usize]], pairs: &[(&[usize], &[usize])]) -> Rule {
    Rule {
        class,
        states: rows.len(),
        events: rows[0].len(),
        initial: 0,
        mode: 0,
        note: vec![],
        rows: rows.iter().map(|row| row.to_vec()).collect(),
        pairs: pairs.iter().map(|(r, p)| Pair { r: r.to_vec(), p: p.to_vec() }).collect(),
    }
}

impl Comparison {
    /// The rules A, S, G, O and D, their marked runs, and the edges that the paper names. Here the expected answers
    /// are those of the paper itself, so that the second monitor is held to it too.
    fn paper(&mut self, dice: &mut Dice) -> Result<(), String> {
        let a = rule(4, &[&[1, 2, 0], &[2, 0, 2], &[2, 2, 2]], &[(&[0], &[])]);
        let s = rule(1, &[&[1, 2], &[1, 1], &[2, 2]], &[(&[], &[0, 1])]);
        let g = rule(2, &[&[0, 1], &[1, 1]], &[(&[1], &[])]);
        let o = rule(3, &[&[1, 2, 0], &[1, 1, 1], &[2, 2, 2]], &[(&[1], &[]), (&[2], &[])]);
        let d = rule(4, &[&[1], &[1]], &[(&[0], &[])]);
        let bytes: &[u8] =
            &[1, 2, 0, 2, 0, 2, 2, 2, 2, 1, 0, 0, 0, 0, 0, 0, 0, 0, 0, 0, 0, 0, 0, 0, 0, 4, 3, 3, 1, 0, 0, 37, 0, 28, 0, 72, 82];
        if monitor::layout(&a) != bytes {
            return Err("the second monitor does not lay out rule A as the paper has it".to_string());
        }
        let text = "rule 4 3 3 1 0\n0 0 1 store\n0 1 2 halt\n0 2 0 dump\n1 0 2 halt\n1 1 0 dump\n1 2 2 halt\n2 0 2 halt\n2 1 2 halt\n2 2 2 halt\nstop 2\n";
        if monitor::printed(bytes) != text {
            return Err("the second monitor does not print rule A as the paper has it".to_string());
        }
        let (_, sheet) = self.make(dice, bytes, 15)?;
        if sheet.bytes() != [65, 2, 128, 2, 128, 2, 2, 2, 2, 3, 3, 0, 77, 15, 0] {
            return Err(format!("the sheet of rule A is not the paper's: {}", hex(sheet.bytes())));
        }
        // rule, events, released, held, place of the first halt (0: none)
        let runs: [(&str, &Rule, &[u8], &[u8], &[u8], usize); 12] = [
            ("A", &a, &[], &[], &[], 0),
            ("A", &a, &[0], &[], &[0], 0),
            ("A", &a, &[0, 1], &[0, 1], &[], 0),
            ("A", &a, &[0, 1, 2, 0, 1, 0, 2], &[0, 1, 2, 0, 1], &[0], 7),
            ("A", &a, &[0, 1, 2, 0, 1, 0, 2, 0], &[0, 1, 2, 0, 1], &[0], 7),
            ("A", &a, &[1], &[], &[], 1),
            ("S", &s, &[1], &[], &[], 1),
            ("S", &s, &[0, 1, 1], &[0, 1, 1], &[], 0),
            ("G", &g, &[0, 0, 1, 0], &[0, 0, 1, 0], &[], 0),
            ("O", &o, &[2, 2], &[], &[2, 2], 0),
            ("O", &o, &[0], &[], &[], 1),
            ("D", &d, &[0], &[], &[], 1),
        ];
        for (i, (name, rule, events, released, held, halt)) in runs.iter().enumerate() {
            let file = monitor::layout(rule);
            let (_, sheet) = self.make(dice, &file, rule.states * rule.events + 6)?;
            let start = self.fresh(&sheet)?;
            let mut run = Run { state: start.state, held: start.held };
            let mut memory = Lent::blank(dice, 8);
            let mut told = History { taken: vec![], operations: vec![], released: vec![], held: vec![] };
            for &e in events.iter() {
                let (answer, output) = self.event(dice, &sheet, run, e, &mut memory, 8)?;
                told.taken.push(e);
                told.operations.push(answer.operation);
                told.released.extend_from_slice(&output.bytes()[..answer.released]);
                run = Run { state: answer.state, held: answer.held };
            }
            told.held = memory.bytes()[..run.held].to_vec();
            let first = told.operations.iter().position(|&op| op == 0).map_or(0, |at| at + 1);
            if (&told.released[..], &told.held[..], first) != (released, held, *halt) {
                return Err(format!(
                    "marked run {} of the paper, rule {}, events {:?}\n  paper     released {:?}, held {:?}, first halt {}\n  library   released {:?}, held {:?}, first halt {}",
                    i + 1, name, events, released, held, halt, told.released, told.held, first
                ));
            }
            oracle::judge(rule, &told)?;
        }
        // A with no memory refuses event 0 with 15 and then takes event 2 and releases it
        let mut none = Lent::blank(dice, 0);
        let (first, _) = self.event(dice, &sheet, Run { state: 0, held: 0 }, 0, &mut none, 8)?;
        let (second, output) = self.event(dice, &sheet, Run { state: first.state, held: first.held }, 2, &mut none, 8)?;
        if first.refusal != 15 || second.refusal != 0 || second.released != 1 || output.bytes()[0] != 2 {
            return Err(format!("rule A with a memory of length 0: {:?}, then {:?}", first, second));
        }
        // the last event of A is taken, the first code past it is not, and remarks stand anywhere in a log
        let (last, _) = self.event(dice, &sheet, Run { state: 0, held: 0 }, 2, &mut none, 1)?;
        let (past, _) = self.event(dice, &sheet, Run { state: 0, held: 0 }, 3, &mut none, 1)?;
        let mut memory = Lent::blank(dice, 1);
        let (evening, output, _) = self.evening(dice, &sheet, Run { state: 0, held: 0 }, &[3, 0, 255, 1, 31, 2, 32], &mut memory, 8)?;
        let told = (evening.refusal, evening.taken, evening.ignored, &output.bytes()[..evening.released]);
        if (last.operation, past.operation) != (2, IGNORED) || told != (0, 3, 4, &[0, 1, 2][..]) {
            return Err(format!("rule A with codes that are not the rule's: {:?}, {:?}, {:?}", last, past, evening));
        }
        self.joint_of_the_paper(dice, &o)?;
        self.whys_of_the_paper(dice, &a, &o)?;
        self.edges(dice, &a, &d)
    }

    /// O in joint mode is refused 9 with A 2. The rule J goes on where O stops: event 1 at the start leads where each pair has hope of its own.
    fn joint_of_the_paper(&mut self, dice: &mut Dice, o: &Rule) -> Result<(), String> {
        let (refused, _) = self.make(dice, &monitor::layout(&Rule { mode: monitor::JOINT, ..o.clone() }), 15)?;
        if (refused.refusal, refused.a, refused.b) != (9, 2, 0) {
            return Err(format!("rule O in joint mode: {:?}", refused));
        }
        let rows: &[&[usize]] = &[&[1, 5, 2], &[1, 2, 3], &[2, 2, 2], &[3, 3, 3], &[4, 4, 4], &[3, 4, 5]];
        let single = rule(3, rows, &[(&[1, 2, 3], &[]), (&[2, 4], &[])]);
        let j = Rule { mode: monitor::JOINT, ..single.clone() };
        let halts = |rule: &Rule| monitor::stopping(rule);
        if halts(&single) != [3, 4] || halts(&j) != [3, 4, 5] {
            return Err("the second monitor does not stop rule J where it is hopeless".to_string());
        }
        // events, operations, released, held
        let runs: [(&[u8], &[u8], &[u8], &[u8]); 3] =
            [(&[0, 0, 1, 0], &[1, 1, 2, 2], &[0, 0, 1, 0], &[]), (&[0, 2, 1], &[1, 0, 0], &[], &[0]), (&[1, 2], &[0, 0], &[], &[])];
        for (events, operations, released, held) in runs.iter() {
            let (_, sheet) = self.make(dice, &monitor::layout(&j), 24)?;
            let mut memory = Lent::blank(dice, 8);
            let (end, output, told) = self.evening(dice, &sheet, Run { state: 0, held: 0 }, events, &mut memory, 8)?;
            if (&told[..], &output.bytes()[..end.released], &memory.bytes()[..end.held]) != (*operations, *released, *held) {
                return Err(format!("rule J in joint mode, events {:?}: {:?}, {:?}", events, told, end));
            }
        }
        // state, event, operation, pair, way
        let whys: [(u8, u8, u8, u8, &[u8]); 6] =
            [(0, 0, 1, 2, &[1]), (0, 1, 0, 2, &[]), (0, 2, 2, 0, &[]), (1, 2, 0, 1, &[]), (5, 1, 0, 0, &[]), (5, 2, 0, 2, &[])];
        for (state, event, operation, pair, way) in whys.iter() {
            let (answer, told) = self.why(dice, &monitor::layout(&j), *state, *event, 63)?;
            if (answer.operation, answer.pair, &told[..]) != (*operation, *pair, *way) {
                return Err(format!("why, rule J in joint mode, state {}, event {}: {:?}, way {:?}", state, event, answer, told));
            }
        }
        Ok(())
    }

    /// The edges: sizes, notes and lengths just inside and just outside.
    fn edges(&mut self, dice: &mut Dice, a: &Rule, d: &Rule) -> Result<(), String> {
        let square = |n: usize, k: usize, m: usize, note: usize| Rule {
            class: 3,
            states: n,
            events: k,
            initial: 0,
            mode: 0,
            note: vec![82; note],
            rows: vec![vec![0; k]; n],
            pairs: vec![Pair { r: vec![0], p: vec![] }; m],
        };
        let noted = |len: usize| Rule { note: vec![72; len], ..a.clone() };
        let shortest = Rule { states: 1, rows: vec![vec![0]], ..d.clone() };
        let cases = [
            ("64 states", square(64, 1, 1, 0), 0),
            ("65 states", square(65, 1, 1, 0), 3),
            ("32 events", square(1, 32, 1, 0), 0),
            ("33 events", square(1, 33, 1, 0), 3),
            ("8 pairs", square(1, 1, 8, 0), 0),
            ("9 pairs", square(1, 1, 9, 0), 3),
            ("a note of 1,024 bytes", noted(1024), 0),
            ("a note of 1,025 bytes", noted(1025), 4),
            ("3,212 bytes", square(64, 32, 8, 1024), 0),
            ("3,213 bytes", square(64, 32, 8, 1025), 1),
            ("a note of 1,056 bytes in a file of 3,212", square(63, 32, 8, 1056), 4),
            ("the shortest file", shortest.clone(), 0),
            ("mode 1", Rule { mode: 1, ..a.clone() }, 0),
            ("mode 2", Rule { mode: 2, ..a.clone() }, 3),
            ("mode 255", Rule { mode: 255, ..a.clone() }, 3),
        ];
        if monitor::layout(&shortest).len() != 29 {
            return Err("the shortest rule file is not 29 bytes long".to_string());
        }
        for (what, rule, refusal) in cases.iter() {
            let file = monitor::layout(rule);
            let (made, _) = self.make(dice, &file, 2054)?;
            if made.refusal != *refusal {
                return Err(format!("{}: the paper says refusal {}, the library gives {:?}", what, refusal, made));
            }
            self.print(&file)?;
            self.counts.printed_other += self.table.is_some() as usize;
        }
        // any input gets an answer from the program, of any length
        let long = [vec![0; 1 << 20], monitor::layout(a)].concat();
        for input in [&[][..], &[0; 11][..], &[72, 82][..], &long[..], &long[..1 << 20]] {
            self.print(input)?;
            self.counts.printed_other += self.table.is_some() as usize;
        }
        Ok(())
    }
}

// ---------------------------------------------------------------------------------------------- the whole

struct Order {
    seed: u64,
    files: usize,
    only: Option<usize>,
}

fn order() -> Result<Order, String> {
    let mut order = Order { seed: 1, files: 3000, only: None };
    let mut words = std::env::args().skip(1);
    while let Some(word) = words.next() {
        let mut number = || -> Result<u64, String> {
            let value = words.next().ok_or_else(|| format!("{} wants a number", word))?;
            value.parse().map_err(|_| format!("{} wants a number, not {:?}", word, value))
        };
        match word.as_str() {
            "--seed" => order.seed = number()?,
            "--files" => order.files = number()? as usize,
            "--only" => order.only = Some(number()? as usize),
            _ => return Err(format!("unknown word {:?}; there are --seed N, --files N, --only N", word)),
        }
    }
    Ok(order)
}

/// Rule file number i of a seed: even ones sound, odd ones damaged, each way in turn.
fn case(dice: &mut Dice, i: usize) -> (Vec<u8>, String) {
    if i % 2 == 0 {
        let place = i / 2;
        let class = if place == 1 { 3 } else { 1 + (place + place / 4) % 4 };
        (monitor::layout(&draw::sound(dice, place, class)), format!("made to be sound, class {}", class))
    } else {
        let (file, said) = draw::damaged(dice, i / 2, i / 2 % draw::DAMAGES);
        (file, format!("damaged: {}", said))
    }
}

fn list(counts: &[usize], numbers: std::ops::RangeInclusive<usize>) -> String {
    let met: Vec<String> = numbers.filter(|&no| counts[no] > 0).map(|no| format!("{}: {}", no, counts[no])).collect();
    if met.is_empty() {
        return "none".to_string();
    }
    met.join(", ")
}

fn report(c: &Counts) {
    println!("rule files   {} of {} sound, the others refused", c.sound.iter().sum::<usize>(), c.files);
    println!("             by class {}; by pairs {}", list(&c.sound, 1..=4), list(&c.pairs, 1..=8));
    println!(
        "             {} of 1 x 1, {} of 64 x 32; {} damaged at one place and still sound",
        c.least, c.greatest, c.damaged_but_sound
    );
    println!(
        "             in joint mode by class {}, {} with several pairs; {} moves that halt in joint mode only",
        list(&c.joint, 1..=4),
        c.joint_several,
        c.joint_halts
    );
    println!("sheets       {} made; refused {}", c.made[0], list(&c.made, 1..=16));
    println!("             9 in joint mode of several pairs: by one {}, by all together {}", c.made_joint[0], c.made_joint[1]);
    println!("texts        {} printed; refused 16 {}", c.texts[1], c.texts[0]);
    println!("fresh starts {}; refused {}", c.starts[0], c.starts[1]);
    println!(
        "events       halt {}, store {}, dump {} ({} with events held); refused {}",
        c.taken[0],
        c.taken[1],
        c.taken[2],
        c.dumped_held,
        list(&c.event, 1..=16)
    );
    println!(
        "             ignored {} ({} with events held, {} after a halt); remarks refused 11: {}, 12: {}",
        c.taken[3], c.ignored_held, c.ignored_halted, c.remarks_refused[0], c.remarks_refused[1]
    );
    println!(
        "             memory of every length under {}, output of every length under {}",
        gap(&c.memory_lengths),
        gap(&c.output_lengths)
    );
    println!(
        "evenings     {} gone through, the longest of {} events, {} with remarks ({} with nothing else)",
        c.evening[0], c.evening_longest, c.evening_ignored, c.evening_all_ignored
    );
    println!(
        "             refused {}, {} of them after an event was taken, {} after one was ignored",
        list(&c.evening, 1..=19),
        c.evening_late,
        c.evening_late_ignored
    );
    println!("histories    {} judged by the definition of acceptance, {} of them with a halt", c.histories, c.halted);
}

/// What the run must have met to be worth something.
fn lacking(c: &Counts, printing: bool) -> Vec<String> {
    let mut faults = Vec::new();
    for no in 1..=16 {
        let met = c.made[no] + c.event[no];
        if ![UNUSED, 13].contains(&no) && met < ENOUGH {
            faults.push(format!("refusal {} was met {} times; at least {} are wanted", no, met, ENOUGH));
        }
        if [5, 6, 8, 9, 14].contains(&no) && c.places[no] == 0 {
            faults.push(format!("refusal {} was never met with places other than the first", no));
        }
        if printing && no < UNUSED && c.printed_refused[no] == 0 {
            faults.push(format!("no file with refusal {} was printed", no));
        }
    }
    if c.event[16] < ENOUGH || c.made[16] < ENOUGH {
        faults.push(format!(
            "refusal 16 was met {} times in making and {} times in events; at least {} of each are wanted",
            c.made[16], c.event[16], ENOUGH
        ));
    }
    for no in [11, 12, 14, 15, 16, 19] {
        if c.evening[no] < ENOUGH {
            faults.push(format!("an evening was refused {} {} times; at least {} are wanted", no, c.evening[no], ENOUGH));
        }
    }
    if c.evening_late < ENOUGH || c.evening_longest < monitor::EVENING {
        faults.push(format!("evenings refused after an event was taken, and one of {} events, are wanted", monitor::EVENING));
    }
    let remarks = [
        ("ignored with events held", c.ignored_held),
        ("ignored after a halt", c.ignored_halted),
        ("refused 11", c.remarks_refused[0]),
        ("refused 12", c.remarks_refused[1]),
        ("in evenings that were refused later", c.evening_late_ignored),
        ("in evenings that were gone through", c.evening_ignored),
        ("in evenings of nothing else", c.evening_all_ignored),
    ];
    for (what, met) in remarks.iter().filter(|(_, met)| *met < ENOUGH) {
        faults.push(format!("remarks {}: met {} times; at least {} are wanted", what, met, ENOUGH));
    }
    for class in 1..=4 {
        if c.sound[class] < ENOUGH {
            faults.push(format!("only {} sound rules of class {}", c.sound[class], class));
        }
    }
    let joint = [("of several pairs", c.joint_several), ("refused 9 by one pair", c.made_joint[0]), ("refused 9 by all together", c.made_joint[1])];
    for (what, met) in joint.iter().filter(|(_, met)| *met < ENOUGH) {
        faults.push(format!("rules in joint mode {}: met {} times; at least {} are wanted", what, met, ENOUGH));
    }
    if c.joint[1..].iter().any(|&met| met < ENOUGH) || c.joint_halts < ENOUGH || 4 * c.joint.iter().sum::<usize>() < c.sound.iter().sum::<usize>() {
        faults.push("joint rules of each class, some that halt in joint mode only, and a quarter of all at least are wanted".to_string());
    }
    if c.pairs[1..].contains(&0) || c.least == 0 || c.greatest == 0 {
        faults.push("sound rules with each number of pairs, of 1 x 1 and of 64 x 32 are wanted".to_string());
    }
    if c.taken.iter().any(|&n| n < 1000) || c.dumped_held < 1000 {
        faults.push("at least 1000 halts, 1000 stores and 1000 dumps of held events are wanted".to_string());
    }
    if c.files < 2000 || c.events < 200_000 {
        faults.push(format!("{} rule files and {} events; at least 2000 and 200000 are wanted", c.files, c.events));
    }
    if gap(&c.memory_lengths) < 32 || gap(&c.output_lengths) < 32 {
        faults.push("memories and outputs of every length under 32 are wanted".to_string());
    }
    faults
}

fn main() {
    let order = order().unwrap_or_else(|fault| {
        eprintln!("compare: {}", fault);
        exit(2);
    });
    let table = std::env::var("PACHALLU_TABLE").ok().filter(|words| !words.trim().is_empty());
    let mut comparison = Comparison { counts: Counts::default(), table, file: vec![], books: Default::default(), reasons: Default::default() };
    let fail = |fault: &str, file: &[u8], said: &str, rerun: &str| -> ! {
        let shown = if file.len() > 4096 { &file[file.len() - 4096..] } else { file };
        eprintln!("host: the proved side and the second monitor do not agree\n  {}\n  rule file {} {}", fault, said, hex(shown));
        eprintln!("  again     host/host-test {}", rerun);
        exit(1);
    };
    if order.only.is_none() {
        let mut dice = Dice::new(order.seed, u64::MAX);
        if let Err(fault) = comparison.paper(&mut dice) {
            fail(&fault, &comparison.file, "of the paper's own examples", &format!("--seed {}", order.seed));
        }
    }
    let places = match order.only {
        Some(i) => i..i + 1,
        None => 0..order.files,
    };
    for i in places {
        let mut dice = Dice::new(order.seed, i as u64);
        let (file, said) = case(&mut dice, i);
        if i % 2 == 1 && monitor::read(&file).is_ok() {
            comparison.counts.damaged_but_sound += 1;
        }
        if let Err(fault) = comparison.file(&mut dice, &file).and_then(|_| comparison.books(&mut dice, &file)) {
            let rerun = format!("--seed {} --only {}", order.seed, i);
            fail(&fault, &comparison.file, &format!("{}, {}", i, said), &rerun);
        }
    }
    let c = &comparison.counts;
    report(c);
    books::report(&comparison.books);
    reasons::report(&comparison.reasons);
    let printing = comparison.table.is_some();
    let printed = c.printed_sound.iter().sum::<usize>() + c.printed_refused.iter().sum::<usize>() + c.printed_other;
    if printing {
        println!(
            "printed      {} texts: sound by class {}, refused {}, edges {}",
            printed,
            list(&c.printed_sound, 1..=4),
            list(&c.printed_refused, 1..=16),
            c.printed_other
        );
    } else {
        println!("printed      no texts: PACHALLU_TABLE does not say how to start the program");
    }
    if order.only.is_none() {
        let mut faults = lacking(c, printing);
        faults.extend(books::lacking(&comparison.books));
        faults.extend(reasons::lacking(&comparison.reasons));
        if !faults.is_empty() {
            eprintln!("host: the comparison did not try enough\n  {}", faults.join("\n  "));
            exit(1);
        }
    }
    println!("host: {} rule files, {} events, {} printed texts, all equal", c.files, c.events, printed);
}
