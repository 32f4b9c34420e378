//! Runs each case of the benchmark on each side between two marks; the plugin of host/insn.c counts, the script `bench`
//! makes the table. For every measured loop a line goes to standard output: mark, case, side, calls.
//!
//! The side "loop" is the loop without the call; its cost is to be taken off the others'. Before anything is measured,
//! all sides must give the same answers and the same bytes.

#[allow(dead_code)]
mod dice;
mod library;
#[allow(dead_code)]
mod monitor;
mod plain;
#[allow(dead_code)]
mod rules;

use dice::Dice;
use library::{Answer, Evening, Made, Reason};

/// What is counted has no test for empty buffers (host/library.rs).
pub const NULL_FOR_EMPTY: bool = false;
use monitor::{Filed, Pair, Rule, Run};
use rules::{by_chance, chain, long_way, rule, self_loops, zigzag};
use std::arch::asm;

const MARK: u64 = 0x70616368;

/// A system call that no kernel has: it fails at once, and the plugin sees it.
#[inline(always)]
fn mark(number: u64) {
    unsafe {
        asm!("syscall", inlateout("rax") MARK => _, in("rdi") number, lateout("rcx") _, lateout("r11") _, options(nostack));
    }
}

/// The compiler must have the value in memory here.
#[inline(always)]
fn keep<T>(value: &T) {
    unsafe { asm!("/* {0} */", in(reg) value, options(nostack, preserves_flags)) }
}

/// The same slice, of which the compiler knows nothing any more.
#[inline(always)]
fn unknown(slice: &[u8]) -> &[u8] {
    let (mut start, mut len) = (slice.as_ptr(), slice.len());
    unsafe {
        asm!("/* {0} {1} */", inout(reg) start, inout(reg) len, options(nostack, preserves_flags));
        std::slice::from_raw_parts(start, len)
    }
}

#[derive(Clone, Copy)]
struct Step {
    state: u8,
    held: usize,
    event: u8,
}

struct Bench {
    last: u64,
}

impl Bench {
    /// Once to warm up, once between marks.
    #[inline(never)]
    fn drive<T, F: FnMut(&T)>(&mut self, case: &str, side: &str, items: &[T], mut call: F) {
        for round in 0..2 {
            if round == 1 {
                self.last += 1;
                mark(0);
            }
            for item in items {
                call(item);
            }
        }
        mark(self.last);
        println!("{}\t{}\t{}\t{}", self.last, case, side, items.len());
    }

    fn events(&mut self, case: &str, sheet: &[u8], steps: &[Step]) {
        const ROOM: usize = 64;
        let (mut memory, mut output) = ([0u8; ROOM], [0u8; ROOM]);
        for s in steps {
            let (mut m1, mut o1, mut m2, mut o2) = (memory, output, memory, output);
            let library: Answer = library::event(sheet, s.state, s.held, s.event, &mut m1, &mut o1);
            let plain: Answer = plain::event(sheet, s.state, s.held, s.event, &mut m2, &mut o2);
            assert!(library == plain && m1 == m2 && o1 == o2, "{}: {:?} and {:?}", case, library, plain);
            assert!(library.refusal == 0);
        }
        self.drive(case, "loop", steps, |s| keep(&(unknown(sheet), s.state, s.held, s.event)));
        self.drive(case, "library", steps, |s| {
            keep(&library::event(unknown(sheet), s.state, s.held, s.event, &mut memory, &mut output))
        });
        self.drive(case, "plain", steps, |s| {
            keep(&plain::event(unknown(sheet), s.state, s.held, s.event, &mut memory, &mut output))
        });
    }

    /// A whole log in one call, beside plain Rust that opens the sheet once, and beside as many single calls.
    fn evening(&mut self, case: &str, sheet: &[u8], log: &[u8]) {
        const ROOM: usize = 8192;
        let (mut memory, mut output) = (vec![0u8; ROOM], vec![0u8; ROOM]);
        let (mut m2, mut o2) = (memory.clone(), output.clone());
        let library: Evening = library::events(sheet, 0, 0, log, &mut memory, &mut output);
        let plain: Evening = plain::events(sheet, 0, 0, log, &mut m2, &mut o2);
        assert!(library == plain && memory == m2 && output == o2, "{}: {:?} and {:?}", case, library, plain);
        let singly = single_calls(sheet, log, &mut m2, &mut o2);
        assert!(library == singly && memory == m2 && output == o2, "{}: {:?} and {:?}", case, library, singly);
        assert!(library.refusal == 0 && library.taken + library.ignored == log.len());
        let turns = [(); 3];
        self.drive(case, "loop", &turns, |_| keep(&(unknown(sheet), unknown(log))));
        self.drive(case, "library", &turns, |_| keep(&library::events(unknown(sheet), 0, 0, unknown(log), &mut memory, &mut output)));
        self.drive(case, "plain", &turns, |_| keep(&plain::events(unknown(sheet), 0, 0, unknown(log), &mut memory, &mut output)));
        self.drive(case, "single", &turns, |_| keep(&single_calls(unknown(sheet), unknown(log), &mut memory, &mut output)));
    }

    /// Making with an output of the given length; with none, all is read and checked and then refused 16.
    fn making(&mut self, case: &str, rule: &Rule, room: usize) {
        let file = monitor::layout(rule);
        let mut sheets = [vec![1; room], vec![1; room], vec![1; room], vec![1; room]];
        let answers: [Made; 3] =
            [library::make(&file, &mut sheets[0]), plain::make(&file, &mut sheets[1]), plain::make_best(&file, &mut sheets[2])];
        let second = monitor::make(&file, &mut sheets[3]).map_err(|r| r.no);
        let agree = answers.iter().all(|a| *a == answers[0]) && sheets.iter().all(|s| *s == sheets[0]);
        assert!(agree && (answers[0].refusal == 0) == second.is_ok(), "{}: {:?} and {:?}", case, answers, second);
        assert!(answers[0].refusal == if room == 0 { 16 } else { 0 }, "{}: {:?}", case, answers[0]);
        let sheet = &mut sheets[0][..];
        let turns = [(); 3];
        self.drive(case, "loop", &turns, |_| keep(&unknown(&file)));
        self.drive(case, "library", &turns, |_| keep(&library::make(unknown(&file), sheet)));
        self.drive(case, "plain", &turns, |_| keep(&plain::make(unknown(&file), sheet)));
        self.drive(case, "best", &turns, |_| keep(&plain::make_best(unknown(&file), sheet)));
    }
}

impl Bench {
    /// The reason of an event, with room for every way.
    fn why(&mut self, case: &str, rule: &Rule, state: u8, event: u8, length: usize) {
        let file = monitor::layout(rule);
        let mut ways = [[99; 63]; 4];
        let answers: [Reason; 3] = [
            library::why(&file, state, event, &mut ways[0]),
            plain::why(&file, state, event, &mut ways[1]),
            plain::why_best(&file, state, event, &mut ways[2]),
        ];
        let second = monitor::why(&file, state, event, &mut ways[3]);
        let agree = answers.iter().all(|a| *a == answers[0]) && ways.iter().all(|w| *w == ways[0]) && second.is_ok();
        assert!(agree && answers[0].refusal == 0 && answers[0].length == length, "{}: {:?} and {:?}", case, answers, second);
        let way = &mut ways[0][..];
        let turns = [(); 3];
        self.drive(case, "loop", &turns, |_| keep(&(unknown(&file), state, event)));
        self.drive(case, "library", &turns, |_| keep(&library::why(unknown(&file), state, event, way)));
        self.drive(case, "plain", &turns, |_| keep(&plain::why(unknown(&file), state, event, way)));
        self.drive(case, "best", &turns, |_| keep(&plain::why_best(unknown(&file), state, event, way)));
    }

    /// A lookup in two full books.
    fn finding(&mut self, case: &str, job: &[u8], office: &[u8], number: u8, age: u16) {
        let answers = [library::find(job, office, number, age), plain::find(job, office, number, age)];
        let second = monitor::find(job, office, number, age);
        assert!(answers[0] == answers[1] && (answers[0].refusal == 0) == second.is_ok(), "{}: {:?} and {:?}", case, answers, second);
        let turns = [(); 3];
        self.drive(case, "loop", &turns, |_| keep(&(unknown(job), unknown(office), number, age)));
        self.drive(case, "library", &turns, |_| keep(&library::find(unknown(job), unknown(office), number, age)));
        self.drive(case, "plain", &turns, |_| keep(&plain::find(unknown(job), unknown(office), number, age)));
    }
}

/// The library's single calls, each given the unwritten rest of the output.
#[inline(never)]
fn single_calls(sheet: &[u8], log: &[u8], memory: &mut [u8], output: &mut [u8]) -> Evening {
    let (mut state, mut held, mut released, mut ignored) = (0, 0, 0, 0);
    for &event in log {
        let a = library::event(sheet, state, held, event, memory, &mut output[released..]);
        state = a.state;
        held = a.held;
        released += a.released;
        ignored += (a.operation == 3) as usize;
    }
    Evening { refusal: 0, a: 0, b: 0, state, held, taken: log.len() - ignored, released, ignored }
}

// ---------------------------------------------------------------------------------------------- the cases

/// A book of 1,024 rules: the oldest and the newest under the number that is given, the others under the numbers after it.
fn full_book(number: u8) -> Vec<u8> {
    let under = |i: usize| if i == 0 || i == 1023 { number } else { number + 1 + (i % 100) as u8 };
    monitor::book(&(0..1024).map(|i| Filed { number: under(i), rule: vec![i as u8; i % 8] }).collect::<Vec<_>>())
}

/// Setups: 0 backsight, 1 foresight, 2 disturbed (the paper's rule A).
fn setups() -> Rule {
    rule(4, vec![vec![1, 2, 0], vec![2, 0, 2], vec![2, 2, 2]], vec![Pair { r: vec![0], p: vec![] }])
}

/// Everything is held until event 1 (the paper's rule G).
fn waiting() -> Rule {
    rule(2, vec![vec![0, 1], vec![1, 1]], vec![Pair { r: vec![1], p: vec![] }])
}

/// A crew's days on the setups' sheet: mostly backsight and foresight, now and then a disturbed setup between two, and a
/// mistake that ends the run; the next day starts afresh.
fn days(sheet: &[u8], steps: usize) -> Vec<Step> {
    let mut dice = Dice::new(1, 0);
    let mut run = Run { state: 0, held: 0 };
    let mut list = Vec::new();
    let (mut memory, mut output) = ([0; 64], [0; 64]);
    while list.len() < steps {
        let right = if run.state == 0 {
            if dice.one_in(10) {
                2
            } else {
                0
            }
        } else {
            1
        };
        let event = if dice.one_in(40) { dice.below(3) as u8 } else { right };
        list.push(Step { state: run.state, held: run.held, event });
        if let Ok(monitor::Answer::Taken(taken)) = monitor::event(sheet, run, event, &mut memory, &mut output) {
            run = taken.run;
        }
        if run.state == 2 && dice.one_in(3) {
            run = Run { state: 0, held: 0 };
        }
    }
    list
}

/// The same days with a remark before every event: any code that is not the rule's.
fn with_remarks(days: Vec<Step>) -> Vec<Step> {
    let mut dice = Dice::new(4, 0);
    days.into_iter().flat_map(|step| [Step { event: 3 + dice.below(253) as u8, ..step }, step]).collect()
}

fn main() {
    let mut bench = Bench { last: 0 };
    let (setups, waiting) = (monitor::sheet(&setups()), monitor::sheet(&waiting()));
    let steps = |f: &dyn Fn(usize) -> (u8, usize, u8)| -> Vec<Step> {
        (0..4096).map(f).map(|(state, held, event)| Step { state, held, event }).collect()
    };
    bench.events("one event, all dump", &setups, &steps(&|_| (0, 0, 2)));
    bench.events("one event, all store", &waiting, &steps(&|i| (0, i % 64, 0)));
    bench.events("one event, halting", &setups, &steps(&|i| (2, i % 3, (i % 3) as u8)));
    bench.events("one event, days of a crew", &setups, &days(&setups, 4096));
    bench.events("one event, half remarks", &setups, &with_remarks(days(&setups, 2048)));
    let (job, office) = (full_book(1), full_book(150));
    bench.finding("a lookup, newest of the job's book", &job, &office, 1, 0);
    bench.finding("a lookup, oldest of the job's book", &job, &office, 1, 1);
    bench.finding("a lookup, oldest of the office's book", &job, &office, 150, 1);
    bench.finding("a lookup, in neither book", &job, &office, 0, 0);
    let day: Vec<u8> = days(&setups, 4096).iter().map(|step| step.event).collect();
    let quiet: Vec<u8> = (0..4096).map(|i| if i % 9 == 8 { 2 } else { (i % 9 % 2) as u8 }).collect();
    bench.evening("4,096 events, all dump", &setups, &[2; 4096]);
    bench.evening("4,096 events, all store", &waiting, &[0; 4096]);
    bench.evening("4,096 events, mostly after a halt", &setups, &day);
    bench.evening("4,096 events, an evening of a crew", &setups, &quiet);
    let remarked: Vec<u8> = quiet[..2048].iter().enumerate().flat_map(|(i, &e)| [3 + (i * 7 % 253) as u8, e]).collect();
    bench.evening("4,096 events, half remarks", &setups, &remarked);
    for (name, rule) in [("random", by_chance()), ("chain", chain()), ("self-loops", self_loops()), ("zigzag", zigzag())] {
        bench.making(&format!("reading, {}", name), &rule, 0);
        bench.making(&format!("making a sheet, {}", name), &rule, 2054);
        bench.making(&format!("making a joint sheet, {}", name), &Rule { mode: monitor::JOINT, ..rule }, 2054);
    }
    bench.why("why, a way of 63", &long_way(0), 0, 0, 63);
    bench.why("why, a way of 63 by the last event", &long_way(31), 0, 0, 63);
    let near = |e: &u8| monitor::reason(&monitor::layout(&by_chance()), 0, *e).map_or(0, |x| x.way.len()) == 1;
    bench.why("why, a way of 1, random", &by_chance(), 0, (0..32).find(near).unwrap_or(0), 1);
    bench.why("why, a way of 1, chain", &long_way(0), 61, 0, 1);
    bench.why("why, a way of 63, joint", &Rule { mode: monitor::JOINT, ..long_way(0) }, 0, 0, 63);
}
