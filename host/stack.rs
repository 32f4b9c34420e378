//! How much stack the library's calls take. Each is made, as C makes it, on a stack of its own that was painted before; how far down the paint is gone
//! is what the call took, its return address included and the arguments that lie on the stack not. Prints a markdown table with the rule on which a call
//! took most; exit 1 where one takes more than it may. On rules of full size and on rules by chance.

mod dice;
#[allow(dead_code)]
mod draw;
mod library;
#[allow(dead_code)]
mod monitor;
#[allow(dead_code)]
mod rules;

use dice::Dice;
use library::{Answer, Evening, Found, Made, Reason, Start};
use monitor::Rule;
use std::arch::asm;
use std::mem::size_of;

/// Not used: the calls are made from here (host/library.rs).
pub const NULL_FOR_EMPTY: bool = false;

/// The painted stack's length in steps of 16 bytes, by which it is aligned: 32 KB. Above it is room for arguments.
const STEPS: usize = 2048;
const ARGUMENTS: usize = 4;

/// The calls, and how many bytes each may take; 0: no bar.
const CALLS: [(&str, usize); 8] = [
    ("pachallu_make", 1024),
    ("pachallu_why", 0),
    ("pachallu_event", 255),
    ("pachallu_events", 255),
    ("pachallu_fresh", 0),
    ("pachallu_print", 0),
    ("pachallu_find", 0),
    ("pachallu_add", 0),
];

/// How many rules by chance.
const RULES: usize = 200;

#[repr(align(16))]
#[derive(Clone, Copy, PartialEq)]
struct Step([u64; 2]);

struct Stack {
    steps: Vec<Step>,
}

impl Stack {
    /// Calls a C function whose arguments are numbers and pointers, with the painted stack below it: the first six in registers, the others on the
    /// stack. An answer of more than 16 bytes is written where the first one points. Gives the first byte of the answer.
    unsafe fn call(&mut self, function: *const (), args: &[u64; 12], large: bool) -> u8 {
        let mut answer = [0u64; 8];
        let mut given = args.to_vec();
        if large {
            given.insert(0, answer.as_mut_ptr() as u64);
        }
        let top = self.steps.as_mut_ptr().add(STEPS) as *mut u64;
        std::ptr::copy_nonoverlapping(given[6..].as_ptr(), top, 6);
        let mut first: u64;
        asm!(
            "mov r12, rsp",
            "mov rsp, {top}",
            "call {function}",
            "mov rsp, r12",
            top = in(reg) top,
            function = in(reg) function,
            inout("rdi") given[0] => _, inout("rsi") given[1] => _, inout("rdx") given[2] => _,
            inout("rcx") given[3] => _, inout("r8") given[4] => _, inout("r9") given[5] => _,
            out("rax") first, out("r12") _,
            clobber_abi("C")
        );
        if large {
            first = std::ptr::read_volatile(answer.as_ptr());
        }
        first as u8
    }

    /// The bytes that a call takes, with two paints, since it may write the very paint; and its refusal.
    fn taken<T>(&mut self, function: *const (), args: &[u64]) -> (usize, u8) {
        let mut all = [0; 12];
        all[..args.len()].copy_from_slice(args);
        let (mut most, mut refusal) = (0, 0);
        for paint in [0xa5a5_a5a5_a5a5_a5a5, 0x5a5a_5a5a_5a5a_5a5a] {
            self.steps.fill(Step([paint; 2]));
            refusal = unsafe { self.call(function, &all, size_of::<T>() > 16) };
            let clean = self.steps.iter().position(|step| *step != Step([paint; 2])).unwrap_or(STEPS);
            assert!(clean > 0, "a call took all of a stack of 32 KB");
            // the lower half of the first step that was written may be clean too
            let half = (self.steps[clean].0[0] == paint) as usize;
            most = most.max(16 * (STEPS - clean) - 8 * half);
        }
        (most, refusal)
    }
}

fn start(bytes: &[u8]) -> u64 {
    bytes.as_ptr() as u64
}

fn start_mut(bytes: &mut [u8]) -> u64 {
    bytes.as_mut_ptr() as u64
}

struct Measuring {
    stack: Stack,
    /// Of each call: the most bytes, and the rule on which it took them.
    most: [(usize, String); 8],
}

impl Measuring {
    fn note(&mut self, call: usize, name: &str, taken: usize) {
        if taken > self.most[call].0 {
            self.most[call] = (taken, name.to_string());
        }
    }

    /// All calls that take a rule file.
    fn file(&mut self, name: &str, file: &[u8], questions: &[(u8, u8)]) {
        let mut room = vec![0; 40000];
        let rule = [start(file), file.len() as u64];
        let out = start_mut(&mut room);
        for size in [0, 40000] {
            let (make, print, add) = (library::pachallu_make as *const (), library::pachallu_print as *const (), library::pachallu_add as *const ());
            let taken = self.stack.taken::<Made>(make, &[rule[0], rule[1], out, size]).0;
            self.note(0, name, taken);
            let taken = self.stack.taken::<Made>(print, &[rule[0], rule[1], out, size]).0;
            self.note(5, name, taken);
            let taken = self.stack.taken::<Made>(add, &[start(&[0, 0]), 2, 7, rule[0], rule[1], out, size]).0;
            self.note(7, name, taken);
        }
        for &(state, event) in questions {
            for size in [0, 63] {
                let why = library::pachallu_why as *const ();
                let taken = self.stack.taken::<Reason>(why, &[rule[0], rule[1], state as u64, event as u64, out, size]).0;
                self.note(1, name, taken);
            }
        }
    }

    /// All calls that take a sheet: from so many states, by so many events, with and without held ones, with and without room.
    fn sheet(&mut self, name: &str, dice: &mut Dice, rule: &Rule) {
        let sheet = monitor::sheet(rule);
        let (n, k) = (rule.states, rule.events);
        let log: Vec<u8> = (0..100).map(|_| dice.below(k) as u8).collect();
        let (mut memory, mut output) = ([0; 200], [0; 400]);
        let sheet = [start(&sheet), sheet.len() as u64];
        let (memory, output) = (start_mut(&mut memory), start_mut(&mut output));
        let taken = self.stack.taken::<Start>(library::pachallu_fresh as *const (), &sheet).0;
        self.note(4, name, taken);
        for _ in 0..6 {
            let (state, event, held, room) = (dice.below(n) as u64, dice.below(k + 1) as u64, dice.pick(&[0, 1, 40]), dice.pick(&[0, 200]));
            let event_args = [sheet[0], sheet[1], state, held, event, memory, 100, output, room];
            let taken = self.stack.taken::<Answer>(library::pachallu_event as *const (), &event_args).0;
            self.note(2, name, taken);
            let args = [sheet[0], sheet[1], state, held, start(&log), log.len() as u64, memory, 200, output, room];
            let taken = self.stack.taken::<Evening>(library::pachallu_events as *const (), &args).0;
            self.note(3, name, taken);
        }
    }

    fn books(&mut self) {
        let list: Vec<monitor::Filed> = (0..1024).map(|i| monitor::Filed { number: (i % 7) as u8, rule: vec![1; i % 5] }).collect();
        let (book, none) = (monitor::book(&list), [0, 0]);
        for (job, office) in [(&book[..], &book[..]), (&none[..], &book[..]), (&book[..9], &none[..])] {
            for (number, age) in [(0, 0), (3, 70), (9, 0)] {
                let args = [start(job), job.len() as u64, start(office), office.len() as u64, number, age];
                let taken = self.stack.taken::<Found>(library::pachallu_find as *const (), &args).0;
                self.note(6, "two books", taken);
            }
        }
    }

    fn rule(&mut self, name: &str, dice: &mut Dice, rule: &Rule, questions: usize) {
        let questions: Vec<(u8, u8)> = (0..questions).map(|i| ((i % rule.states) as u8, dice.below(rule.events) as u8)).collect();
        self.file(name, &monitor::layout(rule), &questions);
        if monitor::check(rule).is_ok() {
            self.sheet(name, dice, rule);
        }
    }
}

fn main() {
    let stack = Stack { steps: vec![Step([0; 2]); STEPS + ARGUMENTS] };
    let mut measuring = Measuring { stack, most: Default::default() };
    let mut dice = Dice::new(3, 0);
    for (name, rule) in rules::all() {
        measuring.rule(name, &mut dice, &rule, 64);
        measuring.rule(&format!("{}, joint", name), &mut dice, &Rule { mode: monitor::JOINT, ..rule }, 16);
    }
    for place in 0..RULES {
        let rule = draw::sound(&mut dice, place, 1 + place % 4);
        measuring.rule("a rule by chance", &mut dice, &rule, 4);
        let (file, _) = draw::damaged(&mut dice, place, place % draw::DAMAGES);
        measuring.file("a damaged file", &file, &[(0, 0)]);
    }
    measuring.books();
    println!("| stack of a call | bytes | at most | the most on |\n|---|---:|---:|---|");
    let mut over = Vec::new();
    for ((call, bar), (taken, name)) in CALLS.iter().zip(&measuring.most) {
        let most = if *bar == 0 { String::new() } else { bar.to_string() };
        println!("| `{}` | {} | {} | {} |", call, taken, most, name);
        if *bar != 0 && taken > bar {
            over.push(format!("{} took {} bytes of stack on {}; it may take {}", call, taken, name, bar));
        }
    }
    if !over.is_empty() {
        eprintln!("stack: {}", over.join("\nstack: "));
        eprintln!(
            "stack: a function on that way recurses, or has an array or a large struct by value. `objdump -d target/host/libpachallu.a` shows it:\n\
             stack: a call to itself, or a great number taken off rsp. Lend such a value as a slice, keep one set of states at a time, and let a loop do it."
        );
        std::process::exit(1);
    }
}
