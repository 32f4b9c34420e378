//! Rule books: drawn by chance, sound and spoiled, and compared: lookups in two books, rules added to one.

use crate::dice::Dice;
use crate::draw::Lent;
use crate::library::{self, Found};
use crate::monitor::{self, Filed, Refusal};
use crate::{differ, expected_made, hex, list, same_bytes, untouched, Comparison, ENOUGH};

/// The sizes that must be met: none, one, and about the most.
const SIZES: [usize; 5] = [0, 1, 1023, 1024, 1025];

#[derive(Default)]
pub struct BookCounts {
    /// Lookups: found in the job's book, in the office's, and refused by number; 17 by its place A.
    found: [usize; 2],
    refused: [usize; 19],
    bad: [usize; 2],
    /// Those at an age over 0 that were found, and the empty rules that were.
    aged: usize,
    empty: usize,
    /// Rules added, by the refusal or 0.
    added: [usize; 27],
    /// Books of the sizes above that were looked into.
    sizes: [usize; 5],
}

fn expected_found(answer: Result<monitor::Place, Refusal>) -> Found {
    match answer {
        Ok(p) => Found { refusal: 0, a: 0, b: 0, book: p.book, start: p.start, length: p.length },
        Err(r) => Found { refusal: r.no, a: r.a, b: r.b, book: 0, start: 0, length: 0 },
    }
}

/// A list of so many short rules, mostly under few numbers, so that ages are met. A lookup does not judge them.
fn some_rules(dice: &mut Dice, entries: usize) -> Vec<Filed> {
    let numbers = dice.pick(&[1, 2, 4, 256]);
    (0..entries)
        .map(|_| {
            let size = dice.pick(&[0, 1, 2, 5, 29, 300]);
            Filed { number: dice.below(numbers) as u8, rule: dice.bytes(if entries > 100 { size % 6 } else { size }) }
        })
        .collect()
}

fn drawn(dice: &mut Dice) -> Vec<u8> {
    let entries = match dice.below(24) {
        0 | 1 => 0,
        2 | 3 => 1,
        4 => 1023,
        5 => 1024,
        6 => 1025,
        _ => 1 + dice.below(9),
    };
    monitor::book(&some_rules(dice, entries))
}

/// A book with one fault, or what is left of one.
fn spoiled(dice: &mut Dice, mut book: Vec<u8>) -> Vec<u8> {
    let size = book.len();
    let count = (book[size - 2] as usize + 256 * book[size - 1] as usize).min((size - 2) / 8);
    let directory = size - 2 - 8 * count;
    let entry = directory + 8 * dice.below(count.max(1));
    match dice.below(11) {
        0 => book.truncate(dice.below(3)),
        1 => book.truncate(dice.below(size)),
        2 => book[size - 2] = book[size - 2].wrapping_add(dice.pick(&[1, 2, 255])),
        3 => book[size - 1] = dice.byte(),
        4 if count > 0 => book[entry + 1] = 1 + dice.below(255) as u8,
        5 if count > 0 => book[entry + 2] = book[entry + 2].wrapping_add(1),
        6 if count > 0 => book[entry + 4 + dice.below(4)] ^= 1,
        // a gap before the directory, and one at the front
        7 => book.insert(directory, dice.byte()),
        8 => book.insert(0, dice.byte()),
        9 if count > 1 => book[directory..].swap(4, 12),
        _ => {
            let at = dice.below(size);
            book[at] = dice.byte();
        }
    }
    book
}

fn any(dice: &mut Dice) -> Vec<u8> {
    let book = drawn(dice);
    match dice.below(12) {
        0 => {
            let size = dice.below(60);
            dice.bytes(size)
        }
        1 | 2 => spoiled(dice, book),
        _ => book,
    }
}

impl Comparison {
    /// Looks rules up in two books, and adds the rule file to one.
    pub fn books(&mut self, dice: &mut Dice, file: &[u8]) -> Result<(), String> {
        let (job, office) = (any(dice), any(dice));
        for book in [&job, &office] {
            let count = book.len().checked_sub(2).map_or(usize::MAX, |at| book[at] as usize + 256 * book[at + 1] as usize);
            if let Some(i) = SIZES.iter().position(|&size| size == count) {
                self.books.sizes[i] += 1;
            }
        }
        let (job, office) = (Lent::of(dice, &job), Lent::of(dice, &office));
        for _ in 0..4 {
            let number = dice.pick(&[0, 0, 1, 2, 3, 255]);
            let age = dice.pick(&[0, 0, 0, 1, 1, 2, 3, 5, 255, 256, 1023, 65535]);
            self.find(&job, &office, number, age)?;
        }
        self.file = file.to_vec();
        let book = if dice.one_in(4) { any(dice) } else { drawn(dice) };
        let number = dice.byte();
        let size = book.len() + file.len() + 8;
        let room = dice.pick(&[0, size - 1, size, size, size + 1 + file.len() % 40]);
        self.add(dice, &book, number, file, room)
    }

    fn find(&mut self, job: &Lent, office: &Lent, number: u8, age: u16) -> Result<(), String> {
        let (job_bytes, office_bytes) = (job.bytes(), office.bytes());
        let call = || {
            let sizes = (job_bytes.len(), office_bytes.len());
            format!("pachallu_find(job of {} bytes, office of {} bytes, number {}, age {})", sizes.0, sizes.1, number, age)
        };
        let kept = (job.clone(), office.clone());
        let library = library::find(job_bytes, office_bytes, number, age);
        let second = expected_found(monitor::find(job_bytes, office_bytes, number, age));
        if library != second {
            return Err(format!("{}\n  job       {}\n  office    {}", differ(&call(), library, second), hex(job_bytes), hex(office_bytes)));
        }
        untouched(&call(), "job's book", &kept.0, job)?;
        untouched(&call(), "office's book", &kept.1, office)?;
        let c = &mut self.books;
        match second.refusal {
            0 => {
                c.found[second.book as usize] += 1;
                c.aged += (age > 0) as usize;
                c.empty += (second.length == 0) as usize;
            }
            no => c.refused[no as usize] += 1,
        }
        if second.refusal == 17 {
            c.bad[second.a as usize] += 1;
        }
        Ok(())
    }

    fn add(&mut self, dice: &mut Dice, book: &[u8], number: u8, rule: &[u8], room: usize) -> Result<(), String> {
        let call =
            format!("pachallu_add(book of {} bytes, number {}, rule file of {} bytes, output of {} bytes)", book.len(), number, rule.len(), room);
        let lent = (Lent::of(dice, book), Lent::of(dice, rule));
        let kept = lent.clone();
        let mut out = Lent::blank(dice, room);
        let mut twin = out.clone();
        let library = library::add(lent.0.bytes(), number, lent.1.bytes(), out.bytes_mut());
        let second = expected_made(monitor::add(book, number, rule, twin.bytes_mut()));
        if library != second {
            return Err(format!("{}\n  book      {}", differ(&call, library, second), hex(book)));
        }
        same_bytes(&call, "output", &out, &twin)?;
        untouched(&call, "book", &kept.0, &lent.0)?;
        untouched(&call, "rule file", &kept.1, &lent.1)?;
        self.books.added[second.refusal as usize] += 1;
        if second.refusal == 0 {
            // the new rule is in force in the new book, and what was in force before is one older
            let grown = Lent::of(dice, &out.bytes()[..second.written]);
            let none = Lent::of(dice, &[0, 0]);
            for age in 0..3 {
                self.find(&grown, &none, number, age)?;
            }
            let found = library::find(grown.bytes(), none.bytes(), number, 0);
            if grown.bytes()[found.start..][..found.length] != *rule {
                return Err(format!("{}\n  the number at age 0 is not the rule file that was added", call));
            }
        }
        Ok(())
    }
}

pub fn report(c: &BookCounts) {
    println!(
        "books        {} rules found in the job's, {} in the office's ({} at an age, {} empty); refused {} (17 by place {}: {}, {}: {})",
        c.found[0],
        c.found[1],
        c.aged,
        c.empty,
        list(&c.refused, 1..=18),
        0,
        c.bad[0],
        1,
        c.bad[1]
    );
    let sizes: Vec<String> = SIZES.iter().zip(c.sizes.iter()).map(|(size, met)| format!("{}: {}", size, met)).collect();
    println!("             of so many entries {}", sizes.join(", "));
    println!("             {} rules added; refused {}", c.added[0], list(&c.added, 1..=26));
}

/// What the books of a run must have met.
pub fn lacking(c: &BookCounts) -> Vec<String> {
    let mut faults = Vec::new();
    let mut want = |what: String, met: usize| {
        if met < ENOUGH {
            faults.push(format!("{}: met {} times; at least {} are wanted", what, met, ENOUGH));
        }
    };
    want("rules found in the job's book".to_string(), c.found[0]);
    want("rules found in the office's book".to_string(), c.found[1]);
    want("rules found at an age over 0".to_string(), c.aged);
    want("refusal 17 of the job's book".to_string(), c.bad[0]);
    want("refusal 17 of the office's book".to_string(), c.bad[1]);
    want("refusal 18".to_string(), c.refused[18]);
    for no in (1..=9).chain([16, 17, 26]) {
        want(format!("refusal {} of adding", no), c.added[no]);
    }
    for (size, met) in SIZES.iter().zip(c.sizes.iter()) {
        want(format!("books of {} entries", size), *met);
    }
    faults
}
