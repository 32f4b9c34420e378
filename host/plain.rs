//! The library's calls in plain Rust with the same checks and the same answers: the other side of the benchmark.
//!
//! `read`, `make`, `event`, `events` and `why` are written as one would write them from the paper; `read_best`, `make_best` and
//! `why_best` use the best algorithms we know. Sets of states are 64-bit numbers throughout.

use crate::library::{Answer, Evening, Found, Made, Reason};

#[derive(Clone, Copy)]
pub struct Refusal {
    no: u8,
    a: u8,
    b: u8,
}

type Checked<T> = Result<T, Refusal>;

fn refused<T>(no: u8, a: usize, b: usize) -> Checked<T> {
    Err(Refusal { no, a: a as u8, b: b as u8 })
}

#[derive(Clone, Copy, Default)]
struct Pair {
    r: u64,
    p: u64,
}

struct Drawing<'a> {
    class: u8,
    n: usize,
    k: usize,
    initial: usize,
    joint: bool,
    table: &'a [u8],
    pairs: [Pair; 8],
    m: usize,
}

fn has(set: u64, s: usize) -> bool {
    set >> s & 1 != 0
}

impl<'a> Drawing<'a> {
    fn pairs(&self) -> &[Pair] {
        &self.pairs[..self.m]
    }

    fn row(&self, s: usize) -> &[u8] {
        &self.table[s * self.k..][..self.k]
    }

    /// Refusals 1 to 4, and the fields.
    fn take_apart(file: &'a [u8]) -> Checked<Drawing<'a>> {
        if file.len() < 12 || file.len() > 3212 {
            return refused(1, 0, 0);
        }
        let (front, trailer) = file.split_at(file.len() - 12);
        if trailer[10..] != [72, 82] {
            return refused(1, 0, 0);
        }
        let class = trailer[0];
        if !(1..=4).contains(&class) {
            return refused(2, 0, 0);
        }
        let [n, k, m, initial] = [trailer[1] as usize, trailer[2] as usize, trailer[3] as usize, trailer[4] as usize];
        let in_range = (1..=64).contains(&n) && (1..=32).contains(&k) && (1..=8).contains(&m) && initial < n;
        if !in_range || trailer[5] > 1 || (class != 3 && m != 1) {
            return refused(3, 0, 0);
        }
        let distance = |i: usize| u16::from_le_bytes([trailer[i], trailer[i + 1]]) as usize;
        let (to_pairs, to_table) = (12 + 16 * m, 12 + 16 * m + n * k);
        if distance(6) != to_table || distance(8) != to_pairs || file.len() < to_table || file.len() - to_table > 1024 {
            return refused(4, 0, 0);
        }
        let (front, sets) = front.split_at(file.len() - to_pairs);
        let set = |i: usize| u64::from_le_bytes(sets[8 * i..][..8].try_into().unwrap());
        let mut pairs = [Pair::default(); 8];
        for (i, pair) in pairs[..m].iter_mut().enumerate() {
            *pair = Pair { r: set(2 * i), p: set(2 * i + 1) };
        }
        Ok(Drawing { class, n, k, initial, joint: trailer[5] == 1, table: &front[file.len() - to_table..], pairs, m })
    }

    /// Refusals 6 and 7.
    fn check_sets(&self) -> Checked<()> {
        let all = u64::MAX >> (64 - self.n);
        for (i, pair) in self.pairs().iter().enumerate() {
            if pair.r & !all != 0 {
                return refused(6, i, 0);
            }
            if pair.p & !all != 0 {
                return refused(6, i, 1);
            }
        }
        match self.class {
            1 if self.pairs[0].r != 0 => refused(7, 0, 0),
            2 | 4 if self.pairs[0].p != 0 => refused(7, 0, 0),
            _ => Ok(()),
        }
    }

    /// Does the class forbid the move from s to t?
    fn forbids(&self, s: usize, t: usize) -> bool {
        let enters = |pair: &Pair| !has(pair.p, s) && has(pair.p, t);
        let leaves = |pair: &Pair| has(pair.r, s) && !has(pair.r, t);
        match self.class {
            1 => enters(&self.pairs[0]),
            2 => leaves(&self.pairs[0]),
            3 => self.pairs().iter().any(|pair| enters(pair) || leaves(pair)),
            _ => false,
        }
    }

    /// The states that every pair accepts.
    fn good(&self) -> u64 {
        self.pairs().iter().fold(u64::MAX, |good, pair| good & (pair.r | pair.p))
    }

    /// Refusal 9, from the states that the initial state reaches.
    fn check_start(&self, reached: u64) -> Checked<()> {
        for (i, pair) in self.pairs().iter().enumerate() {
            if !has(pair.p, self.initial) && pair.r & reached == 0 {
                return refused(9, i, 0);
            }
        }
        if self.joint && self.good() & reached == 0 {
            return refused(9, self.m, 0);
        }
        Ok(())
    }

    // ------------------------------------------------------------------------------------------ as the paper says it

    /// The states reached from one state.
    fn reached(&self, from: usize) -> u64 {
        let mut met = 1 << from;
        let mut todo: u64 = met;
        while todo != 0 {
            let s = todo.trailing_zeros() as usize;
            todo &= todo - 1;
            for &t in self.row(s) {
                if !has(met, t as usize) {
                    met |= 1 << t;
                    todo |= 1 << t;
                }
            }
        }
        met
    }

    fn read(file: &'a [u8]) -> Checked<Drawing<'a>> {
        let rule = Drawing::take_apart(file)?;
        if let Some(i) = rule.table.iter().position(|&t| t as usize >= rule.n) {
            return refused(5, i / rule.k, i % rule.k);
        }
        rule.check_sets()?;
        for s in 0..rule.n {
            for (e, &t) in rule.row(s).iter().enumerate() {
                if rule.forbids(s, t as usize) {
                    return refused(8, s, e);
                }
            }
        }
        rule.check_start(rule.reached(rule.initial))?;
        Ok(rule)
    }

    // ------------------------------------------------------------------------------------------ the best we know

    /// The set of next states for each state; refusal 5 on the way.
    fn follow(&self) -> Checked<[u64; 64]> {
        let mut follow = [0; 64];
        for (s, row) in self.table.chunks_exact(self.k).enumerate() {
            let mut set = 0;
            for (e, &t) in row.iter().enumerate() {
                if t as usize >= self.n {
                    return refused(5, s, e);
                }
                set |= 1 << t;
            }
            follow[s] = set;
        }
        Ok(follow)
    }

    fn read_best(file: &'a [u8]) -> Checked<(Drawing<'a>, [u64; 64])> {
        let rule = Drawing::take_apart(file)?;
        let follow = rule.follow()?;
        rule.check_sets()?;
        // a row is looked at again only if it has a forbidden move
        let (watch_p, watch_r) = (rule.class == 1 || rule.class == 3, rule.class == 2 || rule.class == 3);
        for (s, &next) in follow[..rule.n].iter().enumerate() {
            let bad = rule.pairs().iter().fold(0, |bad, pair| {
                let enters = if watch_p && !has(pair.p, s) { next & pair.p } else { 0 };
                let leaves = if watch_r && has(pair.r, s) { next & !pair.r } else { 0 };
                bad | enters | leaves
            });
            if bad != 0 {
                let e = rule.row(s).iter().position(|&t| has(bad, t as usize)).unwrap();
                return refused(8, s, e);
            }
        }
        let mut met = 1 << rule.initial;
        let mut todo: u64 = met;
        while todo != 0 {
            let fresh = follow[todo.trailing_zeros() as usize] & !met;
            todo = (todo & (todo - 1)) | fresh;
            met |= fresh;
        }
        rule.check_start(met)?;
        Ok((rule, follow))
    }

    /// What a set grows to by the neighbours of its states, by a worklist: given those that lead to a state, the states that reach the set.
    fn reaching(neighbours: &[u64; 64], set: u64) -> u64 {
        let mut met = set;
        let mut todo = set;
        while todo != 0 {
            let fresh = neighbours[todo.trailing_zeros() as usize] & !met;
            todo = (todo & (todo - 1)) | fresh;
            met |= fresh;
        }
        met
    }

    // ------------------------------------------------------------------------------------------ the sheet

    /// The smallest value of the pairs at t.
    fn least(&self, t: usize, reached: u64) -> u8 {
        self.pairs().iter().map(|pair| value(pair, t, pair.r & reached != 0)).min().unwrap_or(2)
    }

    fn write_sheet(&self, operation: &[u8; 64], sheet: &mut [u8]) -> usize {
        let cells = self.n * self.k;
        for (cell, &t) in sheet[..cells].iter_mut().zip(self.table) {
            *cell = t + 64 * operation[t as usize % 64];
        }
        let size = (cells + 6) as u16;
        sheet[cells..cells + 4].copy_from_slice(&[self.n as u8, self.k as u8, self.initial as u8, 77]);
        sheet[cells + 4..cells + 6].copy_from_slice(&size.to_le_bytes());
        size as usize
    }
}

fn value(pair: &Pair, t: usize, reaches: bool) -> u8 {
    if has(pair.p | pair.r, t) {
        2
    } else {
        reaches as u8
    }
}

fn make_plainly(file: &[u8], sheet: &mut [u8]) -> Checked<usize> {
    let rule = Drawing::read(file)?;
    if sheet.len() < rule.n * rule.k + 6 {
        return refused(16, 0, 0);
    }
    let mut operation = [0; 64];
    let good = Pair { r: rule.good(), p: 0 };
    for t in 0..rule.n {
        let reached = rule.reached(t);
        operation[t] = if rule.joint { value(&good, t, good.r & reached != 0) } else { rule.least(t, reached) };
    }
    Ok(rule.write_sheet(&operation, sheet))
}

fn make_backwards(file: &[u8], sheet: &mut [u8]) -> Checked<usize> {
    let (rule, follow) = Drawing::read_best(file)?;
    if sheet.len() < rule.n * rule.k + 6 {
        return refused(16, 0, 0);
    }
    let mut come = [0; 64];
    for (s, &next) in follow[..rule.n].iter().enumerate() {
        let mut rest = next;
        while rest != 0 {
            come[rest.trailing_zeros() as usize] |= 1 << s;
            rest &= rest - 1;
        }
    }
    let mut operation = [2; 64];
    let good = [Pair { r: rule.good(), p: 0 }];
    for pair in if rule.joint { &good } else { rule.pairs() } {
        let reaching = Drawing::reaching(&come, pair.r);
        for (t, least) in operation[..rule.n].iter_mut().enumerate() {
            *least = (*least).min(value(pair, t, has(reaching, t)));
        }
    }
    Ok(rule.write_sheet(&operation, sheet))
}

fn made(answer: Checked<usize>) -> Made {
    match answer {
        Ok(written) => Made { refusal: 0, a: 0, b: 0, written },
        Err(r) => Made { refusal: r.no, a: r.a, b: r.b, written: 0 },
    }
}

#[inline(never)]
pub fn make(file: &[u8], sheet: &mut [u8]) -> Made {
    made(make_plainly(file, sheet))
}

#[inline(never)]
pub fn make_best(file: &[u8], sheet: &mut [u8]) -> Made {
    made(make_backwards(file, sheet))
}

// ---------------------------------------------------------------------------------------------- why

/// A forward breadth-first search, events rising: the states in the order in which they are met, each with the place of the state that it was met
/// from and the event. So a state is met first by its shortest way, and by the lowest of these.
struct Search {
    met: u64,
    count: usize,
    state: [u8; 64],
    from: [u8; 64],
    by: [u8; 64],
}

impl Search {
    fn at(start: usize) -> Search {
        let mut search = Search { met: 1 << start, count: 1, state: [0; 64], from: [0; 64], by: [0; 64] };
        search.state[0] = start as u8;
        search
    }

    /// Looks at the moves of the state at a place. Is a state of the goal among the new ones?
    #[inline(always)]
    fn look(&mut self, place: usize, row: &[u8], goal: u64) -> bool {
        for (e, &t) in row.iter().enumerate() {
            if !has(self.met, t as usize) {
                self.met |= 1 << t;
                self.state[self.count] = t;
                self.from[self.count] = place as u8;
                self.by[self.count] = e as u8;
                self.count += 1;
                if has(goal, t as usize) {
                    return true;
                }
            }
        }
        false
    }

    /// Puts the way to the last state at the front of the output: refusal 16.
    fn put(&self, way: &mut [u8]) -> Checked<usize> {
        let mut length = 0;
        let mut place = self.count - 1;
        while place != 0 {
            length += 1;
            place = self.from[place] as usize;
        }
        if length > way.len() {
            return refused(16, 0, 0);
        }
        place = self.count - 1;
        for event in way[..length].iter_mut().rev() {
            *event = self.by[place];
            place = self.from[place] as usize;
        }
        Ok(length)
    }
}

impl<'a> Drawing<'a> {
    /// The state after the event: refusals 12 and 13.
    fn target(&self, state: u8, event: u8) -> Checked<usize> {
        if state as usize >= self.n {
            return refused(12, 0, 0);
        }
        if event as usize >= self.k {
            return refused(13, 0, 0);
        }
        Ok(self.row(state as usize)[event as usize] as usize)
    }

    /// The operation at t and its pair, from the states that t reaches.
    fn ground(&self, t: usize, reached: u64) -> (u8, usize) {
        let unmet = |pair: &Pair| !has(pair.r | pair.p, t);
        if let Some(i) = self.pairs().iter().position(|pair| unmet(pair) && (pair.r | pair.p) & reached == 0) {
            return (0, i);
        }
        if self.joint && self.good() & reached == 0 {
            return (0, self.m);
        }
        self.pairs().iter().position(unmet).map_or((2, 0), |i| (1, if self.joint { self.m } else { i }))
    }

    /// The states that a store waits for by its ground.
    fn goal(&self, ground: usize) -> u64 {
        if ground == self.m {
            self.good()
        } else {
            self.pairs[ground].r | self.pairs[ground].p
        }
    }
}

fn why_plainly(file: &[u8], state: u8, event: u8, way: &mut [u8]) -> Checked<(u8, usize, usize)> {
    let rule = Drawing::read(file)?;
    let t = rule.target(state, event)?;
    let (operation, i) = rule.ground(t, rule.reached(t));
    if operation != 1 {
        return Ok((operation, i, 0));
    }
    let goal = rule.goal(i);
    let mut search = Search::at(t);
    let mut place = 0;
    while !search.look(place, rule.row(search.state[place] as usize), goal) {
        place += 1;
    }
    Ok((1, i, search.put(way)?))
}

/// The same with the row masks that reading made: a row that leads to no new state is not looked at.
fn why_by_masks(file: &[u8], state: u8, event: u8, way: &mut [u8]) -> Checked<(u8, usize, usize)> {
    let (rule, follow) = Drawing::read_best(file)?;
    let t = rule.target(state, event)?;
    let (operation, i) = rule.ground(t, Drawing::reaching(&follow, 1 << t));
    if operation != 1 {
        return Ok((operation, i, 0));
    }
    let goal = rule.goal(i);
    let mut search = Search::at(t);
    let mut place = 0;
    loop {
        let s = search.state[place] as usize;
        if follow[s] & !search.met != 0 && search.look(place, rule.row(s), goal) {
            return Ok((1, i, search.put(way)?));
        }
        place += 1;
    }
}

fn reason(answer: Checked<(u8, usize, usize)>) -> Reason {
    match answer {
        Ok((operation, pair, length)) => Reason { refusal: 0, a: 0, b: 0, operation, pair: pair as u8, length },
        Err(r) => Reason { refusal: r.no, a: r.a, b: r.b, operation: 0, pair: 0, length: 0 },
    }
}

#[inline(never)]
pub fn why(file: &[u8], state: u8, event: u8, way: &mut [u8]) -> Reason {
    reason(why_plainly(file, state, event, way))
}

#[inline(never)]
pub fn why_best(file: &[u8], state: u8, event: u8, way: &mut [u8]) -> Reason {
    reason(why_by_masks(file, state, event, way))
}

// ---------------------------------------------------------------------------------------------- one event

struct Sheet<'a> {
    cells: &'a [u8],
    n: u8,
    k: u8,
}

fn open(sheet: &[u8]) -> Checked<Sheet<'_>> {
    if sheet.len() < 6 {
        return refused(11, 0, 0);
    }
    let (cells, foot) = sheet.split_at(sheet.len() - 6);
    let (n, k, initial) = (foot[0], foot[1], foot[2]);
    let size = n as usize * k as usize + 6;
    let distance = u16::from_le_bytes([foot[4], foot[5]]) as usize;
    let in_range = (1..=64).contains(&n) && (1..=32).contains(&k) && initial < n;
    if foot[3] != 77 || !in_range || distance != size || sheet.len() != size {
        return refused(11, 0, 0);
    }
    Ok(Sheet { cells, n, k })
}

/// The operation of an event that is not the rule's.
const IGNORED: u8 = 3;

struct Taken {
    operation: u8,
    state: u8,
    held: usize,
    released: usize,
}

#[inline(always)]
fn step(sheet: &Sheet<'_>, state: u8, held: usize, event: u8, memory: &mut [u8], output: &mut [u8]) -> Checked<Taken> {
    if state >= sheet.n || held > memory.len() {
        return refused(12, 0, 0);
    }
    if event >= sheet.k {
        return Ok(Taken { operation: IGNORED, state, held, released: 0 });
    }
    let cell = sheet.cells[state as usize * sheet.k as usize + event as usize];
    let next = cell % 64;
    if next >= sheet.n {
        return refused(14, state as usize, event as usize);
    }
    match cell / 64 {
        0 => Ok(Taken { operation: 0, state: next, held, released: 0 }),
        1 => {
            if held == memory.len() {
                return refused(15, 0, 0);
            }
            memory[held] = event;
            Ok(Taken { operation: 1, state: next, held: held + 1, released: 0 })
        }
        2 => {
            if held >= output.len() {
                return refused(16, 0, 0);
            }
            output[..held].copy_from_slice(&memory[..held]);
            output[held] = event;
            Ok(Taken { operation: 2, state: next, held: 0, released: held + 1 })
        }
        _ => refused(14, state as usize, event as usize),
    }
}

#[inline(never)]
pub fn event(sheet: &[u8], state: u8, held: usize, event: u8, memory: &mut [u8], output: &mut [u8]) -> Answer {
    match open(sheet).and_then(|sheet| step(&sheet, state, held, event, memory, output)) {
        Ok(t) => Answer { refusal: 0, a: 0, b: 0, operation: t.operation, state: t.state, held: t.held, released: t.released },
        Err(r) => Answer { refusal: r.no, a: r.a, b: r.b, operation: 0, state, held, released: 0 },
    }
}

/// The directory of a book whose rules fill it: refusal 17.
fn directory(book: &[u8]) -> Option<&[u8]> {
    let before = book.len().checked_sub(2)?;
    let count = u16::from_le_bytes([book[before], book[before + 1]]) as usize;
    if count > 1024 {
        return None;
    }
    let end = before.checked_sub(8 * count)?;
    let entries = &book[end..before];
    let mut start = 0;
    for e in entries.chunks_exact(8) {
        if e[1] != 0 || u32::from_le_bytes([e[4], e[5], e[6], e[7]]) as usize + start != book.len() {
            return None;
        }
        start += u16::from_le_bytes([e[2], e[3]]) as usize;
    }
    if start == end {
        Some(entries)
    } else {
        None
    }
}

/// Looks a rule up: refusals 17 and 18.
#[inline(never)]
pub fn find(job: &[u8], office: &[u8], number: u8, age: u16) -> Found {
    let refused = |refusal, a| Found { refusal, a, b: 0, book: 0, start: 0, length: 0 };
    let jobs = match directory(job) {
        Some(entries) => entries,
        None => return refused(17, 0),
    };
    let offices = match directory(office) {
        Some(entries) => entries,
        None => return refused(17, 1),
    };
    for (book, bytes, entries) in [(0, job, jobs), (1, office, offices)] {
        let mut older = age;
        for e in entries.chunks_exact(8).rev().filter(|e| e[0] == number) {
            if older == 0 {
                let start = bytes.len() - u32::from_le_bytes([e[4], e[5], e[6], e[7]]) as usize;
                return Found { refusal: 0, a: 0, b: 0, book, start, length: u16::from_le_bytes([e[2], e[3]]) as usize };
            }
            older -= 1;
        }
        if older != age {
            break;
        }
    }
    refused(18, 0)
}

// ---------------------------------------------------------------------------------------------- an evening

/// Opens the sheet once and takes the events one after another.
#[inline(never)]
pub fn events(sheet: &[u8], state: u8, held: usize, log: &[u8], memory: &mut [u8], output: &mut [u8]) -> Evening {
    let mut evening = Evening { refusal: 0, a: 0, b: 0, state, held, taken: 0, released: 0, ignored: 0 };
    let ended = |r: Refusal, evening: Evening| Evening { refusal: r.no, a: r.a, b: r.b, ..evening };
    if log.len() > 4096 {
        return ended(Refusal { no: 19, a: 0, b: 0 }, evening);
    }
    let sheet = match open(sheet) {
        Ok(sheet) => sheet,
        Err(r) => return ended(r, evening),
    };
    if state >= sheet.n || held > memory.len() {
        return ended(Refusal { no: 12, a: 0, b: 0 }, evening);
    }
    for &event in log {
        match step(&sheet, evening.state, evening.held, event, memory, &mut output[evening.released..]) {
            Ok(t) if t.operation == IGNORED => evening.ignored += 1,
            Ok(t) => {
                evening.state = t.state;
                evening.held = t.held;
                evening.taken += 1;
                evening.released += t.released;
            }
            Err(r) => return ended(r, evening),
        }
    }
    evening
}
