//! A second monitor, written from the paper of exact rules alone, to be compared with the proved one.
//!
//! It shares nothing with the proved library and goes other ways where it can: a rule is rows of next states and
//! lists of state numbers, reach is a worklist over the graph of moves, a set is a list or a row of marks.
//! Nothing here is fast on purpose; everything is meant to be read beside the paper.

/// The limits of a rule: states, events, pairs, bytes of the note, bytes of the file.
pub const STATES: usize = 64;
pub const EVENTS: usize = 32;
pub const PAIRS: usize = 8;
pub const NOTE: usize = 1024;
pub const FILE: usize = 3212;
/// The trailer of a rule file and that of a sheet.
const TRAILER: usize = 12;
const FOOT: usize = 6;

/// Why a call was refused: the number and its two places.
#[derive(Clone, Copy, PartialEq, Eq, Debug)]
pub struct Refusal {
    pub no: u8,
    pub a: u8,
    pub b: u8,
}

fn refuse<T>(no: u8) -> Result<T, Refusal> {
    refuse_at(no, 0, 0)
}

fn refuse_at<T>(no: u8, a: usize, b: usize) -> Result<T, Refusal> {
    Err(Refusal { no, a: a as u8, b: b as u8 })
}

/// An accepting pair: the states of R and of P, each list rising and without repeats.
#[derive(Clone, PartialEq, Eq, Debug, Default)]
pub struct Pair {
    pub r: Vec<usize>,
    pub p: Vec<usize>,
}

/// The mode in which a rule stops when the whole of it is hopeless (M-105); 0 is the other one.
pub const JOINT: usize = 1;

/// A rule as drawn. `rows[s][e]` is the state after event e in state s; `pairs` are the used pairs.
#[derive(Clone, PartialEq, Eq, Debug)]
pub struct Rule {
    pub class: usize,
    pub states: usize,
    pub events: usize,
    pub initial: usize,
    pub mode: usize,
    pub note: Vec<u8>,
    pub rows: Vec<Vec<usize>>,
    pub pairs: Vec<Pair>,
}

/// What a move does, from the least to the greatest.
#[derive(Clone, Copy, PartialEq, Eq, PartialOrd, Ord, Debug)]
pub enum Operation {
    Halt,
    Store,
    Dump,
}

impl Operation {
    pub fn name(self) -> &'static str {
        match self {
            Operation::Halt => "halt",
            Operation::Store => "store",
            Operation::Dump => "dump",
        }
    }
    pub fn number(self) -> u8 {
        match self {
            Operation::Halt => 0,
            Operation::Store => 1,
            Operation::Dump => 2,
        }
    }
}

// ---------------------------------------------------------------------------------------------- meaning

/// For every state, the states that some events lead to from it. No events count too.
pub fn reach(rule: &Rule) -> Vec<Vec<bool>> {
    let mut neighbours: Vec<Vec<usize>> = Vec::new();
    for row in &rule.rows {
        let mut seen = vec![false; rule.states];
        let mut list = Vec::new();
        for &t in row {
            if !seen[t] {
                seen[t] = true;
                list.push(t);
            }
        }
        neighbours.push(list);
    }
    (0..rule.states).map(|q| spread(&neighbours, q)).collect()
}

fn spread(neighbours: &[Vec<usize>], from: usize) -> Vec<bool> {
    let mut met = vec![false; neighbours.len()];
    let mut todo = vec![from];
    met[from] = true;
    while let Some(s) = todo.pop() {
        for &t in &neighbours[s] {
            if !met[t] {
                met[t] = true;
                todo.push(t);
            }
        }
    }
    met
}

/// The value of one pair for a move into t.
fn value(pair: &Pair, reached_from_t: &[bool], t: usize) -> Operation {
    let p_side = if pair.p.contains(&t) { Operation::Dump } else { Operation::Halt };
    let r_side = if pair.r.contains(&t) {
        Operation::Dump
    } else if pair.r.iter().any(|&s| reached_from_t[s]) {
        Operation::Store
    } else {
        Operation::Halt
    };
    p_side.max(r_side)
}

/// Does every pair accept the state?
fn all_accept(rule: &Rule, s: usize) -> bool {
    rule.pairs.iter().all(|pair| pair.r.contains(&s) || pair.p.contains(&s))
}

/// Does a state that every pair accepts lie among those reached?
fn joint_hope(rule: &Rule, reached: &[bool]) -> bool {
    (0..rule.states).any(|s| reached[s] && all_accept(rule, s))
}

/// The operation of every move into t, for each t, by the mode's rule.
pub fn operations(rule: &Rule) -> Vec<Operation> {
    let reached = reach(rule);
    let joint = |t: usize| match (all_accept(rule, t), joint_hope(rule, &reached[t])) {
        (true, _) => Operation::Dump,
        (_, true) => Operation::Store,
        _ => Operation::Halt,
    };
    let least = |t: usize| rule.pairs.iter().map(|pair| value(pair, &reached[t], t)).min().unwrap_or(Operation::Dump);
    (0..rule.states).map(|t| if rule.mode == JOINT { joint(t) } else { least(t) }).collect()
}

/// Of a stopping state the lowest pair by which it is stopping on its own; in joint mode m, where there is none.
fn stopping_by(rule: &Rule, reached_from_s: &[bool], s: usize) -> Option<usize> {
    let alone = rule.pairs.iter().position(|pair| !pair.p.contains(&s) && !pair.r.iter().any(|&t| reached_from_s[t]));
    if rule.mode != JOINT {
        return alone;
    }
    if joint_hope(rule, reached_from_s) {
        return None;
    }
    Some(alone.unwrap_or(rule.pairs.len()))
}

/// The stopping states, rising.
pub fn stopping(rule: &Rule) -> Vec<usize> {
    let reached = reach(rule);
    (0..rule.states).filter(|&s| stopping_by(rule, &reached[s], s).is_some()).collect()
}

// ---------------------------------------------------------------------------------------------- checks

/// Refusals 2 and 3, on the numbers of the trailer.
fn check_shape(class: usize, states: usize, events: usize, pairs: usize, initial: usize, mode: usize) -> Result<(), Refusal> {
    if class < 1 || class > 4 {
        return refuse(2);
    }
    if states < 1 || states > STATES || events < 1 || events > EVENTS || pairs < 1 || pairs > PAIRS || initial >= states {
        return refuse(3);
    }
    if (class != 3 && pairs != 1) || mode > JOINT {
        return refuse(3);
    }
    Ok(())
}

/// Is the move from s to t against the class, for this pair?
fn forbidden(class: usize, pair: &Pair, s: usize, t: usize) -> bool {
    let enters_p = !pair.p.contains(&s) && pair.p.contains(&t);
    let leaves_r = pair.r.contains(&s) && !pair.r.contains(&t);
    match class {
        1 => enters_p,
        2 => leaves_r,
        3 => enters_p || leaves_r,
        _ => false,
    }
}

/// Refusals 5 to 9, in order.
fn check_drawing(rule: &Rule) -> Result<(), Refusal> {
    for (s, row) in rule.rows.iter().enumerate() {
        for (e, &t) in row.iter().enumerate() {
            if t >= rule.states {
                return refuse_at(5, s, e);
            }
        }
    }
    for (i, pair) in rule.pairs.iter().enumerate() {
        let past = |set: &[usize]| set.iter().any(|&s| s >= rule.states);
        if past(&pair.r) {
            return refuse_at(6, i, 0);
        }
        if past(&pair.p) {
            return refuse_at(6, i, 1);
        }
    }
    let has_r = rule.pairs.iter().any(|pair| !pair.r.is_empty());
    let has_p = rule.pairs.iter().any(|pair| !pair.p.is_empty());
    if (rule.class == 1 && has_r) || ((rule.class == 2 || rule.class == 4) && has_p) {
        return refuse(7);
    }
    for (s, row) in rule.rows.iter().enumerate() {
        for (e, &t) in row.iter().enumerate() {
            if rule.pairs.iter().any(|pair| forbidden(rule.class, pair, s, t)) {
                return refuse_at(8, s, e);
            }
        }
    }
    if let Some(i) = stopping_by(rule, &reach(rule)[rule.initial], rule.initial) {
        return refuse_at(9, i, 0);
    }
    Ok(())
}

/// All that writing asks of a rule: 2, 3, 4 for the note, 5 to 9.
pub fn check(rule: &Rule) -> Result<(), Refusal> {
    check_shape(rule.class, rule.states, rule.events, rule.pairs.len(), rule.initial, rule.mode)?;
    if rule.note.len() > NOTE {
        return refuse(4);
    }
    check_drawing(rule)
}

// ---------------------------------------------------------------------------------------------- rule files

fn two_bytes(bytes: &[u8]) -> usize {
    bytes[0] as usize + 256 * bytes[1] as usize
}

/// The states of a set of eight bytes: state s is bit s % 8 of byte s / 8.
fn read_set(bytes: &[u8]) -> Vec<usize> {
    let mut set = Vec::new();
    for (i, &byte) in bytes.iter().enumerate() {
        let mut rest = byte;
        for j in 0..8 {
            if rest % 2 == 1 {
                set.push(8 * i + j);
            }
            rest /= 2;
        }
    }
    set
}

fn write_set(set: &[usize], out: &mut Vec<u8>) {
    for i in 0..8 {
        let mut byte = 0;
        for j in (0..8).rev() {
            byte = 2 * byte + set.contains(&(8 * i + j)) as u8;
        }
        out.push(byte);
    }
}

/// Reads a rule file: refusals 1 to 9.
pub fn read(file: &[u8]) -> Result<Rule, Refusal> {
    if file.len() < TRAILER || file.len() > FILE {
        return refuse(1);
    }
    let trailer = &file[file.len() - TRAILER..];
    if trailer[10] != 72 || trailer[11] != 82 {
        return refuse(1);
    }
    let number = |i: usize| trailer[i] as usize;
    let (class, states, events, pairs, initial, mode) = (number(0), number(1), number(2), number(3), number(4), number(5));
    check_shape(class, states, events, pairs, initial, mode)?;
    let to_pairs = TRAILER + 16 * pairs;
    let to_table = to_pairs + states * events;
    if two_bytes(&trailer[6..8]) != to_table || two_bytes(&trailer[8..10]) != to_pairs || file.len() < to_table {
        return refuse(4);
    }
    let (note, rest) = file.split_at(file.len() - to_table);
    if note.len() > NOTE {
        return refuse(4);
    }
    let (table, rest) = rest.split_at(states * events);
    let rule = Rule {
        class,
        states,
        events,
        initial,
        mode,
        note: note.to_vec(),
        rows: table.chunks(events).map(|row| row.iter().map(|&t| t as usize).collect()).collect(),
        pairs: rest[..16 * pairs].chunks(16).map(|pair| Pair { r: read_set(&pair[..8]), p: read_set(&pair[8..]) }).collect(),
    };
    check_drawing(&rule)?;
    Ok(rule)
}

/// The bytes that stand for a rule, whether it is sound or not: note, table, pairs, trailer.
pub fn layout(rule: &Rule) -> Vec<u8> {
    let mut out = rule.note.clone();
    for row in &rule.rows {
        out.extend(row.iter().map(|&t| t as u8));
    }
    for pair in &rule.pairs {
        write_set(&pair.r, &mut out);
        write_set(&pair.p, &mut out);
    }
    let to_pairs = TRAILER + 16 * rule.pairs.len();
    let to_table = to_pairs + rule.states * rule.events;
    for number in [rule.class, rule.states, rule.events, rule.pairs.len(), rule.initial, rule.mode] {
        out.push(number as u8);
    }
    for number in [to_table, to_pairs] {
        out.push((number % 256) as u8);
        out.push((number / 256) as u8);
    }
    out.extend([72, 82]);
    out
}

/// Puts bytes at the front of the output, or refuses with 16.
fn put(bytes: &[u8], output: &mut [u8]) -> Result<usize, Refusal> {
    if bytes.len() > output.len() {
        return refuse(16);
    }
    output[..bytes.len()].copy_from_slice(bytes);
    Ok(bytes.len())
}

/// Writes a rule file at the front of the output: refusals 2, 3, 4, 5 to 9, 16.
pub fn write(rule: &Rule, output: &mut [u8]) -> Result<usize, Refusal> {
    check(rule)?;
    put(&layout(rule), output)
}

// ---------------------------------------------------------------------------------------------- rule books

/// The most entries of a book.
pub const ENTRIES: usize = 1024;

/// A rule file under its number, as it stands in a book.
#[derive(Clone, PartialEq, Eq, Debug)]
pub struct Filed {
    pub number: u8,
    pub rule: Vec<u8>,
}

/// The bytes that stand for a list, oldest first, whether a book may have so many entries or not.
pub fn book(list: &[Filed]) -> Vec<u8> {
    let size = list.iter().map(|x| x.rule.len() + 8).sum::<usize>() + 2;
    let mut out: Vec<u8> = list.iter().flat_map(|x| x.rule.iter().copied()).collect();
    let mut start = 0;
    for x in list {
        out.extend([x.number, 0]);
        out.extend(&(x.rule.len() as u16).to_le_bytes());
        out.extend(&((size - start) as u32).to_le_bytes());
        start += x.rule.len();
    }
    out.extend(&(list.len() as u16).to_le_bytes());
    out
}

/// Takes a book apart, and puts what it found together again: only what comes out as it was is a book.
pub fn entries(bytes: &[u8]) -> Option<Vec<Filed>> {
    let before = bytes.len().checked_sub(2)?;
    let count = two_bytes(&bytes[before..]);
    let end = before.checked_sub(8 * count)?;
    let mut list = Vec::new();
    let mut rest = &bytes[..end];
    for entry in bytes[end..before].chunks(8) {
        let size = two_bytes(&entry[2..4]);
        if size > rest.len() {
            return None;
        }
        let (rule, others) = rest.split_at(size);
        list.push(Filed { number: entry[0], rule: rule.to_vec() });
        rest = others;
    }
    if count <= ENTRIES && book(&list) == bytes {
        Some(list)
    } else {
        None
    }
}

/// Where a rule was found: 0 the job's book, 1 the office's; its first byte and its length.
#[derive(Clone, Copy, PartialEq, Eq, Debug)]
pub struct Place {
    pub book: u8,
    pub start: usize,
    pub length: usize,
}

/// Looks a rule up in the job's book, or in the office's where the job has none: refusals 17, 18.
pub fn find(job: &[u8], office: &[u8], number: u8, age: u16) -> Result<Place, Refusal> {
    let mut books = Vec::new();
    for (which, bytes) in [job, office].iter().enumerate() {
        match entries(bytes) {
            Some(list) => books.push(list),
            None => return refuse_at(17, which, 0),
        }
    }
    for (which, list) in books.iter().enumerate() {
        let mut places = Vec::new();
        let mut start = 0;
        for x in list {
            if x.number == number {
                places.push(Place { book: which as u8, start, length: x.rule.len() });
            }
            start += x.rule.len();
        }
        if !places.is_empty() {
            places.reverse();
            return places.get(age as usize).copied().map_or_else(|| refuse(18), Ok);
        }
    }
    refuse(18)
}

/// Writes a book with one rule more at the front of the output: refusals 17, 1 to 9, 26, 16.
pub fn add(bytes: &[u8], number: u8, rule: &[u8], output: &mut [u8]) -> Result<usize, Refusal> {
    let mut list = entries(bytes).map_or_else(|| refuse_at(17, 0, 0), Ok)?;
    read(rule)?;
    if list.len() == ENTRIES {
        return refuse(26);
    }
    list.push(Filed { number, rule: rule.to_vec() });
    put(&book(&list), output)
}

// ---------------------------------------------------------------------------------------------- sheets

/// The sheet of a sound rule.
pub fn sheet(rule: &Rule) -> Vec<u8> {
    let operation = operations(rule);
    let mut out = Vec::new();
    for row in &rule.rows {
        out.extend(row.iter().map(|&t| t as u8 + 64 * operation[t].number()));
    }
    let distance = rule.states * rule.events + FOOT;
    out.extend([rule.states as u8, rule.events as u8, rule.initial as u8, 77]);
    out.extend([(distance % 256) as u8, (distance / 256) as u8]);
    out
}

/// Makes a sheet from a rule file at the front of the output: refusals 1 to 9, 16.
pub fn make(file: &[u8], output: &mut [u8]) -> Result<usize, Refusal> {
    let rule = read(file)?;
    put(&sheet(&rule), output)
}

/// A sheet whose foot was found right. The cells themselves are looked at when they are used.
pub struct Opened<'a> {
    cells: &'a [u8],
    pub states: usize,
    pub events: usize,
    pub initial: usize,
}

/// Opens a sheet: refusal 11.
pub fn open(sheet: &[u8]) -> Result<Opened<'_>, Refusal> {
    if sheet.len() < FOOT {
        return refuse(11);
    }
    let (cells, foot) = sheet.split_at(sheet.len() - FOOT);
    let (states, events, initial) = (foot[0] as usize, foot[1] as usize, foot[2] as usize);
    let in_range = states >= 1 && states <= STATES && events >= 1 && events <= EVENTS && initial < states;
    let size = states * events + FOOT;
    if foot[3] != 77 || !in_range || two_bytes(&foot[4..6]) != size || sheet.len() != size {
        return refuse(11);
    }
    Ok(Opened { cells, states, events, initial })
}

/// Where a run stands.
#[derive(Clone, Copy, PartialEq, Eq, Debug)]
pub struct Run {
    pub state: u8,
    pub held: usize,
}

/// A taken event: what was done, where the run stands now, how many events were released.
#[derive(Clone, Copy, PartialEq, Eq, Debug)]
pub struct Taken {
    pub operation: Operation,
    pub run: Run,
    pub released: usize,
}

/// What an event that is not refused is answered.
#[derive(Clone, Copy, PartialEq, Eq, Debug)]
pub enum Answer {
    Taken(Taken),
    /// Not the rule's business (M-104): nothing changes, and it is not taken.
    Ignored,
}

/// A fresh run: refusal 11.
pub fn fresh(sheet: &[u8]) -> Result<Run, Refusal> {
    Ok(Run { state: open(sheet)?.initial as u8, held: 0 })
}

/// One event: refusals 11, 12, 14 to 16.
pub fn event(sheet: &[u8], run: Run, event: u8, memory: &mut [u8], output: &mut [u8]) -> Result<Answer, Refusal> {
    let opened = open(sheet)?;
    let (s, e) = (run.state as usize, event as usize);
    if s >= opened.states || run.held > memory.len() {
        return refuse(12);
    }
    if e >= opened.events {
        return Ok(Answer::Ignored);
    }
    let row = &opened.cells[s * opened.events..][..opened.events];
    let (next, operation) = (row[e] % 64, row[e] / 64);
    if next as usize >= opened.states {
        return refuse_at(14, s, e);
    }
    let taken = |operation, held, released| Ok(Answer::Taken(Taken { operation, run: Run { state: next, held }, released }));
    match operation {
        0 => taken(Operation::Halt, run.held, 0),
        1 => {
            if run.held == memory.len() {
                return refuse(15);
            }
            memory[run.held] = event;
            taken(Operation::Store, run.held + 1, 0)
        }
        2 => {
            let mut release = memory[..run.held].to_vec();
            release.push(event);
            let released = put(&release, output)?;
            taken(Operation::Dump, 0, released)
        }
        _ => refuse_at(14, s, e),
    }
}

/// The longest log that one call takes.
pub const EVENING: usize = 4096;

/// What came of a log: where the run stands after the events taken, how many these are, what they released, how many were ignored, and the refusal that
/// ended it.
#[derive(Clone, PartialEq, Eq, Debug)]
pub struct Evening {
    pub run: Run,
    pub taken: usize,
    pub released: usize,
    pub ignored: usize,
    pub refusal: Option<Refusal>,
}

/// A log in one call (M-101): refusal 19, and then, as the paper says, the single calls, each with the part of the output that is not yet
/// written. With no event at all it looks at what a call looks at before the event: refusals 11 and 12.
pub fn events(sheet: &[u8], run: Run, log: &[u8], memory: &mut [u8], output: &mut [u8]) -> Evening {
    let mut evening = Evening { run, taken: 0, released: 0, ignored: 0, refusal: None };
    if log.len() > EVENING {
        evening.refusal = Some(Refusal { no: 19, a: 0, b: 0 });
        return evening;
    }
    if log.is_empty() {
        evening.refusal = match open(sheet) {
            Err(refusal) => Some(refusal),
            Ok(opened) if run.state as usize >= opened.states || run.held > memory.len() => Some(Refusal { no: 12, a: 0, b: 0 }),
            Ok(_) => None,
        };
    }
    for &code in log {
        match event(sheet, evening.run, code, memory, &mut output[evening.released..]) {
            Ok(Answer::Taken(taken)) => {
                evening.run = taken.run;
                evening.taken += 1;
                evening.released += taken.released;
            }
            Ok(Answer::Ignored) => evening.ignored += 1,
            Err(refusal) => {
                evening.refusal = Some(refusal);
                break;
            }
        }
    }
    evening
}

// ---------------------------------------------------------------------------------------------- why

/// Why an event is answered as it is (M-102): the operation, the pair that is its ground, and the events of the way that meets the pair. A dump has no
/// ground, a halt no way. In joint mode a pair of m stands for all of them.
#[derive(Clone, PartialEq, Eq, Debug)]
pub struct Reason {
    pub operation: Operation,
    pub pair: usize,
    pub way: Vec<u8>,
}

/// Is the state in R or in P of the pair?
fn met(pair: &Pair, s: usize) -> bool {
    pair.r.contains(&s) || pair.p.contains(&s)
}

/// So many states that a sequence of at most N - 1 events can be looked for among all sequences.
const FEW: usize = 6;

/// The lowest sequence of exactly so many events that leads from s to a goal, among all of them.
fn tried(rule: &Rule, s: usize, count: usize, goal: &[bool]) -> Option<Vec<u8>> {
    if count == 0 {
        return if goal[s] { Some(vec![]) } else { None };
    }
    for (e, &t) in rule.rows[s].iter().enumerate() {
        if let Some(rest) = tried(rule, t, count - 1, goal) {
            return Some([vec![e as u8], rest].concat());
        }
    }
    None
}

/// The same by keeping, of each length, the lowest sequence to every state that no shorter one leads to, lowest first.
fn searched(rule: &Rule, from: usize, goal: &[bool]) -> Option<Vec<u8>> {
    let mut known = vec![false; rule.states];
    known[from] = true;
    let mut layer = vec![(from, vec![])];
    while !layer.is_empty() {
        if let Some((_, way)) = layer.iter().find(|(s, _)| goal[*s]) {
            return Some(way.clone());
        }
        let mut next = Vec::new();
        for (s, way) in &layer {
            for (e, &t) in rule.rows[*s].iter().enumerate() {
                if !known[t] {
                    known[t] = true;
                    next.push((t, [&way[..], &[e as u8]].concat()));
                }
            }
        }
        layer = next;
    }
    None
}

/// The shortest sequence of events from a state to a goal, the lowest in event order among equals. On a small rule all sequences are tried.
pub fn way(rule: &Rule, from: usize, goal: &[bool]) -> Option<Vec<u8>> {
    let searched = searched(rule, from, goal);
    if rule.states <= FEW {
        let tried = (0..rule.states).find_map(|count| tried(rule, from, count, goal));
        assert_eq!(tried, searched, "the two searches of the second monitor differ");
        return tried;
    }
    searched
}

/// The reason at the state after the event: refusals 1 to 9 of the rule, 12 and 13.
pub fn reason(file: &[u8], state: u8, event: u8) -> Result<Reason, Refusal> {
    let rule = read(file)?;
    let (s, e) = (state as usize, event as usize);
    if s >= rule.states {
        return refuse(12);
    }
    if e >= rule.events {
        return refuse(13);
    }
    let t = rule.rows[s][e];
    let ways: Vec<Option<Vec<u8>>> =
        rule.pairs.iter().map(|pair| way(&rule, t, &(0..rule.states).map(|s| met(pair, s)).collect::<Vec<_>>())).collect();
    // no way: the pair is lost; a way of no events: it is met
    let lost = ways.iter().position(|way| way.is_none());
    let unmet = ways.iter().position(|way| way.as_ref().map_or(true, |way| !way.is_empty()));
    if rule.mode == JOINT {
        let m = rule.pairs.len();
        let all = way(&rule, t, &(0..rule.states).map(|s| rule.pairs.iter().all(|pair| met(pair, s))).collect::<Vec<_>>());
        return Ok(match all {
            None => Reason { operation: Operation::Halt, pair: lost.unwrap_or(m), way: vec![] },
            Some(way) if way.is_empty() => Reason { operation: Operation::Dump, pair: 0, way },
            Some(way) => Reason { operation: Operation::Store, pair: m, way },
        });
    }
    Ok(match (lost, unmet) {
        (Some(pair), _) => Reason { operation: Operation::Halt, pair, way: vec![] },
        (None, Some(pair)) => Reason { operation: Operation::Store, pair, way: ways[pair].clone().unwrap_or_default() },
        (None, None) => Reason { operation: Operation::Dump, pair: 0, way: vec![] },
    })
}

/// The reason, with its way at the front of the output: refusals 1 to 9, 12, 13, 16.
pub fn why(file: &[u8], state: u8, event: u8, output: &mut [u8]) -> Result<Reason, Refusal> {
    let reason = reason(file, state, event)?;
    put(&reason.way, output)?;
    Ok(reason)
}

// ---------------------------------------------------------------------------------------------- the printed monitor

/// What the program `table` prints for a rule file.
pub fn printed(file: &[u8]) -> String {
    let rule = match read(file) {
        Ok(rule) => rule,
        Err(refusal) => return format!("refused {} {} {}\n", refusal.no, refusal.a, refusal.b),
    };
    let mut lines = vec![format!("rule {} {} {} {} {}", rule.class, rule.states, rule.events, rule.pairs.len(), rule.initial)];
    let operation = operations(&rule);
    for (s, row) in rule.rows.iter().enumerate() {
        for (e, &t) in row.iter().enumerate() {
            lines.push(format!("{} {} {} {}", s, e, t, operation[t].name()));
        }
    }
    let mut last: Vec<String> = stopping(&rule).iter().map(|s| s.to_string()).collect();
    if last.is_empty() {
        last.push("-".to_string());
    }
    lines.push(format!("stop {}", last.join(" ")));
    lines.join("\n") + "\n"
}
