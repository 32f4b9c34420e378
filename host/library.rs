//! The proved library as C sees it (include/pachallu.h), and its calls on slices.
#![allow(dead_code)]

#[repr(C)]
#[derive(Clone, Copy, PartialEq, Eq, Debug)]
pub struct Made {
    pub refusal: u8,
    pub a: u8,
    pub b: u8,
    pub written: usize,
}

#[repr(C)]
#[derive(Clone, Copy, PartialEq, Eq, Debug)]
pub struct Start {
    pub refusal: u8,
    pub a: u8,
    pub b: u8,
    pub state: u8,
    pub held: usize,
}

#[repr(C)]
#[derive(Clone, Copy, PartialEq, Eq, Debug)]
pub struct Answer {
    pub refusal: u8,
    pub a: u8,
    pub b: u8,
    pub operation: u8,
    pub state: u8,
    pub held: usize,
    pub released: usize,
}

#[repr(C)]
#[derive(Clone, Copy, PartialEq, Eq, Debug)]
pub struct Found {
    pub refusal: u8,
    pub a: u8,
    pub b: u8,
    pub book: u8,
    pub start: usize,
    pub length: usize,
}

#[repr(C)]
#[derive(Clone, Copy, PartialEq, Eq, Debug)]
pub struct Evening {
    pub refusal: u8,
    pub a: u8,
    pub b: u8,
    pub state: u8,
    pub held: usize,
    pub taken: usize,
    pub released: usize,
    pub ignored: usize,
}

#[repr(C)]
#[derive(Clone, Copy, PartialEq, Eq, Debug)]
pub struct Reason {
    pub refusal: u8,
    pub a: u8,
    pub b: u8,
    pub operation: u8,
    pub pair: u8,
    pub length: usize,
}

extern "C" {
    pub fn pachallu_make(rule: *const u8, rule_len: usize, sheet: *mut u8, sheet_len: usize) -> Made;
    pub fn pachallu_print(rule: *const u8, rule_len: usize, text: *mut u8, text_len: usize) -> Made;
    pub fn pachallu_find(job: *const u8, job_len: usize, office: *const u8, office_len: usize, number: u8, age: u16) -> Found;
    pub fn pachallu_add(
        book: *const u8,
        book_len: usize,
        number: u8,
        rule: *const u8,
        rule_len: usize,
        out: *mut u8,
        out_len: usize,
    ) -> Made;
    pub fn pachallu_fresh(sheet: *const u8, sheet_len: usize) -> Start;
    pub fn pachallu_event(
        sheet: *const u8,
        sheet_len: usize,
        state: u8,
        held: usize,
        event: u8,
        memory: *mut u8,
        memory_len: usize,
        output: *mut u8,
        output_len: usize,
    ) -> Answer;
    pub fn pachallu_events(
        sheet: *const u8,
        sheet_len: usize,
        state: u8,
        held: usize,
        log: *const u8,
        log_len: usize,
        memory: *mut u8,
        memory_len: usize,
        output: *mut u8,
        output_len: usize,
    ) -> Evening;
    pub fn pachallu_why(rule: *const u8, rule_len: usize, state: u8, event: u8, way: *mut u8, way_len: usize) -> Reason;
}

/// Where a buffer starts. NULL for an empty one where the program says so: C++ callers pass it (an empty vector's data()), and the header permits it.
#[inline(always)]
fn start(bytes: &[u8]) -> *const u8 {
    if crate::NULL_FOR_EMPTY && bytes.is_empty() {
        std::ptr::null()
    } else {
        bytes.as_ptr()
    }
}

#[inline(always)]
fn start_mut(bytes: &mut [u8]) -> *mut u8 {
    if crate::NULL_FOR_EMPTY && bytes.is_empty() {
        std::ptr::null_mut()
    } else {
        bytes.as_mut_ptr()
    }
}

#[inline(always)]
pub fn make(rule: &[u8], sheet: &mut [u8]) -> Made {
    unsafe { pachallu_make(start(rule), rule.len(), start_mut(sheet), sheet.len()) }
}

#[inline(always)]
pub fn print(rule: &[u8], text: &mut [u8]) -> Made {
    unsafe { pachallu_print(start(rule), rule.len(), start_mut(text), text.len()) }
}

#[inline(always)]
pub fn find(job: &[u8], office: &[u8], number: u8, age: u16) -> Found {
    unsafe { pachallu_find(start(job), job.len(), start(office), office.len(), number, age) }
}

#[inline(always)]
pub fn add(book: &[u8], number: u8, rule: &[u8], out: &mut [u8]) -> Made {
    unsafe { pachallu_add(start(book), book.len(), number, start(rule), rule.len(), start_mut(out), out.len()) }
}

#[inline(always)]
pub fn fresh(sheet: &[u8]) -> Start {
    unsafe { pachallu_fresh(start(sheet), sheet.len()) }
}

#[inline(always)]
pub fn event(sheet: &[u8], state: u8, held: usize, event: u8, memory: &mut [u8], output: &mut [u8]) -> Answer {
    unsafe {
        pachallu_event(
            start(sheet),
            sheet.len(),
            state,
            held,
            event,
            start_mut(memory),
            memory.len(),
            start_mut(output),
            output.len(),
        )
    }
}

#[inline(always)]
pub fn events(sheet: &[u8], state: u8, held: usize, log: &[u8], memory: &mut [u8], output: &mut [u8]) -> Evening {
    unsafe {
        pachallu_events(
            start(sheet),
            sheet.len(),
            state,
            held,
            start(log),
            log.len(),
            start_mut(memory),
            memory.len(),
            start_mut(output),
            output.len(),
        )
    }
}

#[inline(always)]
pub fn why(rule: &[u8], state: u8, event: u8, way: &mut [u8]) -> Reason {
    unsafe { pachallu_why(start(rule), rule.len(), state, event, start_mut(way), way.len()) }
}
