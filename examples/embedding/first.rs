//! The first script of README.md through the library, in Rust, by lines and then by numbers: the declarations of `scm.h` that this
//! needs, and a type that frees what it holds.
use std::os::raw::c_void;

#[repr(C)]
struct Handle {
    at: *mut c_void,
    live: bool,
}

/// A cell that is declared.
#[repr(C)]
pub struct Cell {
    pub name: usize,
    pub bits: u32,
    pub is_unset: u32,
    pub initial: u64,
}

const DONE: u32 = 0;
const NO_ROOM: u32 = 1;
const INCONSISTENT: u32 = 18;
const LOAD_WORD: u32 = 0;
const CLAIM: u32 = 0;
const ASK: u32 = 5;
const CYCLE: u32 = 9;
const CYCLE_FOUND: u32 = 21;
const LINES: u32 = 5;

unsafe extern "C" {
    fn scm_make(monitor: *mut Handle) -> u32;
    fn scm_free(monitor: *mut Handle);
    fn scm_line(monitor: *mut Handle, line: *const u8, length: usize, out: *mut u8, room: usize, needed: *mut usize) -> u32;
    fn scm_text(monitor: *mut Handle, out: *mut u8, room: usize, needed: *mut usize) -> u32;
    fn scm_name(monitor: *mut Handle, word: *const u8, length: usize, number: *mut usize) -> u32;
    fn scm_open_trace(monitor: *mut Handle, session: usize, trace: usize, processes: u64, budget: u64, cells: *const Cell, count: usize) -> u32;
    fn scm_report(monitor: *mut Handle, session: usize, trace: usize, process: u64, access: u32, cell: usize, first: u64, second: u64) -> u32;
    fn scm_call(monitor: *mut Handle, session: usize, trace: usize, call: u32, number: u64) -> u32;
    fn scm_evidence_count(monitor: *mut Handle, part: u32, count: *mut usize) -> u32;
    fn scm_evidence_at(monitor: *mut Handle, part: u32, row: usize, field: usize, number: *mut u64) -> u32;
}

/// A monitor. It may be sent to another thread, and isn't shared.
pub struct Monitor(Handle);

unsafe impl Send for Monitor {}

impl Monitor {
    pub fn new() -> Result<Monitor, u32> {
        let mut handle = Handle { at: std::ptr::null_mut(), live: false };
        match unsafe { scm_make(&mut handle) } {
            DONE => Ok(Monitor(handle)),
            code => Err(code),
        }
    }

    /// The reply to a line.
    pub fn line(&mut self, line: &str) -> Result<String, u32> {
        let (mut out, mut needed) = (vec![0; 8], 0);
        let mut code = unsafe { scm_line(&mut self.0, line.as_ptr(), line.len(), out.as_mut_ptr(), out.len(), &mut needed) };
        if code == NO_ROOM {
            out.resize(needed, 0);
            code = unsafe { scm_text(&mut self.0, out.as_mut_ptr(), out.len(), &mut needed) };
        }
        if code != DONE {
            return Err(code);
        }
        out.truncate(needed);
        Ok(String::from_utf8(out).expect("a reply is ASCII"))
    }

    /// The number of a name.
    pub fn name(&mut self, name: &str) -> Result<usize, u32> {
        let mut number = 0;
        match unsafe { scm_name(&mut self.0, name.as_ptr(), name.len(), &mut number) } {
            DONE => Ok(number),
            code => Err(code),
        }
    }

    /// Opens a trace.
    pub fn open(&mut self, session: usize, trace: usize, processes: u64, budget: u64, cells: &[Cell]) -> u32 {
        unsafe { scm_open_trace(&mut self.0, session, trace, processes, budget, cells.as_ptr(), cells.len()) }
    }

    /// Reports a load of 32 bits.
    pub fn load(&mut self, session: usize, trace: usize, process: u64, cell: usize, value: u32) -> u32 {
        unsafe { scm_report(&mut self.0, session, trace, process, LOAD_WORD, cell, u64::from(value), 0) }
    }

    /// Makes another call about a trace.
    pub fn call(&mut self, session: usize, trace: usize, call: u32, number: u64) -> u32 {
        unsafe { scm_call(&mut self.0, session, trace, call, number) }
    }

    /// A part of the evidence of the last reply: the numbers of each row, where each of its fields is one.
    pub fn evidence(&mut self, part: u32) -> Result<Vec<Vec<u64>>, u32> {
        let mut count = 0;
        match unsafe { scm_evidence_count(&mut self.0, part, &mut count) } {
            DONE => Ok((0..count).map(|row| self.row(part, row)).collect()),
            code => Err(code),
        }
    }

    fn row(&mut self, part: u32, row: usize) -> Vec<u64> {
        let mut number = 0;
        let field = |field| (unsafe { scm_evidence_at(&mut self.0, part, row, field, &mut number) } == DONE).then_some(number);
        (0..).map_while(field).collect()
    }
}

impl Drop for Monitor {
    fn drop(&mut self) {
        unsafe { scm_free(&mut self.0) }
    }
}

fn main() -> Result<(), u32> {
    let mut monitor = Monitor::new()?;
    for line in ["a open t 2 100 x:w=0", "a claim t 0", "b claim t 1", "b do t 1 lw x 1", "a ask t", "a do t 0 sw x 1", "a ask t"] {
        print!("{}", monitor.line(line)?);
    }
    by_numbers(&mut monitor)
}

/// A value that nobody wrote, without a text: the refutation is one line, which puts the load before itself.
fn by_numbers(monitor: &mut Monitor) -> Result<(), u32> {
    let (a, u, x) = (monitor.name("a")?, monitor.name("u")?, monitor.name("x")?);
    assert_eq!(monitor.open(a, u, 1, 100, &[Cell { name: x, bits: 32, is_unset: 0, initial: 0 }]), DONE);
    assert_eq!(monitor.call(a, u, CLAIM, 0), DONE);
    assert_eq!(monitor.load(a, u, 0, x, 1), DONE);
    assert_eq!(monitor.call(a, u, ASK, 0), INCONSISTENT);
    assert_eq!(monitor.call(a, u, CYCLE, 0), CYCLE_FOUND);
    let lines = monitor.evidence(LINES)?;
    let last = lines.last().expect("a refutation has a line");
    assert_eq!(last[..2], last[2..4]);
    Ok(())
}
