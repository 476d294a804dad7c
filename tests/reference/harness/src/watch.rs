//! Names the case at hand when the library under test crashes or does not come back.

use std::fmt::Write;
use std::sync::atomic::{AtomicI32, AtomicU64, AtomicUsize, Ordering::SeqCst};
use std::sync::OnceLock;
use std::time::{Duration, Instant};

use crate::families::FAMILIES;
use crate::host::CALLS;

extern "C" {
    fn signal(number: i32, handler: usize) -> usize;
    fn write(file: i32, bytes: *const u8, len: usize) -> isize;
    fn kill(process: i32, number: i32) -> i32;
    fn _exit(status: i32) -> !;
}

/// Illegal instruction, abort, bus error, arithmetic, bad address.
const CRASHES: [i32; 5] = [4, 6, 7, 8, 11];

/// How a crash outside any call is reported.
pub const NOT_OURS: &str = "outside the library";

/// The program under test while it runs; else 0. It is ended with the harness.
pub static CHILD: AtomicI32 = AtomicI32::new(0);
const KILL: i32 = 9;

static FAMILY: AtomicUsize = AtomicUsize::new(0);
static INDEX: AtomicUsize = AtomicUsize::new(0);
/// Cases settled so far.
static CASES: AtomicU64 = AtomicU64::new(0);
static CALL: AtomicUsize = AtomicUsize::new(0);
/// Milliseconds since the start at which the present call began, plus 1; 0 between calls.
static SINCE: AtomicU64 = AtomicU64::new(0);
static CLOCK: OnceLock<Instant> = OnceLock::new();

pub fn start(patience: Duration) {
    CLOCK.set(Instant::now()).expect("the watch starts once");
    for number in CRASHES {
        unsafe { signal(number, report_crash as *const () as usize) };
    }
    std::thread::spawn(move || loop {
        std::thread::sleep(Duration::from_millis(50));
        let since = SINCE.load(SeqCst);
        if since > 0 && now() > since + patience.as_millis() as u64 {
            end("no answer");
        }
    });
}

pub fn enter_group(family: usize, index: usize) {
    FAMILY.store(family, SeqCst);
    INDEX.store(index, SeqCst);
}

pub fn finish_case(cases: u64) {
    CASES.store(cases, SeqCst);
}

/// Runs one call under watch and says how long it took.
pub fn timed<T>(call: usize, run: impl FnOnce() -> T) -> (T, Duration) {
    CALL.store(call, SeqCst);
    SINCE.store(now() + 1, SeqCst);
    let began = Instant::now();
    let answer = run();
    let took = began.elapsed();
    SINCE.store(0, SeqCst);
    (answer, took)
}

fn now() -> u64 {
    CLOCK.get().map_or(0, |clock| clock.elapsed().as_millis() as u64)
}

extern "C" fn report_crash(_: i32) {
    end("crash");
}

fn end(what: &str) -> ! {
    let mut line = Line { bytes: [0; 200], len: 0 };
    let (family, call) = (FAMILIES[FAMILY.load(SeqCst)].name, CALLS[CALL.load(SeqCst)]);
    let inside = SINCE.load(SeqCst) > 0;
    let place = if inside { "in the library" } else { NOT_OURS };
    let (case, group) = (CASES.load(SeqCst) + 1, INDEX.load(SeqCst));
    let _ = writeln!(line, "difference: case {case}, call {call}, family {family}, group {group}: {what} {place}");
    let child = CHILD.load(SeqCst);
    unsafe {
        if child > 0 {
            kill(child, KILL);
        }
        write(1, line.bytes.as_ptr(), line.len);
        _exit(1)
    }
}

/// Text without allocation, as a signal handler needs it.
struct Line {
    bytes: [u8; 200],
    len: usize,
}

impl Write for Line {
    fn write_str(&mut self, text: &str) -> std::fmt::Result {
        let part = text.len().min(self.bytes.len() - self.len);
        self.bytes[self.len..self.len + part].copy_from_slice(&text.as_bytes()[..part]);
        self.len += part;
        Ok(())
    }
}
