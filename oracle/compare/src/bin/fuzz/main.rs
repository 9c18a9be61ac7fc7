//! `fuzz SECONDS [SEED]`: arbitrary and nearly good arguments for every entry of `include/tridexel.h`, in a process of its own, so that a crash is told
//! with its case. `fuzz --case SEED NUMBER` runs one case again and prints its calls.
mod cases;
mod lists;
mod rooms;
mod stocks;
mod trial;
mod words;

use std::{
    ffi::c_int,
    process::{ExitCode, exit},
    sync::atomic::Ordering::Relaxed,
    time::Instant,
};
use trial::{ANSWERS, Entry, Shared, Trial};

#[repr(C)]
struct Timer {
    interval: [i64; 2],
    value: [i64; 2],
}

unsafe extern "C" {
    fn fork() -> c_int;
    fn waitpid(pid: c_int, status: *mut c_int, options: c_int) -> c_int;
    fn setitimer(which: c_int, new: *const Timer, old: *mut Timer) -> c_int;
}

const VIRTUAL: c_int = 1;
const TIMER_SIGNAL: c_int = 26;
/// A case that takes so many seconds of processor time is taken for one that does not return.
const PATIENCE: i64 = 60;
/// The seconds from one line about the cases to the next.
const TOLD: u64 = 600;
const USAGE: &str = "usage: oracle/run --fuzz SECONDS [SEED] or oracle/run --fuzz-case SEED NUMBER";

/// Which cases are run.
enum Work {
    For(u64),
    Case(u64),
}

fn options() -> Option<(Work, u64)> {
    let words: Vec<String> = std::env::args().skip(1).collect();
    let words: Vec<&str> = words.iter().map(String::as_str).collect();
    let number = |w: &str| w.parse::<u64>().ok();
    match words[..] {
        ["--case", seed, case] => Some((Work::Case(number(case)?), number(seed)?)),
        [seconds] => Some((Work::For(number(seconds)?), 1)),
        [seconds, seed] => Some((Work::For(number(seconds)?), number(seed)?)),
        _ => None,
    }
}

/// The timer ends the process where a case does not return.
fn wind() {
    let timer = Timer { interval: [0, 0], value: [PATIENCE, 0] };
    assert_eq!(unsafe { setitimer(VIRTUAL, &timer, std::ptr::null_mut()) }, 0);
}

fn call(shared: &Shared, work: &Work, seed: u64) {
    let again = |case: u64| again(seed, case);
    let mut trial = Trial::new(shared, &again, matches!(work, Work::Case(_)));
    wind();
    match *work {
        Work::Case(case) => cases::run(&mut trial, seed, case),
        Work::For(seconds) => call_for(&mut trial, seconds, seed),
    }
}

/// The cases from 0 on, until the time is over; a line every ten minutes.
fn call_for(trial: &mut Trial, seconds: u64, seed: u64) {
    let start = Instant::now();
    let mut next = TOLD;
    for case in 0.. {
        if case % 64 == 0 {
            wind();
            let now = start.elapsed().as_secs();
            if now >= next.min(seconds) {
                println!("{case} cases after {now} seconds");
                next += TOLD;
            }
            if now >= seconds {
                return;
            }
        }
        cases::run(trial, seed, case);
    }
}

fn again(seed: u64, case: u64) -> String {
    format!("case {case}, again by: oracle/run --fuzz-case {seed} {case}")
}

/// Whether the calling process came to its end; else how it ended, and in which case.
fn ended(shared: &Shared, status: c_int, seed: u64) -> bool {
    let (signal, code) = (status & 0x7f, status >> 8 & 0xff);
    if (signal, code) == (0, 0) {
        return true;
    }
    let entry = Entry::ALL[shared.entry.load(Relaxed) as usize];
    let how = match signal {
        0 => format!("left with {code}"),
        TIMER_SIGNAL => format!("no return within {PATIENCE} seconds"),
        signal => format!("killed by signal {signal}"),
    };
    println!("crash, {entry:?}: {how}; {}", again(seed, shared.case.load(Relaxed)));
    false
}

/// The calls of each entry by answer, and which of its answers were never given.
fn table(shared: &Shared) {
    println!("{:<14} {:>12}  answer: times", "entry", "calls");
    for entry in Entry::ALL {
        let times = shared.times(entry);
        let given: Vec<String> = (0..ANSWERS).filter(|k| times[*k] > 0).map(|k| format!("{k}: {}", times[k])).collect();
        let never: Vec<String> = entry.answers().iter().filter(|k| times[**k as usize] == 0).map(u32::to_string).collect();
        let never = if never.is_empty() { String::new() } else { format!("; never {}", never.join(", ")) };
        println!("{:<14} {:>12}  {}{never}", format!("{entry:?}"), times.iter().sum::<u64>(), given.join(", "));
    }
}

fn main() -> ExitCode {
    let Some((work, seed)) = options() else {
        eprintln!("{USAGE}");
        return ExitCode::from(2);
    };
    // all zero is what `Shared` is at first
    let shared = unsafe { &*rooms::shared(size_of::<Shared>()).cast::<Shared>() };
    println!("seed {seed}");
    let start = Instant::now();
    let pid = unsafe { fork() };
    assert!(pid >= 0, "fork: {}", std::io::Error::last_os_error());
    if pid == 0 {
        call(shared, &work, seed);
        exit(0);
    }
    let mut status = 0;
    assert_eq!(unsafe { waitpid(pid, &mut status, 0) }, pid);
    let ended = ended(shared, status, seed);
    let mut cases = 1;
    if let Work::For(_) = work {
        table(shared);
        cases = shared.case.load(Relaxed) + 1;
    }
    let calls: u64 = Entry::ALL.iter().flat_map(|e| shared.times(*e)).sum();
    let violations = shared.violations.load(Relaxed);
    println!("{cases} cases, {calls} calls, {:.0} seconds, {violations} violations", start.elapsed().as_secs_f64());
    ExitCode::from((!ended || violations > 0) as u8)
}
