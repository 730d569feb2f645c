//! Times the proved library beside the same work written by hand, on a text. Both must give the same answer in the same number of steps.
//!
//!     settle TEXT       prints clauses, answer, steps, and the microseconds of `read`, of `settle` and of the search by hand
//!     check TEXT        where there is an argument of at most 2,000 steps: clauses, steps, and the microseconds of `check` and of the check by hand
//!     memory WAY TEXT   settles it once, WAY proved or naive, and prints the most memory that the process held
mod naive;

use naive::{Clauses, Search};

#[repr(C)]
#[derive(Default)]
struct Outcome {
    answer: u32,
    steps: u64,
}

#[repr(C)]
#[derive(Default)]
struct Timespec {
    seconds: i64,
    nanoseconds: i64,
}

extern "C" {
    fn clock_gettime(clock: i32, time: *mut Timespec) -> i32;
    fn tallowspan_read(text: *const u8, size: usize, times: u32) -> u32;
    fn tallowspan_settle(text: *const u8, size: usize, times: u32, outcome: *mut Outcome);
    fn tallowspan_check(text: *const u8, size: usize, times: u32, outcome: *mut Outcome);
}

fn read(text: &str, times: u32) -> u32 {
    unsafe { tallowspan_read(text.as_ptr(), text.len(), times) }
}

fn settle(text: &str, times: u32) -> Outcome {
    let mut outcome = Outcome::default();
    unsafe { tallowspan_settle(text.as_ptr(), text.len(), times, &mut outcome) };
    outcome
}

fn check(text: &str, times: u32) -> Outcome {
    let mut outcome = Outcome::default();
    unsafe { tallowspan_check(text.as_ptr(), text.len(), times, &mut outcome) };
    outcome
}

fn by_hand(clauses: &Clauses, times: u32) -> Outcome {
    let mut outcome = Outcome::default();
    for _ in 0..times {
        let mut search = Search::new(clauses);
        outcome.answer = if search.fits() { 1 } else { 2 };
        outcome.steps = search.made as u64;
    }
    outcome
}

/// The seconds that this thread has had a processor: other work on the machine counts little.
fn seconds() -> f64 {
    const THREAD_CPU_TIME: i32 = 3;
    let mut time = Timespec::default();
    assert_eq!(unsafe { clock_gettime(THREAD_CPU_TIME, &mut time) }, 0);
    time.seconds as f64 + time.nanoseconds as f64 * 1e-9
}

/// The seconds that the best of five series of runs took.
fn best(run: &dyn Fn(u32), times: u32) -> f64 {
    let series = (0..5).map(|_| {
        let start = seconds();
        run(times);
        seconds() - start
    });
    series.fold(f64::INFINITY, f64::min)
}

/// Microseconds of one run, from series that are long enough to be timed.
fn micros(run: &dyn Fn(u32)) -> f64 {
    let start = seconds();
    run(1);
    let times = (0.05 / (seconds() - start).max(1e-7)).ceil().clamp(1.0, 100_000.0) as u32;
    best(run, times) / times as f64 * 1e6
}

fn compare_settling(path: &str) {
    let text = std::fs::read_to_string(path).unwrap();
    let clauses = Clauses::read(&text);
    assert_eq!(read(&text, 1) as usize, clauses.count(), "{path}: another number of clauses");
    let (proved, plain) = (settle(&text, 1), by_hand(&clauses, 1));
    assert_ne!(proved.answer, 0, "{path}: declined");
    assert_eq!(proved.answer, plain.answer, "{path}: another answer");
    assert_eq!(proved.steps, plain.steps, "{path}: another number of steps");
    // settling reads the text first, once for each series
    let reading = micros(&|times| assert!(read(&text, times) > 0));
    let settling = micros(&|times| assert_eq!(settle(&text, times).steps, plain.steps));
    let hand = micros(&|times| assert_eq!(by_hand(&clauses, times).steps, plain.steps));
    let answer = ["declined", "fits", "cannot"][proved.answer as usize];
    println!("{} {answer} {} {reading:.1} {settling:.1} {hand:.1}", clauses.count(), proved.steps);
}

fn compare_checking(path: &str) {
    let text = std::fs::read_to_string(path).unwrap();
    let clauses = Clauses::read(&text);
    let (steps, closing) = Search::new(&clauses).argument().expect("it fits");
    let proved = check(&text, 1);
    assert_eq!(proved.answer, 2, "{path}: declined");
    assert_eq!(proved.steps as usize, steps.len(), "{path}: another number of steps");
    // checking reads and settles the text first, once for each series; that is taken off
    const TIMES: u32 = 300;
    let before = best(&|times| assert_eq!(check(&text, times).steps as usize, steps.len()), 0);
    let checking = (best(&|times| assert_eq!(check(&text, times).answer, 2), TIMES) - before) / TIMES as f64 * 1e6;
    let hand = micros(&|times| (0..times).for_each(|_| assert!(naive::check(&clauses, &steps, closing))));
    println!("{} {} {checking:.1} {hand:.1}", clauses.count(), steps.len());
}

/// The most memory that this process has held, in kilobytes.
fn most_memory() -> String {
    let status = std::fs::read_to_string("/proc/self/status").unwrap();
    status.lines().find_map(|l| l.strip_prefix("VmHWM:")).unwrap().trim().to_string()
}

fn memory(way: &str, path: &str) {
    let text = std::fs::read_to_string(path).unwrap();
    match way {
        "proved" => settle(&text, 1),
        _ => by_hand(&Clauses::read(&text), 1),
    };
    println!("{}", most_memory());
}

fn main() {
    let args: Vec<String> = std::env::args().skip(1).collect();
    let words: Vec<&str> = args.iter().map(String::as_str).collect();
    match words[..] {
        ["settle", path] => compare_settling(path),
        ["check", path] => compare_checking(path),
        ["memory", way, path] => memory(way, path),
        _ => panic!("settle TEXT, check TEXT, or memory WAY TEXT"),
    }
}
