//! Best times of many short rounds, the sides in turn, over several processes: some times differ by several percent from
//! process to process, in all rounds of one alike.
use std::hint::black_box;
use std::process::{Command, Stdio};
use std::time::Instant;

const PROCESSES: usize = 9;
const ROUNDS: usize = 40;
/// What a round of one side lasts at least, unless a single call lasts longer.
const ROUND_NANOSECONDS: f64 = 150_000.0;
const TIMES_ONLY: &str = "times-only";

/// Something timed: a loop of as many calls as it is given.
pub struct Timed<'a> {
    calls: Box<dyn FnMut(usize) + 'a>,
    count: usize,
}

impl<'a> Timed<'a> {
    /// A call is handed its number in the loop.
    pub fn new<R>(mut call: impl FnMut(usize) -> R + 'a) -> Timed<'a> {
        let calls = move |count| (0..count).for_each(|number| drop(black_box(call(number))));
        Timed { calls: Box::new(calls), count: 1 }
    }

    fn round(&mut self) -> f64 {
        let start = Instant::now();
        (self.calls)(self.count);
        start.elapsed().as_nanos() as f64
    }

    fn calibrate(&mut self) {
        while self.round() < ROUND_NANOSECONDS {
            self.count *= 2;
        }
    }
}

/// The best time of a call of each side, in nanoseconds.
fn measure(group: &mut [Timed]) -> Vec<f64> {
    group.iter_mut().for_each(Timed::calibrate);
    let mut best = vec![f64::INFINITY; group.len()];
    for _ in 0..ROUNDS {
        for (side, best) in group.iter_mut().zip(&mut best) {
            *best = best.min(side.round() / side.count as f64);
        }
    }
    best
}

/// Who times, and who reports: the program starts itself several times, for times only.
pub enum Clock {
    TimesOnly,
    /// For each process, its times that were not asked for yet, the next one last.
    Report(Vec<Vec<f64>>),
}

/// Of one group, for each side.
pub struct Times {
    pub best: Vec<f64>,
    /// By how many percent the middle process lies over the best one.
    pub spread: Vec<f64>,
}

impl Clock {
    pub fn new() -> Clock {
        if std::env::args().nth(1).as_deref() == Some(TIMES_ONLY) {
            return Clock::TimesOnly;
        }
        Clock::Report((0..PROCESSES).map(|_| times_of_a_process()).collect())
    }

    pub fn times(&mut self, mut group: Vec<Timed>) -> Times {
        let mut times = Times { best: Vec::new(), spread: Vec::new() };
        match self {
            Clock::TimesOnly => {
                times.best = measure(&mut group);
                times.best.iter().for_each(|time| println!("{time}"));
            }
            Clock::Report(processes) => {
                for _ in group {
                    let mut each: Vec<f64> = processes.iter_mut().map(|times| times.pop().unwrap()).collect();
                    each.sort_by(f64::total_cmp);
                    times.best.push(each[0]);
                    times.spread.push(100.0 * (each[each.len() / 2] / each[0] - 1.0));
                }
            }
        }
        times
    }

    pub fn say(&self, line: &str) {
        if let Clock::Report(_) = self {
            println!("{line}");
        }
    }
}

fn times_of_a_process() -> Vec<f64> {
    let mut program = Command::new(std::env::current_exe().unwrap());
    let ran = program.arg(TIMES_ONLY).stderr(Stdio::inherit()).output().unwrap();
    assert!(ran.status.success(), "a process that times failed");
    let said = String::from_utf8(ran.stdout).unwrap();
    said.lines().rev().map(|time| time.parse().unwrap()).collect()
}

pub fn how() -> String {
    let microseconds = ROUND_NANOSECONDS / 1e3;
    let rounds = format!("{ROUNDS} rounds in each of {PROCESSES} processes");
    format!("Each time is the best of {rounds}, a round of {microseconds} µs or one call, divided by its calls.\n")
}
