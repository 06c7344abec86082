// Many comparisons at a time, what they met, and what differed.

use std::collections::BTreeMap;
use std::process::ExitCode;
use std::sync::atomic::{AtomicBool, AtomicUsize, Ordering};
use std::sync::Mutex;
use std::thread;
use std::time::Instant;

/// What the command line asks.
pub struct Wish {
    pub from: u64,
    /// Whether all ends at the first difference.
    pub first: bool,
}

/// What was asked, and what both sides answered: the refusal's number or a word.
#[derive(Clone, Debug, PartialEq, Eq, PartialOrd, Ord)]
pub struct Met {
    call: String,
    /// So that 10 comes after 9.
    digits: usize,
    answer: String,
}

impl Met {
    pub fn new(call: &str, answer: impl ToString) -> Met {
        let answer = answer.to_string();
        Met { call: call.to_string(), digits: answer.len(), answer }
    }
}

/// One comparison: what it met, and what the difference is, with its seed.
pub struct Outcome {
    pub met: Met,
    pub differs: Option<String>,
}

/// A call, and the answers that must be met, lest the comparison pass for want of cases.
pub type Wanted<'a> = [(&'a str, &'a [&'a str])];

#[derive(Default)]
struct Findings {
    met: BTreeMap<Met, usize>,
    /// By number, so that they are told in order though two threads find them.
    differ: BTreeMap<usize, Vec<String>>,
}

/// All parts together.
#[derive(Default)]
pub struct Total {
    compared: usize,
    differ: usize,
    never_met: usize,
}

/// The most differences of a part that are told one by one.
const TOLD: usize = 10;

impl Total {
    /// Makes groups of comparisons 0 to count − 1, as many at a time as there are processors, and tells what they met.
    pub fn compare(
        &mut self,
        title: &str,
        wish: &Wish,
        count: usize,
        wanted: &Wanted,
        group: impl Fn(usize) -> Vec<Outcome> + Sync,
    ) {
        if wish.first && self.differ > 0 {
            return;
        }
        println!("compare: {title}");
        let start = Instant::now();
        let (findings, whole) = gather(wish, count, group);
        let made: usize = findings.met.values().sum();
        let differ: Vec<&String> = findings.differ.values().flatten().collect();
        let seconds = start.elapsed().as_secs_f64();
        println!("         {made} compared in {seconds:.0} s, {} differ; {}", differ.len(), findings.told());
        for text in differ.iter().take(TOLD) {
            println!("         DIFFERS {text}");
        }
        if differ.len() > TOLD {
            println!("         and {} more", differ.len() - TOLD);
        }
        self.compared += made;
        self.differ += differ.len();
        // A part that was stopped has not met everything.
        if whole {
            for (call, answers) in wanted {
                for answer in
                    answers.iter().filter(|answer| !findings.met.contains_key(&Met::new(call, answer)))
                {
                    println!("         NEVER MET {call} {answer}");
                    self.never_met += 1;
                }
            }
        }
    }

    pub fn tell(&self) -> ExitCode {
        println!("compare: {} compared, {} differ", self.compared, self.differ);
        if self.differ + self.never_met == 0 {
            ExitCode::SUCCESS
        } else {
            ExitCode::FAILURE
        }
    }
}

impl Findings {
    /// How often each answer was met, by call.
    fn told(&self) -> String {
        let mut calls: BTreeMap<&str, Vec<String>> = BTreeMap::new();
        for (met, count) in &self.met {
            calls.entry(&met.call).or_default().push(format!("{} ×{count}", met.answer));
        }
        let calls = calls.into_iter().map(|(call, answers)| format!("{call} {}", answers.join(", ")));
        calls.collect::<Vec<String>>().join("; ")
    }
}

/// What all groups found, and whether all were made.
fn gather(wish: &Wish, count: usize, group: impl Fn(usize) -> Vec<Outcome> + Sync) -> (Findings, bool) {
    let (next, stop) = (AtomicUsize::new(0), AtomicBool::new(false));
    let findings = Mutex::new(Findings::default());
    let work = || {
        while !stop.load(Ordering::Relaxed) {
            let number = next.fetch_add(1, Ordering::Relaxed);
            if number >= count {
                break;
            }
            let outcomes = group(number);
            let mut findings = findings.lock().expect("no comparison panics");
            for outcome in outcomes {
                *findings.met.entry(outcome.met).or_default() += 1;
                if let Some(text) = outcome.differs {
                    findings.differ.entry(number).or_default().push(text);
                    stop.store(wish.first, Ordering::Relaxed);
                }
            }
        }
    };
    thread::scope(|scope| {
        for _ in 0..thread::available_parallelism().map_or(1, |count| count.get()) {
            scope.spawn(work);
        }
    });
    (findings.into_inner().expect("no comparison panics"), !stop.into_inner())
}

/// Where two byte strings part, and their first lines.
pub fn apart(wanted: &[u8], given: &[u8]) -> Option<String> {
    if wanted == given {
        return None;
    }
    let same = wanted.iter().zip(given).take_while(|(wanted, given)| wanted == given).count();
    let lines = |bytes: &[u8]| {
        let text = bytes.iter().take_while(|byte| byte.is_ascii_graphic() || b" \n".contains(byte)).take(120);
        String::from_utf8_lossy(&text.copied().collect::<Vec<u8>>()).trim_end().replace('\n', " | ")
    };
    Some(format!(
        "at byte {same} of {} and {}: wanted '{}', given '{}'",
        wanted.len(),
        given.len(),
        lines(wanted),
        lines(given)
    ))
}
