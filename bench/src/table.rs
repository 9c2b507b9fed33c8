//! Least times of contestants with the same result, and tables of them.
use crate::clock;
use std::collections::HashMap;
use std::env;
use std::hint::black_box;
use std::process;
use std::time::Duration;

/// How often each contestant has its turn in a line. Before its next turn all other lines have theirs,
/// so that what else the machine does for some seconds weighs little.
const ROUNDS: usize = 10;

/// A line of which a run takes longer has its turns in the first round and in the last one alone.
const LONG: Duration = Duration::from_millis(500);

/// The contestants of a line: this repository and the peers of its table, of which some may lack the call.
pub type Contestant<'a> = Option<&'a mut dyn FnMut() -> u64>;

pub struct Bench {
    filters: Vec<String>,
    /// how long a turn lasts
    turn: Duration,
    /// how often all lines have had, or now have, their turns
    round: usize,
    /// the least time of each contestant of a line
    least: HashMap<String, Vec<Option<Duration>>>,
    title: String,
    /// the head of the table that begins with the next line
    head: Option<String>,
}

impl Bench {
    pub fn from_arguments() -> Self {
        let seconds: f64 = env::var("BENCH_SECS").map_or(0.25, |text| text.parse().expect("BENCH_SECS is a number"));
        Self {
            filters: env::args().skip(1).collect(),
            turn: Duration::from_secs_f64(seconds / ROUNDS as f64),
            round: 0,
            least: HashMap::new(),
            title: String::new(),
            head: None,
        }
    }

    /// Begins the next round through all tables, which are printed in the last one, unless that is over.
    pub fn begin_round(&mut self) -> bool {
        self.round += 1;
        self.round <= ROUNDS
    }

    /// Begins a table beside the crate and the standard library, whose times are in nanoseconds for `unit`.
    pub fn table(&mut self, title: &str, unit: &str) {
        self.table_beside(title, unit, &["crate", "std"]);
    }

    /// Begins a table beside these, whose times are in nanoseconds for `unit`.
    pub fn table_beside(&mut self, title: &str, unit: &str, peers: &[&str]) {
        self.title = title.to_owned();
        let heads = peers.iter().map(|peer| format!(" {peer} | Ours/{peer} |")).collect::<String>();
        let rule = "---|---|".repeat(peers.len());
        self.head = Some(format!(
            "\n### {title}, nanoseconds for {unit}\n\n| Call | Input | Ours |{heads}\n|---|---|---|{rule}"
        ));
    }

    /// Whether a filter selects lines of the table that was begun.
    pub fn wants(&self, call: &str, input: &str) -> bool {
        let name = self.name(call, input);
        self.filters.is_empty() || self.filters.iter().any(|filter| name.contains(filter))
    }

    /// Times a call on an input, which has `count` units of the table. All must have the same result.
    pub fn line<const N: usize>(&mut self, call: &str, input: &str, count: usize, mut contestants: [Contestant; N]) {
        if !self.wants(call, input) {
            return;
        }
        let name = self.name(call, input);
        let least = self.least.entry(name).or_insert_with(|| vec![None; N]);
        if self.round < ROUNDS && least.iter().flatten().any(|&time| time > LONG) {
            return;
        }
        let mut answer = None;
        for (run, least) in contestants.iter_mut().zip(least) {
            let Some(run) = run else { continue };
            let begin = clock::now();
            loop {
                let start = clock::now();
                let answered = black_box(run());
                let end = clock::now();
                // the clock of some virtual machines stops for a moment
                if end > start {
                    *least = Some(least.map_or(end - start, |least| least.min(end - start)));
                }
                if *answer.get_or_insert(answered) != answered {
                    eprintln!("different answers: {}, {call}, {input}: {answer:?}, {answered}", self.title);
                    process::exit(1);
                }
                if end - begin >= self.turn {
                    break;
                }
            }
        }
        if self.round == ROUNDS {
            self.print(call, input, count);
        }
    }

    fn name(&self, call: &str, input: &str) -> String {
        format!("{} {call} {input}", self.title)
    }

    fn print(&mut self, call: &str, input: &str, count: usize) {
        if let Some(head) = self.head.take() {
            println!("{head}");
        }
        let least = &self.least[&self.name(call, input)];
        let nanoseconds: Vec<_> =
            least.iter().map(|time| time.map(|time| time.as_nanos() as f64 / count as f64)).collect();
        let ours = nanoseconds[0].expect("this repository answers each line");
        print!("| {call} | {input} | {ours:.3} |");
        for time in &nanoseconds[1..] {
            match time {
                Some(time) => print!(" {time:.3} | {:.2} |", ours / time),
                None => print!(" | |"),
            }
        }
        println!();
    }
}

/// Calls a call on so many bytes often enough that the clock, which takes some hundred nanoseconds,
/// weighs little, and sums up its results.
pub fn repeated(len: usize, mut call: impl FnMut() -> u64) -> u64 {
    (0..times(len)).fold(0, |sum: u64, _| sum.wrapping_add(call()))
}

/// How often `repeated` calls it.
pub fn times(len: usize) -> usize {
    ((1 << 16) / len).max(1)
}
