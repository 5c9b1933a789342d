//! Measuring contenders side by side.

use crate::checksum::{Checksum, Sum};
use crate::clock::thread_time;

/// One contender's run of a trial.
pub struct Entrant {
    /// The contender's name.
    pub name: &'static str,
    /// How many units of work a run has.
    pub units: u64,
    /// What a right run sums up to.
    pub expected: Checksum,
    /// The run.
    pub run: Box<dyn Fn() -> Sum>,
}

/// The same work for several contenders. The first one is what the others are compared with.
pub struct Trial {
    /// What the work is.
    pub title: String,
    /// What a time is given per.
    pub unit: &'static str,
    /// The contenders.
    pub entrants: Vec<Entrant>,
}

/// What a trial gave.
pub struct Measured {
    /// What the work was.
    pub title: String,
    /// What a time is given per.
    pub unit: &'static str,
    /// What was measured of each contender.
    pub figures: Vec<Figure>,
}

impl Measured {
    /// Whether every sum was right.
    pub fn is_right(&self) -> bool {
        self.figures.iter().all(|figure| figure.right)
    }
}

/// What was measured of a contender.
pub struct Figure {
    /// The contender's name.
    pub name: &'static str,
    /// Nanoseconds of CPU time per unit in each round.
    pub rounds: Vec<f64>,
    /// Their median.
    pub nanoseconds: f64,
    /// The median of each round's ratio to the first contender.
    pub ratio: f64,
    /// The lowest and the highest ratio of a round.
    pub range: (f64, f64),
    /// Whether the order of timers in one tick was compared too.
    pub in_order: bool,
    /// Whether every sum was right.
    pub right: bool,
}

// What the rounds of one entrant gave.
#[derive(Default)]
struct Rounds {
    nanoseconds: Vec<f64>,
    ratios: Vec<f64>,
    in_order: bool,
    right: bool,
}

fn sorted(numbers: &[f64]) -> Vec<f64> {
    let mut sorted = numbers.to_vec();
    sorted.sort_by(f64::total_cmp);
    sorted
}

fn median(numbers: &[f64]) -> f64 {
    sorted(numbers)[numbers.len() / 2]
}

impl Figure {
    /// How many times as long another trial took of the same contender, in rounds that both went through.
    pub fn growth(&self, other: &Figure) -> f64 {
        let rounds = self.rounds.iter().zip(&other.rounds);
        let factors: Vec<f64> = rounds.map(|(before, after)| after / before).collect();
        median(&factors)
    }
}

impl Rounds {
    fn figure(self, name: &'static str) -> Figure {
        let ratios = sorted(&self.ratios);
        Figure {
            name,
            nanoseconds: median(&self.nanoseconds),
            ratio: median(&ratios),
            range: (ratios[0], ratios[ratios.len() - 1]),
            rounds: self.nanoseconds,
            in_order: self.in_order,
            right: self.right,
        }
    }
}

impl Entrant {
    // The nanoseconds per unit of one run, and its sum.
    fn timed(&self) -> (f64, Sum) {
        let begun = thread_time();
        let sum = (self.run)();
        let taken = thread_time() - begun;
        (taken as f64 / self.units as f64, sum)
    }
}

impl Trial {
    /// Keeps the first contender, and those with this in their name.
    pub fn keep(&mut self, part: &str) {
        let base = self.entrants[0].name;
        self.entrants
            .retain(|entrant| entrant.name == base || entrant.name.contains(part));
    }

    fn begun(&self) -> Vec<Rounds> {
        let entrants = self.entrants.iter();
        entrants
            .map(|_| Rounds {
                right: true,
                ..Rounds::default()
            })
            .collect()
    }

    // Goes once through all contenders.
    fn go(&self, all: &mut [Rounds]) {
        let mut base = f64::NAN;
        for (i, (entrant, rounds)) in self.entrants.iter().zip(all).enumerate() {
            let (nanoseconds, sum) = entrant.timed();
            if i == 0 {
                base = nanoseconds;
            }
            rounds.nanoseconds.push(nanoseconds);
            rounds.ratios.push(nanoseconds / base);
            rounds.in_order = matches!(sum, Sum::Ordered(_));
            rounds.right &= entrant.expected.agrees(sum);
        }
    }

    fn measured(self, all: Vec<Rounds>) -> Measured {
        let entrants = self.entrants.iter();
        Measured {
            title: self.title,
            unit: self.unit,
            figures: entrants
                .zip(all)
                .map(|(entrant, rounds)| rounds.figure(entrant.name))
                .collect(),
        }
    }
}

/// Runs every round: each goes through all trials and all their contenders, so that a busy minute of the machine hits them alike.
pub fn measure(trials: Vec<Trial>, rounds: usize) -> Vec<Measured> {
    let mut begun: Vec<(Trial, Vec<Rounds>)> = trials
        .into_iter()
        .map(|trial| {
            let all = trial.begun();
            (trial, all)
        })
        .collect();
    for _ in 0..rounds {
        for (trial, all) in &mut begun {
            trial.go(all);
        }
    }
    begun
        .into_iter()
        .map(|(trial, all)| trial.measured(all))
        .collect()
}
