//! Measures growing, from the bytes of a task file to a settled table, in three ways and at several sizes.

use std::fmt;
use std::time::{Duration, Instant};

use crate::compare::Difference;
use crate::files::{bytes_of, read_task, task_records};
use crate::layers::{ByDefinition, Growing, Grown};
use crate::library::{self, Count};
use crate::method;
use crate::model::{Facts, Job, Rule, Task};
use crate::random::Draws;

/// More growings than any book takes.
const TO_THE_END: u16 = 65_535;

/// The size that the kinds of tasks are made for.
const FULL_FACTS: usize = 128;

/// Of each size the two fast ways are repeated so often at least, and for so long.
const LEAST_REPEATS: usize = 5;
const REPEATING: Duration = Duration::from_millis(700);

/// The definition stops before the growing that would take it past this.
const MOST_BY_DEFINITION: Duration = Duration::from_secs(20);

#[derive(Clone, Copy, PartialEq, Eq, Debug)]
pub enum Kind {
    Random,
    Dense,
    Chain,
}

impl Kind {
    const ALL: [Kind; 3] = [Kind::Random, Kind::Dense, Kind::Chain];

    pub fn named(name: &str) -> Option<Kind> {
        Kind::ALL.into_iter().find(|kind| kind.name() == name)
    }

    fn name(self) -> &'static str {
        match self {
            Kind::Random => "random",
            Kind::Dense => "dense",
            Kind::Chain => "chain",
        }
    }

    fn sizes(self) -> Vec<(usize, usize)> {
        match self {
            Kind::Chain => [16, 32, 64, 128]
                .map(|facts| (facts, 2 * facts - 1))
                .to_vec(),
            _ => vec![
                (16, 255),
                (32, 255),
                (64, 255),
                (128, 255),
                (128, 127),
                (128, 63),
                (128, 31),
            ],
        }
    }

    fn task(self, facts: usize, jobs: usize) -> Task {
        match self {
            Kind::Random => random_task(facts, jobs),
            Kind::Dense => dense_task(facts, jobs),
            Kind::Chain => chain_task(facts, jobs),
        }
    }
}

/// Of the first seeds, these give tasks that grow for some layers at every size.
const RANDOM_SEED: u64 = 11;
const DENSE_SEED: u64 = 1;

fn random_task(facts: usize, jobs: usize) -> Task {
    let draws = &mut Draws::of_seed(RANDOM_SEED);
    let start = draws.facts(8, facts);
    let job = |draws: &mut Draws| drawn_job(draws, facts, [(1, 3), (1, 3), (0, 2)]);
    without_goal(facts, start, (0..jobs).map(|_| job(draws)))
}

/// With fewer facts the numbers of draws are smaller in proportion.
fn dense_task(facts: usize, jobs: usize) -> Task {
    let draws = &mut Draws::of_seed(DENSE_SEED);
    let part = |count: usize| (count * facts / FULL_FACTS).max(1);
    let start = draws.facts(part(20), facts);
    let lists = [(2, 8), (20, 50), (20, 50)].map(|(least, most)| (part(least), part(most)));
    let job = |draws: &mut Draws| drawn_job(draws, facts, lists);
    without_goal(facts, start, (0..jobs).map(|_| job(draws)))
}

fn without_goal(facts: usize, start: Facts, jobs: impl Iterator<Item = Option<Job>>) -> Task {
    Task {
        facts,
        jobs: jobs.collect(),
        start,
        goal: Facts::NONE,
    }
}

/// A job whose needs, adds and deletes are as many draws as these numbers say, from the least to the most.
fn drawn_job(draws: &mut Draws, facts: usize, lists: [(usize, usize); 3]) -> Option<Job> {
    let [needs, adds, deletes] = lists.map(|(least, most)| {
        let count = draws.within(least..=most);
        draws.facts(count, facts)
    });
    Some(Job::new(0, needs, adds, deletes.without(adds)))
}

/// Each job moves between two neighbors on a line; the jobs behind those of the whole line repeat them.
fn chain_task(places: usize, jobs: usize) -> Task {
    let job = |number: usize| {
        let step = number % (2 * (places - 1)) / 2;
        let (from, to) = if number.is_multiple_of(2) {
            (step, step + 1)
        } else {
            (step + 1, step)
        };
        let [from, to] = [from, to].map(|place| Facts::pair(place, place));
        Some(Job::new(0, from, to, from))
    };
    let start = Facts::pair(0, 40 * places / FULL_FACTS);
    without_goal(places, start, (0..jobs).map(job))
}

#[derive(Clone, Copy, PartialEq, Eq, Debug)]
pub enum Way {
    Library,
    SameMethod,
    Definition,
}

impl Way {
    pub fn named(name: &str) -> Option<Way> {
        match name {
            "library" => Some(Way::Library),
            "method" => Some(Way::SameMethod),
            "definition" => Some(Way::Definition),
            _ => None,
        }
    }
}

/// A task file to be grown under the rule apart.
struct Sample {
    kind: Kind,
    facts: usize,
    jobs: usize,
    file: Vec<u8>,
}

impl Sample {
    fn new(kind: Kind, facts: usize, jobs: usize) -> Sample {
        let file = bytes_of(&task_records(&kind.task(facts, jobs)));
        Sample {
            kind,
            facts,
            jobs,
            file,
        }
    }

    fn grow(&self, way: Way, growings: u16) -> Grown {
        match way {
            Way::Library => {
                let mut table = vec![0; self.facts * (self.facts + 1) / 2];
                let answer = library::table(&self.file, &Count::default(), growings, &mut table);
                Grown {
                    table,
                    layer: answer.layer,
                    settled: answer.settled == 1,
                }
            }
            Way::SameMethod => method::grow(&self.loaded(), Rule::Apart, usize::from(growings)),
            Way::Definition => {
                let task = self.loaded();
                let mut growing = ByDefinition::open(&task, Rule::Apart);
                growing.grow_on(usize::from(growings));
                growing.grown().clone()
            }
        }
    }

    fn loaded(&self) -> Task {
        read_task(&self.file).expect("a sample's file is in order")
    }

    fn timed(&self, way: Way) -> (Duration, Grown) {
        let began = Instant::now();
        let grown = self.grow(way, TO_THE_END);
        (began.elapsed(), grown)
    }

    /// Grows by the definition as long as that doesn't take too long, and tells how many growings it made.
    fn timed_by_definition(&self) -> (Duration, u16, Grown) {
        let began = Instant::now();
        let task = self.loaded();
        let mut growing = ByDefinition::open(&task, Rule::Apart);
        let mut growings = 0;
        let mut before = began.elapsed();
        loop {
            growing.grow();
            growings += 1;
            let now = began.elapsed();
            if growing.grown().settled || now + (now - before) > MOST_BY_DEFINITION {
                return (now, growings, growing.grown().clone());
            }
            before = now;
        }
    }

    fn difference(&self, way: &str) -> Difference {
        let Sample {
            kind, facts, jobs, ..
        } = self;
        Difference::new(format!(
            "{} {facts} {jobs}: the library and {way} have unlike tables",
            kind.name()
        ))
    }
}

/// What one sample took.
struct Figures {
    kind: Kind,
    facts: usize,
    jobs: usize,
    layers: u16,
    library: Duration,
    same_method: Duration,
    definition: Duration,
    growings_by_definition: u16,
    repeats: usize,
}

impl Figures {
    /// How many growings settle the table.
    fn growings(&self) -> usize {
        usize::from(self.layers) + 1
    }

    /// Whether the definition was too slow to be grown to the end.
    fn stopped(&self) -> bool {
        usize::from(self.growings_by_definition) < self.growings()
    }

    fn of(sample: &Sample) -> Result<Figures, Difference> {
        let (mut library, grown) = sample.timed(Way::Library);
        let (mut same_method, by_method) = sample.timed(Way::SameMethod);
        if grown != by_method {
            return Err(sample.difference("the same method"));
        }
        let began = Instant::now();
        let mut repeats = 1;
        while repeats < LEAST_REPEATS || began.elapsed() < REPEATING {
            library = library.min(sample.timed(Way::Library).0);
            same_method = same_method.min(sample.timed(Way::SameMethod).0);
            repeats += 1;
        }
        let (definition, growings_by_definition, by_definition) = sample.timed_by_definition();
        if sample.grow(Way::Library, growings_by_definition) != by_definition {
            return Err(sample.difference("the definition"));
        }
        let &Sample {
            kind, facts, jobs, ..
        } = sample;
        let layers = grown.layer;
        Ok(Figures {
            kind,
            facts,
            jobs,
            layers,
            library,
            same_method,
            definition,
            growings_by_definition,
            repeats,
        })
    }
}

fn microseconds(time: Duration) -> f64 {
    time.as_nanos() as f64 / 1000.0
}

fn ratio(time: Duration, other: Duration) -> f64 {
    time.as_secs_f64() / other.as_secs_f64()
}

impl fmt::Display for Figures {
    fn fmt(&self, formatter: &mut fmt::Formatter<'_>) -> fmt::Result {
        let mark = if self.stopped() { ">" } else { "" };
        let definition = format!("{mark}{:.0}", microseconds(self.definition));
        let times = format!("{mark}{:.0}", ratio(self.definition, self.library));
        write!(
            formatter,
            "{:<7} {:>4} {:>4} {:>7} {:>11.1} {:>11.1} {:>13} {:>8.2} {:>11} {:>8}",
            self.kind.name(),
            self.facts,
            self.jobs,
            self.layers,
            microseconds(self.library),
            microseconds(self.same_method),
            definition,
            ratio(self.library, self.same_method),
            times,
            self.repeats,
        )?;
        if self.stopped() {
            let (made, all) = (self.growings_by_definition, self.growings());
            write!(formatter, "  definition: {made} of {all} growings")?;
        }
        Ok(())
    }
}

/// Prints what growing takes at all sizes, and how that rises with them.
pub fn measure() -> Result<(), Difference> {
    println!(
        "From the bytes of a task file to the settled table, under the rule apart, in microseconds."
    );
    println!(
        "Library and same method: the least of the repeats, which take turns. Definition: once;"
    );
    println!(
        "a > marks what its first growings took, where all would take over {MOST_BY_DEFINITION:?}."
    );
    println!("lib/same is library to same method, def/lib is definition to library.");
    println!();
    println!(
        "{:<7} {:>4} {:>4} {:>7} {:>11} {:>11} {:>13} {:>8} {:>11} {:>8}",
        "kind",
        "n",
        "m",
        "layers",
        "library",
        "same method",
        "definition",
        "lib/same",
        "def/lib",
        "repeats"
    );
    let mut all = Vec::new();
    for kind in Kind::ALL {
        for (facts, jobs) in kind.sizes() {
            let figures = Figures::of(&Sample::new(kind, facts, jobs))?;
            println!("{figures}");
            all.push(figures);
        }
    }
    print_rise(
        "n doubles; in a chain, where each place has two jobs, m doubles with it",
        &all,
        |small, large| {
            let jobs_alike = small.jobs == large.jobs || small.kind == Kind::Chain;
            small.facts * 2 == large.facts && jobs_alike
        },
    );
    print_rise("m doubles", &all, |small, large| {
        small.facts == large.facts && small.jobs * 2 + 1 == large.jobs
    });
    Ok(())
}

/// Prints by which factor the cost rises from one sample to another of its kind, where `doubled` says so of the two.
fn print_rise(when: &str, all: &[Figures], doubled: impl Fn(&Figures, &Figures) -> bool) {
    println!("\nHow many times the cost when {when}.");
    println!("The last column is the library's, for a single growing on average.\n");
    println!(
        "{:<7} {:>11} {:>11} {:>10} {:>9} {:>11} {:>11} {:>9}",
        "kind", "n", "m", "growings", "library", "same method", "definition", "a growing"
    );
    for small in all {
        for large in all
            .iter()
            .filter(|large| large.kind == small.kind && doubled(small, large))
        {
            let from_to = |from: usize, to: usize| format!("{from} to {to}");
            let definition = if small.stopped() || large.stopped() {
                "-".to_string()
            } else {
                format!("{:.1}", ratio(large.definition, small.definition))
            };
            let library = ratio(large.library, small.library);
            println!(
                "{:<7} {:>11} {:>11} {:>10} {:>9.1} {:>11.1} {:>11} {:>9.1}",
                small.kind.name(),
                from_to(small.facts, large.facts),
                from_to(small.jobs, large.jobs),
                from_to(small.growings(), large.growings()),
                library,
                ratio(large.same_method, small.same_method),
                definition,
                library * small.growings() as f64 / large.growings() as f64,
            );
        }
    }
}

/// Grows one sample once, and tells a checksum of its table, its layer and whether it is settled.
pub fn count(way: Way, kind: Kind, facts: usize, jobs: usize, growings: u16) -> u64 {
    let grown = Sample::new(kind, facts, jobs).grow(way, growings);
    let told = [grown.layer, u16::from(grown.settled)];
    grown
        .table
        .iter()
        .chain(&told)
        .fold(0xCBF2_9CE4_8422_2325, |sum, &number| {
            (sum ^ u64::from(number)).wrapping_mul(0x0100_0000_01B3)
        })
}
