//! Compares the library with the definitions: the reports of many pairs of files, and whole tables.

use std::error::Error;
use std::fmt;

use crate::files::{Cause, Refusal, in_hex, read_task};
use crate::generate::{self, Size};
use crate::layers::{self, ByDefinition, Distance, Growing, Grown};
use crate::library::{self, Answer, Count};
use crate::method::{self, SameMethod};
use crate::model::{Pile, Rule, Task, Verdict};
use crate::random::Draws;
use crate::report::{MOST_BYTES, Report, read_sized_task};

/// How many pairs of files are compared if nothing else is asked.
pub const PAIRS: u64 = 20_000;

/// For each table file there are so many pairs.
const PAIRS_PER_TABLE_FILE: u64 = 5;

/// The definition tries no more than so many makers in a growing; larger tasks are grown by the same method.
const MOST_TRIES: usize = 6_000_000;

/// What stands behind the memory that is handed over, and in it before the call.
const GUARD: u8 = 0x5A;
const GUARDS: usize = 24;

/// A difference between the library and what is expected of it, with all that it takes to see it again.
#[derive(Debug)]
pub struct Difference(String);

impl Difference {
    pub fn new(told: String) -> Difference {
        Difference(told)
    }
}

impl fmt::Display for Difference {
    fn fmt(&self, formatter: &mut fmt::Formatter<'_>) -> fmt::Result {
        formatter.write_str(&self.0)
    }
}

impl Error for Difference {}

/// How often each outcome occurred, in the order in which they are printed.
struct Tally {
    rows: Vec<(String, usize)>,
}

impl Tally {
    fn of(outcomes: impl IntoIterator<Item = String>) -> Tally {
        Tally {
            rows: outcomes.into_iter().map(|outcome| (outcome, 0)).collect(),
        }
    }

    fn count(&mut self, outcome: String) {
        match self
            .rows
            .iter_mut()
            .find(|(counted, _)| *counted == outcome)
        {
            Some((_, times)) => *times += 1,
            None => self.rows.push((outcome, 1)),
        }
    }

    fn never(&self) -> Option<&str> {
        let (outcome, _) = self.rows.iter().find(|(_, times)| *times == 0)?;
        Some(outcome)
    }
}

impl fmt::Display for Tally {
    fn fmt(&self, formatter: &mut fmt::Formatter<'_>) -> fmt::Result {
        for (outcome, times) in &self.rows {
            writeln!(formatter, "  {outcome:<24} {times:>7}")?;
        }
        Ok(())
    }
}

/// Compares so many pairs of files, and tables in proportion, and prints what occurred.
pub fn compare(pairs: u64) -> Result<(), Difference> {
    compare_reports(pairs)?;
    compare_tables(pairs / PAIRS_PER_TABLE_FILE)
}

fn compare_reports(pairs: u64) -> Result<(), Difference> {
    let mut outcomes = Tally::of(outcomes_of_reports());
    let mut kinds = Tally::of([]);
    let mut by_method = 0;
    for number in 0..pairs {
        let pair = generate::pair(number);
        let expected = Report::of(&pair.task_file, &pair.plan_file, settle);
        compare_report(number, &pair, &expected)?;
        compare_refused_table(number, &pair.task_file)?;
        let judged = matches!(expected, Report::Judged { .. });
        if judged && read_task(&pair.task_file).is_ok_and(|task| is_large(&task)) {
            by_method += 1;
        }
        kinds.count(format!("{:?}", pair.kind));
        for outcome in outcomes_of(&expected) {
            outcomes.count(outcome);
        }
        for outcome in outcomes_of_deletes(&pair, &expected) {
            outcomes.count(outcome);
        }
    }
    kinds.rows.sort();
    println!("{pairs} pairs of files: every report is the same, byte by byte.");
    println!(
        "{by_method} of the distances are by the same method in plain Rust, the others by the definition."
    );
    print!("Kinds of pairs:\n{kinds}Outcomes:\n{outcomes}");
    println!(
        "Added and deleted: a row of the task deletes a fact that it adds. As listed: if the job of that row"
    );
    println!("deleted the fact, the report would have this verdict instead, or another distance.");
    match outcomes.never() {
        Some(outcome) if pairs >= PAIRS => Err(Difference::new(format!(
            "no pair gave the outcome: {outcome}"
        ))),
        _ => Ok(()),
    }
}

/// Whether growing by the definition would take too long.
fn is_large(task: &Task) -> bool {
    let makers = task.facts + task.jobs.len();
    task.pairs() * makers * makers / 2 > MOST_TRIES
}

fn settle(task: &Task, rule: Rule) -> Grown {
    let growings = task.pairs() + 1;
    if is_large(task) {
        method::grow(task, rule, growings)
    } else {
        layers::grow(task, rule, growings)
    }
}

/// The outcomes that a report can have.
fn outcomes_of_reports() -> Vec<String> {
    let mut outcomes: Vec<String> = [1, 2, 3, 4, 5, 6, 8]
        .map(|number| format!("task refused {number}"))
        .to_vec();
    outcomes.push(format!("task over {MOST_BYTES} bytes"));
    outcomes.extend([1, 2, 6, 10, 11].map(|number| format!("plan refused {number}")));
    outcomes.push(format!("plan over {MOST_BYTES} bytes"));
    let told = ["clash", "missing", "goal", "sound"].map(|word| format!("verdict {word}"));
    outcomes.extend(told);
    outcomes.extend(
        [
            "distance 0",
            "distance 1 to 4",
            "distance 5 and more",
            "distance none",
            "sound, shortest",
            "sound, not shortest",
            "added and deleted",
            "added and deleted, sound",
            "as listed, clash",
            "as listed, missing",
            "as listed, goal",
            "as listed, distance",
        ]
        .map(String::from),
    );
    outcomes
}

fn outcomes_of(report: &Report) -> Vec<String> {
    let refused = |file: &str, refusal: &Refusal| match refusal.place {
        MOST_BYTES => format!("{file} over {MOST_BYTES} bytes"),
        _ => format!("{file} refused {}", refusal.number()),
    };
    match report {
        Report::TaskRefused(refusal) => vec![refused("task", refusal)],
        Report::PlanRefused(refusal) => vec![refused("plan", refusal)],
        Report::Judged {
            distance, verdict, ..
        } => {
            let told = match distance {
                Distance::Told(0) => "0",
                Distance::Told(1..5) => "1 to 4",
                Distance::Told(5..) => "5 and more",
                Distance::None | Distance::AtLeast(_) => "none",
            };
            let mut outcomes = vec![
                format!("verdict {}", word(verdict)),
                format!("distance {told}"),
            ];
            if *verdict == Verdict::Sound {
                let shortest = if report.is_shortest() {
                    "shortest"
                } else {
                    "not shortest"
                };
                outcomes.push(format!("sound, {shortest}"));
            }
            outcomes
        }
    }
}

/// The word of a verdict, without its numbers.
fn word(verdict: &Verdict) -> String {
    let words = verdict.to_string();
    words.split(' ').take(1).collect()
}

/// The outcomes of a pair where a row deletes a fact that it adds, with what another report would tell: that on the task
/// whose jobs delete all that their rows list.
fn outcomes_of_deletes(pair: &generate::Pair, report: &Report) -> Vec<String> {
    let task = match read_sized_task(&pair.task_file) {
        Ok(task) if task.adds_and_deletes() => task,
        _ => return vec![],
    };
    let mut outcomes = vec!["added and deleted".to_string()];
    let other = Report::for_task(&task.as_listed(), &pair.plan_file, settle);
    if let (
        Report::Judged {
            distance, verdict, ..
        },
        Report::Judged {
            distance: other_distance,
            verdict: other_verdict,
            ..
        },
    ) = (report, &other)
    {
        if *verdict == Verdict::Sound {
            outcomes.push("added and deleted, sound".to_string());
        }
        if verdict != other_verdict {
            outcomes.push(format!("as listed, {}", word(other_verdict)));
        }
        if distance != other_distance {
            outcomes.push("as listed, distance".to_string());
        }
    }
    outcomes
}

/// Compares the report of a pair where there is room for it, exactly enough room, and too little.
fn compare_report(number: u64, pair: &generate::Pair, expected: &Report) -> Result<(), Difference> {
    let expected = expected.text();
    let length = expected.len();
    for room in [length + GUARDS, length, length - 1, 0] {
        let mut memory = vec![GUARD; length + 2 * GUARDS];
        let told = library::report(&pair.task_file, &pair.plan_file, &mut memory[..room]);
        let mut expected_memory = vec![GUARD; memory.len()];
        if room >= length {
            expected_memory[..length].copy_from_slice(expected.as_bytes());
        }
        if told != length || memory != expected_memory {
            return Err(Difference::new(format!(
                "pair {number}, kind {:?}, room for {room} bytes: the reports differ\n\
                 expected {length} bytes:\n{expected}\nthe library tells {told} bytes, and leaves:\n{}\n\
                 task file {}\nplan file {}",
                pair.kind,
                String::from_utf8_lossy(&memory),
                in_hex(&pair.task_file),
                in_hex(&pair.plan_file),
            )));
        }
    }
    Ok(())
}

/// A call of the library for a table, of which the expected outcome is known.
struct Call<'file> {
    number: u64,
    file: &'file [u8],
    count: Count,
    growings: u16,
    entries: usize,
}

impl Call<'_> {
    /// Calls the library, and compares its answer and all memory that it could have written.
    fn compare(&self, expected: Answer, expected_table: &[u16]) -> Result<(), Difference> {
        let mut draws = Draws::of_seed(self.number);
        let mut memory: Vec<u16> = (0..self.entries + GUARDS)
            .map(|_| draws.below(1 << 16) as u16)
            .collect();
        let mut expected_memory = memory.clone();
        expected_memory[..expected_table.len()].copy_from_slice(expected_table);
        let answer = library::table(
            self.file,
            &self.count,
            self.growings,
            &mut memory[..self.entries],
        );
        if answer != expected {
            return Err(self.difference(&format!(
                "expected {expected:?}, the library tells {answer:?}"
            )));
        }
        let differing = (0..memory.len()).find(|&entry| memory[entry] != expected_memory[entry]);
        match differing {
            None => Ok(()),
            Some(entry) => Err(self.difference(&format!(
                "entry {entry} of {}: expected {}, the library leaves {}",
                self.entries, expected_memory[entry], memory[entry]
            ))),
        }
    }

    fn difference(&self, what: &str) -> Difference {
        let Count {
            pile,
            withheld,
            start,
            rule,
        } = &self.count;
        Difference::new(format!(
            "file {}, pile {pile}, rule {rule}, {} growings: the tables differ\n{what}\n\
             withheld {}\nstart {}\ntask file {}",
            self.number,
            self.growings,
            in_hex(withheld),
            in_hex(start),
            in_hex(self.file),
        ))
    }
}

fn refused(refusal: Refusal) -> Answer {
    Answer {
        number: refusal.number(),
        settled: 0,
        layer: 0,
        place: refusal.place,
    }
}

/// A file that is refused for a report must be refused for a table too, unless it is only too large.
fn compare_refused_table(number: u64, file: &[u8]) -> Result<(), Difference> {
    let Err(refusal) = read_task(file) else {
        return Ok(());
    };
    let draws = &mut Draws::of_seed(number);
    let count = drawn_count(draws.byte(), draws.byte(), draws);
    let call = Call {
        number,
        file,
        count,
        growings: draws.below(4) as u16,
        entries: draws.below(200),
    };
    call.compare(refused(refusal), &[])
}

/// A count with a pile and a rule, and lists that are drawn, in no order and with repeated numbers.
fn drawn_count(pile: u8, rule: u8, draws: &mut Draws) -> Count {
    let bound = draws.pick(&[4, 16, 64, 128, 256]);
    let lengths = [draws.below(6), draws.below(6)];
    let [withheld, start] = lengths.map(|length| draws.bytes(length, bound));
    Count {
        pile,
        withheld,
        start,
        rule,
    }
}

/// What was compared of tables.
#[derive(Default)]
struct Compared {
    calls: usize,
    settled: usize,
    short_tables: usize,
    entries: usize,
    by_definition: usize,
    by_method: usize,
    /// Files with a row that deletes a fact that it adds.
    added_and_deleted: usize,
    /// How often the tables would be others if jobs deleted all that their rows list.
    others_as_listed: usize,
}

fn compare_tables(files: u64) -> Result<(), Difference> {
    let mut compared = Compared::default();
    let mut sizes = Tally::of([]);
    for number in 0..files {
        let (size, file) = generate::table_file(number);
        compare_tables_of(number, size, &file, &mut compared)?;
        sizes.count(format!("{size:?}"));
    }
    sizes.rows.sort();
    println!(
        "{files} task files, each under three rules and five piles: every table is the same, entry by entry,"
    );
    println!("and so are the layers, what is settled, and what stands behind the tables.");
    println!("  {:<24} {:>7}", "calls", compared.calls);
    println!("  {:<24} {:>7}", "of these, settled", compared.settled);
    println!("  {:<24} {:>7}", "refused with 9", compared.short_tables);
    println!("  {:<24} {:>7}", "entries", compared.entries);
    println!(
        "  {:<24} {:>7}",
        "by the definition", compared.by_definition
    );
    println!("  {:<24} {:>7}", "by the same method", compared.by_method);
    print!("Sizes of tasks:\n{sizes}");
    println!(
        "In {} of the files a row deletes a fact that it adds. If its job deleted it, the tables would be others",
        compared.added_and_deleted
    );
    println!(
        "in {} of the {} cases, a rule and a pile for a file.",
        compared.others_as_listed,
        compared.by_definition + compared.by_method
    );
    println!(
        "Where the definition would take too long, the tables are set against the same method in plain Rust;"
    );
    println!("everywhere else that method gave the definition's tables too.");
    Ok(())
}

fn compare_tables_of(
    number: u64,
    size: Size,
    file: &[u8],
    compared: &mut Compared,
) -> Result<(), Difference> {
    let loaded = read_task(file).expect("a table's file is in order");
    compared.added_and_deleted += usize::from(loaded.adds_and_deletes());
    let draws = &mut Draws::of_seed(number);
    for rule in [0, 1, draws.within(2..=255) as u8] {
        for pile in [0, 1, 2, 3, draws.within(4..=255) as u8] {
            let count = drawn_count(pile, rule, draws);
            let task = Pile::of_byte(pile).over(&loaded, &count.withheld, &count.start);
            let rule = Rule::of_byte(rule);
            let by_method = history(SameMethod::open(&task, rule));
            if task.adds_and_deletes() {
                let as_listed = history(SameMethod::open(&task.as_listed(), rule));
                compared.others_as_listed += usize::from(as_listed != by_method);
            }
            let tables = if is_large(&task) {
                compared.by_method += 1;
                by_method
            } else {
                compared.by_definition += 1;
                let by_definition = history(ByDefinition::open(&task, rule));
                if by_definition != by_method {
                    let call = Call {
                        number,
                        file,
                        count,
                        growings: 0,
                        entries: 0,
                    };
                    return Err(
                        call.difference("the same method in plain Rust isn't the definition")
                    );
                }
                by_definition
            };
            let rounds = if size == Size::Small { 3 } else { 2 };
            for growings in drawn_growings(tables.len(), rounds, draws) {
                let entries = task.pairs() + draws.pick(&[0, 0, 1, GUARDS]);
                let call = Call {
                    number,
                    file,
                    count: count.clone(),
                    growings,
                    entries,
                };
                let grown = &tables[usize::from(growings).min(tables.len() - 1)];
                let settled = u8::from(grown.settled);
                let answer = Answer {
                    number: 0,
                    settled,
                    layer: grown.layer,
                    place: 0,
                };
                call.compare(answer, &grown.table)?;
                compared.calls += 1;
                compared.settled += usize::from(settled);
                compared.entries += grown.table.len();
            }
            if draws.one_in(4) {
                let fewer = draws.below(task.pairs());
                let entries = draws.pick(&[0, task.pairs() - 1, fewer]);
                let call = Call {
                    number,
                    file,
                    count,
                    growings: 1,
                    entries,
                };
                call.compare(
                    refused(Refusal {
                        cause: Cause::WrongMemory,
                        place: 0,
                    }),
                    &[],
                )?;
                compared.short_tables += 1;
            }
        }
    }
    Ok(())
}

/// The tables after 0, 1, 2 growings and so on, to the settled one.
fn history(mut growing: impl Growing) -> Vec<Grown> {
    let mut tables = vec![growing.grown().clone()];
    while !growing.grown().settled {
        growing.grow();
        tables.push(growing.grown().clone());
    }
    tables
}

/// So many drawn numbers of growings, of a history of so many tables, and one more.
fn drawn_growings(tables: usize, drawn: usize, draws: &mut Draws) -> Vec<u16> {
    let last = tables as u16 - 1;
    let mut growings: Vec<u16> = (0..drawn).map(|_| draws.below(tables) as u16).collect();
    growings.push(draws.pick(&[last - 1, last, last + 1, 255, 256, 65_535]));
    growings
}
