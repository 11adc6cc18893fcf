//! Pairs of files, and tasks for tables, by their numbers: the same ones in every run.

use crate::damage::damaged;
use crate::domains;
use crate::files::{Record, bytes_of, sheet_records, task_records};
use crate::model::{Facts, Job, MOST_FACTS, MOST_JOBS, MOST_ROUNDS, Round, Sheet, Task};
use crate::plans;
use crate::random::Draws;
use crate::report::MOST_BYTES;

/// How many states a plan is searched among.
const MOST_STATES: usize = 2_000;

/// What a pair of files is made of.
#[derive(Clone, Copy, PartialEq, Eq, PartialOrd, Ord, Debug)]
pub enum Kind {
    DrawnSheet,
    Walk,
    Plan,
    LongerPlan,
    EditedPlan,
    Damaged,
    AtBounds,
    Middling,
    FullSize,
}

pub struct Pair {
    pub kind: Kind,
    pub task_file: Vec<u8>,
    pub plan_file: Vec<u8>,
}

/// The pair of files with this number.
pub fn pair(number: u64) -> Pair {
    let draws = &mut Draws::of_seed(number);
    let kind = kind(draws);
    let (task_file, plan_file) = match kind {
        Kind::Damaged => damaged_pair(draws),
        Kind::AtBounds => at_bounds(draws),
        Kind::Middling => files_of(&middling(draws)),
        Kind::FullSize => files_of(&full_size(draws)),
        small => files_of(&small_count(small, draws)),
    };
    Pair {
        kind,
        task_file,
        plan_file,
    }
}

fn kind(draws: &mut Draws) -> Kind {
    match draws.below(1000) {
        0..130 => Kind::DrawnSheet,
        130..250 => Kind::Walk,
        250..420 => Kind::Plan,
        420..500 => Kind::LongerPlan,
        500..640 => Kind::EditedPlan,
        640..950 => Kind::Damaged,
        950..980 => Kind::AtBounds,
        980..996 => Kind::Middling,
        _ => Kind::FullSize,
    }
}

/// A task and a sheet for it.
struct Count {
    task: Task,
    sheet: Sheet,
}

fn files_of(count: &Count) -> (Vec<u8>, Vec<u8>) {
    (
        bytes_of(&task_records(&count.task)),
        bytes_of(&sheet_records(&count.sheet)),
    )
}

/// How large a drawn task is, and how long the lists of its jobs are, at most.
struct Shape {
    facts: usize,
    jobs: usize,
    start: usize,
    needs: usize,
    adds: usize,
    deletes: usize,
}

fn small_shape(draws: &mut Draws) -> Shape {
    Shape {
        facts: draws.within(1..=12),
        jobs: draws.within(0..=14),
        start: draws.within(0..=5),
        needs: draws.within(0..=3),
        adds: draws.within(1..=4),
        deletes: draws.within(0..=3),
    }
}

fn drawn_task(shape: &Shape, draws: &mut Draws) -> Task {
    let facts = shape.facts;
    let zones = draws.within(0..=3);
    let job = |draws: &mut Draws| {
        let mut list = |most: usize| {
            let count = draws.within(0..=most);
            draws.facts(count, facts)
        };
        let [needs, adds, deletes] = [shape.needs, shape.adds, shape.deletes].map(&mut list);
        let zone = if draws.one_in(8) {
            draws.byte()
        } else {
            draws.within(0..=zones) as u8
        };
        Some(Job::new(zone, needs, adds, deletes))
    };
    let mut jobs: Vec<Option<Job>> = (0..shape.jobs).map(|_| job(draws)).collect();
    if shape.jobs > 1 && draws.one_in(8) {
        jobs[shape.jobs - 1] = jobs[0];
    }
    let start = draws.facts(shape.start, facts);
    Task {
        facts,
        jobs,
        start,
        goal: Facts::NONE,
    }
}

/// Some facts of a state that the task can come to; mostly those that don't hold at the start, if there are such.
fn goal_in(state: Facts, task: &Task, draws: &mut Draws) -> Facts {
    let most = if draws.one_in(8) {
        0
    } else {
        draws.within(1..=4)
    };
    let mut facts = state.list();
    draws.shuffle(&mut facts);
    if !draws.one_in(4) {
        facts.sort_by_key(|&fact| task.start.has(usize::from(fact)));
    }
    facts.truncate(most);
    Facts::named(&facts)
}

fn small_task(draws: &mut Draws) -> Task {
    if draws.one_in(3) {
        return drawn_task(&small_shape(draws), draws);
    }
    let large = draws.one_in(8);
    domains::textbook(draws, large)
}

fn small_count(kind: Kind, draws: &mut Draws) -> Count {
    let mut task = small_task(draws);
    let most_jobs = draws.within(1..=3);
    match kind {
        Kind::DrawnSheet => {
            let rounds = draws.within(0..=8);
            let goal_draws = draws.within(0..=3);
            task.goal = draws.facts(goal_draws, task.facts);
            let sheet = plans::drawn(&task, draws, rounds, most_jobs + 1);
            Count { task, sheet }
        }
        Kind::Walk => {
            let rounds = draws.within(0..=8);
            let (sheet, state) = plans::walk(&task, draws, rounds, most_jobs);
            task.goal = goal_in(state, &task, draws);
            if draws.one_in(3) {
                task.goal = task.goal.with(draws.below(task.facts));
            }
            Count { task, sheet }
        }
        _ => {
            let rounds = draws.within(2..=30);
            let (walk, state) = plans::walk(&task, draws, rounds, most_jobs);
            task.goal = goal_in(state, &task, draws);
            let found = plans::search(&task, MOST_STATES);
            let mut sheet = found.map_or(walk, |jobs| plans::fold(&task, &jobs));
            match kind {
                Kind::LongerPlan => plans::lengthen(&mut sheet, draws),
                Kind::EditedPlan => plans::edit(&mut sheet, task.jobs.len(), draws),
                _ => {}
            }
            Count { task, sheet }
        }
    }
}

fn damaged_pair(draws: &mut Draws) -> (Vec<u8>, Vec<u8>) {
    let kind = draws.pick(&[Kind::DrawnSheet, Kind::Walk, Kind::Plan]);
    let Count { task, sheet } = small_count(kind, draws);
    let (task_records, sheet_records) = (task_records(&task), sheet_records(&sheet));
    let (mut task_file, mut plan_file) = (bytes_of(&task_records), bytes_of(&sheet_records));
    let which = draws.below(8);
    if which < 5 {
        task_file = damaged(task_records, task.facts, draws);
    }
    if which > 3 {
        plan_file = damaged(sheet_records, task.jobs.len(), draws);
    }
    (task_file, plan_file)
}

/// Counts where a number, a list or a file is as large as it can be, or just larger.
fn at_bounds(draws: &mut Draws) -> (Vec<u8>, Vec<u8>) {
    match draws.below(8) {
        0 => files_of(&with_bounds(1, draws.pick(&[0, 1, MOST_JOBS]), draws)),
        1 => files_of(&with_bounds(MOST_FACTS, draws.below(4), draws)),
        2 => files_of(&with_bounds(draws.within(1..=4), MOST_JOBS, draws)),
        3 | 4 => long_sheet(draws),
        5 => full_sheet(draws),
        6 => full_task(draws),
        _ => (draws.bytes(3, 256), draws.bytes(3, 256)),
    }
}

fn with_bounds(facts: usize, jobs: usize, draws: &mut Draws) -> Count {
    let shape = Shape {
        facts,
        jobs,
        start: 6,
        needs: 2,
        adds: 3,
        deletes: 2,
    };
    let mut task = drawn_task(&shape, draws);
    let rounds = draws.within(0..=4);
    let (mut sheet, state) = plans::walk(&task, draws, rounds, 6);
    task.goal = goal_in(state, &task, draws);
    if draws.one_in(2) {
        task.goal = task.goal.with(facts - 1);
    }
    if draws.one_in(3) {
        plans::edit(&mut sheet, jobs, draws);
    }
    Count { task, sheet }
}

/// A sheet of 499 to 502 rounds, now and then with a fault in its last record.
fn long_sheet(draws: &mut Draws) -> (Vec<u8>, Vec<u8>) {
    let mut task = small_task(draws);
    let rounds = draws.within(MOST_ROUNDS - 1..=MOST_ROUNDS + 2);
    let (sheet, state) = plans::walk(&task, draws, rounds, 2);
    task.goal = goal_in(state, &task, draws);
    let mut records = sheet_records(&sheet);
    let last = records.last_mut().expect("there are rounds");
    match draws.below(6) {
        0 => *last = Record::new(last.mark, vec![task.jobs.len() as u8]),
        1 => *last = Record::new(last.mark, vec![0; 2]),
        2 => last.mark = *b"ST",
        3 => last.length += 1,
        _ => {}
    }
    (bytes_of(&task_records(&task)), bytes_of(&records))
}

/// A sheet file of 59,999 to 60,002 bytes, in 500 rounds.
fn full_sheet(draws: &mut Draws) -> (Vec<u8>, Vec<u8>) {
    let facts = draws.within(1..=6);
    let deletes = if draws.one_in(3) { 1 } else { 0 };
    let shape = Shape {
        facts,
        jobs: MOST_JOBS,
        start: 6,
        needs: 0,
        adds: 2,
        deletes,
    };
    let task = drawn_task(&shape, draws);
    let size = draws.within(MOST_BYTES - 1..=MOST_BYTES + 2);
    let numbers = size - 3 * MOST_ROUNDS;
    let mut all: Vec<u8> = (0..MOST_JOBS as u8).collect();
    let mut round = |number: usize| -> Round {
        draws.shuffle(&mut all);
        let count = numbers / MOST_ROUNDS + usize::from(number < numbers % MOST_ROUNDS);
        plans::rising(all[..count].to_vec())
    };
    let sheet = (0..MOST_ROUNDS).map(&mut round).collect();
    files_of(&Count { task, sheet })
}

/// A task file of 59,999 to 60,002 bytes, or the largest there is, and a short sheet. Now and then the file has a byte
/// too many or too few.
fn full_task(draws: &mut Draws) -> (Vec<u8>, Vec<u8>) {
    let size = match draws.below(4) {
        0 => None,
        _ => Some(draws.within(MOST_BYTES - 1..=MOST_BYTES + 2)),
    };
    let task = task_of_size(size, draws);
    let (sheet, _) = plans::walk(&task, draws, 2, 3);
    let (mut task_file, plan_file) = files_of(&Count { task, sheet });
    match draws.below(5) {
        0 => task_file.push(draws.byte()),
        1 => task_file.truncate(task_file.len() - 1),
        _ => {}
    }
    (task_file, plan_file)
}

/// A task of full size whose file has this many bytes, or as many as a file can have.
fn task_of_size(size: Option<usize>, draws: &mut Draws) -> Task {
    const HEADS: usize = 5 + (3 + 4) * MOST_JOBS + 3 + 3;
    let all = Facts::below(MOST_FACTS);
    let (start, goal) = if size.is_none() || draws.one_in(2) {
        (all, all)
    } else {
        (draws.facts(300, MOST_FACTS), draws.facts(2, MOST_FACTS))
    };
    let numbers = match size {
        Some(size) => size - HEADS - start.count() - goal.count(),
        None => 251 * MOST_JOBS,
    };
    let mut facts: Vec<u8> = all.list();
    let mut job = |number: usize| {
        // From 128 to 256, so that deletes and needs can make up the rest, however many adds there are.
        let count = numbers / MOST_JOBS + usize::from(number < numbers % MOST_JOBS);
        let adds = draws.within(0..=MOST_FACTS);
        let rest = count - adds;
        let deletes = draws.within(rest.saturating_sub(MOST_FACTS)..=rest.min(MOST_FACTS));
        let [needs, adds, deletes] = [rest - deletes, adds, deletes].map(|length| {
            draws.shuffle(&mut facts);
            Facts::named(&facts[..length])
        });
        Some(Job::new(draws.byte(), needs, adds, deletes))
    };
    let jobs = (0..MOST_JOBS).map(&mut job).collect();
    Task {
        facts: MOST_FACTS,
        jobs,
        start,
        goal,
    }
}

fn middling(draws: &mut Draws) -> Count {
    let task = middling_task(draws);
    walked(task, draws)
}

fn middling_task(draws: &mut Draws) -> Task {
    if draws.one_in(3) {
        return domains::textbook(draws, true);
    }
    let shape = Shape {
        facts: draws.within(13..=32),
        jobs: draws.within(10..=50),
        start: draws.within(2..=8),
        needs: draws.within(1..=3),
        adds: draws.within(1..=4),
        deletes: draws.within(0..=4),
    };
    drawn_task(&shape, draws)
}

fn full_size(draws: &mut Draws) -> Count {
    let task = full_size_task(draws);
    walked(task, draws)
}

fn full_size_task(draws: &mut Draws) -> Task {
    let facts = draws.within(60..=MOST_FACTS);
    let sparse = Shape {
        facts,
        jobs: MOST_JOBS,
        start: 8,
        needs: 3,
        adds: 3,
        deletes: 2,
    };
    let dense = Shape {
        start: 20,
        needs: 8,
        adds: 50,
        deletes: 50,
        ..sparse
    };
    let textbook = match draws.below(6) {
        0 => domains::chain(facts, &[0, 40], draws.one_in(2)),
        1 => domains::gripper(draws.within(14..=31)),
        2 => domains::logistics(6, 2, draws.within(5..=8)),
        3 => return drawn_task(&dense, draws),
        _ => return drawn_task(&sparse, draws),
    };
    domains::with_overlaps(textbook, draws)
}

/// A task with a walk, and a goal that the walk reaches, or nearly.
fn walked(mut task: Task, draws: &mut Draws) -> Count {
    let rounds = draws.within(0..=12);
    let (mut sheet, state) = plans::walk(&task, draws, rounds, 5);
    task.goal = goal_in(state, &task, draws);
    match draws.below(4) {
        0 => task.goal = task.goal.with(draws.below(task.facts)),
        1 => plans::edit(&mut sheet, task.jobs.len(), draws),
        _ => {}
    }
    Count { task, sheet }
}

/// How large the task of a table is.
#[derive(Clone, Copy, PartialEq, Eq, PartialOrd, Ord, Debug)]
pub enum Size {
    Small,
    Middling,
    Full,
}

/// The task file with this number, whose tables are compared.
pub fn table_file(number: u64) -> (Size, Vec<u8>) {
    // Other draws than those of the pairs.
    let draws = &mut Draws::of_seed(number + (1 << 40));
    let (size, task) = match draws.below(250) {
        0 => (Size::Full, full_size_task(draws)),
        1 => (Size::Full, task_of_size(None, draws)),
        2..12 => (Size::Middling, middling_task(draws)),
        _ => (Size::Small, small_task(draws)),
    };
    (size, bytes_of(&task_records(&task)))
}

#[cfg(test)]
mod tests {
    use super::*;
    use crate::files::read_task;

    #[test]
    fn a_number_gives_the_same_files_again() {
        for number in 0..50 {
            let (first, second) = (pair(number), pair(number));
            assert_eq!(first.task_file, second.task_file);
            assert_eq!(first.plan_file, second.plan_file);
        }
    }

    #[test]
    fn files_of_full_size_have_the_bytes_that_are_asked() {
        let mut draws = Draws::of_seed(3);
        for size in [Some(MOST_BYTES), Some(MOST_BYTES + 1), None] {
            let task = task_of_size(size, &mut draws);
            let file = bytes_of(&task_records(&task));
            assert_eq!(file.len(), size.unwrap_or(66_057));
            assert_eq!(read_task(&file), Ok(task));
        }
    }

    #[test]
    fn table_files_are_in_order() {
        for number in 0..500 {
            assert!(read_task(&table_file(number).1).is_ok());
        }
    }
}
