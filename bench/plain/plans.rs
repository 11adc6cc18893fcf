//! Sheets for tasks: plans that are found by search, walks through allowed rounds, and edits of a sheet.

use std::collections::{HashMap, VecDeque};

use crate::model::{Facts, Job, MOST_ROUNDS, Round, Rule, Sheet, Task, result};
use crate::random::Draws;

/// The shortest list of jobs that leads to the goal if they are done singly, searched among so many states.
pub fn search(task: &Task, most_states: usize) -> Option<Vec<u8>> {
    let mut came_from: HashMap<Facts, Option<(Facts, u8)>> = HashMap::from([(task.start, None)]);
    let mut waiting = VecDeque::from([task.start]);
    while let Some(state) = waiting.pop_front() {
        if task.goal.within(state) {
            return Some(way_back(&came_from, state));
        }
        for (number, job) in task.present().filter(|(_, job)| job.needs.within(state)) {
            let after = job.done(state);
            if came_from.len() < most_states && !came_from.contains_key(&after) {
                came_from.insert(after, Some((state, number)));
                waiting.push_back(after);
            }
        }
    }
    None
}

fn way_back(came_from: &HashMap<Facts, Option<(Facts, u8)>>, last: Facts) -> Vec<u8> {
    let mut jobs = Vec::new();
    let mut state = last;
    while let Some((before, number)) = came_from[&state] {
        jobs.push(number);
        state = before;
    }
    jobs.reverse();
    jobs
}

/// Folds jobs that are permitted one behind the other into rounds, each job into the earliest that takes it.
pub fn fold(task: &Task, jobs: &[u8]) -> Sheet {
    let mut sheet = Sheet::new();
    let mut state = task.start;
    for &number in jobs {
        state = task.job(number).expect("the job is present").done(state);
        let earlier = (0..sheet.len()).find_map(|round| {
            let sheet = with_job(&sheet, round, number)?;
            (last_state(task, &sheet) == Some(state)).then_some(sheet)
        });
        match earlier {
            Some(folded) => sheet = folded,
            None => sheet.push(vec![number]),
        }
    }
    sheet
}

/// The sheet with a job more in one of its rounds, unless it's there.
fn with_job(sheet: &Sheet, round: usize, number: u8) -> Option<Sheet> {
    let index = sheet[round].binary_search(&number).err()?;
    let mut sheet = sheet.clone();
    sheet[round].insert(index, number);
    Some(sheet)
}

/// The state behind a sheet whose rounds are all allowed under the rule apart.
pub fn last_state(task: &Task, sheet: &[Round]) -> Option<Facts> {
    let mut state = task.start;
    for (number, round) in sheet.iter().enumerate() {
        state = result(task, Rule::Apart, state, number, round).ok()?;
    }
    Some(state)
}

/// A sheet of allowed rounds, each of drawn jobs that the rule apart lets share it, and the state behind it.
pub fn walk(task: &Task, draws: &mut Draws, rounds: usize, most_jobs: usize) -> (Sheet, Facts) {
    let mut state = task.start;
    let mut sheet = Sheet::new();
    let mut order: Vec<_> = task.present().collect();
    for number in 0..rounds {
        draws.shuffle(&mut order);
        let room = if draws.one_in(8) {
            0
        } else {
            draws.within(1..=most_jobs)
        };
        let mut round: Vec<(u8, &Job)> = Vec::new();
        for &(number, job) in &order {
            let shared = |(_, other): &(u8, &Job)| Rule::Apart.lets_share(job, other);
            if round.len() < room && job.needs.within(state) && round.iter().all(shared) {
                round.push((number, job));
            }
        }
        let mut numbers: Round = round.iter().map(|&(number, _)| number).collect();
        numbers.sort_unstable();
        state = result(task, Rule::Apart, state, number, &numbers).expect("the round is allowed");
        sheet.push(numbers);
    }
    (sheet, state)
}

/// A sheet of drawn rounds, allowed or not.
pub fn drawn(task: &Task, draws: &mut Draws, rounds: usize, most_jobs: usize) -> Sheet {
    let jobs = task.jobs.len();
    let mut round = || {
        let count = if jobs == 0 {
            0
        } else {
            draws.within(0..=most_jobs)
        };
        rising(draws.bytes(count, jobs.max(1)))
    };
    (0..rounds).map(|_| round()).collect()
}

/// The numbers of a list as a round.
pub fn rising(mut numbers: Vec<u8>) -> Round {
    numbers.sort_unstable();
    numbers.dedup();
    numbers
}

/// Makes a sheet longer by one or two pauses or repeated rounds.
pub fn lengthen(sheet: &mut Sheet, draws: &mut Draws) {
    for _ in 0..draws.within(1..=2) {
        let place = draws.below(sheet.len() + 1);
        if sheet.len() < MOST_ROUNDS {
            let round = if place > 0 && draws.one_in(4) {
                sheet[place - 1].clone()
            } else {
                vec![]
            };
            sheet.insert(place, round);
        }
    }
}

/// Makes one edit, which may leave a sheet without rounds as it is.
pub fn edit(sheet: &mut Sheet, jobs: usize, draws: &mut Draws) {
    if sheet.is_empty() {
        return;
    }
    let place = draws.below(sheet.len());
    let other = draws.below(sheet.len());
    match draws.below(7) {
        0 => {
            sheet.remove(place);
        }
        1 => sheet.swap(place, other),
        2 => {
            let round = sheet.remove(place);
            let onto = place.min(sheet.len().saturating_sub(1));
            match sheet.get_mut(onto) {
                Some(neighbor) => *neighbor = rising([round, neighbor.clone()].concat()),
                None => sheet.push(vec![]),
            }
        }
        3 if !sheet[place].is_empty() => {
            let index = draws.below(sheet[place].len());
            sheet[place].remove(index);
        }
        4 if !sheet[place].is_empty() && jobs > 0 => {
            let index = draws.below(sheet[place].len());
            sheet[place][index] = draws.below(jobs) as u8;
            sheet[place] = rising(std::mem::take(&mut sheet[place]));
        }
        5 => {
            let round = sheet[other].clone();
            sheet[place] = rising([std::mem::take(&mut sheet[place]), round].concat());
        }
        _ if jobs > 0 => {
            sheet[place].push(draws.below(jobs) as u8);
            sheet[place] = rising(std::mem::take(&mut sheet[place]));
        }
        _ => sheet.push(vec![]),
    }
}

#[cfg(test)]
mod tests {
    use super::*;
    use crate::domains;
    use crate::model::{Verdict, judge, worked};

    #[test]
    fn the_plan_of_the_lift_is_found() {
        let lift = worked::lift();
        assert_eq!(search(&lift, 100), Some(vec![0, 1, 2, 3]));
        assert_eq!(fold(&lift, &[0, 1, 2, 3]), [[0], [1], [2], [3]]);
    }

    #[test]
    fn jobs_of_two_aisles_are_folded_into_one_round() {
        assert_eq!(fold(&worked::twin(), &[1, 0]), [[0, 1]]);
    }

    #[test]
    fn what_is_found_and_folded_is_a_plan() {
        let mut draws = Draws::of_seed(1);
        for large in [false, true].repeat(40) {
            let mut task = domains::textbook(&mut draws, large);
            let (_, state) = walk(&task, &mut draws, 5, 3);
            task.goal = state;
            if let Some(jobs) = search(&task, 4_000) {
                assert_eq!(
                    judge(&task, Rule::Apart, &fold(&task, &jobs)),
                    Verdict::Sound
                );
            }
        }
    }
}
