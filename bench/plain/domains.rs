//! Textbook tasks: logistics, gripper, the blocks world, and chains. Each has a start, and its goal is still empty.

use crate::model::{Facts, Job, Task};
use crate::random::Draws;

/// Collects the jobs of a domain.
struct Domain {
    facts: usize,
    start: Facts,
    jobs: Vec<Option<Job>>,
}

impl Domain {
    fn new(facts: usize, start: &[usize]) -> Domain {
        Domain {
            facts,
            start: set_of(start),
            jobs: Vec::new(),
        }
    }

    fn job(&mut self, zone: usize, needs: &[usize], adds: &[usize], deletes: &[usize]) {
        let [needs, adds, deletes] = [needs, adds, deletes].map(set_of);
        let job = Job::new(zone as u8, needs, adds, deletes);
        self.jobs.push(Some(job));
    }

    fn task(self) -> Task {
        Task {
            facts: self.facts,
            jobs: self.jobs,
            start: self.start,
            goal: Facts::NONE,
        }
    }
}

fn set_of(facts: &[usize]) -> Facts {
    facts.iter().fold(Facts::NONE, |set, &fact| set.with(fact))
}

/// A task of a drawn domain, small or, when `large`, of some dozens of facts.
pub fn textbook(draws: &mut Draws, large: bool) -> Task {
    let task = match (draws.below(4), large) {
        (0, false) => logistics(
            draws.within(2..=3),
            draws.within(1..=2),
            draws.within(1..=2),
        ),
        (0, true) => logistics(draws.within(3..=4), 2, draws.within(2..=3)),
        (1, false) => gripper(draws.within(1..=3)),
        (1, true) => gripper(draws.within(4..=6)),
        (2, false) => blocks(draws.within(2..=3)),
        (2, true) => blocks(4),
        (_, false) => chain(draws.within(2..=12), &[0], draws.one_in(2)),
        (_, true) => chain(draws.within(8..=24), &[0, 5], draws.one_in(4)),
    };
    with_overlaps(task, draws)
}

/// In one of three tasks, lets some jobs add the needs that they keep, and list all their adds among their deletes too,
/// which alters no round and no layer.
pub fn with_overlaps(mut task: Task, draws: &mut Draws) -> Task {
    if draws.one_in(3) {
        for job in task.jobs.iter_mut().flatten() {
            if draws.one_in(3) {
                let kept = job.needs.without(job.deletes);
                let adds = job.adds.and(kept);
                *job = Job::new(job.zone, job.needs, adds, job.deletes.and(adds));
            }
        }
    }
    task
}

/// Trucks, each a zone of its own, carry parcels between places.
pub fn logistics(places: usize, trucks: usize, parcels: usize) -> Task {
    let truck_at = |truck: usize, place: usize| truck * places + place;
    let parcel_at =
        |parcel: usize, place: usize| trucks * places + parcel * (places + trucks) + place;
    let parcel_in = |parcel: usize, truck: usize| parcel_at(parcel, places + truck);

    let mut start: Vec<usize> = (0..trucks)
        .map(|truck| truck_at(truck, truck % places))
        .collect();
    start.extend((0..parcels).map(|parcel| parcel_at(parcel, parcel % places)));
    let mut domain = Domain::new(parcel_at(parcels, 0), &start);
    for truck in 0..trucks {
        for place in 0..places {
            let here = truck_at(truck, place);
            for other in (0..places).filter(|&other| other != place) {
                domain.job(truck + 1, &[here], &[truck_at(truck, other)], &[here]);
            }
            for parcel in 0..parcels {
                let (lying, carried) = (parcel_at(parcel, place), parcel_in(parcel, truck));
                domain.job(truck + 1, &[here, lying], &[carried], &[lying]);
                domain.job(truck + 1, &[here, carried], &[lying], &[carried]);
            }
        }
    }
    domain.task()
}

/// A robot with two grippers carries balls between two rooms.
pub fn gripper(balls: usize) -> Task {
    let robot_in = |room: usize| room;
    let free = |gripper: usize| 2 + gripper;
    let ball_in = |ball: usize, room: usize| 4 + 4 * ball + room;
    let held = |ball: usize, gripper: usize| 6 + 4 * ball + gripper;

    let mut start = vec![robot_in(0), free(0), free(1)];
    start.extend((0..balls).map(|ball| ball_in(ball, 0)));
    let mut domain = Domain::new(4 + 4 * balls, &start);
    for room in 0..2 {
        domain.job(
            0,
            &[robot_in(room)],
            &[robot_in(1 - room)],
            &[robot_in(room)],
        );
        for ball in 0..balls {
            for gripper in 0..2 {
                let (lying, carried) = (ball_in(ball, room), held(ball, gripper));
                let free = free(gripper);
                domain.job(
                    gripper + 1,
                    &[robot_in(room), lying, free],
                    &[carried],
                    &[lying, free],
                );
                domain.job(
                    gripper + 1,
                    &[robot_in(room), carried],
                    &[lying, free],
                    &[carried],
                );
            }
        }
    }
    domain.task()
}

/// A hand moves blocks on a table; at the start none is on another.
pub fn blocks(blocks: usize) -> Task {
    const HAND_EMPTY: usize = 0;
    let on_table = |block: usize| 1 + block;
    let clear = |block: usize| 1 + blocks + block;
    let held = |block: usize| 1 + 2 * blocks + block;
    let on = |block: usize, below: usize| 1 + 3 * blocks + block * blocks + below;

    let mut start = vec![HAND_EMPTY];
    start.extend((0..blocks).flat_map(|block| [on_table(block), clear(block)]));
    let mut domain = Domain::new(on(blocks, 0), &start);
    for block in 0..blocks {
        let (lying, top, held) = (on_table(block), clear(block), held(block));
        domain.job(
            0,
            &[lying, top, HAND_EMPTY],
            &[held],
            &[lying, top, HAND_EMPTY],
        );
        domain.job(0, &[held], &[lying, top, HAND_EMPTY], &[held]);
        for below in (0..blocks).filter(|&below| below != block) {
            let (stacked, covered) = (on(block, below), clear(below));
            domain.job(
                0,
                &[stacked, top, HAND_EMPTY],
                &[held, covered],
                &[stacked, top, HAND_EMPTY],
            );
            domain.job(
                0,
                &[held, covered],
                &[stacked, top, HAND_EMPTY],
                &[held, covered],
            );
        }
    }
    domain.task()
}

/// Each job moves something from a place of a line to the next one, or back unless `one_way`.
pub fn chain(places: usize, start: &[usize], one_way: bool) -> Task {
    let mut domain = Domain::new(places, start);
    for place in 1..places {
        domain.job(0, &[place - 1], &[place], &[place - 1]);
        if !one_way {
            domain.job(0, &[place], &[place - 1], &[place]);
        }
    }
    domain.task()
}

#[cfg(test)]
mod tests {
    use super::*;
    use crate::layers;
    use crate::model::Rule;

    #[test]
    fn overlaps_alter_no_layer() {
        let draws = &mut Draws::of_seed(1);
        let settled = |task: &Task| {
            [Rule::Apart, Rule::SingleFile, Rule::Zoned]
                .map(|rule| layers::grow(task, rule, task.pairs() + 1))
        };
        for task in [
            logistics(2, 2, 2),
            gripper(2),
            blocks(2),
            chain(6, &[0], false),
        ] {
            let others: Vec<Task> = (0..20)
                .map(|_| with_overlaps(task.clone(), draws))
                .filter(Task::adds_and_deletes)
                .collect();
            assert!(!others.is_empty());
            assert!(others.iter().all(|other| settled(other) == settled(&task)));
        }
    }
}
