//! Damaged files: a few edits of the records of a file or of its bytes. Some leave the file in order.

use crate::files::{GOAL, JOB, ROUND, Record, START, TASK, bytes_of};
use crate::random::Draws;

/// The bytes of a file's records after one to three edits; `bound` is what its list numbers stay below.
pub fn damaged(mut records: Vec<Record>, bound: usize, draws: &mut Draws) -> Vec<u8> {
    if draws.one_in(2) {
        for _ in 0..draws.within(1..=2) {
            damage_records(&mut records, bound, draws);
        }
        return bytes_of(&records);
    }
    let mut bytes = bytes_of(&records);
    for _ in 0..draws.within(1..=3) {
        damage_bytes(&mut bytes, draws);
    }
    bytes
}

fn damage_bytes(bytes: &mut Vec<u8>, draws: &mut Draws) {
    let end = bytes.len();
    match draws.below(8) {
        0 => bytes.truncate(draws.below(end + 1)),
        1 => bytes.insert(draws.below(end + 1), draws.byte()),
        2 => bytes.extend(draws.bytes(1 + end % 4, 256)),
        3 => bytes.extend(draws.pick(&[TASK, JOB, START, GOAL, ROUND])),
        _ if end == 0 => {}
        4 => {
            bytes.remove(draws.below(end));
        }
        5 => {
            let place = draws.below(end);
            bytes[place] = bytes[place].wrapping_add(draws.pick(&[1, 255]));
        }
        6 => {
            let (place, other) = (draws.below(end), draws.below(end));
            bytes.swap(place, other);
        }
        _ => {
            let place = draws.below(end);
            bytes[place] = draws.byte();
        }
    }
}

fn damage_records(records: &mut Vec<Record>, bound: usize, draws: &mut Draws) {
    if records.is_empty() {
        records.push(Record::new(
            draws.pick(&[TASK, JOB, GOAL, ROUND]),
            draws.bytes(2, 256),
        ));
        return;
    }
    let (place, other) = (draws.below(records.len()), draws.below(records.len()));
    let has_numbers = records[0].mark == TASK && !records[0].body.is_empty();
    if has_numbers && draws.one_in(5) {
        damage_numbers(&mut records[0], draws);
        return;
    }
    match draws.below(10) {
        0 => records.swap(place, other),
        1 => records.insert(other, records[place].clone()),
        2 => {
            records.remove(place);
        }
        3 => {
            records[place].length = records[place]
                .length
                .wrapping_add(draws.pick(&[1, 255, 128]))
        }
        4 => records[place].mark = draws.pick(&[TASK, JOB, START, GOAL, ROUND]),
        _ => {
            let record = &mut records[place];
            if record.mark == JOB && draws.one_in(2) {
                damage_job(record, draws);
            } else {
                damage_list(record, bound, draws);
            }
        }
    }
}

/// Puts one of the two numbers of a TK record at or over its bound, or changes it by 1.
fn damage_numbers(record: &mut Record, draws: &mut Draws) {
    let place = draws.below(record.body.len());
    let number = record.body[place];
    let bounds = if place == 0 {
        [0, 1, 128, 129]
    } else {
        [0, 254, 255, 0]
    };
    let changed = draws.pick(&[number.wrapping_sub(1), number.wrapping_add(1)]);
    record.body[place] = if draws.one_in(4) {
        changed
    } else {
        draws.pick(&bounds)
    };
}

/// Changes one of the three lengths in front of a job's lists, or moves the bound between two of the lists.
fn damage_job(record: &mut Record, draws: &mut Draws) {
    let Some((head, _)) = record.body.split_first_chunk_mut::<4>() else {
        return;
    };
    if draws.one_in(2) {
        head[draws.pick(&[1, 2, 3])] ^= 1;
    } else {
        let (longer, shorter) = draws.pick(&[(1, 2), (2, 1), (2, 3), (3, 2)]);
        head[longer] = head[longer].wrapping_add(1);
        head[shorter] = head[shorter].wrapping_sub(1);
    }
}

/// Brings a number of a list to its bound, or out of order.
fn damage_list(record: &mut Record, bound: usize, draws: &mut Draws) {
    let head = if record.mark == JOB { 4 } else { 0 };
    let Some(list) = record.body.get_mut(head..).filter(|list| !list.is_empty()) else {
        return;
    };
    let place = draws.below(list.len());
    let next = (place + 1) % list.len();
    match draws.below(5) {
        0 => list[place] = draws.pick(&[bound.saturating_sub(1), bound, bound + 1, 255]) as u8,
        1 => list[next] = list[place],
        2 | 3 => list.swap(place, next),
        _ => {
            *list.last_mut().expect("the list isn't empty") =
                bound.saturating_sub(draws.below(2)) as u8
        }
    }
}
