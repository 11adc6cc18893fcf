//! Task files and sheet files as `docs/formats.md` has them: their records, reading them with the refusals of
//! `docs/refusals.md`, and writing them.

use crate::model::{Facts, Job, MOST_FACTS, MOST_ROUNDS, Round, Sheet, Task};

/// Why a file is refused.
#[derive(Clone, Copy, PartialEq, Eq, Debug)]
pub enum Cause {
    Short = 1,
    OtherMark = 2,
    WrongLength = 3,
    FactsOutside = 4,
    FactTooLarge = 5,
    NotRising = 6,
    BytesBehind = 8,
    WrongMemory = 9,
    JobTooLarge = 10,
    SheetFull = 11,
}

/// A refusal: its number and the byte that is its place.
#[derive(Clone, Copy, PartialEq, Eq, Debug)]
pub struct Refusal {
    pub cause: Cause,
    pub place: usize,
}

impl Refusal {
    pub fn number(&self) -> u8 {
        self.cause as u8
    }
}

pub type Mark = [u8; 2];

pub const TASK: Mark = *b"TK";
pub const JOB: Mark = *b"AC";
pub const START: Mark = *b"ST";
pub const GOAL: Mark = *b"GO";
pub const ROUND: Mark = *b"RD";

/// The zone and the three list lengths, which stand in front of the lists of an AC record.
const JOB_HEAD: usize = 4;

/// Walks over the records of a file.
struct Reader<'file> {
    file: &'file [u8],
    place: usize,
}

impl<'file> Reader<'file> {
    fn of(file: &'file [u8]) -> Reader<'file> {
        Reader { file, place: 0 }
    }

    fn left(&self) -> &'file [u8] {
        &self.file[self.place..]
    }

    /// The next record, which is due, after `check` has passed its body.
    fn record<T>(
        &mut self,
        mark: Mark,
        check: impl FnOnce(&'file [u8]) -> Result<T, Cause>,
    ) -> Result<T, Refusal> {
        let place = self.place;
        let body = self.body(mark).map_err(|cause| Refusal { cause, place })?;
        check(body).map_err(|cause| Refusal { cause, place })
    }

    fn body(&mut self, mark: Mark) -> Result<&'file [u8], Cause> {
        let [first, second, length, behind @ ..] = self.left() else {
            return Err(Cause::Short);
        };
        let body = behind.get(..usize::from(*length)).ok_or(Cause::Short)?;
        if [*first, *second] != mark {
            return Err(Cause::OtherMark);
        }
        self.place += 3 + body.len();
        Ok(body)
    }
}

/// Checks number by number that a list stays below its bound and rises.
fn check_list(list: &[u8], bound: usize, too_large: Cause) -> Result<(), Cause> {
    let mut least = 0;
    for &number in list {
        let number = usize::from(number);
        if number >= bound {
            return Err(too_large);
        }
        if number < least {
            return Err(Cause::NotRising);
        }
        least = number + 1;
    }
    Ok(())
}

fn read_facts(list: &[u8], bound: usize) -> Result<Facts, Cause> {
    check_list(list, bound, Cause::FactTooLarge)?;
    Ok(Facts::named(list))
}

/// How many facts and how many jobs a TK record tells.
fn read_numbers(body: &[u8]) -> Result<(usize, usize), Cause> {
    let &[facts, jobs] = body else {
        return Err(Cause::WrongLength);
    };
    if !(1..=MOST_FACTS).contains(&usize::from(facts)) {
        return Err(Cause::FactsOutside);
    }
    Ok((usize::from(facts), usize::from(jobs)))
}

fn read_job(body: &[u8], bound: usize) -> Result<Job, Cause> {
    let Some((&[zone, needs, adds, deletes], lists)) = body.split_first_chunk::<JOB_HEAD>() else {
        return Err(Cause::WrongLength);
    };
    let [needs, adds, deletes] = [needs, adds, deletes].map(usize::from);
    if lists.len() != needs + adds + deletes {
        return Err(Cause::WrongLength);
    }
    let (needs, lists) = lists.split_at(needs);
    let (adds, deletes) = lists.split_at(adds);
    let needs = read_facts(needs, bound)?;
    let adds = read_facts(adds, bound)?;
    let deletes = read_facts(deletes, bound)?;
    Ok(Job::new(zone, needs, adds, deletes))
}

/// Reads a task file of any size, where rows for all jobs are supplied.
pub fn read_task(file: &[u8]) -> Result<Task, Refusal> {
    let mut reader = Reader::of(file);
    let (facts, jobs) = reader.record(TASK, read_numbers)?;
    let jobs = (0..jobs)
        .map(|_| reader.record(JOB, |body| read_job(body, facts)).map(Some))
        .collect::<Result<_, _>>()?;
    let start = reader.record(START, |body| read_facts(body, facts))?;
    let goal = reader.record(GOAL, |body| read_facts(body, facts))?;
    if !reader.left().is_empty() {
        return Err(Refusal {
            cause: Cause::BytesBehind,
            place: reader.place,
        });
    }
    Ok(Task {
        facts,
        jobs,
        start,
        goal,
    })
}

/// Reads a sheet file of any size into an empty sheet, for a book of so many jobs.
pub fn read_sheet(file: &[u8], jobs: usize) -> Result<Sheet, Refusal> {
    let mut reader = Reader::of(file);
    let mut sheet = Sheet::new();
    while !reader.left().is_empty() {
        let room = sheet.len() < MOST_ROUNDS;
        let round = reader.record(ROUND, |body| {
            check_list(body, jobs, Cause::JobTooLarge)?;
            if room {
                Ok(body.to_vec())
            } else {
                Err(Cause::SheetFull)
            }
        })?;
        sheet.push(round);
    }
    Ok(sheet)
}

/// A record to be written as it is, right or wrong.
#[derive(Clone, PartialEq, Eq, Debug)]
pub struct Record {
    pub mark: Mark,
    pub length: u8,
    pub body: Vec<u8>,
}

impl Record {
    /// A record with the length of its body, which has at most 255 bytes.
    pub fn new(mark: Mark, body: Vec<u8>) -> Record {
        let length = u8::try_from(body.len()).expect("a body has at most 255 bytes");
        Record { mark, length, body }
    }

    /// The AC record with these lists, right or wrong.
    pub fn of_job(zone: u8, needs: &[u8], adds: &[u8], deletes: &[u8]) -> Record {
        let lengths = [needs, adds, deletes].map(|list| list.len() as u8);
        Record::new(JOB, [&[zone], &lengths[..], needs, adds, deletes].concat())
    }
}

/// The records of a task whose jobs are all present and have records.
pub fn task_records(task: &Task) -> Vec<Record> {
    let numbers = vec![task.facts as u8, task.jobs.len() as u8];
    let jobs = task.present().map(|(_, job)| {
        Record::of_job(
            job.zone,
            &job.needs.list(),
            &job.adds.list(),
            &job.listed_deletes().list(),
        )
    });
    let mut records = vec![Record::new(TASK, numbers)];
    records.extend(jobs);
    records.push(Record::new(START, task.start.list()));
    records.push(Record::new(GOAL, task.goal.list()));
    records
}

pub fn sheet_records(sheet: &[Round]) -> Vec<Record> {
    sheet
        .iter()
        .map(|round| Record::new(ROUND, round.clone()))
        .collect()
}

/// The bytes of records, one behind the other.
pub fn bytes_of(records: &[Record]) -> Vec<u8> {
    let mut bytes = Vec::new();
    for record in records {
        bytes.extend(record.mark);
        bytes.push(record.length);
        bytes.extend(&record.body);
    }
    bytes
}

/// Bytes in hex, for a message.
pub fn in_hex(bytes: &[u8]) -> String {
    bytes.iter().map(|byte| format!("{byte:02x}")).collect()
}

#[cfg(test)]
mod tests {
    use super::*;
    use crate::model::worked;

    const LIFT: &[u8] = b"TK\x02\x05\x04\
        AC\x08\x00\x02\x01\x01\x00\x02\x03\x02\
        AC\x07\x00\x01\x01\x01\x00\x01\x00\
        AC\x08\x00\x02\x01\x01\x01\x03\x04\x03\
        AC\x07\x00\x01\x01\x01\x01\x00\x01\
        ST\x02\x00\x02\
        GO\x02\x00\x04";

    const RECOUNT: &[u8] = b"TK\x02\x02\x01\
        AC\x08\x00\x01\x01\x02\x00\x01\x00\x01\
        ST\x01\x00\
        GO\x01\x01";

    fn refused(file: &[u8]) -> (u8, usize) {
        let refusal = read_task(file).expect_err("the file is at fault");
        (refusal.number(), refusal.place)
    }

    fn sheet_refused(file: &[u8], jobs: usize) -> (u8, usize) {
        let refusal = read_sheet(file, jobs).expect_err("the file is at fault");
        (refusal.number(), refusal.place)
    }

    /// The lift's file with one byte changed.
    fn changed(place: usize, byte: u8) -> Vec<u8> {
        let mut file = LIFT.to_vec();
        file[place] = byte;
        file
    }

    #[test]
    fn the_lift_has_57_bytes() {
        assert_eq!(LIFT.len(), 57);
        assert_eq!(read_task(LIFT), Ok(worked::lift()));
        assert_eq!(bytes_of(&task_records(&worked::lift())), LIFT);
    }

    #[test]
    fn the_sheet_of_the_lift_has_16_bytes() {
        let file = bytes_of(&sheet_records(&[vec![0], vec![1], vec![2], vec![3]]));
        assert_eq!(file, b"RD\x01\x00RD\x01\x01RD\x01\x02RD\x01\x03");
        assert_eq!(
            read_sheet(&file, 4),
            Ok(vec![vec![0], vec![1], vec![2], vec![3]])
        );
        assert_eq!(read_sheet(b"", 0), Ok(vec![]));
    }

    #[test]
    fn refusals_of_task_files() {
        assert_eq!(refused(b""), (1, 0));
        assert_eq!(refused(&LIFT[..56]), (1, 52));
        assert_eq!(refused(&changed(7, 60)), (1, 5));
        assert_eq!(refused(&changed(5, b'B')), (2, 5));
        assert_eq!(refused(&changed(2, 3)), (3, 0));
        assert_eq!(refused(&changed(9, 3)), (3, 5));
        assert_eq!(refused(&changed(3, 0)), (4, 0));
        assert_eq!(refused(&changed(3, 129)), (4, 0));
        assert_eq!(refused(&changed(3, 4)), (5, 26));
        assert_eq!(refused(&changed(13, 0)), (6, 5));
        assert_eq!(refused(&[LIFT, b"\x00"].concat()), (8, 57));
    }

    #[test]
    fn both_lists_are_kept_where_they_overlap() {
        let file = changed(14, 2);
        let task = read_task(&file).expect("the file is in order");
        let job = task.job(0).expect("the job is present");
        assert_eq!(
            (job.adds.list(), job.listed_deletes().list()),
            (vec![2], vec![2])
        );
        assert!(job.deletes.is_empty());
        assert_eq!(bytes_of(&task_records(&task)), file);
    }

    #[test]
    fn the_recount_has_24_bytes() {
        assert_eq!(RECOUNT.len(), 24);
        assert_eq!(read_task(RECOUNT), Ok(worked::recount()));
        assert_eq!(bytes_of(&task_records(&worked::recount())), RECOUNT);
    }

    #[test]
    fn the_number_is_looked_at_before_the_order() {
        assert_eq!(refused(&changed(13, 5)), (5, 5));
        assert_eq!(sheet_refused(b"RD\x02\x03\x02", 3), (10, 0));
        assert_eq!(sheet_refused(b"RD\x02\x02\x02", 3), (6, 0));
    }

    #[test]
    fn refusals_of_sheet_files() {
        assert_eq!(sheet_refused(b"RD\x00RD", 0), (1, 3));
        assert_eq!(sheet_refused(b"RD\x00ST\x00", 0), (2, 3));
        assert_eq!(
            read_sheet(&b"RD\x00".repeat(500), 0).map(|sheet| sheet.len()),
            Ok(500)
        );
        assert_eq!(sheet_refused(&b"RD\x00".repeat(501), 0), (11, 1500));
        assert_eq!(
            sheet_refused(&[&b"RD\x00".repeat(500)[..], b"RD\x01\x00"].concat(), 0),
            (10, 1500)
        );
    }
}
