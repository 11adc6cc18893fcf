//! Growing by the method that the library uses, in plain Rust: by rows of bit sets, and by the facts that may come with
//! each ready job. It allocates nothing once the table is opened.

use crate::layers::{Growing, Grown, NO_LAYER, entry_number};
use crate::model::{Facts, Job, MOST_FACTS, MOST_JOBS, Rule, Task};

/// A set of facts below 128, as two words.
#[derive(Clone, Copy, Default)]
struct FactSet {
    low: u64,
    high: u64,
}

impl FactSet {
    const EMPTY: FactSet = FactSet { low: 0, high: 0 };
    const FULL: FactSet = FactSet { low: !0, high: !0 };

    fn of(facts: Facts) -> FactSet {
        let [low, high] = facts.words();
        FactSet { low, high }
    }

    fn contains(self, fact: usize) -> bool {
        if fact < 64 {
            self.low >> fact & 1 == 1
        } else {
            self.high >> (fact - 64) & 1 == 1
        }
    }

    fn insert(self, fact: usize) -> FactSet {
        if fact < 64 {
            FactSet {
                low: self.low | 1 << fact,
                high: self.high,
            }
        } else {
            FactSet {
                low: self.low,
                high: self.high | 1 << (fact - 64),
            }
        }
    }

    fn union(self, other: FactSet) -> FactSet {
        FactSet {
            low: self.low | other.low,
            high: self.high | other.high,
        }
    }

    fn meet(self, other: FactSet) -> FactSet {
        FactSet {
            low: self.low & other.low,
            high: self.high & other.high,
        }
    }

    fn minus(self, other: FactSet) -> FactSet {
        FactSet {
            low: self.low & !other.low,
            high: self.high & !other.high,
        }
    }

    fn is_empty(self) -> bool {
        self.low == 0 && self.high == 0
    }

    fn is_subset(self, other: FactSet) -> bool {
        self.minus(other).is_empty()
    }

    fn is_disjoint(self, other: FactSet) -> bool {
        self.meet(other).is_empty()
    }
}

/// The facts of a set, rising.
impl Iterator for FactSet {
    type Item = usize;

    fn next(&mut self) -> Option<usize> {
        if self.low != 0 {
            let fact = self.low.trailing_zeros() as usize;
            self.low &= self.low - 1;
            Some(fact)
        } else if self.high != 0 {
            let fact = 64 + self.high.trailing_zeros() as usize;
            self.high &= self.high - 1;
            Some(fact)
        } else {
            None
        }
    }
}

#[derive(Clone, Copy, Default)]
struct Row {
    zone: u8,
    needs: FactSet,
    adds: FactSet,
    deletes: FactSet,
}

impl Row {
    fn of(job: &Job) -> Row {
        let [needs, adds, deletes] = [job.needs, job.adds, job.deletes].map(FactSet::of);
        Row {
            zone: job.zone,
            needs,
            adds,
            deletes,
        }
    }

    fn spoils(&self, other: &Row) -> bool {
        !self.deletes.is_disjoint(other.needs.union(other.adds))
    }
}

/// A sharing rule that is known when the growing is compiled.
trait Sharing {
    fn lets_share(first: &Row, second: &Row) -> bool;
}

struct Apart;
struct SingleFile;
struct Zoned;

impl Sharing for Apart {
    fn lets_share(first: &Row, second: &Row) -> bool {
        !first.spoils(second) && !second.spoils(first)
    }
}

impl Sharing for SingleFile {
    fn lets_share(_: &Row, _: &Row) -> bool {
        false
    }
}

impl Sharing for Zoned {
    fn lets_share(first: &Row, second: &Row) -> bool {
        (first.zone != second.zone || first.zone == 0) && Apart::lets_share(first, second)
    }
}

/// For each fact the facts that it is reached with, or made with.
type Partners = [FactSet; MOST_FACTS];

/// A job whose needs are reached, with the facts that are reached together with each of them.
#[derive(Clone, Copy, Default)]
struct Ready {
    row: Row,
    common: FactSet,
}

fn reached(table: &[u16], facts: usize, layer: u16) -> Partners {
    let mut partners = [FactSet::EMPTY; MOST_FACTS];
    for high in 0..facts.min(MOST_FACTS) {
        let first = entry_number(0, high);
        for (low, &entry) in table[first..=first + high].iter().enumerate() {
            if entry <= layer {
                partners[low] = partners[low].insert(high);
                partners[high] = partners[high].insert(low);
            }
        }
    }
    partners
}

fn ready_job(partners: &Partners, row: Row) -> Option<Ready> {
    let common = row
        .needs
        .fold(FactSet::FULL, |common, fact| common.meet(partners[fact]));
    row.needs.is_subset(common).then_some(Ready { row, common })
}

/// What the ready jobs make, with each other and with what may be kept beside them.
fn made<R: Sharing>(partners: &Partners, facts: usize, ready: &[Ready]) -> Partners {
    let mut made = [FactSet::EMPTY; MOST_FACTS];
    let mut kept = FactSet::EMPTY;
    for (fact, partners) in partners.iter().enumerate().take(facts) {
        if partners.contains(fact) {
            kept = kept.insert(fact);
        }
    }
    for (number, own) in ready.iter().enumerate() {
        let mut with = own
            .row
            .adds
            .union(own.common.meet(kept).minus(own.row.deletes));
        for other in &ready[number + 1..] {
            if other.row.needs.is_subset(own.common) && R::lets_share(&own.row, &other.row) {
                with = with.union(other.row.adds);
            }
        }
        for fact in own.row.adds {
            made[fact] = made[fact].union(with);
        }
    }
    made
}

/// Writes the next layer's number for each new pair, and says whether there is one.
fn grow_table<R: Sharing>(rows: &[Row], facts: usize, table: &mut [u16], layer: u16) -> bool {
    let partners = reached(table, facts, layer);
    let mut ready = [Ready::default(); MOST_JOBS];
    let mut count = 0;
    for job in rows.iter().filter_map(|&row| ready_job(&partners, row)) {
        ready[count] = job;
        count += 1;
    }
    let made = made::<R>(&partners, facts, &ready[..count]);
    let mut any = false;
    for fact in 0..facts {
        for other in made[fact].minus(partners[fact]) {
            table[entry_number(fact.min(other), fact.max(other))] = layer + 1;
            any = true;
        }
    }
    any
}

/// Growing by the same method.
pub struct SameMethod {
    facts: usize,
    rule: Rule,
    rows: [Row; MOST_JOBS],
    jobs: usize,
    grown: Grown,
}

impl SameMethod {
    pub fn open(task: &Task, rule: Rule) -> SameMethod {
        let mut rows = [Row::default(); MOST_JOBS];
        let mut jobs = 0;
        for (_, job) in task.present() {
            rows[jobs] = Row::of(job);
            jobs += 1;
        }
        let mut table = vec![NO_LAYER; task.pairs()];
        for high in task.start.members() {
            for low in task.start.members().take_while(|&low| low <= high) {
                table[entry_number(low, high)] = 0;
            }
        }
        let grown = Grown {
            table,
            layer: 0,
            settled: false,
        };
        SameMethod {
            facts: task.facts,
            rule,
            rows,
            jobs,
            grown,
        }
    }
}

impl Growing for SameMethod {
    fn grow(&mut self) {
        let grow_table = match self.rule {
            Rule::Apart => grow_table::<Apart>,
            Rule::SingleFile => grow_table::<SingleFile>,
            Rule::Zoned => grow_table::<Zoned>,
        };
        let Grown {
            table,
            layer,
            settled,
        } = &mut self.grown;
        if grow_table(&self.rows[..self.jobs], self.facts, table, *layer) {
            *layer += 1;
        } else {
            *settled = true;
        }
    }

    fn grown(&self) -> &Grown {
        &self.grown
    }
}

/// A task's table after so many growings, or as soon as a growing settles it.
pub fn grow(task: &Task, rule: Rule, growings: usize) -> Grown {
    let mut growing = SameMethod::open(task, rule);
    growing.grow_on(growings);
    growing.grown
}

#[cfg(test)]
mod tests {
    use super::*;
    use crate::model::worked;

    #[test]
    fn the_worked_counts_are_grown_as_by_the_definition() {
        for task in worked::all() {
            for rule in [Rule::Apart, Rule::SingleFile, Rule::Zoned] {
                for growings in 0..6 {
                    let by_definition = crate::layers::grow(&task, rule, growings);
                    assert_eq!(grow(&task, rule, growings), by_definition);
                }
            }
        }
    }
}
