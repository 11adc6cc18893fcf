//! The text that is printed of a task file and a sheet file, as `docs/formats.md` has it.

use crate::files::{Cause, Refusal, read_sheet, read_task};
use crate::layers::{Distance, Grown};
use crate::model::{Rule, Task, Verdict, judge};

/// The most bytes that a file may have.
pub const MOST_BYTES: usize = 60_000;

/// What there is to print of two files.
#[derive(Clone, PartialEq, Eq, Debug)]
pub enum Report {
    TaskRefused(Refusal),
    PlanRefused(Refusal),
    Judged {
        rounds: usize,
        distance: Distance,
        verdict: Verdict,
    },
}

/// Grows a task under a rule until a growing settles it.
pub type Settle = fn(&Task, Rule) -> Grown;

fn sized(file: &[u8]) -> Result<&[u8], Refusal> {
    if file.len() > MOST_BYTES {
        return Err(Refusal {
            cause: Cause::Short,
            place: MOST_BYTES,
        });
    }
    Ok(file)
}

/// Reads a task file that may not be larger than the program takes it.
pub fn read_sized_task(file: &[u8]) -> Result<Task, Refusal> {
    sized(file).and_then(read_task)
}

impl Report {
    /// Reads the two files, the task file first, and judges the sheet under the rule apart.
    pub fn of(task_file: &[u8], plan_file: &[u8], settle: Settle) -> Report {
        match read_sized_task(task_file) {
            Ok(task) => Report::for_task(&task, plan_file, settle),
            Err(refusal) => Report::TaskRefused(refusal),
        }
    }

    /// Reads a sheet file for a task, and judges the sheet under the rule apart.
    pub fn for_task(task: &Task, plan_file: &[u8], settle: Settle) -> Report {
        let sheet = match sized(plan_file).and_then(|file| read_sheet(file, task.jobs.len())) {
            Ok(sheet) => sheet,
            Err(refusal) => return Report::PlanRefused(refusal),
        };
        Report::Judged {
            rounds: sheet.len(),
            distance: settle(task, Rule::Apart).distance(task.goal),
            verdict: judge(task, Rule::Apart, &sheet),
        }
    }

    pub fn is_shortest(&self) -> bool {
        let Report::Judged {
            rounds,
            distance: Distance::Told(distance),
            verdict,
        } = self
        else {
            return false;
        };
        *verdict == Verdict::Sound && *rounds == usize::from(*distance)
    }

    pub fn text(&self) -> String {
        match self {
            Report::TaskRefused(refusal) => refusal_line("task", refusal),
            Report::PlanRefused(refusal) => refusal_line("plan", refusal),
            Report::Judged {
                rounds,
                distance,
                verdict,
            } => {
                let distance = match distance {
                    Distance::Told(layer) => layer.to_string(),
                    Distance::None | Distance::AtLeast(_) => "none".to_string(),
                };
                let shortest = if self.is_shortest() { "yes" } else { "no" };
                format!(
                    "rounds {rounds}\ndistance {distance}\nverdict {verdict}\nshortest {shortest}\n"
                )
            }
        }
    }
}

fn refusal_line(file: &str, refusal: &Refusal) -> String {
    format!("{file} refused {} {}\n", refusal.number(), refusal.place)
}

#[cfg(test)]
mod tests {
    use super::*;
    use crate::files::{bytes_of, sheet_records, task_records};
    use crate::layers;
    use crate::model::{Round, worked};

    fn settle(task: &Task, rule: Rule) -> Grown {
        layers::grow(task, rule, task.pairs() + 1)
    }

    fn printed(task: &Task, sheet: &[Round]) -> String {
        let task_file = bytes_of(&task_records(task));
        let plan_file = bytes_of(&sheet_records(sheet));
        Report::of(&task_file, &plan_file, settle).text()
    }

    #[test]
    fn the_lift_is_a_shortest_plan() {
        let sheet = [vec![0], vec![1], vec![2], vec![3]];
        let text = "rounds 4\ndistance 4\nverdict sound\nshortest yes\n";
        assert_eq!(printed(&worked::lift(), &sheet), text);
    }

    #[test]
    fn a_lift_that_stays_up_has_no_plan() {
        let mut lift = worked::lift();
        lift.jobs.pop();
        let text = "rounds 3\ndistance none\nverdict goal 0\nshortest no\n";
        assert_eq!(printed(&lift, &[vec![0], vec![1], vec![2]]), text);
    }

    #[test]
    fn a_pause_makes_a_plan_longer() {
        let text = "rounds 2\ndistance 1\nverdict sound\nshortest no\n";
        assert_eq!(printed(&worked::twin(), &[vec![], vec![0, 1]]), text);
    }

    #[test]
    fn a_fact_that_is_added_and_deleted_is_there_after_the_round() {
        let text = "rounds 1\ndistance 1\nverdict sound\nshortest yes\n";
        assert_eq!(printed(&worked::recount(), &[vec![0]]), text);
        assert_eq!(printed(&worked::shared_recount(), &[vec![0, 1]]), text);
    }

    #[test]
    fn large_files_are_refused_whatever_their_bytes_are() {
        let large = [0; MOST_BYTES + 1];
        let report = |task: &[u8], plan: &[u8]| Report::of(task, plan, settle).text();
        assert_eq!(report(&large, &large), "task refused 1 60000\n");
        assert_eq!(report(&large[1..], &large), "task refused 2 0\n");
        let lift = bytes_of(&task_records(&worked::lift()));
        assert_eq!(report(&lift, &large), "plan refused 1 60000\n");
        assert_eq!(report(&lift, &large[1..]), "plan refused 2 0\n");
        assert_eq!(report(b"", &large), "task refused 1 0\n");
    }
}
