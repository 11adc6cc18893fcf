//! The two functions of the library, as `docs/boundary.md` has them, in safe wrappers.

/// What `lekhnop_table` tells, with `settled` as the byte that it is in memory.
#[repr(C)]
#[derive(Clone, Copy, PartialEq, Eq, Debug)]
pub struct Answer {
    pub number: u8,
    pub settled: u8,
    pub layer: u16,
    pub place: usize,
}

unsafe extern "C" {
    fn lekhnop_report(
        task_file: *const u8,
        task_bytes: usize,
        plan_file: *const u8,
        plan_bytes: usize,
        text: *mut u8,
        room: usize,
    ) -> usize;

    fn lekhnop_table(
        task_file: *const u8,
        task_bytes: usize,
        pile: u8,
        withheld: *const u8,
        withheld_bytes: usize,
        start: *const u8,
        start_bytes: usize,
        rule: u8,
        growings: u16,
        table: *mut u16,
        entries: usize,
        grown: *mut Answer,
    );
}

/// What is grown: the task's pile and the rule, as the bytes and lists that the library takes.
#[derive(Clone, Debug, Default)]
pub struct Count {
    pub pile: u8,
    pub withheld: Vec<u8>,
    pub start: Vec<u8>,
    pub rule: u8,
}

/// Writes the report of two files to `text` if there is room for it, and tells how long it is.
pub fn report(task_file: &[u8], plan_file: &[u8], text: &mut [u8]) -> usize {
    // SAFETY: each pointer comes with the length of its slice, and only `text`, which is borrowed alone, is written.
    unsafe {
        lekhnop_report(
            task_file.as_ptr(),
            task_file.len(),
            plan_file.as_ptr(),
            plan_file.len(),
            text.as_mut_ptr(),
            text.len(),
        )
    }
}

/// Grows the table of a count so many times, or until it is settled.
pub fn table(task_file: &[u8], count: &Count, growings: u16, table: &mut [u16]) -> Answer {
    // No answer has these numbers, so that one that isn't written in full is seen. `settled` has to be 0 or 1 here, and is now the
    // one and now the other.
    let mut answer = Answer {
        number: 0xEE,
        settled: (growings % 2) as u8,
        layer: 0xEEEE,
        place: 0xEEEE_EEEE,
    };
    // SAFETY: each pointer comes with the length of its slice, and only `table` and `answer`, which are borrowed
    // alone, are written. `Answer` has the layout of the struct in the page, and holds whatever byte `settled` is.
    unsafe {
        lekhnop_table(
            task_file.as_ptr(),
            task_file.len(),
            count.pile,
            count.withheld.as_ptr(),
            count.withheld.len(),
            count.start.as_ptr(),
            count.start.len(),
            count.rule,
            growings,
            table.as_mut_ptr(),
            table.len(),
            &mut answer,
        );
    }
    answer
}
