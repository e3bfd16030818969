//! The library's functions as `include/cellang.h` declares them.

/// How many entries a reply has: number, place, and the spelling: where it is,
/// its first byte and its length.
pub const REPLY: usize = 5;

/// How many entries the answer about the profile has: rule, number and place.
pub const PROFILE: usize = 3;

/// How many entries a report has: number, place, cell, steps, count, the
/// spelling's three, and the line of a value list.
pub const REPORT: usize = 9;

/// How many entries a writing has: number, place, the length of the text, and
/// the spelling's three.
pub const WRITTEN: usize = 6;

/// How many entries answer a question about row counts: number and value.
pub const ROWS: usize = 2;

/// How many entries border rows have: number, place, how many there are before
/// and after a band, and the spelling's three.
pub const BORDER: usize = 7;

/// How many entries a plan has: number, place, how many bands there are, and
/// the spelling's three.
pub const PLANNED: usize = 6;

/// The spelling is in the source.
pub const IN_SOURCE: u32 = 1;

/// The spelling is in the built-in list.
pub const IN_LIST: u32 = 2;

/// How many entries a comparison has: number and total.
pub const COMPARISON: usize = 2;

/// A function that runs a source.
pub type RunCall = unsafe extern "C" fn(
    source: *const u8,
    source_length: usize,
    list: *const u8,
    list_length: usize,
    words: *mut u32,
    words_length: usize,
    names: *mut u32,
    names_length: usize,
    sizes: *const u32,
    sizes_length: usize,
    grid: *mut i32,
    grid_length: usize,
    scratch: *mut i32,
    scratch_length: usize,
    marks: *mut u8,
    marks_length: usize,
    start: i64,
    steps: i64,
    report: *mut u64,
    report_length: usize,
) -> u32;

/// A function that runs a source with a value list.
pub type ListRunCall = unsafe extern "C" fn(
    source: *const u8,
    source_length: usize,
    list: *const u8,
    list_length: usize,
    words: *mut u32,
    words_length: usize,
    names: *mut u32,
    names_length: usize,
    sizes: *const u32,
    sizes_length: usize,
    grid: *mut i32,
    grid_length: usize,
    scratch: *mut i32,
    scratch_length: usize,
    marks: *mut u8,
    marks_length: usize,
    values: *const u8,
    values_length: usize,
    start: i64,
    steps: i64,
    report: *mut u64,
    report_length: usize,
) -> u32;

/// A function that runs a source with a value list and keeps row counts.
pub type CountingRunCall = unsafe extern "C" fn(
    source: *const u8,
    source_length: usize,
    list: *const u8,
    list_length: usize,
    words: *mut u32,
    words_length: usize,
    names: *mut u32,
    names_length: usize,
    sizes: *const u32,
    sizes_length: usize,
    grid: *mut i32,
    grid_length: usize,
    scratch: *mut i32,
    scratch_length: usize,
    marks: *mut u8,
    marks_length: usize,
    values: *const u8,
    values_length: usize,
    start: i64,
    steps: i64,
    counts: *mut u32,
    counts_length: usize,
    field: u32,
    report: *mut u64,
    report_length: usize,
) -> u32;

extern "C" {
    pub fn cellang_check(
        source: *const u8,
        source_length: usize,
        list: *const u8,
        list_length: usize,
        words: *mut u32,
        words_length: usize,
        names: *mut u32,
        names_length: usize,
        reply: *mut u32,
        reply_length: usize,
    ) -> u32;

    pub fn cellang_check_one_move(
        source: *const u8,
        source_length: usize,
        list: *const u8,
        list_length: usize,
        words: *mut u32,
        words_length: usize,
        names: *mut u32,
        names_length: usize,
        told: *mut u32,
        told_length: usize,
    ) -> u32;

    pub fn cellang_run_full(
        source: *const u8,
        source_length: usize,
        list: *const u8,
        list_length: usize,
        words: *mut u32,
        words_length: usize,
        names: *mut u32,
        names_length: usize,
        sizes: *const u32,
        sizes_length: usize,
        grid: *mut i32,
        grid_length: usize,
        scratch: *mut i32,
        scratch_length: usize,
        marks: *mut u8,
        marks_length: usize,
        start: i64,
        steps: i64,
        report: *mut u64,
        report_length: usize,
    ) -> u32;

    pub fn cellang_run_quiet(
        source: *const u8,
        source_length: usize,
        list: *const u8,
        list_length: usize,
        words: *mut u32,
        words_length: usize,
        names: *mut u32,
        names_length: usize,
        sizes: *const u32,
        sizes_length: usize,
        grid: *mut i32,
        grid_length: usize,
        scratch: *mut i32,
        scratch_length: usize,
        marks: *mut u8,
        marks_length: usize,
        start: i64,
        steps: i64,
        report: *mut u64,
        report_length: usize,
    ) -> u32;

    pub fn cellang_run_full_list(
        source: *const u8,
        source_length: usize,
        list: *const u8,
        list_length: usize,
        words: *mut u32,
        words_length: usize,
        names: *mut u32,
        names_length: usize,
        sizes: *const u32,
        sizes_length: usize,
        grid: *mut i32,
        grid_length: usize,
        scratch: *mut i32,
        scratch_length: usize,
        marks: *mut u8,
        marks_length: usize,
        values: *const u8,
        values_length: usize,
        start: i64,
        steps: i64,
        report: *mut u64,
        report_length: usize,
    ) -> u32;

    pub fn cellang_run_quiet_list(
        source: *const u8,
        source_length: usize,
        list: *const u8,
        list_length: usize,
        words: *mut u32,
        words_length: usize,
        names: *mut u32,
        names_length: usize,
        sizes: *const u32,
        sizes_length: usize,
        grid: *mut i32,
        grid_length: usize,
        scratch: *mut i32,
        scratch_length: usize,
        marks: *mut u8,
        marks_length: usize,
        values: *const u8,
        values_length: usize,
        start: i64,
        steps: i64,
        report: *mut u64,
        report_length: usize,
    ) -> u32;

    pub fn cellang_run_pausing(
        source: *const u8,
        source_length: usize,
        list: *const u8,
        list_length: usize,
        words: *mut u32,
        words_length: usize,
        names: *mut u32,
        names_length: usize,
        sizes: *const u32,
        sizes_length: usize,
        grid: *mut i32,
        grid_length: usize,
        scratch: *mut i32,
        scratch_length: usize,
        marks: *mut u8,
        marks_length: usize,
        values: *const u8,
        values_length: usize,
        start: i64,
        steps: i64,
        report: *mut u64,
        report_length: usize,
    ) -> u32;

    pub fn cellang_run_resuming(
        source: *const u8,
        source_length: usize,
        list: *const u8,
        list_length: usize,
        words: *mut u32,
        words_length: usize,
        names: *mut u32,
        names_length: usize,
        sizes: *const u32,
        sizes_length: usize,
        grid: *mut i32,
        grid_length: usize,
        scratch: *mut i32,
        scratch_length: usize,
        marks: *mut u8,
        marks_length: usize,
        values: *const u8,
        values_length: usize,
        start: i64,
        steps: i64,
        report: *mut u64,
        report_length: usize,
    ) -> u32;

    pub fn cellang_run_full_counts(
        source: *const u8,
        source_length: usize,
        list: *const u8,
        list_length: usize,
        words: *mut u32,
        words_length: usize,
        names: *mut u32,
        names_length: usize,
        sizes: *const u32,
        sizes_length: usize,
        grid: *mut i32,
        grid_length: usize,
        scratch: *mut i32,
        scratch_length: usize,
        marks: *mut u8,
        marks_length: usize,
        values: *const u8,
        values_length: usize,
        start: i64,
        steps: i64,
        counts: *mut u32,
        counts_length: usize,
        field: u32,
        report: *mut u64,
        report_length: usize,
    ) -> u32;

    pub fn cellang_run_quiet_counts(
        source: *const u8,
        source_length: usize,
        list: *const u8,
        list_length: usize,
        words: *mut u32,
        words_length: usize,
        names: *mut u32,
        names_length: usize,
        sizes: *const u32,
        sizes_length: usize,
        grid: *mut i32,
        grid_length: usize,
        scratch: *mut i32,
        scratch_length: usize,
        marks: *mut u8,
        marks_length: usize,
        values: *const u8,
        values_length: usize,
        start: i64,
        steps: i64,
        counts: *mut u32,
        counts_length: usize,
        field: u32,
        report: *mut u64,
        report_length: usize,
    ) -> u32;

    pub fn cellang_run_pausing_counts(
        source: *const u8,
        source_length: usize,
        list: *const u8,
        list_length: usize,
        words: *mut u32,
        words_length: usize,
        names: *mut u32,
        names_length: usize,
        sizes: *const u32,
        sizes_length: usize,
        grid: *mut i32,
        grid_length: usize,
        scratch: *mut i32,
        scratch_length: usize,
        marks: *mut u8,
        marks_length: usize,
        values: *const u8,
        values_length: usize,
        start: i64,
        steps: i64,
        counts: *mut u32,
        counts_length: usize,
        field: u32,
        report: *mut u64,
        report_length: usize,
    ) -> u32;

    pub fn cellang_run_resuming_counts(
        source: *const u8,
        source_length: usize,
        list: *const u8,
        list_length: usize,
        words: *mut u32,
        words_length: usize,
        names: *mut u32,
        names_length: usize,
        sizes: *const u32,
        sizes_length: usize,
        grid: *mut i32,
        grid_length: usize,
        scratch: *mut i32,
        scratch_length: usize,
        marks: *mut u8,
        marks_length: usize,
        values: *const u8,
        values_length: usize,
        start: i64,
        steps: i64,
        counts: *mut u32,
        counts_length: usize,
        field: u32,
        report: *mut u64,
        report_length: usize,
    ) -> u32;

    pub fn cellang_zeros_in_rows(
        counts: *const u32,
        counts_length: usize,
        first: u32,
        last: u32,
        reply: *mut u64,
        reply_length: usize,
    ) -> u32;

    pub fn cellang_first_zero_row(
        counts: *const u32,
        counts_length: usize,
        reply: *mut u64,
        reply_length: usize,
    ) -> u32;

    pub fn cellang_border_rows(
        source: *const u8,
        source_length: usize,
        list: *const u8,
        list_length: usize,
        words: *mut u32,
        words_length: usize,
        names: *mut u32,
        names_length: usize,
        sizes: *const u32,
        sizes_length: usize,
        reply: *mut u32,
        reply_length: usize,
    ) -> u32;

    pub fn cellang_check_plan(
        source: *const u8,
        source_length: usize,
        list: *const u8,
        list_length: usize,
        words: *mut u32,
        words_length: usize,
        names: *mut u32,
        names_length: usize,
        sizes: *const u32,
        sizes_length: usize,
        held: u32,
        plan: *const u32,
        plan_length: usize,
        reply: *mut u32,
        reply_length: usize,
    ) -> u32;

    pub fn cellang_plan_bands(
        source: *const u8,
        source_length: usize,
        list: *const u8,
        list_length: usize,
        words: *mut u32,
        words_length: usize,
        names: *mut u32,
        names_length: usize,
        sizes: *const u32,
        sizes_length: usize,
        held: u32,
        bands: *mut u32,
        bands_length: usize,
        reply: *mut u32,
        reply_length: usize,
    ) -> u32;

    pub fn cellang_step_band(
        source: *const u8,
        source_length: usize,
        list: *const u8,
        list_length: usize,
        words: *mut u32,
        words_length: usize,
        names: *mut u32,
        names_length: usize,
        sizes: *const u32,
        sizes_length: usize,
        first: u32,
        last: u32,
        held: u32,
        rows: *const i32,
        rows_length: usize,
        room: *mut i32,
        room_length: usize,
        time: i64,
        report: *mut u64,
        report_length: usize,
    ) -> u32;

    pub fn cellang_run_banded(
        source: *const u8,
        source_length: usize,
        list: *const u8,
        list_length: usize,
        words: *mut u32,
        words_length: usize,
        names: *mut u32,
        names_length: usize,
        sizes: *const u32,
        sizes_length: usize,
        grid: *mut i32,
        grid_length: usize,
        scratch: *mut i32,
        scratch_length: usize,
        marks: *mut u8,
        marks_length: usize,
        values: *const u8,
        values_length: usize,
        start: i64,
        steps: i64,
        counts: *mut u32,
        counts_length: usize,
        counted: u32,
        field: u32,
        held: u32,
        plan: *const u32,
        plan_length: usize,
        room: *mut i32,
        room_length: usize,
        report: *mut u64,
        report_length: usize,
    ) -> u32;

    pub fn cellang_write_list(
        source: *const u8,
        source_length: usize,
        list: *const u8,
        list_length: usize,
        words: *mut u32,
        words_length: usize,
        names: *mut u32,
        names_length: usize,
        sizes: *const u32,
        sizes_length: usize,
        earlier: *const i32,
        earlier_length: usize,
        later: *const i32,
        later_length: usize,
        time: i64,
        room: *mut u8,
        room_length: usize,
        reply: *mut u64,
        reply_length: usize,
    ) -> u32;

    pub fn cellang_compare(
        left: *const i32,
        left_length: usize,
        right: *const i32,
        right_length: usize,
        k: usize,
        room: *mut i32,
        room_length: usize,
        reply: *mut u32,
        reply_length: usize,
    ) -> u32;
}

#[cfg(test)]
mod tests {
    use super::{
        BORDER, COMPARISON, IN_LIST, IN_SOURCE, PLANNED, PROFILE, REPLY, REPORT, ROWS, WRITTEN,
    };

    #[test]
    fn the_header_says_the_same() {
        let header = include_str!("../../../include/cellang.h");
        let words: Vec<&str> = header.split_whitespace().collect();
        let named = |name: &str| {
            let at = words.windows(2).position(|two| two == [name, "="])?;
            words[at + 2].trim_end_matches(',').parse::<usize>().ok()
        };
        assert_eq!(named("CELLANG_REPLY_LENGTH"), Some(REPLY));
        assert_eq!(named("CELLANG_REPLY_SPELLING"), Some(2));
        assert_eq!(named("CELLANG_REPLY_SPELLING_START"), Some(3));
        assert_eq!(named("CELLANG_REPLY_SPELLING_LENGTH"), Some(4));
        assert_eq!(named("CELLANG_PROFILE_LENGTH"), Some(PROFILE));
        assert_eq!(named("CELLANG_PROFILE_NUMBER"), Some(1));
        assert_eq!(named("CELLANG_PROFILE_PLACE"), Some(2));
        assert_eq!(named("CELLANG_REPORT_LENGTH"), Some(REPORT));
        assert_eq!(named("CELLANG_REPORT_SPELLING"), Some(5));
        assert_eq!(named("CELLANG_REPORT_SPELLING_START"), Some(6));
        assert_eq!(named("CELLANG_REPORT_SPELLING_LENGTH"), Some(7));
        assert_eq!(named("CELLANG_REPORT_LINE"), Some(8));
        assert_eq!(named("CELLANG_WRITTEN_LENGTH"), Some(WRITTEN));
        assert_eq!(named("CELLANG_WRITTEN_TEXT"), Some(2));
        assert_eq!(named("CELLANG_WRITTEN_SPELLING"), Some(3));
        assert_eq!(named("CELLANG_WRITTEN_SPELLING_START"), Some(4));
        assert_eq!(named("CELLANG_WRITTEN_SPELLING_LENGTH"), Some(5));
        assert_eq!(named("CELLANG_ROWS_LENGTH"), Some(ROWS));
        assert_eq!(named("CELLANG_ROWS_VALUE"), Some(1));
        assert_eq!(named("CELLANG_BORDER_LENGTH"), Some(BORDER));
        assert_eq!(named("CELLANG_BORDER_BEFORE"), Some(2));
        assert_eq!(named("CELLANG_BORDER_BEHIND"), Some(3));
        assert_eq!(named("CELLANG_BORDER_SPELLING"), Some(4));
        assert_eq!(named("CELLANG_BORDER_SPELLING_START"), Some(5));
        assert_eq!(named("CELLANG_BORDER_SPELLING_LENGTH"), Some(6));
        assert_eq!(named("CELLANG_PLANNED_LENGTH"), Some(PLANNED));
        assert_eq!(named("CELLANG_PLANNED_BANDS"), Some(2));
        assert_eq!(named("CELLANG_PLANNED_SPELLING"), Some(3));
        assert_eq!(named("CELLANG_PLANNED_SPELLING_START"), Some(4));
        assert_eq!(named("CELLANG_PLANNED_SPELLING_LENGTH"), Some(5));
        assert_eq!(named("CELLANG_COMPARISON_LENGTH"), Some(COMPARISON));
        assert_eq!(named("CELLANG_SPELLING_NONE"), Some(0));
        assert_eq!(
            named("CELLANG_SPELLING_IN_SOURCE"),
            Some(IN_SOURCE as usize)
        );
        assert_eq!(named("CELLANG_SPELLING_IN_LIST"), Some(IN_LIST as usize));
    }
}
