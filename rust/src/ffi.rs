//! The functions of the static library, as `include/wulfrenda.h` declares them. A slice crosses as a pointer and a number of elements, a record too: `RECORD_LEN` of
//! them, and any other number is refused. What the header calls `loop` is `period` here.

extern "C" {
    pub fn wulfrenda_version() -> u32;

    pub fn wulfrenda_colour_set(position: u8) -> u8;

    pub fn wulfrenda_read(
        bytes: *const u8,
        bytes_len: usize,
        record: *mut u8,
        record_len: usize,
        offset: *mut usize,
    ) -> u8;

    pub fn wulfrenda_read_hanoi(
        text: *const u8,
        text_len: usize,
        record: *mut u8,
        record_len: usize,
        shared: *mut usize,
    ) -> u8;

    pub fn wulfrenda_translate(
        record: *const u8,
        record_len: usize,
        node_masks: *mut u64,
        node_masks_len: usize,
        node_parents: *mut u16,
        node_parents_len: usize,
        node_priorities: *mut u8,
        node_priorities_len: usize,
        state_sources: *mut u8,
        state_sources_len: usize,
        state_leaves: *mut u16,
        state_leaves_len: usize,
        row_targets: *mut u16,
        row_targets_len: usize,
        row_priorities: *mut u8,
        row_priorities_len: usize,
        counts: *mut u16,
    ) -> u8;

    pub fn wulfrenda_translate_bytes(
        bytes: *const u8,
        bytes_len: usize,
        node_masks: *mut u64,
        node_masks_len: usize,
        node_parents: *mut u16,
        node_parents_len: usize,
        node_priorities: *mut u8,
        node_priorities_len: usize,
        state_sources: *mut u8,
        state_sources_len: usize,
        state_leaves: *mut u16,
        state_leaves_len: usize,
        row_targets: *mut u16,
        row_targets_len: usize,
        row_priorities: *mut u8,
        row_priorities_len: usize,
        counts: *mut u16,
        offset: *mut usize,
    ) -> u8;

    pub fn wulfrenda_solve(
        record: *const u8,
        record_len: usize,
        owners: *const u8,
        owners_len: usize,
        node_masks: *mut u64,
        node_masks_len: usize,
        node_parents: *mut u16,
        node_parents_len: usize,
        node_priorities: *mut u8,
        node_priorities_len: usize,
        state_sources: *mut u8,
        state_sources_len: usize,
        state_leaves: *mut u16,
        state_leaves_len: usize,
        row_targets: *mut u16,
        row_targets_len: usize,
        row_priorities: *mut u8,
        row_priorities_len: usize,
        state_winners: *mut u8,
        state_winners_len: usize,
        state_letters: *mut u8,
        state_letters_len: usize,
        counts: *mut u16,
    ) -> u8;

    pub fn wulfrenda_solve_bytes(
        bytes: *const u8,
        bytes_len: usize,
        owners: *const u8,
        owners_len: usize,
        node_masks: *mut u64,
        node_masks_len: usize,
        node_parents: *mut u16,
        node_parents_len: usize,
        node_priorities: *mut u8,
        node_priorities_len: usize,
        state_sources: *mut u8,
        state_sources_len: usize,
        state_leaves: *mut u16,
        state_leaves_len: usize,
        row_targets: *mut u16,
        row_targets_len: usize,
        row_priorities: *mut u8,
        row_priorities_len: usize,
        state_winners: *mut u8,
        state_winners_len: usize,
        state_letters: *mut u8,
        state_letters_len: usize,
        counts: *mut u16,
        offset: *mut usize,
    ) -> u8;

    pub fn wulfrenda_run(
        letters: u8,
        row_targets: *const u16,
        row_targets_len: usize,
        row_priorities: *const u8,
        row_priorities_len: usize,
        state: *mut u16,
        letter: u8,
        priority: *mut u8,
    ) -> u8;

    pub fn wulfrenda_judge_policy(
        record: *const u8,
        record_len: usize,
        state: u8,
        stem: *const u8,
        stem_len: usize,
        period: *const u8,
        period_len: usize,
        colours: *mut u8,
        accepted: *mut u8,
    ) -> u8;

    pub fn wulfrenda_judge_rows(
        letters: u8,
        row_targets: *const u16,
        row_targets_len: usize,
        row_priorities: *const u8,
        row_priorities_len: usize,
        state: u16,
        stem: *const u8,
        stem_len: usize,
        period: *const u8,
        period_len: usize,
        least: *mut u8,
    ) -> u8;

    pub fn wulfrenda_compare(
        first: *const u8,
        first_len: usize,
        second: *const u8,
        second_len: usize,
        same: *mut u8,
    ) -> u8;
}
