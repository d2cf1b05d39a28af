//! The library's calls as they are exported: in C a slice is a pointer and then a length.

// Nothing checks these lines against the library's source, so they follow its table of calls.
extern "C" {
    pub fn florumeja_check(
        task: *const u8,
        task_length: usize,
        weights: *const u8,
        weights_length: usize,
    ) -> u64;
    pub fn florumeja_open(
        task: *const u8,
        task_length: usize,
        room: *mut u64,
        room_length: usize,
    ) -> u64;
    pub fn florumeja_find(
        workspace: *const u64,
        workspace_length: usize,
        room: *mut u64,
        room_length: usize,
    ) -> u64;
    pub fn florumeja_build(
        bay: *const u8,
        bay_length: usize,
        room: *mut u8,
        room_length: usize,
    ) -> u64;
    pub fn florumeja_weight_file(
        words: *const u64,
        words_length: usize,
        room: *mut u8,
        room_length: usize,
    ) -> u64;
    pub fn florumeja_check_line(
        task: *const u8,
        task_length: usize,
        weights: *const u8,
        weights_length: usize,
        room: *mut u8,
        room_length: usize,
    ) -> u64;
    pub fn florumeja_open_partial(
        partial: *const u8,
        partial_length: usize,
        room: *mut u64,
        room_length: usize,
    ) -> u64;
    pub fn florumeja_check_partial(
        partial: *const u8,
        partial_length: usize,
        weights: *const u8,
        weights_length: usize,
    ) -> u64;
    pub fn florumeja_build_partial(
        partial: *const u8,
        partial_length: usize,
        room: *mut u8,
        room_length: usize,
    ) -> u64;
    pub fn florumeja_build_partial_lean(
        partial: *const u8,
        partial_length: usize,
        room: *mut u8,
        room_length: usize,
    ) -> u64;
    pub fn florumeja_silence(
        task: *const u8,
        task_length: usize,
        marks: *const u8,
        marks_length: usize,
        room: *mut u8,
        room_length: usize,
    ) -> u64;
    pub fn florumeja_mend(
        task: *const u8,
        task_length: usize,
        room: *mut u8,
        room_length: usize,
    ) -> u64;
    pub fn florumeja_dropped(
        task: *const u8,
        task_length: usize,
        room: *mut u8,
        room_length: usize,
    ) -> u64;
    pub fn florumeja_pair_fault(
        task: *const u8,
        task_length: usize,
        room: *mut u64,
        room_length: usize,
    ) -> u64;
    pub fn florumeja_display(
        task: *const u8,
        task_length: usize,
        weights: *const u8,
        weights_length: usize,
        room: *mut u64,
        room_length: usize,
    ) -> u64;
    pub fn florumeja_display_partial(
        partial: *const u8,
        partial_length: usize,
        weights: *const u8,
        weights_length: usize,
        room: *mut u64,
        room_length: usize,
    ) -> u64;
    pub fn florumeja_display_bay(
        bay: *const u8,
        bay_length: usize,
        room: *mut u64,
        room_length: usize,
    ) -> u64;
    pub fn florumeja_to_new(
        task: *const u8,
        task_length: usize,
        room: *mut u8,
        room_length: usize,
    ) -> u64;
    pub fn florumeja_to_old(
        task: *const u8,
        task_length: usize,
        room: *mut u8,
        room_length: usize,
    ) -> u64;
    pub fn florumeja_weights_to_new(
        task: *const u8,
        task_length: usize,
        weights: *const u8,
        weights_length: usize,
        room: *mut u8,
        room_length: usize,
    ) -> u64;
    pub fn florumeja_weights_to_old(
        task: *const u8,
        task_length: usize,
        weights: *const u8,
        weights_length: usize,
        room: *mut u8,
        room_length: usize,
    ) -> u64;
    pub fn florumeja_check_new(
        task: *const u8,
        task_length: usize,
        weights: *const u8,
        weights_length: usize,
    ) -> u64;
    pub fn florumeja_check_partial_new(
        partial: *const u8,
        partial_length: usize,
        weights: *const u8,
        weights_length: usize,
    ) -> u64;
    pub fn florumeja_display_new(
        task: *const u8,
        task_length: usize,
        weights: *const u8,
        weights_length: usize,
        room: *mut u64,
        room_length: usize,
    ) -> u64;
}
