//! The proved library's functions as they are exported, and safe wrappers over them.

// In C a slice is a pointer and then a length.
extern "C" {
    fn florumeja_open(
        task: *const u8,
        task_length: usize,
        room: *mut u64,
        room_length: usize,
    ) -> u64;
    fn florumeja_find(
        workspace: *const u64,
        workspace_length: usize,
        room: *mut u64,
        room_length: usize,
    ) -> u64;
    fn florumeja_check(
        task: *const u8,
        task_length: usize,
        weights: *const u8,
        weights_length: usize,
    ) -> u64;
    fn florumeja_check_new(
        task: *const u8,
        task_length: usize,
        weights: *const u8,
        weights_length: usize,
    ) -> u64;
    fn florumeja_weight_file(
        words: *const u64,
        words_length: usize,
        room: *mut u8,
        room_length: usize,
    ) -> u64;
    fn florumeja_build(bay: *const u8, bay_length: usize, room: *mut u8, room_length: usize)
        -> u64;
    fn florumeja_silence(
        task: *const u8,
        task_length: usize,
        marks: *const u8,
        marks_length: usize,
        room: *mut u8,
        room_length: usize,
    ) -> u64;
    fn florumeja_build_partial(
        partial: *const u8,
        partial_length: usize,
        room: *mut u8,
        room_length: usize,
    ) -> u64;
    fn florumeja_open_partial(
        partial: *const u8,
        partial_length: usize,
        room: *mut u64,
        room_length: usize,
    ) -> u64;
    fn florumeja_mend(
        task: *const u8,
        task_length: usize,
        room: *mut u8,
        room_length: usize,
    ) -> u64;
    fn florumeja_pair_fault(
        task: *const u8,
        task_length: usize,
        room: *mut u64,
        room_length: usize,
    ) -> u64;
    fn florumeja_to_new(
        task: *const u8,
        task_length: usize,
        room: *mut u8,
        room_length: usize,
    ) -> u64;
    fn florumeja_to_old(
        task: *const u8,
        task_length: usize,
        room: *mut u8,
        room_length: usize,
    ) -> u64;
    fn florumeja_weights_to_new(
        task: *const u8,
        task_length: usize,
        weights: *const u8,
        weights_length: usize,
        room: *mut u8,
        room_length: usize,
    ) -> u64;
    fn florumeja_weights_to_old(
        task: *const u8,
        task_length: usize,
        weights: *const u8,
        weights_length: usize,
        room: *mut u8,
        room_length: usize,
    ) -> u64;
}

pub fn open(task: &[u8], room: &mut [u64]) -> u64 {
    // SAFETY: both slices are alive and apart; only the room is lent for writing.
    unsafe { florumeja_open(task.as_ptr(), task.len(), room.as_mut_ptr(), room.len()) }
}

pub fn find(workspace: &[u64], room: &mut [u64]) -> u64 {
    // SAFETY: both slices are alive and apart; only the room is lent for writing.
    unsafe {
        florumeja_find(
            workspace.as_ptr(),
            workspace.len(),
            room.as_mut_ptr(),
            room.len(),
        )
    }
}

pub fn check(task: &[u8], weights: &[u8]) -> u64 {
    // SAFETY: both slices are alive, and nothing is lent for writing.
    unsafe { florumeja_check(task.as_ptr(), task.len(), weights.as_ptr(), weights.len()) }
}

pub fn check_new(task: &[u8], weights: &[u8]) -> u64 {
    // SAFETY: both slices are alive, and nothing is lent for writing.
    unsafe { florumeja_check_new(task.as_ptr(), task.len(), weights.as_ptr(), weights.len()) }
}

pub fn weight_file(words: &[u64], room: &mut [u8]) -> u64 {
    // SAFETY: both slices are alive and apart; only the room is lent for writing.
    unsafe { florumeja_weight_file(words.as_ptr(), words.len(), room.as_mut_ptr(), room.len()) }
}

pub fn build(bay: &[u8], room: &mut [u8]) -> u64 {
    // SAFETY: both slices are alive and apart; only the room is lent for writing.
    unsafe { florumeja_build(bay.as_ptr(), bay.len(), room.as_mut_ptr(), room.len()) }
}

pub fn silence(task: &[u8], marks: &[u8], room: &mut [u8]) -> u64 {
    // SAFETY: the three slices are alive and apart; only the room is lent for writing.
    unsafe {
        florumeja_silence(
            task.as_ptr(),
            task.len(),
            marks.as_ptr(),
            marks.len(),
            room.as_mut_ptr(),
            room.len(),
        )
    }
}

pub fn build_partial(partial: &[u8], room: &mut [u8]) -> u64 {
    // SAFETY: both slices are alive and apart; only the room is lent for writing.
    unsafe {
        florumeja_build_partial(
            partial.as_ptr(),
            partial.len(),
            room.as_mut_ptr(),
            room.len(),
        )
    }
}

pub fn open_partial(partial: &[u8], room: &mut [u64]) -> u64 {
    // SAFETY: both slices are alive and apart; only the room is lent for writing.
    unsafe {
        florumeja_open_partial(
            partial.as_ptr(),
            partial.len(),
            room.as_mut_ptr(),
            room.len(),
        )
    }
}

pub fn mend(task: &[u8], room: &mut [u8]) -> u64 {
    // SAFETY: both slices are alive and apart; only the room is lent for writing.
    unsafe { florumeja_mend(task.as_ptr(), task.len(), room.as_mut_ptr(), room.len()) }
}

pub fn pair_fault(task: &[u8], room: &mut [u64]) -> u64 {
    // SAFETY: both slices are alive and apart; only the room is lent for writing.
    unsafe { florumeja_pair_fault(task.as_ptr(), task.len(), room.as_mut_ptr(), room.len()) }
}

pub fn to_new(task: &[u8], room: &mut [u8]) -> u64 {
    // SAFETY: both slices are alive and apart; only the room is lent for writing.
    unsafe { florumeja_to_new(task.as_ptr(), task.len(), room.as_mut_ptr(), room.len()) }
}

pub fn to_old(task: &[u8], room: &mut [u8]) -> u64 {
    // SAFETY: both slices are alive and apart; only the room is lent for writing.
    unsafe { florumeja_to_old(task.as_ptr(), task.len(), room.as_mut_ptr(), room.len()) }
}

pub fn weights_to_new(task: &[u8], weights: &[u8], room: &mut [u8]) -> u64 {
    // SAFETY: the three slices are alive and apart; only the room is lent for writing.
    unsafe {
        florumeja_weights_to_new(
            task.as_ptr(),
            task.len(),
            weights.as_ptr(),
            weights.len(),
            room.as_mut_ptr(),
            room.len(),
        )
    }
}

pub fn weights_to_old(task: &[u8], weights: &[u8], room: &mut [u8]) -> u64 {
    // SAFETY: the three slices are alive and apart; only the room is lent for writing.
    unsafe {
        florumeja_weights_to_old(
            task.as_ptr(),
            task.len(),
            weights.as_ptr(),
            weights.len(),
            room.as_mut_ptr(),
            room.len(),
        )
    }
}
