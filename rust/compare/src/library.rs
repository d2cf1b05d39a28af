//! The library's functions as they are exported, and safe wrappers over them.

use crate::lent::{Item, Lent};

// In C a slice is a pointer and then a length.
extern "C" {
    fn florumeja_check(
        task: *const u8,
        task_length: usize,
        weights: *const u8,
        weights_length: usize,
    ) -> u64;
    fn florumeja_open(
        task: *const u8,
        task_length: usize,
        room: *mut u64,
        room_length: usize,
    ) -> u64;
    fn florumeja_find(
        workspace: *const u64,
        workspace_length: usize,
        room: *mut u64,
        room_length: usize,
    ) -> u64;
    fn florumeja_add_operator(
        workspace: *mut u64,
        workspace_length: usize,
        count: u64,
        variables: *const u64,
        variables_length: usize,
        befores: *const u64,
        befores_length: usize,
        afters: *const u64,
        afters_length: usize,
    ) -> u64;
    fn florumeja_replace_start(
        workspace: *mut u64,
        workspace_length: usize,
        values: *const u64,
        values_length: usize,
    ) -> u64;
    fn florumeja_replace_goal(
        workspace: *mut u64,
        workspace_length: usize,
        values: *const u64,
        values_length: usize,
    ) -> u64;
    fn florumeja_build(bay: *const u8, bay_length: usize, room: *mut u8, room_length: usize)
        -> u64;
    fn florumeja_line(
        input: *const u8,
        input_length: usize,
        room: *mut u8,
        room_length: usize,
    ) -> u64;
    fn florumeja_weight_file(
        words: *const u64,
        words_length: usize,
        room: *mut u8,
        room_length: usize,
    ) -> u64;
    fn florumeja_check_line(
        task: *const u8,
        task_length: usize,
        weights: *const u8,
        weights_length: usize,
        room: *mut u8,
        room_length: usize,
    ) -> u64;
    fn florumeja_open_partial(
        partial: *const u8,
        partial_length: usize,
        room: *mut u64,
        room_length: usize,
    ) -> u64;
    fn florumeja_check_partial(
        partial: *const u8,
        partial_length: usize,
        weights: *const u8,
        weights_length: usize,
    ) -> u64;
    fn florumeja_build_partial(
        partial: *const u8,
        partial_length: usize,
        room: *mut u8,
        room_length: usize,
    ) -> u64;
    fn florumeja_build_partial_lean(
        partial: *const u8,
        partial_length: usize,
        room: *mut u8,
        room_length: usize,
    ) -> u64;
    fn florumeja_silence(
        task: *const u8,
        task_length: usize,
        marks: *const u8,
        marks_length: usize,
        room: *mut u8,
        room_length: usize,
    ) -> u64;
    fn florumeja_mend(
        task: *const u8,
        task_length: usize,
        room: *mut u8,
        room_length: usize,
    ) -> u64;
    fn florumeja_dropped(
        task: *const u8,
        task_length: usize,
        room: *mut u8,
        room_length: usize,
    ) -> u64;
    fn florumeja_pair_fault(
        task: *const u8,
        task_length: usize,
        room: *mut u64,
        room_length: usize,
    ) -> u64;
    fn florumeja_display(
        task: *const u8,
        task_length: usize,
        weights: *const u8,
        weights_length: usize,
        room: *mut u64,
        room_length: usize,
    ) -> u64;
    fn florumeja_display_partial(
        partial: *const u8,
        partial_length: usize,
        weights: *const u8,
        weights_length: usize,
        room: *mut u64,
        room_length: usize,
    ) -> u64;
    fn florumeja_display_bay(
        bay: *const u8,
        bay_length: usize,
        room: *mut u64,
        room_length: usize,
    ) -> u64;
    fn florumeja_to_new(
        task: *const u8,
        task_length: usize,
        room: *mut u8,
        room_length: usize,
    ) -> u64;
    fn florumeja_to_old(
        task: *const u8,
        task_length: usize,
        room: *mut u8,
        room_length: usize,
    ) -> u64;
    fn florumeja_weights_to_new(
        task: *const u8,
        task_length: usize,
        weights: *const u8,
        weights_length: usize,
        room: *mut u8,
        room_length: usize,
    ) -> u64;
    fn florumeja_weights_to_old(
        task: *const u8,
        task_length: usize,
        weights: *const u8,
        weights_length: usize,
        room: *mut u8,
        room_length: usize,
    ) -> u64;
    fn florumeja_check_new(
        task: *const u8,
        task_length: usize,
        weights: *const u8,
        weights_length: usize,
    ) -> u64;
    fn florumeja_check_partial_new(
        partial: *const u8,
        partial_length: usize,
        weights: *const u8,
        weights_length: usize,
    ) -> u64;
    fn florumeja_display_new(
        task: *const u8,
        task_length: usize,
        weights: *const u8,
        weights_length: usize,
        room: *mut u64,
        room_length: usize,
    ) -> u64;
}

/// A call that reads two slices of bytes.
type Judging = unsafe extern "C" fn(*const u8, usize, *const u8, usize) -> u64;

/// A call that reads one slice and writes into another.
type Filling<From, Into> = unsafe extern "C" fn(*const From, usize, *mut Into, usize) -> u64;

/// A call that reads two slices of bytes and writes into a third.
type Writing<Into> =
    unsafe extern "C" fn(*const u8, usize, *const u8, usize, *mut Into, usize) -> u64;

fn judged(call: Judging, one: &Lent<u8>, other: &Lent<u8>) -> u64 {
    // SAFETY: both slices are alive, and the call only reads them.
    unsafe { call(one.pointer(), one.length(), other.pointer(), other.length()) }
}

fn filled<From: Item, Into: Item>(
    call: Filling<From, Into>,
    input: &Lent<From>,
    room: &mut Lent<Into>,
) -> u64 {
    // SAFETY: both slices are alive and apart; only the room is lent for writing.
    unsafe {
        call(
            input.pointer(),
            input.length(),
            room.pointer_for_writing(),
            room.length(),
        )
    }
}

fn written<Into: Item>(
    call: Writing<Into>,
    one: &Lent<u8>,
    other: &Lent<u8>,
    room: &mut Lent<Into>,
) -> u64 {
    // SAFETY: all slices are alive and apart; only the room is lent for writing.
    unsafe {
        call(
            one.pointer(),
            one.length(),
            other.pointer(),
            other.length(),
            room.pointer_for_writing(),
            room.length(),
        )
    }
}

pub fn check(task: &Lent<u8>, weights: &Lent<u8>) -> u64 {
    judged(florumeja_check, task, weights)
}

pub fn open(task: &Lent<u8>, room: &mut Lent<u64>) -> u64 {
    filled(florumeja_open, task, room)
}

pub fn find(workspace: &Lent<u64>, room: &mut Lent<u64>) -> u64 {
    filled(florumeja_find, workspace, room)
}

pub fn add_operator(
    workspace: &mut Lent<u64>,
    count: u64,
    variables: &Lent<u64>,
    befores: &Lent<u64>,
    afters: &Lent<u64>,
) -> u64 {
    // SAFETY: all slices are alive and apart; only the workspace is lent for writing.
    unsafe {
        florumeja_add_operator(
            workspace.pointer_for_writing(),
            workspace.length(),
            count,
            variables.pointer(),
            variables.length(),
            befores.pointer(),
            befores.length(),
            afters.pointer(),
            afters.length(),
        )
    }
}

pub fn replace_start(workspace: &mut Lent<u64>, values: &Lent<u64>) -> u64 {
    // SAFETY: both slices are alive and apart; only the workspace is lent for writing.
    unsafe {
        florumeja_replace_start(
            workspace.pointer_for_writing(),
            workspace.length(),
            values.pointer(),
            values.length(),
        )
    }
}

pub fn replace_goal(workspace: &mut Lent<u64>, values: &Lent<u64>) -> u64 {
    // SAFETY: both slices are alive and apart; only the workspace is lent for writing.
    unsafe {
        florumeja_replace_goal(
            workspace.pointer_for_writing(),
            workspace.length(),
            values.pointer(),
            values.length(),
        )
    }
}

pub fn build(bay: &Lent<u8>, room: &mut Lent<u8>) -> u64 {
    filled(florumeja_build, bay, room)
}

pub fn line(input: &Lent<u8>, room: &mut Lent<u8>) -> u64 {
    filled(florumeja_line, input, room)
}

pub fn weight_file(words: &Lent<u64>, room: &mut Lent<u8>) -> u64 {
    filled(florumeja_weight_file, words, room)
}

pub fn check_line(task: &Lent<u8>, weights: &Lent<u8>, room: &mut Lent<u8>) -> u64 {
    written(florumeja_check_line, task, weights, room)
}

pub fn open_partial(partial: &Lent<u8>, room: &mut Lent<u64>) -> u64 {
    filled(florumeja_open_partial, partial, room)
}

pub fn check_partial(partial: &Lent<u8>, weights: &Lent<u8>) -> u64 {
    judged(florumeja_check_partial, partial, weights)
}

pub fn build_partial(partial: &Lent<u8>, room: &mut Lent<u8>) -> u64 {
    filled(florumeja_build_partial, partial, room)
}

pub fn build_partial_lean(partial: &Lent<u8>, room: &mut Lent<u8>) -> u64 {
    filled(florumeja_build_partial_lean, partial, room)
}

pub fn silence(task: &Lent<u8>, marks: &Lent<u8>, room: &mut Lent<u8>) -> u64 {
    written(florumeja_silence, task, marks, room)
}

pub fn mend(task: &Lent<u8>, room: &mut Lent<u8>) -> u64 {
    filled(florumeja_mend, task, room)
}

pub fn dropped(task: &Lent<u8>, room: &mut Lent<u8>) -> u64 {
    filled(florumeja_dropped, task, room)
}

pub fn pair_fault(task: &Lent<u8>, room: &mut Lent<u64>) -> u64 {
    filled(florumeja_pair_fault, task, room)
}

pub fn display(task: &Lent<u8>, weights: &Lent<u8>, room: &mut Lent<u64>) -> u64 {
    written(florumeja_display, task, weights, room)
}

pub fn display_partial(partial: &Lent<u8>, weights: &Lent<u8>, room: &mut Lent<u64>) -> u64 {
    written(florumeja_display_partial, partial, weights, room)
}

pub fn display_bay(bay: &Lent<u8>, room: &mut Lent<u64>) -> u64 {
    filled(florumeja_display_bay, bay, room)
}

pub fn to_new(task: &Lent<u8>, room: &mut Lent<u8>) -> u64 {
    filled(florumeja_to_new, task, room)
}

pub fn to_old(task: &Lent<u8>, room: &mut Lent<u8>) -> u64 {
    filled(florumeja_to_old, task, room)
}

pub fn weights_to_new(task: &Lent<u8>, weights: &Lent<u8>, room: &mut Lent<u8>) -> u64 {
    written(florumeja_weights_to_new, task, weights, room)
}

pub fn weights_to_old(task: &Lent<u8>, weights: &Lent<u8>, room: &mut Lent<u8>) -> u64 {
    written(florumeja_weights_to_old, task, weights, room)
}

pub fn check_new(task: &Lent<u8>, weights: &Lent<u8>) -> u64 {
    judged(florumeja_check_new, task, weights)
}

pub fn check_partial_new(partial: &Lent<u8>, weights: &Lent<u8>) -> u64 {
    judged(florumeja_check_partial_new, partial, weights)
}

pub fn display_new(task: &Lent<u8>, weights: &Lent<u8>, room: &mut Lent<u64>) -> u64 {
    written(florumeja_display_new, task, weights, room)
}
