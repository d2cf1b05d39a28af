//! Stands in for the library: the same functions over the reference, with faults to plant.

mod bays;
mod faults;
mod files;
mod forms;
mod found_by;
mod kinds;
mod limits;
mod mending;
mod partials;
mod places;
mod settling;
mod words;
mod written;

pub use faults::plant_from_environment;
#[cfg(test)]
pub use faults::{plant, Fault};
#[cfg(test)]
pub use found_by::FOUND_BY;

use bays::build;
use faults::{planted, Fault::*};
use files::{check, open};
use forms::misnumbered;
use kinds::{convert, convert_weights};
use mending::{dropped, mend, pair_fault};
use partials::{build_partial, build_partial_lean, check_partial, open_partial, silence};
use places::{display, display_bay, display_partial};
use reference::kinds::Kind;
use reference::workspace::Record;
use words::{add_operator, find, replace_goal, replace_start};
use written::{print, print_check, weight_file};

/// Refused 8.
const NO_ROOM: u64 = (3 << 32) + 8;

/// A lent slice.
///
/// # Safety
/// The pointer leads to so many items that nobody writes meanwhile.
unsafe fn lent<'a, Item>(pointer: *const Item, length: usize) -> &'a [Item] {
    std::slice::from_raw_parts(pointer, length)
}

/// A slice lent for writing.
///
/// # Safety
/// The pointer leads to so many items that nobody else uses meanwhile.
unsafe fn lent_for_writing<'a, Item>(pointer: *mut Item, length: usize) -> &'a mut [Item] {
    std::slice::from_raw_parts_mut(pointer, length)
}

#[no_mangle]
unsafe extern "C" fn florumeja_check(
    task: *const u8,
    task_length: usize,
    weights: *const u8,
    weights_length: usize,
) -> u64 {
    let (task_bytes, weight_bytes) = (lent(task, task_length), lent(weights, weights_length));
    let result = check(Kind::Old, task_bytes, weight_bytes);
    if planted(WritesInput) && task_length > 0 {
        task.cast_mut().write_volatile(0);
    }
    misnumbered(result, FormsAsBefore)
}

#[no_mangle]
unsafe extern "C" fn florumeja_open(
    task: *const u8,
    task_length: usize,
    room: *mut u64,
    room_length: usize,
) -> u64 {
    let result = open(lent(task, task_length), lent_for_writing(room, room_length));
    misnumbered(result, FormsAsBefore)
}

#[no_mangle]
unsafe extern "C" fn florumeja_find(
    workspace: *const u64,
    workspace_length: usize,
    room: *mut u64,
    room_length: usize,
) -> u64 {
    let result = find(
        lent(workspace, workspace_length),
        lent_for_writing(room, room_length),
    );
    if planted(WritesOutside) {
        room.add(room_length).write_volatile(0);
    }
    result
}

#[no_mangle]
unsafe extern "C" fn florumeja_add_operator(
    workspace: *mut u64,
    workspace_length: usize,
    count: u64,
    variables: *const u64,
    variables_length: usize,
    befores: *const u64,
    befores_length: usize,
    afters: *const u64,
    afters_length: usize,
) -> u64 {
    let record = Record {
        count,
        variables: lent(variables, variables_length).to_vec(),
        befores: lent(befores, befores_length).to_vec(),
        afters: lent(afters, afters_length).to_vec(),
    };
    add_operator(lent_for_writing(workspace, workspace_length), &record)
}

#[no_mangle]
unsafe extern "C" fn florumeja_replace_start(
    workspace: *mut u64,
    workspace_length: usize,
    values: *const u64,
    values_length: usize,
) -> u64 {
    replace_start(
        lent_for_writing(workspace, workspace_length),
        lent(values, values_length),
    )
}

#[no_mangle]
unsafe extern "C" fn florumeja_replace_goal(
    workspace: *mut u64,
    workspace_length: usize,
    values: *const u64,
    values_length: usize,
) -> u64 {
    replace_goal(
        lent_for_writing(workspace, workspace_length),
        lent(values, values_length),
    )
}

#[no_mangle]
unsafe extern "C" fn florumeja_build(
    bay: *const u8,
    bay_length: usize,
    room: *mut u8,
    room_length: usize,
) -> u64 {
    let result = build(lent(bay, bay_length), lent_for_writing(room, room_length));
    misnumbered(result, BayFormsAsBefore)
}

#[no_mangle]
unsafe extern "C" fn florumeja_line(
    input: *const u8,
    input_length: usize,
    room: *mut u8,
    room_length: usize,
) -> u64 {
    print(
        lent(input, input_length),
        lent_for_writing(room, room_length),
    )
}

#[no_mangle]
unsafe extern "C" fn florumeja_weight_file(
    words: *const u64,
    words_length: usize,
    room: *mut u8,
    room_length: usize,
) -> u64 {
    weight_file(
        lent(words, words_length),
        lent_for_writing(room, room_length),
    )
}

#[no_mangle]
unsafe extern "C" fn florumeja_check_line(
    task: *const u8,
    task_length: usize,
    weights: *const u8,
    weights_length: usize,
    room: *mut u8,
    room_length: usize,
) -> u64 {
    print_check(
        lent(task, task_length),
        lent(weights, weights_length),
        lent_for_writing(room, room_length),
    )
}

#[no_mangle]
unsafe extern "C" fn florumeja_open_partial(
    partial: *const u8,
    partial_length: usize,
    room: *mut u64,
    room_length: usize,
) -> u64 {
    let result = open_partial(
        lent(partial, partial_length),
        lent_for_writing(room, room_length),
    );
    misnumbered(result, PartialFormsAsBefore)
}

#[no_mangle]
unsafe extern "C" fn florumeja_check_partial(
    partial: *const u8,
    partial_length: usize,
    weights: *const u8,
    weights_length: usize,
) -> u64 {
    let result = check_partial(
        Kind::Old,
        lent(partial, partial_length),
        lent(weights, weights_length),
    );
    misnumbered(result, PartialFormsAsBefore)
}

#[no_mangle]
unsafe extern "C" fn florumeja_build_partial(
    partial: *const u8,
    partial_length: usize,
    room: *mut u8,
    room_length: usize,
) -> u64 {
    let result = build_partial(
        lent(partial, partial_length),
        lent_for_writing(room, room_length),
    );
    misnumbered(result, PartialFormsAsBefore)
}

#[no_mangle]
unsafe extern "C" fn florumeja_build_partial_lean(
    partial: *const u8,
    partial_length: usize,
    room: *mut u8,
    room_length: usize,
) -> u64 {
    let result = build_partial_lean(
        lent(partial, partial_length),
        lent_for_writing(room, room_length),
    );
    misnumbered(result, PartialFormsAsBefore)
}

#[no_mangle]
unsafe extern "C" fn florumeja_silence(
    task: *const u8,
    task_length: usize,
    marks: *const u8,
    marks_length: usize,
    room: *mut u8,
    room_length: usize,
) -> u64 {
    let result = silence(
        lent(task, task_length),
        lent(marks, marks_length),
        lent_for_writing(room, room_length),
    );
    misnumbered(result, SilencingFormsAsBefore)
}

#[no_mangle]
unsafe extern "C" fn florumeja_mend(
    task: *const u8,
    task_length: usize,
    room: *mut u8,
    room_length: usize,
) -> u64 {
    let result = mend(lent(task, task_length), lent_for_writing(room, room_length));
    misnumbered(result, MendingFormsAsBefore)
}

#[no_mangle]
unsafe extern "C" fn florumeja_dropped(
    task: *const u8,
    task_length: usize,
    room: *mut u8,
    room_length: usize,
) -> u64 {
    let result = dropped(lent(task, task_length), lent_for_writing(room, room_length));
    misnumbered(result, MendingFormsAsBefore)
}

#[no_mangle]
unsafe extern "C" fn florumeja_pair_fault(
    task: *const u8,
    task_length: usize,
    room: *mut u64,
    room_length: usize,
) -> u64 {
    let result = pair_fault(lent(task, task_length), lent_for_writing(room, room_length));
    misnumbered(result, MendingFormsAsBefore)
}

#[no_mangle]
unsafe extern "C" fn florumeja_display(
    task: *const u8,
    task_length: usize,
    weights: *const u8,
    weights_length: usize,
    room: *mut u64,
    room_length: usize,
) -> u64 {
    let result = display(
        Kind::Old,
        lent(task, task_length),
        lent(weights, weights_length),
        lent_for_writing(room, room_length),
    );
    if planted(DisplayWritesOutside) {
        room.add(room_length).write_volatile(0);
    }
    if planted(DisplayWritesWeights) && weights_length > 0 {
        weights.cast_mut().write_volatile(0xAA);
    }
    result
}

#[no_mangle]
unsafe extern "C" fn florumeja_display_partial(
    partial: *const u8,
    partial_length: usize,
    weights: *const u8,
    weights_length: usize,
    room: *mut u64,
    room_length: usize,
) -> u64 {
    display_partial(
        lent(partial, partial_length),
        lent(weights, weights_length),
        lent_for_writing(room, room_length),
    )
}

#[no_mangle]
unsafe extern "C" fn florumeja_display_bay(
    bay: *const u8,
    bay_length: usize,
    room: *mut u64,
    room_length: usize,
) -> u64 {
    display_bay(lent(bay, bay_length), lent_for_writing(room, room_length))
}

#[no_mangle]
unsafe extern "C" fn florumeja_to_new(
    task: *const u8,
    task_length: usize,
    room: *mut u8,
    room_length: usize,
) -> u64 {
    let room = lent_for_writing(room, room_length);
    let result = convert(Kind::Old, lent(task, task_length), room);
    misnumbered(result, ConversionFormsAsBefore)
}

#[no_mangle]
unsafe extern "C" fn florumeja_to_old(
    task: *const u8,
    task_length: usize,
    room: *mut u8,
    room_length: usize,
) -> u64 {
    let room = lent_for_writing(room, room_length);
    let result = convert(Kind::New, lent(task, task_length), room);
    misnumbered(result, ConversionFormsAsBefore)
}

#[no_mangle]
unsafe extern "C" fn florumeja_weights_to_new(
    task: *const u8,
    task_length: usize,
    weights: *const u8,
    weights_length: usize,
    room: *mut u8,
    room_length: usize,
) -> u64 {
    let result = convert_weights(
        Kind::Old,
        lent(task, task_length),
        lent(weights, weights_length),
        lent_for_writing(room, room_length),
    );
    misnumbered(result, ConversionFormsAsBefore)
}

#[no_mangle]
unsafe extern "C" fn florumeja_weights_to_old(
    task: *const u8,
    task_length: usize,
    weights: *const u8,
    weights_length: usize,
    room: *mut u8,
    room_length: usize,
) -> u64 {
    let result = convert_weights(
        Kind::New,
        lent(task, task_length),
        lent(weights, weights_length),
        lent_for_writing(room, room_length),
    );
    misnumbered(result, ConversionFormsAsBefore)
}

#[no_mangle]
unsafe extern "C" fn florumeja_check_new(
    task: *const u8,
    task_length: usize,
    weights: *const u8,
    weights_length: usize,
) -> u64 {
    let (task, weights) = (lent(task, task_length), lent(weights, weights_length));
    check(Kind::New, task, weights)
}

#[no_mangle]
unsafe extern "C" fn florumeja_check_partial_new(
    partial: *const u8,
    partial_length: usize,
    weights: *const u8,
    weights_length: usize,
) -> u64 {
    let (partial, weights) = (lent(partial, partial_length), lent(weights, weights_length));
    check_partial(Kind::New, partial, weights)
}

#[no_mangle]
unsafe extern "C" fn florumeja_display_new(
    task: *const u8,
    task_length: usize,
    weights: *const u8,
    weights_length: usize,
    room: *mut u64,
    room_length: usize,
) -> u64 {
    display(
        Kind::New,
        lent(task, task_length),
        lent(weights, weights_length),
        lent_for_writing(room, room_length),
    )
}
