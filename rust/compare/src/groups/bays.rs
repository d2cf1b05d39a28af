//! Bays of all sizes, with lots and with all labels different, their tasks, and damaged bay files.

use super::{ample_room, byte_room, room_length};
use crate::both::Both;
use reference::bay::{read_bay, Bay};
use reference::calls;
use reference::feature_set::words_for;
use reference::features::count_features;
use reference::sample::bays::{bay, every_list, mislabel, order_weights, shapes, shapes_within};
use reference::sample::damage::damaged_file;
use reference::sample::Generator;
use reference::weights::weight_file;
use reference::workspace::words_due;

fn some_bay(generator: &mut Generator) -> Bay {
    let shape = generator.choose(&shapes());
    bay(generator, shape)
}

/// Good bay files in all kinds of room.
pub fn built(both: &mut Both, generator: &mut Generator) {
    let bay = some_bay(generator);
    let due = bay.task().file().len();
    let room = byte_room(generator, due);
    both.build(&bay.file(), &room);
    let room = generator.bytes(due);
    both.build(&bay.file(), &room);
}

/// Bay files with faults of one kind or several at once.
pub fn damaged(both: &mut Both, generator: &mut Generator) {
    let mut bay = some_bay(generator);
    if generator.once_in(2) {
        // Faults of labels meet others.
        mislabel(generator, &mut bay);
    }
    let file = if generator.once_in(3) {
        bay.file()
    } else {
        damaged_file(generator, &bay.numbers())
    };
    // Four by four takes 9,845 bytes.
    let length = generator.choose(&[0, 10, 9_900]);
    let room = generator.bytes(length);
    both.build(&file, &room);
}

/// Every bay file of up to three slots, and every square one.
pub fn every(both: &mut Both, generator: &mut Generator) {
    for (rows, columns) in [(1, 2), (2, 1), (1, 3), (3, 1), (2, 2)] {
        let lists = every_list(rows * columns);
        for start in &lists {
            for goal in &lists {
                let bay = Bay {
                    rows,
                    columns,
                    start: start.clone(),
                    goal: goal.clone(),
                };
                in_rooms(both, generator, &bay.file());
            }
        }
    }
}

/// A good file of up to three slots in room of each length, any other in one.
fn in_rooms(both: &mut Both, generator: &mut Generator, file: &[u8]) {
    let lengths = match read_bay(file) {
        Ok(bay) if bay.slots() <= 3 => 0..bay.task().file().len() + 3,
        Ok(bay) => {
            let length = room_length(generator, bay.task().file().len());
            length..length + 1
        }
        Err(_) => 50..51,
    };
    for length in lengths {
        let room = generator.bytes(length);
        both.build(file, &room);
    }
}

/// A bay from its file to the finder's answer, with weights that moves keep if no two labels are
/// alike; the opened words are handed back.
pub fn whole_way(both: &mut Both, generator: &mut Generator, bay: &Bay) -> Vec<u64> {
    let room = generator.bytes(bay.task().file().len());
    let file = both.build(&bay.file(), &room).memory;
    both.check(&file, &weight_file(&order_weights(bay)));
    let sizes = bay.task().sizes;
    let room = ample_room(generator, words_due(&sizes));
    let words = both.open(&file, &room).memory;
    let room = ample_room(generator, words_for(count_features(&sizes)));
    let found = both.find(&words, &room);
    // The same bay turned round asks for the way back, and every move has one.
    let labels = |list: &[usize]| list.iter().map(|label| *label as u64).collect::<Vec<_>>();
    let turned = both.replace_start(&words, &labels(&bay.goal)).memory;
    let turned = both.replace_goal(&turned, &labels(&bay.start)).memory;
    let back = both.find(&turned, &room);
    assert_eq!(found.number, back.number, "moves go both ways");
    assert!(found.number <= calls::denied(), "built tasks are accepted");
    words
}

/// Bays of up to six slots.
pub fn solved(both: &mut Both, generator: &mut Generator) {
    let shape = generator.choose(&shapes_within(6));
    let bay = bay(generator, shape);
    whole_way(both, generator, &bay);
    let room = byte_room(generator, 60);
    both.line(&bay.task().file(), &room);
}
