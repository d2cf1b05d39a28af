//! Workspaces that no opening made, and damaged ones.

use super::{ample_room, room, some_sizes, task};
use crate::both::Both;
use reference::feature_set::words_for;
use reference::features::count_features;
use reference::sample::tasks::operator;
use reference::sample::workspaces::{damage_words, foreign_workspace, loose_record, values};
use reference::sample::Generator;
use reference::workspace::Workspace;

/// Well formed words made by hand: stored slots stand for the conditions.
pub fn foreign(both: &mut Both, generator: &mut Generator) {
    let sizes = some_sizes(generator);
    let workspace = foreign_workspace(generator, &sizes);
    let mut words = workspace.words();
    // Further words are never touched, whatever they hold.
    let more = generator.below(3);
    words.extend(generator.words(more));
    let width = words_for(count_features(&workspace.sizes));
    let narrow = room(generator, width);
    both.find(&words, &narrow);
    let ample = ample_room(generator, width);
    both.find(&words, &ample);
}

/// Words of some origin with faults in them, given to every call on a workspace.
pub fn damaged(both: &mut Both, generator: &mut Generator) {
    let workspace = if generator.once_in(2) {
        Workspace::of(&task(generator))
    } else {
        let sizes = some_sizes(generator);
        foreign_workspace(generator, &sizes)
    };
    let mut words = workspace.words();
    damage_words(generator, &mut words, &workspace.sizes);
    match generator.below(4) {
        0 => {
            let width = words_for(count_features(&workspace.sizes));
            let room = room(generator, width);
            both.find(&words, &room);
        }
        1 => {
            let operator = operator(generator, &workspace.sizes);
            let record = loose_record(generator, &operator);
            both.add_operator(&words, &record);
        }
        2 => {
            let values = values(generator, &workspace.sizes);
            both.replace_start(&words, &values);
        }
        _ => {
            let values = values(generator, &workspace.sizes);
            both.replace_goal(&words, &values);
        }
    }
}
