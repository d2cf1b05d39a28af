//! Enumerations against the routes for larger tasks, on random tasks with fixed seeds.

use reference::calls;
use reference::feature_set::FeatureSet;
use reference::features::count_features;
use reference::finder::{least_by_enumeration, least_by_highest};
use reference::forced::{generators, slots, slots_by_enumeration, slots_by_generators};
use reference::operators::{changes_from, combined_states, deviating_states};
use reference::sample::bays::bay;
use reference::sample::tasks::{
    accepted_task, loose_task, loose_weights, meeting_weights, scaled_task, sizes, state,
    task_conditions, Scale, LARGE, LIBRARY_EDGES, MEDIUM, NUMBER_EDGES, SMALL, TINY, WIDE,
};
use reference::sample::workspaces::{exact_record, foreign_workspace};
use reference::sample::Generator;
use reference::separation::{keeps_by_changes, keeps_by_states, separates, verdict, Verdict};
use reference::task::{read_task, Task};
use reference::workspace::{words_due, Workspace};

/// Up to three variables of size 2, which still can be enumerated.
const EIGHTEEN: Scale = Scale {
    most_features: 18,
    most_variables: 5,
    most_values: 8,
    most_operators: 4,
};

fn ends(task: &Task) -> FeatureSet {
    task.pairing().features.changed(&task.start, &task.goal)
}

/// The conditions from every considered state, straight from the definition.
fn all_conditions(task: &Task) -> Vec<FeatureSet> {
    let pairing = task.pairing();
    let live = task.operators.iter().filter(|each| !pairing.idle(each));
    live.flat_map(|operator| {
        let states = combined_states(&pairing.considered_values(operator));
        changes_from(&pairing, operator, &states)
    })
    .collect()
}

/// The conditions from a base state and its deviations.
fn few_conditions(task: &Task) -> Vec<FeatureSet> {
    let pairing = task.pairing();
    let live = task.operators.iter().filter(|each| !pairing.idle(each));
    live.flat_map(|operator| {
        let states = deviating_states(&pairing.considered_values(operator));
        changes_from(&pairing, operator, &states)
    })
    .collect()
}

fn compare_methods(task: &Task) -> bool {
    let count = count_features(&task.sizes);
    let (all, few) = (all_conditions(task), few_conditions(task));
    let least = least_by_enumeration(count, &all, &ends(task));
    assert_eq!(
        least,
        least_by_highest(count, &few, &ends(task)),
        "{task:?}"
    );
    let slots = slots_by_enumeration(count, &all);
    assert_eq!(slots, slots_by_generators(count, &few), "{task:?}");
    // Slots stand for the conditions: the same answer comes from them.
    assert_eq!(least, least_by_highest(count, &slots, &ends(task)));
    least.is_some()
}

#[test]
fn enumeration_agrees_on_tiny_tasks() {
    let mut generator = Generator::new(0x7A51);
    let tasks = 6_000;
    let separated = (0..tasks)
        .filter(|_| compare_methods(&scaled_task(&mut generator, TINY)))
        .count();
    // Neither answer may be rare, or the check would say little.
    assert!(
        (tasks / 5..tasks * 4 / 5).contains(&separated),
        "{separated}"
    );
}

#[test]
fn enumeration_agrees_on_eighteen_features() {
    let mut generator = Generator::new(0x7A52);
    for _ in 0..150 {
        compare_methods(&accepted_task(&mut generator, &[2, 2, 2], 4));
        compare_methods(&scaled_task(&mut generator, EIGHTEEN));
    }
}

/// No separating set is less, by trying each less set with the checker's own rule.
#[test]
fn answers_are_least_for_the_checker() {
    let mut generator = Generator::new(0x7A53);
    for _ in 0..300 {
        let task = scaled_task(&mut generator, TINY);
        let count = count_features(&task.sizes);
        let separating = |number: &u64| separates(&task, &FeatureSet::from_words(&[*number]));
        let least = (0..1u64 << count).find(separating);
        let answer = Workspace::of(&task).find();
        assert_eq!(least, answer.map(|weights| weights.words()[0]));
    }
}

/// Conditions that come from no task, as in a workspace made by hand.
#[test]
fn enumeration_agrees_on_any_conditions() {
    let mut generator = Generator::new(0x7A59);
    for _ in 0..2_000 {
        let count = generator.between(1, 12);
        let rows = generator.below(count + 3);
        let conditions: Vec<FeatureSet> = (0..rows)
            .map(|_| loose_weights(&mut generator, count))
            .collect();
        let ends = loose_weights(&mut generator, count);
        let least = least_by_enumeration(count, &conditions, &ends);
        assert_eq!(least, least_by_highest(count, &conditions, &ends));
        let slots = slots_by_enumeration(count, &conditions);
        assert_eq!(slots, slots_by_generators(count, &conditions));
        // What is reduced already stays as it is.
        assert_eq!(slots, slots_by_generators(count, &slots));
    }
}

#[test]
fn larger_routes_agree_with_each_other() {
    let mut generator = Generator::new(0x7A54);
    for round in 0..400 {
        let scale = match round % 100 {
            0 => LARGE,
            1..5 => WIDE,
            5..30 => MEDIUM,
            _ => SMALL,
        };
        larger_routes(&scaled_task(&mut generator, scale));
    }
}

/// Tasks past the limit of before, with few operators, and bays of up to twelve slots.
#[test]
fn larger_routes_agree_past_the_limit_of_before() {
    let mut generator = Generator::new(0x7A5A);
    for sizes in [NUMBER_EDGES[2], LIBRARY_EDGES[1], LIBRARY_EDGES[4]] {
        larger_routes(&accepted_task(&mut generator, sizes, 2));
    }
    for shape in [(2, 5), (3, 4)] {
        larger_routes(&bay(&mut generator, shape).task());
    }
}

/// Slots and answers by different routes.
fn larger_routes(task: &Task) {
    let count = count_features(&task.sizes);
    let conditions = task_conditions(task);
    let few = few_conditions(task);
    let slots = slots_by_generators(count, &conditions);
    assert_eq!(slots, slots_by_generators(count, &few));
    let least = least_by_highest(count, &conditions, &ends(task));
    assert_eq!(least, least_by_highest(count, &slots, &ends(task)));
    // The least live list that parts the ends is the answer as well.
    let meeting = generators(count, &conditions);
    let parting = (0..count)
        .filter(|number| meeting.live(*number))
        .map(|number| meeting.list(number))
        .find(|list| list.meets_oddly(&ends(task)));
    assert_eq!(least, parting);
    if let Some(weights) = least {
        assert_eq!(verdict(task, &weights), Verdict::Accepted);
    }
}

/// What lists make together is their combination, one after another.
#[test]
fn lists_are_combined() {
    let mut generator = Generator::new(0x7A5B);
    for _ in 0..300 {
        let task = scaled_task(&mut generator, SMALL);
        let count = count_features(&task.sizes);
        let meeting = generators(count, &task_conditions(&task));
        let mut numbers = loose_weights(&mut generator, count).members();
        numbers.retain(|number| meeting.live(*number));
        let mut combined = FeatureSet::empty(count);
        for number in &numbers {
            combined.combine(&meeting.list(*number));
        }
        assert_eq!(meeting.combined(&FeatureSet::of(count, &numbers)), combined);
    }
}

#[test]
fn parity_by_states_and_by_changes() {
    let mut generator = Generator::new(0x7A55);
    let mut kept = 0;
    let mut broken = 0;
    for _ in 0..3_000 {
        let sizes = sizes(&mut generator, SMALL);
        let task = loose_task(&mut generator, &sizes, 6);
        let pairing = task.pairing();
        let weights = if generator.once_in(2) {
            meeting_weights(&mut generator, &task)
        } else {
            loose_weights(&mut generator, pairing.features.count())
        };
        for operator in &task.operators {
            let keeps = keeps_by_states(&pairing, operator, &weights);
            assert_eq!(keeps, keeps_by_changes(&pairing, operator, &weights));
            if keeps {
                kept += 1;
            } else {
                broken += 1;
            }
        }
    }
    assert!(kept > 1_000 && broken > 1_000, "{kept} {broken}");
}

#[test]
fn files_come_back() {
    let mut generator = Generator::new(0x7A56);
    for _ in 0..1_000 {
        let task = scaled_task(&mut generator, SMALL);
        assert_eq!(read_task(&task.file()), Ok(task));
    }
}

#[test]
fn workspaces_come_back() {
    let mut generator = Generator::new(0x7A57);
    for _ in 0..500 {
        let task = scaled_task(&mut generator, SMALL);
        let workspace = Workspace::of(&task);
        assert_eq!(workspace.words().len(), words_due(&task.sizes));
        assert_eq!(Workspace::read(&workspace.words()), Ok(workspace));
        let foreign = foreign_workspace(&mut generator, &task.sizes);
        assert_eq!(slots(foreign.slots.len(), &foreign.slots), foreign.slots);
        assert_eq!(Workspace::read(&foreign.words()), Ok(foreign));
    }
}

/// Edits lead to the words of a fresh opening, in whatever order operators come.
#[test]
fn edits_match_fresh_openings() {
    let mut generator = Generator::new(0x7A58);
    for round in 0..400 {
        let scale = if round % 2 == 0 { TINY } else { SMALL };
        let mut task = scaled_task(&mut generator, scale);
        let wanted = task
            .operators
            .split_off(generator.below(task.operators.len() + 1));
        let mut words = Workspace::of(&task).words();
        for operator in wanted {
            let record = exact_record(&operator);
            assert_eq!(calls::add_operator(&mut words, &record), 0);
            task.operators.push(operator);
        }
        let goal = state(&mut generator, &task.sizes);
        let values: Vec<u64> = goal.iter().map(|value| *value as u64).collect();
        assert_eq!(calls::replace_goal(&mut words, &values), 0);
        task.goal = goal;
        let repeated = task.operators.clone();
        task.operators.extend(repeated);
        generator.shuffle(&mut task.operators);
        assert_eq!(words, Workspace::of(&task).words());
    }
}
