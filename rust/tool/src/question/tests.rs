//! Every order of a small bay, held against a search through all that moves lead to.

use super::*;
use crate::progress::Shown;
use std::collections::HashSet;

fn asked(text: &BayText) -> Answered {
    ask_text(text, &Telling::new(Shown::Nowhere)).unwrap()
}

/// What moves lead to from the bay as it stands.
fn reached(bay: &Bay) -> HashSet<Vec<usize>> {
    let mut reached = HashSet::from([bay.start.clone()]);
    let mut todo = vec![bay.start.clone()];
    while let Some(state) = todo.pop() {
        for (low, high) in bay.neighbours() {
            let mut next = state.clone();
            next.swap(low, high);
            let moves = state[low] == 0 || state[high] == 0;
            if moves && reached.insert(next.clone()) {
                todo.push(next);
            }
        }
    }
    reached
}

/// Every wanted bay of four slots, silent slots included, that names nothing too often.
fn orders(start: &[&'static str]) -> Vec<Vec<&'static str>> {
    let often = |labels: &[&str], label| labels.iter().filter(|other| **other == label).count();
    let mut labels = start.to_vec();
    labels.sort_unstable();
    labels.dedup();
    let longer = |order: &[&'static str], label: &'static str| {
        let fits = often(order, label) < often(start, label);
        fits.then(|| [order, &[label]].concat())
    };
    let mut orders = vec![Vec::new()];
    for _ in 0..4 {
        let each = |order: &Vec<&'static str>| {
            let named = labels.iter().filter_map(|label| longer(order, label));
            named.chain([[order.as_slice(), &["?"]].concat()]).collect()
        };
        orders = orders.iter().flat_map::<Vec<_>, _>(each).collect();
    }
    orders
}

fn text_of(columns: usize, start: &[&str], order: &[&str]) -> BayText {
    let rows = |labels: &[&str]| -> String {
        let rows = labels.chunks(columns);
        rows.map(|row| row.join(" ") + "\n").collect()
    };
    let text = format!("{}\n{}", rows(start), rows(order));
    BayText::read(text.as_bytes()).unwrap()
}

// The count of orders: for each choice of how often each label is named, the arrangements of those
// and of the silent slots.
#[test]
fn impossible_orders_are_those_that_no_moves_meet() {
    let starts = [
        (["1", "2", "3", "0"], 209),
        (["A", "A", "B", "."], 115),
        (["B", "A", "B", "."], 115),
        (["1", "3", "3", "0"], 115),
        (["2", ".", "2", "2"], 47),
    ];
    for (columns, (start, count)) in [2, 4].into_iter().flat_map(|c| starts.map(|s| (c, s))) {
        let orders = orders(&start);
        assert_eq!(orders.len(), count);
        let reached = reached(&text_of(columns, &start, &["?"; 4]).bay());
        for order in orders {
            let answered = asked(&text_of(columns, &start, &order));
            let met = reached.iter().any(|state| {
                let mut both = answered.bay.goal.iter().zip(state);
                both.all(|(wanted, label)| wanted.is_none_or(|wanted| wanted == *label))
            });
            // In bays as small as these whatever is not met has a proof as well.
            assert_eq!(
                answered.status() == Status::Yes,
                !met,
                "{start:?} {order:?}"
            );
        }
    }
}

#[test]
fn ways_are_asked_where_one_proof_is_not_enough() {
    let answered = |order: [&str; 4]| asked(&text_of(2, &["1", "2", "3", "0"], &order));
    let one = answered(["2", "1", "3", "?"]);
    assert!(one.asked.proof.is_some() && one.ways.is_empty());
    let two = answered(["2", "1", "?", "?"]);
    assert!(two.asked.proof.is_none() && two.is_impossible_each_way());
    assert_eq!((two.ways.len(), two.impossible_ways()), (2, 2));
    let either = answered(["?", "1", "?", "0"]);
    assert!(!either.is_impossible_each_way() && either.status() == Status::No);
    assert_eq!((either.ways.len(), either.impossible_ways()), (2, 1));
}

// With "unknown" a slot of n has n + 1 labels: n * (n + 1) features of one slot, (n + 1) * (n + 1) for
// each two. That makes 27,120 for fifteen slots and 34,952 for sixteen.
#[test]
fn slots_are_left_open_in_bays_of_up_to_fifteen() {
    let text = |columns: usize, slots: usize| {
        let pallets = (1..slots).map(|label| label.to_string());
        let start: Vec<String> = pallets.chain([".".to_string()]).collect();
        let start: Vec<&str> = start.iter().map(String::as_str).collect();
        let mut order = start.clone();
        order[slots - 2] = "?";
        text_of(columns, &start, &order)
    };
    for (columns, slots) in [(5, 15), (3, 15), (7, 14), (4, 12)] {
        assert!(built(&text(columns, slots)).is_ok(), "{columns} {slots}");
    }
    let words = built(&text(4, 16)).unwrap_err().words();
    assert_eq!(
        words,
        "line 9, column 7: expected a label, as only bays of up to 15 slots may have slots with ? \
         (with \"unknown\" as one more label this bay has 34952 features, and 32768 are the most), \
         found \"?\" (refused 2: the count of variables, a size, the count of features, or a bay \
         dimension breaks its limit)"
    );
    let wide = built(&text(8, 16)).unwrap_err().words();
    assert!(wide.contains("only bays of up to 15 slots"), "{wide}");
}
