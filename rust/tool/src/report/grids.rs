//! The whole list of features as grids of squares, as SVG.

use super::listed::Listed;
use super::words::{label, slot};
use crate::bay::{Bay, GAP};
use crate::features::{Atom, Feature};

const SQUARE: usize = 16;
const LEFT: usize = 22;
const TOP: usize = 36;
/// A grid is never narrower than its title.
const NARROWEST: usize = 122;
/// Bays up to this size have grids half as large again, for fingers that follow the rows.
const SMALL: usize = 4;
/// Bays up to this size show all grids; those of a larger one would bury what follows.
const OPEN: usize = 9;
/// A name of more characters is squeezed into its square.
const WIDEST_NAME: usize = 3;

/// What stands above, to the left and along the top of a grid.
struct Sides {
    title: String,
    left: Vec<String>,
    top: Vec<String>,
}

/// What is known of one square.
struct Square {
    listed: bool,
    never: bool,
    start: bool,
    goal: bool,
}

// The grid of single features: a row for each slot, a column for each label.
fn singles(bay: &Bay, listed: &Listed) -> String {
    let sides = Sides {
        title: "One slot".to_string(),
        left: (0..bay.slots()).map(|row| slot(bay, row)).collect(),
        top: labels(bay),
    };
    grid(&sides, |row, column| {
        let feature = Feature::Single(Atom::new(row, column));
        square(bay, listed, feature)
    })
}

/// All grids: the one of single features, and those of two slots.
pub fn all(bay: &Bay, listed: &Listed) -> String {
    let (singles, pairs) = (singles(bay, listed), pairs(bay, listed));
    if bay.slots() <= OPEN {
        return format!("<div class=\"grids\">\n{singles}{}</div>\n", pairs.concat());
    }
    format!(
        "<div class=\"grids\">\n{singles}</div>\n\
         <details><summary>All {} grids of two slots (open to see or print them)</summary>\n\
         <div class=\"grids\">\n{}</div>\n</details>\n",
        pairs.len(),
        pairs.concat()
    )
}

// One grid for each two slots: rows are labels of the first, columns of the second.
fn pairs(bay: &Bay, listed: &Listed) -> Vec<String> {
    let mut grids = Vec::new();
    for low in 0..bay.slots() {
        for high in low + 1..bay.slots() {
            grids.push(pair(bay, listed, low, high));
        }
    }
    grids
}

fn pair(bay: &Bay, listed: &Listed, low: usize, high: usize) -> String {
    let sides = Sides {
        title: format!("{} down, {} across", slot(bay, low), slot(bay, high)),
        left: labels(bay),
        top: labels(bay),
    };
    grid(&sides, |row, column| {
        let feature = Feature::pair(Atom::new(low, row), Atom::new(high, column));
        square(bay, listed, feature)
    })
}

fn square(bay: &Bay, listed: &Listed, feature: Feature) -> Square {
    Square {
        listed: listed.has(feature),
        never: is_never(bay, feature),
        start: feature.holds_in(&bay.start),
        goal: feature.holds_in(&bay.wanted()),
    }
}

// What no pallet has is nowhere, and what is there once is not in two slots; but two slots can be
// unknown.
fn is_never(bay: &Bay, feature: Feature) -> bool {
    match feature {
        Feature::Single(one) => bay.is_spare(one.value),
        Feature::Pair(one, two) => {
            let twice = one.value == two.value && bay.often(one.value) == 1;
            twice || bay.is_spare(one.value) || bay.is_spare(two.value)
        }
    }
}

fn labels(bay: &Bay) -> Vec<String> {
    let short = |value: usize| match value {
        GAP => "•".to_string(),
        unknown if unknown == bay.unknown() => "?".to_string(),
        _ => label(bay, value),
    };
    bay.labels().map(short).collect()
}

fn grid(sides: &Sides, square: impl Fn(usize, usize) -> Square) -> String {
    let (rows, columns) = (sides.left.len(), sides.top.len());
    let width = NARROWEST.max(LEFT + columns * SQUARE + 2);
    let height = TOP + rows * SQUARE + 2;
    let [shown_width, shown_height] = [width, height].map(|length| shown(length, rows));
    let mut marks = Marks::default();
    for row in 0..rows {
        for column in 0..columns {
            marks.add(&square(row, column), row, column);
        }
    }
    let body = names(sides) + &ground(rows, columns) + &marks.drawn();
    format!(
        "<svg class=\"grid\" role=\"img\" aria-label=\"{}\" width=\"{shown_width}\" \
         height=\"{shown_height}\" viewBox=\"0 0 {width} {height}\">{body}</svg>\n",
        sides.title
    )
}

fn shown(length: usize, slots: usize) -> usize {
    if slots <= SMALL {
        return length * 3 / 2;
    }
    length
}

fn names(sides: &Sides) -> String {
    let top = sides.top.iter().enumerate();
    let top = top.map(|(column, words)| name(LEFT + column * SQUARE + SQUARE / 2, TOP - 5, words));
    let left = sides.left.iter().enumerate();
    let left = left.map(|(row, words)| name(LEFT / 2, TOP + row * SQUARE + 12, words));
    format!(
        "<text class=\"caption\" x=\"2\" y=\"14\">{}</text><g class=\"side\">{}</g>",
        sides.title,
        top.chain(left).collect::<String>()
    )
}

fn name(x: usize, y: usize, words: &str) -> String {
    let squeezed = match words.chars().count() > WIDEST_NAME {
        true => format!(
            " textLength=\"{}\" lengthAdjust=\"spacingAndGlyphs\"",
            SQUARE - 1
        ),
        false => String::new(),
    };
    format!("<text x=\"{x}\" y=\"{y}\"{squeezed}>{words}</text>")
}

// All squares at once, so that a page about sixteen slots stays small.
fn ground(rows: usize, columns: usize) -> String {
    let (width, height) = (columns * SQUARE, rows * SQUARE);
    let mut lines = String::new();
    for row in 0..=rows {
        lines.push_str(&format!("M{LEFT} {}h{width}", TOP + row * SQUARE));
    }
    for column in 0..=columns {
        lines.push_str(&format!("M{} {TOP}v{height}", LEFT + column * SQUARE));
    }
    path("lines", &lines)
}

/// The marks of a grid; those of which there are many are one path of each kind.
#[derive(Default)]
struct Marks {
    listed: String,
    never: String,
    start: String,
    goal: String,
}

impl Marks {
    fn add(&mut self, square: &Square, row: usize, column: usize) {
        let (x, y) = (LEFT + column * SQUARE, TOP + row * SQUARE);
        if square.listed {
            self.listed += &format!("M{x} {y}h{SQUARE}v{SQUARE}h-{SQUARE}z");
        }
        if square.never {
            self.never += &format!("M{x} {y}l{SQUARE} {SQUARE}");
        }
        if square.start {
            let (across, down) = (x + SQUARE / 2, y + SQUARE / 2);
            self.start +=
                &format!("<circle class=\"start\" cx=\"{across}\" cy=\"{down}\" r=\"4\"/>");
        }
        if square.goal {
            let (left, top, size) = (x + 1, y + 1, SQUARE - 2);
            self.goal += &format!(
                "<rect class=\"goal\" x=\"{left}\" y=\"{top}\" width=\"{size}\" height=\"{size}\"/>"
            );
        }
    }

    fn drawn(&self) -> String {
        let [listed, never] = [("listed", &self.listed), ("never", &self.never)]
            .map(|(class, strokes)| path(class, strokes));
        [&listed, &self.goal, &never, &self.start]
            .map(String::as_str)
            .concat()
    }
}

fn path(class: &str, strokes: &str) -> String {
    if strokes.is_empty() {
        return String::new();
    }
    format!("<path class=\"{class}\" d=\"{strokes}\"/>")
}

/// What the marks in the grids mean.
pub fn legend(bay: &Bay) -> String {
    let never = match bay.has_spare_labels() {
        true => "never true: one pallet, or the gap, in two slots, or a label that no pallet has",
        false => "never true: one pallet, or the gap, in two slots",
    };
    let square = |listed, never, start, goal| Square {
        listed,
        never,
        start,
        goal,
    };
    let items = [
        (square(true, false, false, false), "on the list"),
        (square(false, false, true, false), "true as the bay stands"),
        (
            square(false, false, false, true),
            "true as the bay is wanted",
        ),
        (square(false, true, false, false), never),
    ];
    let shown = items.iter().map(|(square, words)| item(square, words));
    format!("<ul class=\"legend\">{}</ul>\n", shown.collect::<String>())
}

fn item(square: &Square, words: &str) -> String {
    let size = SQUARE + 2;
    let mut marks = Marks::default();
    marks.add(square, 0, 0);
    format!(
        "<li><svg width=\"{size}\" height=\"{size}\" viewBox=\"{} {} {size} {size}\" \
         aria-hidden=\"true\">{}{}</svg> {words}</li>",
        LEFT - 1,
        TOP - 1,
        ground(1, 1),
        marks.drawn()
    )
}
