//! One call on both sides, from the same inputs and the same lent memory.

use crate::lent::{Item, Lent};
use crate::library;
use crate::tally::{answer, shown, Comparison, Outcome, Tally, OF_NEW_KIND};
use reference::bay::read_bay;
use reference::calls;
use reference::kinds::{kind_of, Kind};
use reference::limits::BEFORE;
use reference::places::{read_bay_file, read_both, read_both_partial, Fault, File, Part};
use reference::workspace::Record;

/// Runs calls on the reference and on the library, and tallies how they compare.
///
/// The reference's outcome is handed back, so that a sequence stays on the rules' path.
pub struct Both<'a> {
    pub tally: &'a mut Tally,
    /// The group and seed that rebuild the inputs.
    pub source: String,
}

/// Names and texts of inputs, for differences.
type Inputs<'a> = &'a dyn Fn() -> Vec<(&'static str, String)>;

/// Runs a library call on guarded memory; also tells whether the guards stand.
fn guarded<Kept: Item>(
    memory: &[Kept],
    call: impl FnOnce(&mut Lent<Kept>) -> u64,
) -> (Outcome<Kept>, bool) {
    let mut lent = Lent::new(memory);
    let number = call(&mut lent);
    let memory = lent.contents().to_vec();
    (Outcome { number, memory }, lent.guards_stand())
}

/// An outcome's answer.
fn plainly<Kept>(outcome: &Outcome<Kept>) -> String {
    answer(outcome.number)
}

/// The same words, with the task's kind behind them where it is the new one.
fn by_kind<Kept>(
    task: &[u8],
    words: impl Fn(&Outcome<Kept>) -> String,
) -> impl Fn(&Outcome<Kept>) -> String {
    let behind = match kind_of(task) {
        Kind::Old => "",
        Kind::New => OF_NEW_KIND,
    };
    move |outcome| words(outcome) + behind
}

/// The line's first word, with the next where it is refused or rejected; a place isn't told, but
/// that there is one, and its file.
fn line_answer(outcome: &Outcome<u8>) -> String {
    if outcome.number >> 32 != 0 {
        return answer(outcome.number);
    }
    let line = String::from_utf8_lossy(&outcome.memory[..outcome.number as usize]);
    let words: Vec<&str> = line.split_whitespace().collect();
    match words[..] {
        ["refused", number, "at", _] => format!("line refused {number} at"),
        ["refused", number, "at", _, "in", file] => format!("line refused {number} at in {file}"),
        [first @ ("refused" | "rejected"), second, ..] => format!("line {first} {second}"),
        _ => format!("line {}", words[0]),
    }
}

/// The answer, or words of its own where so much was due.
fn where_due(length: usize, words: &'static str) -> impl Fn(&Outcome<u8>) -> String {
    move |outcome| {
        if outcome.number == calls::done(length) {
            words.to_string()
        } else {
            answer(outcome.number)
        }
    }
}

/// What is shown, by the refusal's number and where it is, unless the room is refused.
fn shown_answer<Read>(read: Result<Read, Fault>) -> impl Fn(&Outcome<u64>) -> String {
    let words = match read {
        Ok(_) => "nothing".to_string(),
        Err(fault) => format!("{} {}", fault.refusal.number(), whereabouts(fault.part)),
    };
    move |outcome| {
        if outcome.number > calls::in_weights() {
            answer(outcome.number)
        } else {
            words.clone()
        }
    }
}

fn whereabouts(part: Option<Part>) -> &'static str {
    let Some(part) = part else {
        return "nowhere";
    };
    match (part.file, part.bytes.is_empty()) {
        (File::Task, false) => "in task",
        (File::Task, true) => "at end of task",
        (File::Weights, false) => "in weights",
        (File::Weights, true) => "at end of weights",
    }
}

/// What is at fault with a list of pairs.
fn fault_answer(outcome: &Outcome<u64>) -> String {
    let words = match outcome.number {
        number if number == calls::done(0) => "good",
        number if number == calls::held() => "held",
        number if number != calls::unclosed() => return answer(number),
        _ if outcome.memory[1] == 0 => "unclosed at first operator",
        _ => "unclosed at later operator",
    };
    words.to_string()
}

impl Both<'_> {
    fn judge<Kept: Item>(
        &mut self,
        kind: &'static str,
        inputs: Inputs,
        expected: &Outcome<Kept>,
        found: &Outcome<Kept>,
        outside_kept: bool,
    ) {
        let comparison = Comparison {
            kind,
            answer: plainly(expected),
            source: &self.source,
            inputs,
            outside_kept,
        };
        self.tally.judge(&comparison, expected, found);
    }

    /// A call that reads two files and hands back a number.
    fn judged(
        &mut self,
        kind: &'static str,
        [(name, one), (other_name, other)]: [(&'static str, &[u8]); 2],
        reference: fn(&[u8], &[u8]) -> u64,
        library: fn(&Lent<u8>, &Lent<u8>) -> u64,
        words: impl Fn(&Outcome<u8>) -> String,
    ) -> u64 {
        let expected = Outcome::<u8>::of(&[], |_| reference(one, other));
        let lent = (Lent::new(one), Lent::new(other));
        let found = Outcome::of(&[], |_| library(&lent.0, &lent.1));
        let comparison = Comparison {
            kind,
            answer: words(&expected),
            source: &self.source,
            inputs: &|| vec![(name, shown(one)), (other_name, shown(other))],
            outside_kept: lent.0.still_holds(one) && lent.1.still_holds(other),
        };
        self.tally.judge(&comparison, &expected, &found);
        expected.number
    }

    /// A call that reads one slice and writes into room.
    fn filled<From: Item, Into: Item>(
        &mut self,
        kind: &'static str,
        (name, input): (&'static str, &[From]),
        room: &[Into],
        reference: fn(&[From], &mut [Into]) -> u64,
        library: fn(&Lent<From>, &mut Lent<Into>) -> u64,
    ) -> Outcome<Into> {
        self.filled_in_words(kind, (name, input), room, reference, library, plainly)
    }

    /// The same, with answers in words of their own.
    fn filled_in_words<From: Item, Into: Item>(
        &mut self,
        kind: &'static str,
        (name, input): (&'static str, &[From]),
        room: &[Into],
        reference: fn(&[From], &mut [Into]) -> u64,
        library: fn(&Lent<From>, &mut Lent<Into>) -> u64,
        words: impl Fn(&Outcome<Into>) -> String,
    ) -> Outcome<Into> {
        let expected = Outcome::of(room, |room| reference(input, room));
        let lent = Lent::new(input);
        let (found, guards) = guarded(room, |room| library(&lent, room));
        let comparison = Comparison {
            kind,
            answer: words(&expected),
            source: &self.source,
            inputs: &|| vec![(name, shown(input)), ("room", shown(room))],
            outside_kept: guards && lent.still_holds(input),
        };
        self.tally.judge(&comparison, &expected, &found);
        expected
    }

    /// A call that reads two files and writes into room, with answers in words of their own.
    fn written_in_words<Into: Item>(
        &mut self,
        kind: &'static str,
        [(name, one), (other_name, other)]: [(&'static str, &[u8]); 2],
        room: &[Into],
        reference: fn(&[u8], &[u8], &mut [Into]) -> u64,
        library: fn(&Lent<u8>, &Lent<u8>, &mut Lent<Into>) -> u64,
        words: impl Fn(&Outcome<Into>) -> String,
    ) -> Outcome<Into> {
        let expected = Outcome::of(room, |room| reference(one, other, room));
        let lent = (Lent::new(one), Lent::new(other));
        let (found, guards) = guarded(room, |room| library(&lent.0, &lent.1, room));
        let inputs = || {
            vec![
                (name, shown(one)),
                (other_name, shown(other)),
                ("room", shown(room)),
            ]
        };
        let comparison = Comparison {
            kind,
            answer: words(&expected),
            source: &self.source,
            inputs: &inputs,
            outside_kept: guards && lent.0.still_holds(one) && lent.1.still_holds(other),
        };
        self.tally.judge(&comparison, &expected, &found);
        expected
    }

    pub fn check(&mut self, task: &[u8], weights: &[u8]) -> u64 {
        let (reference, library) = (calls::check, library::check);
        let words = by_kind(task, plainly);
        let files = [("task", task), ("weights", weights)];
        self.judged("check", files, reference, library, words)
    }

    pub fn check_new(&mut self, task: &[u8], weights: &[u8]) -> u64 {
        let (reference, library) = (calls::check_new, library::check_new);
        let words = by_kind(task, plainly);
        let files = [("task", task), ("weights", weights)];
        self.judged("check_new", files, reference, library, words)
    }

    pub fn open(&mut self, task: &[u8], room: &[u64]) -> Outcome<u64> {
        let (reference, library) = (calls::open, library::open);
        let words = by_kind(task, plainly);
        self.filled_in_words("open", ("task", task), room, reference, library, words)
    }

    pub fn find(&mut self, workspace: &[u64], room: &[u64]) -> Outcome<u64> {
        let input = ("workspace", workspace);
        self.filled("find", input, room, calls::find, library::find)
    }

    pub fn add_operator(&mut self, workspace: &[u64], record: &Record) -> Outcome<u64> {
        let expected = Outcome::of(workspace, |words| calls::add_operator(words, record));
        let lists = [&record.variables, &record.befores, &record.afters];
        let lent = lists.map(|list| Lent::new(list));
        let (found, guards) = guarded(workspace, |words| {
            library::add_operator(words, record.count, &lent[0], &lent[1], &lent[2])
        });
        let mut inputs_after = lent.iter().zip(lists);
        let kept = guards && inputs_after.all(|(lent, list)| lent.still_holds(list));
        let inputs = || {
            vec![
                ("workspace", shown(workspace)),
                ("count", format!("{:x}", record.count)),
                ("variables", shown(&record.variables)),
                ("befores", shown(&record.befores)),
                ("afters", shown(&record.afters)),
            ]
        };
        self.judge("add_operator", &inputs, &expected, &found, kept);
        expected
    }

    pub fn replace_start(&mut self, workspace: &[u64], values: &[u64]) -> Outcome<u64> {
        let expected = Outcome::of(workspace, |words| calls::replace_start(words, values));
        let input = Lent::new(values);
        let (found, guards) = guarded(workspace, |words| library::replace_start(words, &input));
        let kept = guards && input.still_holds(values);
        let inputs = || vec![("workspace", shown(workspace)), ("values", shown(values))];
        self.judge("replace_start", &inputs, &expected, &found, kept);
        expected
    }

    pub fn replace_goal(&mut self, workspace: &[u64], values: &[u64]) -> Outcome<u64> {
        let expected = Outcome::of(workspace, |words| calls::replace_goal(words, values));
        let input = Lent::new(values);
        let (found, guards) = guarded(workspace, |words| library::replace_goal(words, &input));
        let kept = guards && input.still_holds(values);
        let inputs = || vec![("workspace", shown(workspace)), ("values", shown(values))];
        self.judge("replace_goal", &inputs, &expected, &found, kept);
        expected
    }

    /// Good bays in which two pallets are alike are counted apart, and those of many slots.
    pub fn build(&mut self, bay: &[u8], room: &[u8]) -> Outcome<u8> {
        let read = read_bay(bay);
        let alike = read.as_ref().is_ok_and(|bay| bay.has_alike());
        let kind = if alike { "build_lots" } else { "build" };
        let long = read.is_ok_and(|bay| bay.slots() > BEFORE.slots);
        let words = |outcome: &Outcome<u8>| {
            let slots = if long { " of many slots" } else { "" };
            answer(outcome.number) + slots
        };
        let (reference, library) = (calls::build, library::build);
        self.filled_in_words(kind, ("bay", bay), room, reference, library, words)
    }

    pub fn line(&mut self, input: &[u8], room: &[u8]) -> Outcome<u8> {
        let (reference, library) = (calls::line, library::line);
        let words = by_kind(input, line_answer);
        self.filled_in_words("line", ("input", input), room, reference, library, words)
    }

    pub fn weight_file(&mut self, words: &[u64], room: &[u8]) -> Outcome<u8> {
        let (reference, library) = (calls::weight_file, library::weight_file);
        self.filled("weight_file", ("words", words), room, reference, library)
    }

    pub fn check_line(&mut self, task: &[u8], weights: &[u8], room: &[u8]) -> Outcome<u8> {
        let (reference, library) = (calls::check_line, library::check_line);
        let files = [("task", task), ("weights", weights)];
        let words = by_kind(task, line_answer);
        self.written_in_words("check_line", files, room, reference, library, words)
    }

    pub fn open_partial(&mut self, partial: &[u8], room: &[u64]) -> Outcome<u64> {
        let (reference, library) = (calls::open_partial, library::open_partial);
        self.filled(
            "open_partial",
            ("partial", partial),
            room,
            reference,
            library,
        )
    }

    pub fn check_partial(&mut self, partial: &[u8], weights: &[u8]) -> u64 {
        let (reference, library) = (calls::check_partial, library::check_partial);
        let files = [("partial", partial), ("weights", weights)];
        self.judged("check_partial", files, reference, library, plainly)
    }

    pub fn check_partial_new(&mut self, partial: &[u8], weights: &[u8]) -> u64 {
        let (reference, library) = (calls::check_partial_new, library::check_partial_new);
        let files = [("partial", partial), ("weights", weights)];
        self.judged("check_partial_new", files, reference, library, plainly)
    }

    pub fn build_partial(&mut self, partial: &[u8], room: &[u8]) -> Outcome<u8> {
        let (reference, library) = (calls::build_partial, library::build_partial);
        self.filled(
            "build_partial",
            ("partial", partial),
            room,
            reference,
            library,
        )
    }

    pub fn build_partial_lean(&mut self, partial: &[u8], room: &[u8]) -> Outcome<u8> {
        let (reference, library) = (calls::build_partial_lean, library::build_partial_lean);
        self.filled(
            "build_partial_lean",
            ("partial", partial),
            room,
            reference,
            library,
        )
    }

    pub fn silence(&mut self, task: &[u8], marks: &[u8], room: &[u8]) -> Outcome<u8> {
        let (reference, library) = (calls::silence, library::silence);
        let files = [("task", task), ("marks", marks)];
        let words = by_kind(task, plainly);
        self.written_in_words("silence", files, room, reference, library, words)
    }

    pub fn mend(&mut self, task: &[u8], room: &[u8]) -> Outcome<u8> {
        let (reference, library) = (calls::mend, library::mend);
        let words = by_kind(task, where_due(task.len(), "unchanged"));
        self.filled_in_words("mend", ("task", task), room, reference, library, words)
    }

    pub fn dropped(&mut self, task: &[u8], room: &[u8]) -> Outcome<u8> {
        let (reference, library) = (calls::dropped, library::dropped);
        // A count of 0 is one byte; with any pair there are two or more.
        let words = by_kind(task, where_due(1, "nothing"));
        self.filled_in_words("dropped", ("task", task), room, reference, library, words)
    }

    pub fn pair_fault(&mut self, task: &[u8], room: &[u64]) -> Outcome<u64> {
        let (reference, library) = (calls::pair_fault, library::pair_fault);
        let words = by_kind(task, fault_answer);
        let task = ("task", task);
        self.filled_in_words("pair_fault", task, room, reference, library, words)
    }

    pub fn convert_to_new(&mut self, task: &[u8], room: &[u8]) -> Outcome<u8> {
        let (reference, library) = (calls::to_new, library::to_new);
        self.filled("to_new", ("task", task), room, reference, library)
    }

    pub fn convert_to_old(&mut self, task: &[u8], room: &[u8]) -> Outcome<u8> {
        let (reference, library) = (calls::to_old, library::to_old);
        self.filled("to_old", ("task", task), room, reference, library)
    }

    pub fn weights_to_new(&mut self, task: &[u8], weights: &[u8], room: &[u8]) -> Outcome<u8> {
        let (reference, library) = (calls::weights_to_new, library::weights_to_new);
        let files = [("task", task), ("weights", weights)];
        let words = by_kind(task, plainly);
        self.written_in_words("weights_to_new", files, room, reference, library, words)
    }

    pub fn weights_to_old(&mut self, task: &[u8], weights: &[u8], room: &[u8]) -> Outcome<u8> {
        let (reference, library) = (calls::weights_to_old, library::weights_to_old);
        let files = [("task", task), ("weights", weights)];
        let words = by_kind(task, plainly);
        self.written_in_words("weights_to_old", files, room, reference, library, words)
    }

    pub fn display(&mut self, task: &[u8], weights: &[u8], room: &[u64]) -> Outcome<u64> {
        let (reference, library) = (calls::display, library::display);
        let files = [("task", task), ("weights", weights)];
        let words = by_kind(task, shown_answer(read_both(Kind::Old, task, weights)));
        self.written_in_words("display", files, room, reference, library, words)
    }

    pub fn display_new(&mut self, task: &[u8], weights: &[u8], room: &[u64]) -> Outcome<u64> {
        let (reference, library) = (calls::display_new, library::display_new);
        let files = [("task", task), ("weights", weights)];
        let words = by_kind(task, shown_answer(read_both(Kind::New, task, weights)));
        self.written_in_words("display_new", files, room, reference, library, words)
    }

    pub fn display_partial(
        &mut self,
        partial: &[u8],
        weights: &[u8],
        room: &[u64],
    ) -> Outcome<u64> {
        let (reference, library) = (calls::display_partial, library::display_partial);
        let files = [("partial", partial), ("weights", weights)];
        let words = shown_answer(read_both_partial(Kind::Old, partial, weights));
        self.written_in_words("display_partial", files, room, reference, library, words)
    }

    pub fn display_bay(&mut self, bay: &[u8], room: &[u64]) -> Outcome<u64> {
        let (reference, library) = (calls::display_bay, library::display_bay);
        let words = shown_answer(read_bay_file(bay));
        let bay = ("bay", bay);
        self.filled_in_words("display_bay", bay, room, reference, library, words)
    }

    /// Whether the library opens a task to exactly the words that edits led to.
    pub fn fresh(&mut self, task: &[u8], edited: &[u64]) {
        let expected = Outcome::of(edited, |words| calls::done(words.len()));
        let input = Lent::new(task);
        let empty = vec![0; edited.len()];
        let (found, guards) = guarded(&empty, |room| library::open(&input, room));
        let kept = guards && input.still_holds(task);
        let inputs = || vec![("task", shown(task))];
        self.judge("fresh", &inputs, &expected, &found, kept);
    }
}
