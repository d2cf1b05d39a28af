//! Who is told of the additions of an opening: nobody, or one who counts them.

/// Is told of each slot that is added.
pub trait Observer {
    fn added_to_row(&mut self);

    /// When an index is cleared, or when slots are settled.
    fn added_to_slot(&mut self);
}

/// Nobody is told, so that a run which is timed does nothing more.
impl Observer for () {
    fn added_to_row(&mut self) {}

    fn added_to_slot(&mut self) {}
}

/// How many slots were added.
#[derive(Default)]
pub struct Additions {
    pub to_rows: usize,
    pub to_slots: usize,
}

impl Observer for Additions {
    fn added_to_row(&mut self) {
        self.to_rows += 1;
    }

    fn added_to_slot(&mut self) {
        self.to_slots += 1;
    }
}
