//! What no single statement shows (`scripts::seen`), so that events and words sent, which are most of a record, need not be looked at.

use crate::fault::{Fault, Place};
use crate::scripts::seen::Seen;
use crate::scripts::statement::{Action, Statement};

#[derive(Default)]
pub struct Order {
    seen: Seen,
    ended: bool,
}

impl Order {
    /// Whether the record has ended: only then an event or a word sent is refused.
    #[inline]
    pub fn ended(&self) -> bool {
        self.ended
    }

    /// Sees an image that was given before the first statement.
    pub fn see_image(&mut self, image: &Statement) -> Result<(), Fault> {
        self.seen.see_image(image)
    }

    /// Sees the next statement.
    pub fn see(&mut self, action: &Action, place: Place) -> Result<(), Fault> {
        self.ended |= matches!(action, Action::Samples { .. });
        self.seen.see(action, place)
    }
}
