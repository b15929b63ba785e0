//! A track over its whole time in a bounded number of columns: when they are full, each two become one of twice the width.

/// Most columns of a strip; between half of these and all of them are in use once a track is longer than that.
pub const MOST: usize = 1024;

/// What can be put together with what came after it.
pub trait Joins {
    fn join(&mut self, later: &Self);
}

#[derive(Clone, Debug)]
pub struct Strip<Column> {
    /// How much of the track one column holds, in steps of whoever fills it.
    pub width: u64,
    pub columns: Vec<Column>,
    /// Steps in the last column.
    last: u64,
}

impl<Column: Joins> Strip<Column> {
    pub fn new() -> Strip<Column> {
        Strip { width: 1, columns: Vec::new(), last: 1 }
    }

    /// Adds one step of the track.
    pub fn push(&mut self, step: Column) {
        if self.last < self.width {
            self.last += 1;
            if let Some(column) = self.columns.last_mut() {
                column.join(&step);
            }
            return;
        }
        if self.columns.len() == MOST {
            self.halve();
            return self.push(step);
        }
        self.columns.push(step);
        self.last = 1;
    }

    fn halve(&mut self) {
        let columns = std::mem::take(&mut self.columns);
        let mut columns = columns.into_iter();
        while let Some(mut column) = columns.next() {
            columns.next().iter().for_each(|later| column.join(later));
            self.columns.push(column);
        }
        self.width *= 2;
        // The number of columns was even and each was full.
        self.last = self.width;
    }
}

impl<Column: Joins> Default for Strip<Column> {
    fn default() -> Strip<Column> {
        Strip::new()
    }
}

#[cfg(test)]
mod tests {
    use super::*;

    impl Joins for u64 {
        fn join(&mut self, later: &u64) {
            *self += later;
        }
    }

    #[test]
    fn every_step_is_in_one_column_and_in_order() {
        for steps in [0, 1, 1023, 1024, 1025, 5000, 100_000] {
            let mut strip = Strip::new();
            (0..steps).for_each(|_| strip.push(1));
            assert_eq!(strip.columns.iter().sum::<u64>(), steps);
            let full = strip.columns.len().saturating_sub(1);
            assert!(strip.columns[..full].iter().all(|column| *column == strip.width), "{steps}");
            assert!(strip.columns.len() <= MOST && (steps <= MOST as u64 || strip.columns.len() > MOST / 2), "{steps}");
        }
    }
}
