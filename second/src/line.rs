//! The line of waiting seats.

/// A seat and the priority it waits with, or holds the floor with.
#[derive(Clone, Copy, Debug, Default, PartialEq, Eq)]
pub struct Entry {
    pub seat: usize,
    pub priority: u8,
}

/// Seats that wait, highest priority first and earlier first among equals. No seat stands
/// in it twice.
#[derive(Clone, Debug, Default, PartialEq, Eq)]
pub struct Line {
    entries: Vec<Entry>,
}

impl Line {
    pub fn entries(&self) -> &[Entry] {
        &self.entries
    }

    pub fn entry_of(&self, seat: usize) -> Option<Entry> {
        self.entries
            .iter()
            .copied()
            .find(|entry| entry.seat == seat)
    }

    /// The place of a seat, 1 being the head.
    pub fn rank(&self, seat: usize) -> Option<usize> {
        let index = self.entries.iter().position(|entry| entry.seat == seat)?;
        Some(index + 1)
    }

    /// Puts a seat behind all of at least its priority, out of where it stood before.
    pub fn place(&mut self, entry: Entry) {
        self.strike(entry.seat);
        let before = |other: &Entry| other.priority >= entry.priority;
        let index = self
            .entries
            .iter()
            .take_while(|other| before(other))
            .count();
        self.entries.insert(index, entry);
    }

    /// Takes a seat out and says whether it was there.
    pub fn strike(&mut self, seat: usize) -> bool {
        let length = self.entries.len();
        self.entries.retain(|entry| entry.seat != seat);
        self.entries.len() < length
    }

    /// Takes the head out, if there is one.
    pub fn take_head(&mut self) -> Option<Entry> {
        if self.entries.is_empty() {
            return None;
        }
        Some(self.entries.remove(0))
    }

    /// Takes everyone out.
    pub fn clear(&mut self) {
        self.entries.clear();
    }
}

#[cfg(test)]
mod tests {
    use super::*;

    fn queued(entries: &[(usize, u8)]) -> Line {
        let mut line = Line::default();
        for &(seat, priority) in entries {
            line.place(Entry { seat, priority });
        }
        line
    }

    fn seats(line: &Line) -> Vec<usize> {
        line.entries().iter().map(|entry| entry.seat).collect()
    }

    #[test]
    fn highest_first_and_earlier_first_among_equals() {
        let line = queued(&[(0, 5), (1, 5), (2, 6), (3, 4), (4, 6)]);
        assert_eq!(seats(&line), [2, 4, 0, 1, 3]);
        assert_eq!(line.rank(1), Some(4));
        assert_eq!(line.rank(9), None);
    }

    #[test]
    fn a_moved_seat_stands_once_and_behind_its_equals() {
        let mut line = queued(&[(0, 5), (1, 5), (2, 6)]);
        line.place(Entry {
            seat: 2,
            priority: 5,
        });
        assert_eq!(seats(&line), [0, 1, 2]);
        line.place(Entry {
            seat: 1,
            priority: 7,
        });
        assert_eq!(seats(&line), [1, 0, 2]);
    }
}
