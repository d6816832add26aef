//! Withdrawal of a standing copy, by hand from document 02, W4: the rooms close up, the state
//! forgets its searches. The Rust has none.
use crate::flat::Flat;
use crate::index::Index;
use crate::job::Job;
use crate::rooms::{load, Rooms, STRIP};
use crate::strips::{larger, Strip};

/// What lies behind place n moves down by one, and the last place becomes `last`.
fn close_up<T>(list: &mut [T], n: usize, last: T) {
    list[n..].rotate_left(1);
    list[list.len() - 1] = last;
}

impl Flat {
    /// The strips of the standing copy at place i.
    fn strips_of(&self, i: usize) -> usize {
        self.ranges(self.slot(i)).0.len()
    }

    /// Takes the copy at place n back: 31, then 24 where none stands there, else 0. A refused call
    /// leaves state and rooms as they were.
    pub fn withdraw(&mut self, job: &Job, rooms: &mut Rooms, n: usize) -> u32 {
        if self.state(job, rooms).is_none() {
            return 31;
        }
        if !self.standing().any(|i| i == n) {
            return 24;
        }
        let before: usize = self.standing().take_while(|&i| i < n).map(|i| self.strips_of(i)).sum();
        let count = self.strips_of(n);
        self.clear_strips(rooms, before, count);
        self.clear_copy(job.copies(), n);
        0
    }

    /// Out of the rooms: `count` strips from number `before` on. The later ones move down as they
    /// are; entries and bucket numbers are those of the strips that are left; then zeros to the
    /// end of each room.
    fn clear_strips(&mut self, rooms: &mut Rooms, before: usize, count: usize) {
        let later = STRIP * (before + count)..STRIP * self.placed_strips;
        rooms.placed.copy_within(later, STRIP * before);
        self.placed_strips -= count;
        let left: Vec<Strip> = (0..self.placed_strips).map(|i| load(&rooms.placed, i)).collect();
        rooms.placed[STRIP * self.placed_strips..].fill(0.0);
        rooms.placed_entries.fill(0);
        rooms.placed_firsts.fill(0);
        let mut index = Index::new(self.sheet_bounds[0], self.sheet_bounds[2]);
        index.enter(&mut rooms.placed_entries, &mut rooms.placed_firsts, &left, 0);
    }

    /// Out of the state: the copy joins the end of the order, the copies after it close up, right is
    /// found anew. Every remembered column is 0 again, and every look count.
    fn clear_copy(&mut self, copies: usize, n: usize) {
        let kind = self.order[n];
        close_up(&mut self.order[..copies], n, kind);
        close_up(&mut self.orientation[..self.taken], n, 0);
        close_up(&mut self.x[..self.taken], n, 0.0);
        close_up(&mut self.y[..self.taken], n, 0.0);
        close_up(&mut self.gap[..self.taken], n, 0.0);
        self.taken -= 1;
        self.next_column.fill(1);
        self.look_counts.fill(0);
        let ends = self.standing().map(|i| self.x[i] + self.bounds(self.slot(i))[2]);
        self.right = ends.fold(self.sheet_bounds[0], larger);
    }
}
