//! What is noted of the planner with rooms while it works, and its comparison
//! with the lifted code at every look.
use crate::filling::{Ranges, Slot, State};
use crate::print::{hex, hexes};
use crate::probed::lifted::reach::Lifted;
use crate::probed::Search;
use crate::rooms::{load, numbers, Rooms};

/// One look. `y` is the lowest height in no interval, free or not; `gap` is 0 where it is not free.
pub struct Look {
    pub kind: usize,
    pub orientation: usize,
    pub column: usize,
    pub x: f64,
    pub y: f64,
    pub gap: f64,
    pub free: bool,
    pub intervals: usize,
}

impl Look {
    pub fn line(&self) -> String {
        let Look { kind, orientation, column, x, y, gap, free, intervals } = self;
        let answer = if *free { format!("free {}", hexes(&[*y, *gap])) } else { "full".into() };
        format!("{kind} {orientation} {column} {} {answer} {intervals}", hex(*x))
    }
}

#[derive(Default)]
pub struct Watch<'a, 'b> {
    /// The lifted code, asked for the same looks.
    pub lifted: Option<&'a mut Lifted<'b>>,
    /// Looks of the first filling, where they are wanted.
    pub looks: Option<Vec<Look>>,
    /// Searches of each filling.
    pub fillings: Vec<Vec<Search>>,
    /// Of each filling the largest x1 of the lifted strips that stand; none where none stands.
    pub ends: Vec<Option<f64>>,
}

impl Watch<'_, '_> {
    pub fn filling(&mut self) {
        self.fillings.push(vec![]);
        if let Some(lifted) = &mut self.lifted {
            lifted.clear();
        }
    }

    pub fn search(&mut self, slot: &Slot) {
        if let Some(filling) = self.fillings.last_mut() {
            filling.push((slot.kind as u32, slot.orientation as u32, 0));
        }
    }

    /// Notes a look; a message where the lifted lines answer otherwise.
    pub fn look(&mut self, look: &Look, r: &Ranges) -> Result<(), String> {
        if let Some(search) = self.fillings.last_mut().and_then(|f| f.last_mut()) {
            search.2 += 1;
        }
        if let Some(lifted) = &mut self.lifted {
            let columns = (look.column, r.columns);
            let (x, y, n) = lifted.look((look.kind, look.orientation), columns, r.xs, r.ys);
            let gap = if y <= r.ys.1 { lifted.gap(y, r.ys.1) } else { 0.0 };
            let bits = |numbers: [f64; 3]| numbers.map(f64::to_bits);
            if bits([x, y, gap]) != bits([look.x, look.y, look.gap]) || n != look.intervals {
                let line = look.line();
                return Err(format!("look {line}: lifted x {x:?} y {y:?} gap {gap:?} of {n}"));
            }
        }
        if self.fillings.len() < 2 {
            if let Some(looks) = &mut self.looks {
                looks.push(Look { ..*look });
            }
        }
        Ok(())
    }

    pub fn place(&mut self, kind: usize, o: usize, x: f64, y: f64) {
        if let Some(lifted) = &mut self.lifted {
            lifted.place((kind, o), x, y);
        }
    }

    /// Every standing strip's bucket number against the lifted index's division.
    pub fn firsts(&self, state: &State, rooms: &Rooms) -> Result<(), String> {
        let Some(lifted) = &self.lifted else {
            return Ok(());
        };
        let sheet = numbers(&rooms.sheet_firsts[..state.sheet_strips]);
        let placed = numbers(&rooms.placed_firsts[..state.placed_strips]);
        if lifted.firsts() != [sheet, placed] {
            return Err("bucket numbers differ".into());
        }
        Ok(())
    }

    /// After a filling: the standing strips, entries and bucket numbers against
    /// the lifted index, and where the lifted strips end.
    pub fn filled(&mut self, state: &State, rooms: &Rooms) -> Result<(), String> {
        let Some(lifted) = &self.lifted else {
            return Ok(());
        };
        let (strips, entries) = lifted.standing();
        let bits = |s: [f64; 6]| s.map(f64::to_bits);
        let same = strips.len() == state.placed_strips
            && strips.iter().enumerate().all(|(i, s)| bits(*s) == bits(load(&rooms.placed, i)));
        if !same {
            return Err("placed strips differ".into());
        }
        if entries != numbers(&rooms.placed_entries[..state.placed_index.count()]) {
            return Err("placed entries differ".into());
        }
        if lifted.sheet_entries() != numbers(&rooms.sheet_entries[..state.sheet_index.count()]) {
            return Err("sheet entries differ".into());
        }
        self.firsts(state, rooms)?;
        self.ends.push(strips.iter().map(|s| s[1]).reduce(f64::max));
        Ok(())
    }
}
