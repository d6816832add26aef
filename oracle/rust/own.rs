//! What a script's calls are compared with while the state is its own: started, and nothing changed
//! by hand since. Looks, strips, entries and bucket numbers with the lifted code, over an index of
//! the copies that stand; all that the state says of copies and searches with the plain planner.
use crate::filling::{next_copy, State, Stop};
use crate::flat::Flat;
use crate::hash::bits;
use crate::job::Job;
use crate::plain::{Plain, Planner, Request, WORK};
use crate::probed::{lifted::reach::Lifted, Signal};
use crate::rooms::Rooms;
use crate::watch::Watch;

pub struct Own {
    job: Job,
    order: Vec<usize>,
    /// The plain planner; nothing once its work is used up.
    plain: Option<Planner>,
    /// Whether a copy was taken back.
    back: bool,
}

impl Own {
    pub fn started(job: Job, order: &[usize]) -> Self {
        let plain = Some(Planner::new(&job, order, WORK));
        Self { job, order: order.to_vec(), plain, back: false }
    }

    /// The lifted planner with an index of the copies that stand.
    fn lifted<'a>(&self, s: &Flat, signal: &'a Signal) -> Lifted<'a> {
        let mut lifted = Lifted::new(&self.job, signal);
        for i in s.standing() {
            lifted.place((s.order[i], s.orientation[i] - 1), s.x[i], s.y[i]);
        }
        lifted
    }

    /// Next copy, each of its looks beside the lifted code.
    pub fn step(&self, before: &Flat, state: &mut State, rooms: &mut Rooms) -> Result<(), Stop> {
        let signal = Signal::default();
        let mut lifted = self.lifted(before, &signal);
        let mut watch = Watch { lifted: Some(&mut lifted), ..Default::default() };
        next_copy(&self.job, state, rooms, &mut watch)
    }

    /// Whether 31 does not hold.
    pub fn fits(&self, s: &Flat, rooms: &Rooms) -> bool {
        s.state(&self.job, rooms).is_some()
    }

    /// After an accepted call: not 31, and the rooms beside the lifted index of the copies that stand.
    fn same_rooms(&self, s: &Flat, rooms: &Rooms) -> Result<(), String> {
        let signal = Signal::default();
        let mut lifted = self.lifted(s, &signal);
        let mut watch = Watch { lifted: Some(&mut lifted), ..Default::default() };
        let state = s.state(&self.job, rooms).ok_or("31 after an accepted call")?;
        watch.filled(&state, rooms)
    }

    /// After a call, refused or not: the rooms; the state beside the plain planner's, and beside the
    /// lifted fill's where the order is used up and no copy was taken back.
    pub fn called(
        &mut self,
        request: Request,
        number: u32,
        s: &Flat,
        rooms: &Rooms,
    ) -> Result<(), String> {
        if number == 0 {
            self.same_rooms(s, rooms)?;
        }
        self.back |= number == 0 && matches!(request, Request::Back(_));
        if let Some(plain) = &mut self.plain {
            match plain.call(request, number != 0) {
                Ok(()) => same_plain(&self.job, &plain.told(), s)?,
                Err(()) => self.plain = None,
            }
        }
        if number == 23 && !self.back {
            self.same_fill(s)?;
        }
        Ok(())
    }

    fn same_fill(&self, s: &Flat) -> Result<(), String> {
        let signal = Signal::default();
        let filled = Lifted::new(&self.job, &signal).fill(&self.order);
        let same = filled.placed.iter().enumerate().all(|(i, p)| match p {
            Some((o, x, y)) => {
                (s.orientation[i], bits(s.x[i]), bits(s.y[i])) == (o + 1, bits(*x), bits(*y))
            }
            None => s.orientation[i] == 0,
        });
        let ends = [(s.right, filled.right), (s.unplaced_area, filled.unplaced_area)];
        if !same || ends.iter().any(|(a, b)| bits(*a) != bits(*b)) {
            return Err("steps to the end differ from the lifted fill".into());
        }
        Ok(())
    }
}

/// The numbers of place i in a state, as they follow from a place and a gap.
fn numbers(place: Option<(usize, f64, f64)>, gap: f64) -> [u64; 4] {
    let (o, x, y) = place.map_or((0, 0.0, 0.0), |(o, x, y)| (o as u64 + 1, x, y));
    [o, bits(x), bits(y), bits(gap)]
}

/// Order, copies taken, each copy's place, sums, remembered columns and look counts.
fn same_plain(job: &Job, p: &Plain, s: &Flat) -> Result<(), String> {
    let differ = |what: &str| Err(format!("the plain planner's {what} differs"));
    if p.order != s.order[..job.copies()] || p.placed.len() != s.taken {
        return differ("order");
    }
    for i in 0..s.taken {
        let ours = [s.orientation[i] as u64, bits(s.x[i]), bits(s.y[i]), bits(s.gap[i])];
        if ours != numbers(p.placed[i], p.gaps[i]) {
            return differ(&format!("place {i}"));
        }
    }
    if bits(p.right) != bits(s.right) || bits(p.unplaced_area) != bits(s.unplaced_area) {
        return differ("right or area");
    }
    let parts = job.parts.iter().enumerate();
    let slots = parts.flat_map(|(k, part)| (0..part.orientations.len()).map(move |o| 16 * k + o));
    for ((i, &looks), column) in slots.zip(&p.looks).zip(&p.columns) {
        let kept = column.is_none_or(|c| c.map_or(0, |c| c + 1) == s.next_column[i]);
        if looks != s.look_counts[i] as u64 || !kept {
            return differ(&format!("search in slot {i}"));
        }
    }
    Ok(())
}
