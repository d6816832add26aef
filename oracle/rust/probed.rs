//! The lifted planner with a probing list: which orientation is searched, and
//! how often its search asks the cancel signal, which is once a look.
use crate::job::Job;
use crate::surroundings::*;
use std::cell::RefCell;
use std::rc::Rc;

#[allow(dead_code)] // each user needs a part of it
#[path = "../build/lifted.rs"]
pub mod lifted;

/// A search: the slot (kind, orientation) and its looks.
pub type Search = (u32, u32, u32);

/// The searches of each filling, in order.
type Log = Rc<RefCell<Vec<Vec<Search>>>>;

/// The cancel signal: never cancels, counts.
#[derive(Default)]
pub struct Signal {
    log: Log,
}

impl Signal {
    pub fn take(&self) -> Vec<Vec<Search>> {
        self.log.take()
    }
}

impl CancelSignal for Signal {
    fn is_cancelled(&self) -> bool {
        let mut log = self.log.borrow_mut();
        let search = log.last_mut().and_then(|filling| filling.last_mut());
        search.expect("a search").2 += 1;
        false
    }
}

/// The one changed type: a list that notes who is asked for.
pub struct Orientations<T> {
    kind: u32,
    list: Vec<T>,
    log: Log,
}

impl<T> Orientations<T> {
    /// Asked once a kind when a filling begins.
    pub fn len(&self) -> usize {
        if self.kind == 0 {
            self.log.borrow_mut().push(vec![]);
        }
        self.list.len()
    }

    /// Each orientation handed out begins a search.
    pub fn iter(&self) -> impl Iterator<Item = &T> {
        self.list.iter().enumerate().map(|(o, shape)| {
            let mut log = self.log.borrow_mut();
            log.last_mut().expect("a filling").push((self.kind, o as u32, 0));
            shape
        })
    }
}

impl<T> std::ops::Index<usize> for Orientations<T> {
    type Output = T;
    fn index(&self, o: usize) -> &T {
        &self.list[o]
    }
}

pub fn orientations<T>(kind: usize, list: Vec<T>, signal: &Signal) -> Orientations<T> {
    Orientations { kind: kind as u32, list, log: signal.log.clone() }
}
