//! The lifted planner with plain lists, for timing: nothing is changed but
//! the name of the list type.
use crate::job::Job;
use crate::surroundings::*;

#[allow(dead_code)] // each user needs a part of it
#[path = "../build/lifted.rs"]
pub mod lifted;

/// Never cancels.
#[derive(Default)]
pub struct Signal;

impl CancelSignal for Signal {
    fn is_cancelled(&self) -> bool {
        false
    }
}

pub type Orientations<T> = Vec<T>;

pub fn orientations<T>(_: usize, list: Vec<T>, _: &Signal) -> Orientations<T> {
    list
}
