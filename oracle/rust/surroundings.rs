//! What the lifted lines name and camlib defines elsewhere: as little of it as
//! lets them compile unchanged.

/// Asked once a column.
pub trait CancelSignal {
    fn is_cancelled(&self) -> bool;
}

/// A placed copy. `rotation_deg` carries the number of the orientation.
#[derive(Clone, Copy)]
pub struct Placement {
    pub part: usize,
    pub copy: u32,
    pub rotation_deg: f64,
    #[allow(dead_code)]
    pub mirrored: bool,
    pub translation_mm: [f64; 2],
}

pub struct Unplaced {
    pub part: usize,
    pub quantity: u32,
}
