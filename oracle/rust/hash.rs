//! The hashes that a script's answers have, of rooms and of a state.
use crate::flat::Flat;
use crate::nesting::next_random;

/// A hash of numbers: each is mixed in by a draw; it begins with how many they are.
pub fn hash(words: &[u64]) -> u64 {
    words.iter().fold(words.len() as u64, |h, w| next_random(&mut (h ^ w)))
}

/// A double's bits; one pattern for every NaN.
pub fn bits(x: f64) -> u64 {
    if x.is_nan() { 0x7ff8_0000_0000_0000 } else { x.to_bits() }
}

/// The hash of all the state's numbers, in the order of the fields.
pub fn state_hash(s: &Flat) -> u64 {
    let mut words = vec![bits(s.resolution)];
    let doubles = |words: &mut Vec<u64>, xs: &[f64]| words.extend(xs.iter().map(|&x| bits(x)));
    let numbers = |words: &mut Vec<u64>, ns: &[usize]| words.extend(ns.iter().map(|&n| n as u64));
    doubles(&mut words, &s.sheet_bounds);
    numbers(&mut words, &[s.sheet_strips, s.apart_strips]);
    doubles(&mut words, &s.inset_bounds);
    numbers(&mut words, &s.parts);
    numbers(&mut words, &s.order);
    numbers(&mut words, &[s.taken]);
    numbers(&mut words, &s.next_column);
    numbers(&mut words, &s.look_counts);
    numbers(&mut words, &[s.placed_strips]);
    numbers(&mut words, &s.orientation);
    doubles(&mut words, &s.x);
    doubles(&mut words, &s.y);
    doubles(&mut words, &s.gap);
    doubles(&mut words, &[s.unplaced_area, s.right]);
    hash(&words)
}
