//! Jobs of a given size for timing.

/// Bits, most significant first.
#[derive(Default)]
struct Bits(Vec<u8>, usize);

impl Bits {
    fn put(&mut self, value: u64, width: usize) {
        for i in (0..width).rev() {
            if self.1 % 8 == 0 {
                self.0.push(0);
            }
            *self.0.last_mut().unwrap() |= ((value >> i & 1) as u8) << (7 - self.1 % 8);
            self.1 += 1;
        }
    }
    fn set(&mut self, points: usize) {
        self.put(1, 7);
        self.put(points as u64, 10);
        for i in 0..points {
            let at = std::f64::consts::TAU * i as f64 / points as f64;
            self.put((100.0 * at.cos()).to_bits(), 64);
            self.put((100.0 * at.sin()).to_bits(), 64);
        }
    }
}

/// A job of so many kinds with two sets of so many points each.
pub fn packed(kinds: u64, points: usize) -> Vec<u8> {
    let mut b = Bits::default();
    b.put(1, 4);
    b.put(kinds, 7);
    b.put(0, 12);
    b.put(7, 64);
    b.put(1f64.to_bits(), 64);
    b.set(4);
    for _ in 0..kinds {
        b.put(1, 12);
        b.put(0, 33);
        b.put(100f64.to_bits(), 64);
        b.put(1, 5);
        b.set(points);
        b.set(points);
    }
    b.0
}
