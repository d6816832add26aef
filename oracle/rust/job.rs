//! The job (document 01, "The job's bits"; version 2 is document 02's, W1) and the refusals 1 to 8.
//! Names are those of nesting.rs where it has one.

/// A set: loops of points.
pub type Loops = Vec<Vec<[f64; 2]>>;

/// One orientation: the set held against placed copies and the one held
/// against the sheet.
pub struct Orientation {
    pub apart: Loops,
    pub inset: Loops,
}

/// A kind of panel.
pub struct Part {
    pub quantity: u32,
    pub fill: bool,
    pub priority: i32,
    pub area: f64,
    pub orientations: Vec<Orientation>,
}

pub struct Job {
    /// By their places in the lists of nesting.rs: LowerLeft, LowerRight, UpperLeft, UpperRight; X, Y.
    pub start_corner: u8,
    pub fill_axis: u8,
    /// Swap rounds.
    pub search_iterations: u32,
    pub seed: u64,
    pub resolution: f64,
    /// The sheet's and the parts' sets as they are read: not framed.
    pub sheet: Loops,
    pub parts: Vec<Part>,
}

impl Job {
    pub fn copies(&self) -> usize {
        self.parts.iter().map(|p| p.quantity as usize).sum()
    }
}

/// The number of a refusal.
pub type Refusal = u32;

/// The job's bytes and a bit position.
pub struct BitReader<'a> {
    bytes: &'a [u8],
    position: usize,
}

impl<'a> BitReader<'a> {
    pub fn new(bytes: &'a [u8]) -> Self {
        Self { bytes, position: 0 }
    }

    /// A field of up to 64 bits, most significant bit first; 1 if the bytes
    /// end inside it.
    fn field(&mut self, width: usize) -> Result<u64, Refusal> {
        if self.position + width > 8 * self.bytes.len() {
            return Err(1);
        }
        let mut value = 0u64;
        let mut left = width;
        while left > 0 {
            let byte = self.bytes[self.position / 8] as u64;
            let at = self.position % 8;
            let take = left.min(8 - at);
            let bits = (byte >> (8 - at - take)) & ((1 << take) - 1);
            value = (value << take) | bits;
            self.position += take;
            left -= take;
        }
        Ok(value)
    }

    /// A count within its range, else 6.
    fn count(&mut self, width: usize, low: u64, high: u64) -> Result<u64, Refusal> {
        let value = self.field(width)?;
        if value < low || value > high {
            return Err(6);
        }
        Ok(value)
    }

    /// A double: 4 if not finite, 5 outside its range, minus zero made plus zero.
    fn double(&mut self, low: f64, high: f64) -> Result<f64, Refusal> {
        let value = f64::from_bits(self.field(64)?);
        if !value.is_finite() {
            return Err(4);
        }
        if value < low || value > high {
            return Err(5);
        }
        Ok(if value == 0.0 { 0.0 } else { value })
    }

    fn coordinate(&mut self) -> Result<f64, Refusal> {
        self.double(-100_000.0, 100_000.0)
    }

    /// A set of 1 to 64 loops of 3 to 512 points, at most 512 in all.
    fn set(&mut self) -> Result<Loops, Refusal> {
        let loops = self.count(7, 1, 64)?;
        let mut set = vec![];
        let mut points = 0;
        for _ in 0..loops {
            let n = self.count(10, 3, 512)?;
            points += n;
            if points > 512 {
                return Err(6);
            }
            let mut outline = vec![];
            for _ in 0..n {
                outline.push([self.coordinate()?, self.coordinate()?]);
            }
            set.push(outline);
        }
        Ok(set)
    }

    fn part(&mut self) -> Result<Part, Refusal> {
        let quantity = self.count(12, 1, 4095)? as u32;
        let fill = self.field(1)? == 1;
        let priority = self.field(32)? as u32 as i32;
        let area = self.double(0.0, 1e12)?;
        let mut orientations = vec![];
        for _ in 0..self.count(5, 1, 16)? {
            orientations.push(Orientation { apart: self.set()?, inset: self.set()? });
        }
        Ok(Part { quantity, fill, priority, area, orientations })
    }

    /// 2 if a filling bit is set or a further byte follows.
    fn end(&self) -> Result<(), Refusal> {
        let byte = self.position / 8;
        let rest = self.position % 8;
        if rest == 0 {
            return if self.bytes.len() == byte { Ok(()) } else { Err(2) };
        }
        if self.bytes[byte] << rest != 0 || self.bytes.len() > byte + 1 {
            return Err(2);
        }
        Ok(())
    }
}

/// The sheet's extent along which columns advance: its width in the frame.
fn width(job: &Job) -> f64 {
    let i = if job.fill_axis == 0 { 1 } else { 0 };
    let first = job.sheet[0][0][i];
    let (mut low, mut high) = (first, first);
    for p in job.sheet.iter().flatten() {
        low = if p[i] < low { p[i] } else { low };
        high = if p[i] > high { p[i] } else { high };
    }
    high - low
}

/// Bytes to a job, or the number of its refusal.
pub fn read(bytes: &[u8]) -> Result<Job, Refusal> {
    let mut reader = BitReader::new(bytes);
    let (start_corner, fill_axis) = match reader.field(4)? {
        1 => (0, 1),
        2 => (reader.field(2)? as u8, reader.field(1)? as u8),
        _ => return Err(3),
    };
    let kinds = reader.count(7, 1, 64)?;
    let search_iterations = reader.field(12)? as u32;
    let seed = reader.field(64)?;
    let resolution = reader.double(0.001, 10_000.0)?;
    let sheet = reader.set()?;
    let mut parts = vec![];
    for _ in 0..kinds {
        parts.push(reader.part()?);
    }
    reader.end()?;
    let job = Job { start_corner, fill_axis, search_iterations, seed, resolution, sheet, parts };
    if job.copies() > 4096 {
        return Err(7);
    }
    if width(&job) / resolution > 1e6 {
        return Err(8);
    }
    Ok(job)
}

/// One set alone, in the job's bits, with zero bits to the end of the byte.
pub fn read_set(bytes: &[u8]) -> Result<Loops, Refusal> {
    let mut reader = BitReader::new(bytes);
    let set = reader.set()?;
    reader.end()?;
    Ok(set)
}
