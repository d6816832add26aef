//! Writing jobs (document 02, W9), by hand: the tables that a job is given as, to its bits. The fields are packed as they
//! come, and the oracle's reader judges what they are; before it a number that is too large for its field, and version 1
//! with another frame. The Rust has no such call.
use crate::hash::hash;
use crate::job::{self, Job, Loops};

/// What a short output room is refused with.
const SHORT: u32 = 28;

/// Every byte of a room before the call.
const GARBAGE: u8 = 0xa5;

/// A job as it is given, doubles by their bits. The header: version, corner, axis, kinds, rounds, seed, resolution.
#[derive(PartialEq, Debug)]
struct Tables {
    header: [u64; 7],
    rows: Vec<u64>,
    areas: Vec<u64>,
    counts: Vec<u64>,
    coordinates: Vec<u64>,
}

/// A number to be written, by the name that document 01 has for it.
#[derive(Clone, Copy)]
#[allow(dead_code)] // the wrong writers of wrong/writers.py go by names
struct Field {
    name: &'static str,
    width: usize,
    value: u64,
}

/// A field that its number is too large for.
struct TooLarge;

/// The fields up to the one that is too narrow, and how far the tables are used.
struct Fields<'a> {
    tables: &'a Tables,
    list: Vec<Field>,
    counts: usize,
    coordinates: usize,
}

/// The bits of a missing area or coordinate.
const NONE: u64 = 0x7ff8_0000_0000_0000;

fn plus_zero(bits: u64) -> u64 {
    if f64::from_bits(bits) == 0.0 { 0 } else { bits }
}

impl Fields<'_> {
    fn put(&mut self, name: &'static str, width: usize, value: u64) -> Result<(), TooLarge> {
        if width < 64 && value >= 1 << width {
            return Err(TooLarge);
        }
        self.list.push(Field { name, width, value });
        Ok(())
    }

    fn double(&mut self, name: &'static str, bits: u64) -> Result<(), TooLarge> {
        self.put(name, 64, plus_zero(bits))
    }

    /// The next number of the counts, put.
    fn count(&mut self, name: &'static str, width: usize) -> Result<u64, TooLarge> {
        let n = self.tables.counts.get(self.counts).copied().unwrap_or(0);
        self.counts += 1;
        self.put(name, width, n)?;
        Ok(n)
    }

    fn coordinate(&mut self, name: &'static str) -> Result<(), TooLarge> {
        let bits = self.tables.coordinates.get(self.coordinates).copied().unwrap_or(NONE);
        self.coordinates += 1;
        self.double(name, bits)
    }

    fn set(&mut self) -> Result<(), TooLarge> {
        for _ in 0..self.count("loops", 7)? {
            for _ in 0..self.count("points", 10)? {
                self.coordinate("x")?;
                self.coordinate("y")?;
            }
        }
        Ok(())
    }

    fn header(&mut self) -> Result<(), TooLarge> {
        let [version, corner, axis, kinds, rounds, seed, resolution] = self.tables.header;
        self.put("version", 4, version)?;
        if version == 2 {
            self.put("corner", 2, corner)?;
            self.put("axis", 1, axis)?;
        }
        self.put("kinds", 7, kinds)?;
        self.put("rounds", 12, rounds)?;
        self.put("seed", 64, seed)?;
        self.double("resolution", resolution)
    }

    fn kind(&mut self, k: usize) -> Result<(), TooLarge> {
        let row = |i: usize| self.tables.rows.get(4 * k + i).copied().unwrap_or(0);
        let [quantity, fill, priority, orientations] = [row(0), row(1), row(2), row(3)];
        self.put("quantity", 12, quantity)?;
        self.put("fill", 1, fill)?;
        self.put("priority", 32, priority)?;
        self.double("area", self.tables.areas.get(k).copied().unwrap_or(NONE))?;
        self.put("orientations", 5, orientations)?;
        for _ in 0..2 * orientations {
            self.set()?;
        }
        Ok(())
    }

    fn job(&mut self) -> Result<(), TooLarge> {
        self.header()?;
        self.set()?;
        (0..self.tables.header[3] as usize).try_for_each(|k| self.kind(k))
    }
}

/// Most significant bit first, zero bits to the end of the last byte.
fn packed(list: &[Field]) -> Vec<u8> {
    let bit = |f: &Field, i: usize| f.value >> i & 1;
    let bits: Vec<u64> = list.iter().flat_map(|f| (0..f.width).rev().map(move |i| bit(f, i))).collect();
    let byte = |b: &[u64]| (0..8).fold(0, |n, i| n << 1 | b.get(i).copied().unwrap_or(0) as u8);
    bits.chunks(8).map(byte).collect()
}

/// The fields of a job that is taken, or why it is refused.
fn judged(t: &Tables, by_hand: bool) -> Result<Result<Vec<Field>, u32>, String> {
    let [version, corner, axis, ..] = t.header;
    if version > 15 || version == 1 && (corner, axis) != (0, 1) {
        return Ok(Err(3));
    }
    let mut fields = Fields { tables: t, list: vec![], counts: 0, coordinates: 0 };
    let whole = fields.job().is_ok();
    match job::read(&packed(&fields.list)) {
        // The reader found no end before the field that is too narrow.
        Err(1) if !whole => Ok(Err(6)),
        Err(n) => Ok(Err(n)),
        Ok(job) if by_hand || tables(&job, version) == used(t, &fields) => Ok(Ok(fields.list)),
        Ok(_) => Err("what is written reads as another job".into()),
    }
}

/// The whole call: the refusal's number or 0, and how many bytes are written. The room is left zero, but for them.
fn write(t: &Tables, room: &mut [u8], by_hand: bool) -> Result<(u32, usize), String> {
    let (mut number, mut bytes) = match judged(t, by_hand)? {
        Ok(list) => (0, packed(&list)),
        Err(n) => (n, vec![]),
    };
    if bytes.len() > room.len() {
        (number, bytes) = (SHORT, vec![]);
    }
    room.fill(0);
    room[..bytes.len()].copy_from_slice(&bytes);
    Ok((number, bytes.len()))
}

/// The tables as far as they are used, with plus zeros.
fn used(t: &Tables, fields: &Fields) -> Tables {
    let kinds = t.header[3] as usize;
    let doubles = |list: &[u64]| list.iter().map(|&n| plus_zero(n)).collect();
    let mut header = t.header;
    header[6] = plus_zero(header[6]);
    Tables {
        header,
        rows: t.rows[..4 * kinds].to_vec(),
        areas: doubles(&t.areas[..kinds]),
        counts: t.counts[..fields.counts].to_vec(),
        coordinates: doubles(&t.coordinates[..fields.coordinates]),
    }
}

/// The tables of a job that is read.
fn tables(job: &Job, version: u64) -> Tables {
    let (corner, axis, rounds) = (job.start_corner, job.fill_axis, job.search_iterations);
    let (kinds, resolution) = (job.parts.len() as u64, job.resolution.to_bits());
    let header = [version, corner as u64, axis as u64, kinds, rounds as u64, job.seed, resolution];
    let mut t = Tables { header, rows: vec![], areas: vec![], counts: vec![], coordinates: vec![] };
    table_set(&mut t, &job.sheet);
    for p in &job.parts {
        let orientations = p.orientations.len() as u64;
        t.rows.extend([p.quantity as u64, p.fill as u64, p.priority as u32 as u64, orientations]);
        t.areas.push(p.area.to_bits());
        for o in &p.orientations {
            table_set(&mut t, &o.apart);
            table_set(&mut t, &o.inset);
        }
    }
    t
}

fn table_set(t: &mut Tables, set: &Loops) {
    t.counts.push(set.len() as u64);
    for outline in set {
        t.counts.push(outline.len() as u64);
        t.coordinates.extend(outline.iter().flatten().map(|x| x.to_bits()));
    }
}

fn number(bytes: &[u8]) -> u64 {
    bytes.iter().fold(0, |n, &b| n << 8 | b as u64)
}

/// Of a record: whether it is a job's bytes, the slots of rows, areas, counts and coordinates, the output room's bytes.
const HEAD: usize = 6;

/// `--write`: the answer to a record.
pub fn write_text(data: &[u8], by_hand: bool) -> Result<String, String> {
    let short = "a record that is too short";
    let (head, rest) = data.split_at_checked(4 * HEAD).ok_or(short)?;
    let head: Vec<usize> = head.chunks(4).map(|b| number(b) as usize).collect();
    let lengths = [head[1], head[2], head[3], head[4]];
    if head[0] == 1 {
        return read_text(rest, lengths, head[5], by_hand);
    }
    let mut words = rest.chunks(8).map(number);
    let mut take = |n: usize| -> Vec<u64> { words.by_ref().take(n).collect() };
    let header = take(7).try_into().map_err(|_| short)?;
    let [rows, areas, counts, coordinates] = lengths.map(&mut take);
    let t = Tables { header, rows, areas, counts, coordinates };
    wrote_text(&t, head[5], by_hand)
}

fn wrote_text(t: &Tables, length: usize, by_hand: bool) -> Result<String, String> {
    let mut room = vec![GARBAGE; length];
    let (number, bytes) = write(t, &mut room, by_hand)?;
    let room: Vec<u64> = room.iter().map(|&b| b as u64).collect();
    Ok(format!("wrote {number} {bytes} {:016x}\n", hash(&room)))
}

/// A job's bytes read into four rooms of so many slots, and written again.
fn read_text(bytes: &[u8], lengths: [usize; 4], room: usize, by_hand: bool) -> Result<String, String> {
    let read = job::read(bytes).map(|job| tables(&job, bytes[0] as u64 >> 4));
    let needs = |t: &Tables| [&t.rows, &t.areas, &t.counts, &t.coordinates].map(Vec::len);
    let fits = |t: &Tables| needs(t).iter().zip(lengths).all(|(&need, has)| need <= has);
    let slots = 7 + lengths.iter().sum::<usize>();
    let t = match read {
        Ok(t) if fits(&t) => t,
        read => {
            let n = read.err().unwrap_or(SHORT);
            return Ok(format!("read {n} 0 0 {:016x}\n", hash(&vec![0; slots])));
        }
    };
    let mut words = t.header.to_vec();
    for (table, length) in [&t.rows, &t.areas, &t.counts, &t.coordinates].iter().zip(lengths) {
        words.extend(table.iter().copied().chain(std::iter::repeat(0)).take(length));
    }
    let (counts, coordinates) = (t.counts.len(), t.coordinates.len());
    let text = format!("read 0 {counts} {coordinates} {:016x}\n", hash(&words));
    Ok(text + &wrote_text(&t, room, by_hand)?)
}
