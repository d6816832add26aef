//! The commands of a script.

/// One command: a letter, a byte, 4 bytes, 8 bytes, most significant first.
pub struct Command {
    pub letter: u8,
    pub a: usize,
    pub n: usize,
    pub m: u64,
}

pub struct Reader<'a> {
    data: &'a [u8],
    at: usize,
}

impl<'a> Reader<'a> {
    pub fn new(data: &'a [u8]) -> Self {
        Self { data, at: 0 }
    }

    pub fn take(&mut self, n: usize) -> Result<&'a [u8], String> {
        let piece = self.data.get(self.at..self.at + n).ok_or("script ends inside a command")?;
        self.at += n;
        Ok(piece)
    }

    pub fn command(&mut self) -> Result<Option<Command>, String> {
        if self.at == self.data.len() {
            return Ok(None);
        }
        let b = self.take(14)?;
        let number = |r: &[u8]| r.iter().fold(0u64, |n, &x| n << 8 | x as u64);
        let (a, n, m) = (b[1] as usize, number(&b[2..6]) as usize, number(&b[6..]));
        Ok(Some(Command { letter: b[0], a, n, m }))
    }
}
