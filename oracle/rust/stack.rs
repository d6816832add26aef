//! The next n copies in one call, by hand from document 02, W5. The Rust has no such call.

/// The most copies that one call may ask for.
const MOST: usize = 4096;

/// What the call answers: how many copies it took, and the number of a refusal or 0.
pub struct Taken {
    pub took: usize,
    pub number: u32,
}

/// Single next copies, one after another, up to the first that is refused. `next` makes one and
/// answers its number. 6 where n is above the most; with 6 and with n = 0 none is made.
pub fn next_copies(
    n: usize,
    mut next: impl FnMut() -> Result<u32, String>,
) -> Result<Taken, String> {
    if n > MOST {
        return Ok(Taken { took: 0, number: 6 });
    }
    let mut took = 0;
    while took < n {
        let number = next()?;
        if number != 0 {
            return Ok(Taken { took, number });
        }
        took += 1;
    }
    Ok(Taken { took, number: 0 })
}
