//! Bytes lent to a planner under test.

/// How many bytes on either side are watched.
const GUARD: usize = 32;

/// What is written there.
const MARK: u8 = 0x5a;

/// Bytes with others around them that nobody may write.
pub struct Lent {
    bytes: Vec<u8>,
}

impl Lent {
    pub fn new(contents: &[u8]) -> Self {
        let guard = [MARK; GUARD];
        Lent {
            bytes: [&guard[..], contents, &guard[..]].concat(),
        }
    }

    /// The bytes to hand over.
    pub fn lend(&mut self) -> &mut [u8] {
        let end = self.bytes.len() - GUARD;
        &mut self.bytes[GUARD..end]
    }

    /// Whether the bytes came back as they should and the others were left alone.
    pub fn expect(&self, what: &str, right: &[u8]) -> Result<(), String> {
        let (before, rest) = self.bytes.split_at(GUARD);
        let (contents, after) = rest.split_at(rest.len() - GUARD);
        let untouched = |guard: &[u8]| guard.iter().all(|&byte| byte == MARK);
        ensure!(
            untouched(before) && untouched(after),
            "bytes around the {what} were written"
        );
        // Comparing all at once is the quicker way, and nearly always enough.
        if contents == right {
            return Ok(());
        }
        let place = contents.iter().zip(right).position(|(byte, right)| byte != right);
        let place = place.expect("bytes of one length");
        Err(format!(
            "byte {place} of the {what} is {}, and {} is right",
            contents[place], right[place]
        ))
    }
}

/// Bytes to lend that differ from their neighbours, so that a write in the wrong place shows.
pub fn pattern(length: usize) -> Vec<u8> {
    (0..length).map(|place| (place % 251) as u8 ^ 0xa5).collect()
}

#[cfg(test)]
mod tests {
    use super::{pattern, Lent, GUARD};

    #[test]
    fn writes_inside_and_outside_show() {
        let contents = pattern(40);
        let mut lent = Lent::new(&contents);
        assert_eq!(lent.lend(), contents);
        assert_eq!(lent.expect("list", &contents), Ok(()));
        lent.lend()[39] ^= 1;
        assert!(lent.expect("list", &contents).is_err());
        for outside in [0, GUARD - 1, GUARD + 40, GUARD + 40 + GUARD - 1] {
            let mut lent = Lent::new(&contents);
            lent.bytes[outside] ^= 1;
            assert!(lent.expect("list", &contents).is_err());
        }
    }

    #[test]
    fn nothing_can_be_lent_too() {
        let mut lent = Lent::new(&[]);
        assert_eq!(lent.lend(), []);
        assert_eq!(lent.expect("list", &[]), Ok(()));
    }
}
