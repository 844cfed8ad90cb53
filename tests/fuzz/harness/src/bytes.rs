//! Bytes of an input that are handed over as they are.

use std::fmt::{self, Display};
use std::iter::repeat;

use oracle::shrink::shorten;

/// Bytes as they stand or, if there is a length, again and again until it is reached.
pub struct Bytes {
    pub period: Vec<u8>,
    pub length: Option<usize>,
}

impl Bytes {
    pub fn whole(&self) -> Vec<u8> {
        match self.length {
            None => self.period.clone(),
            Some(length) => self
                .period
                .iter()
                .copied()
                .cycle()
                .chain(repeat(0))
                .take(length)
                .collect(),
        }
    }

    /// With all bytes left out that a failure does not need.
    pub fn shortened(self, mut fails: impl FnMut(&[u8]) -> bool) -> Self {
        let length = self.length;
        let with = |period: &[u8]| Bytes {
            period: period.to_vec(),
            length,
        };
        with(&shorten(&self.period, |period| fails(&with(period).whole())))
    }
}

impl Display for Bytes {
    fn fmt(&self, f: &mut fmt::Formatter) -> fmt::Result {
        let whole = self.whole();
        write!(f, "{} bytes:", whole.len())?;
        for byte in whole.iter().take(self.period.len()) {
            write!(f, " {byte}")?;
        }
        let ending = if self.period.len() < whole.len() {
            " and so on"
        } else {
            ""
        };
        writeln!(f, "{ending}")
    }
}
