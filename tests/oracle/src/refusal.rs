//! The numbered refusals.

/// Why a call was turned down. The discriminants are the numbers that callers see; 0 is kept for "done".
#[derive(Clone, Copy, Debug, PartialEq, Eq, PartialOrd, Ord, Hash)]
#[repr(u8)]
pub enum Refusal {
    Height = 1,
    /// Of the table or of the line.
    Length = 2,
    MoveEntries = 3,
    Tenant = 4,
    Level = 5,
    Pages = 6,
    /// The table or the line is not in order.
    Disorder = 7,
    HoldsAlready = 8,
    /// A release or a growth of a tenant that holds no block, and a withdrawal of one that does not wait.
    HoldsNothing = 9,
    NoRoom = 10,
    NoOpening = 11,
    UnknownKind = 12,
    CutShort = 13,
    OpenAgain = 14,
    TooSmall = 15,
    TooLong = 16,
    LineFull = 17,
    Waits = 18,
}

/// The answer of a call that was carried out.
pub const DONE: u32 = 0;

impl Refusal {
    /// The number a caller gets.
    pub fn number(self) -> u32 {
        self as u32
    }
}

/// The number a caller gets for a call that was carried out or turned down.
pub fn number<T>(result: &Result<T, Refusal>) -> u32 {
    match result {
        Ok(_) => DONE,
        Err(refusal) => refusal.number(),
    }
}
