//! Where the two sides are meant to differ. The names are the rows of the table in `docs/DIFFERENCES.md`; where each applies, and what both sides
//! must answer there, is said at the place that counts it.

#[derive(Clone, Copy)]
pub enum Departure {
    /// A value of 4 bytes that selects the country alone.
    A,
    /// A buffer that is too short.
    B,
    /// A channel that is not consistent is not written.
    C,
    /// The size that the synchronization writer answers.
    D,
    /// The gap across the roll-over.
    E,
    /// A lone second unicast word, extended bits without their fields, and the sizes of these records.
    G,
    /// A value that is longer than 65,535 bytes.
    H,
    /// The size of an unlisted encoding.
    I,
    /// The six bytes in front of the entries.
    J,
    /// A legacy sequence is not written.
    K,
    /// The two reserved bytes and the pad, which are kept here since request No. 7; the text below that table tells of them.
    Kept,
}
pub const NAMES: [&str; 11] = ["a", "b", "c", "d", "e", "g", "h", "i", "j", "k", "reserved"];

/// The departures of one case.
#[derive(Clone, Copy, Default)]
pub struct Seen(u32);

impl Seen {
    pub fn add(&mut self, departure: Departure) {
        self.0 |= 1 << departure as u32;
    }
    pub fn with(self, other: Self) -> Self {
        Seen(self.0 | other.0)
    }
    pub fn has(&self, at: usize) -> bool {
        self.0 >> at & 1 == 1
    }
}

/// A difference that is no departure is an error, and says what differs.
pub type Outcome<T = ()> = Result<T, String>;

pub fn same<T: PartialEq + std::fmt::Debug>(what: &str, ours: T, theirs: T) -> Outcome {
    if ours == theirs {
        Ok(())
    } else {
        Err(format!("{what}: ours {ours:?}, by the published text {theirs:?}"))
    }
}
/// Records are long, so only the numbers that differ are told.
pub fn same_record(ours: &[u32], theirs: &[u32]) -> Outcome {
    match (0..ours.len().max(theirs.len())).find(|at| ours.get(*at) != theirs.get(*at)) {
        None => Ok(()),
        Some(at) => Err(format!("number {at} of the record: ours {:?}, by the published text {:?}", ours.get(at), theirs.get(at))),
    }
}
pub fn same_bytes(ours: &crate::ours::Written, theirs: &[u8]) -> Outcome {
    if ours.is(theirs) {
        return Ok(());
    }
    let at = (0..theirs.len()).find(|at| ours.buffer.get(*at) != theirs.get(*at));
    let (size, refusal) = (ours.size, ours.refusal);
    Err(format!("written: ours {refusal}, {size} bytes, by the published text {} bytes; the first that differs is at {at:?}", theirs.len()))
}
pub fn refused(ours: &crate::ours::Written, refusal: u32) -> Outcome {
    if ours.is_refused(refusal) {
        return Ok(());
    }
    let (number, size) = (ours.refusal, ours.size);
    Err(format!("not refused with {refusal}, size 0 and an untouched buffer: {number}, size {size}"))
}
