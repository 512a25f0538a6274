//! "Refusals, by who causes them."

use std::error::Error;
use std::fmt;

/// A refusal, with its number in the documents. It "alters no lent byte". Each
/// call names its refusals in the order in which it tests for them, and the first
/// that applies is given.
#[repr(u32)]
#[derive(Clone, Copy, Debug, PartialEq, Eq, Hash, PartialOrd, Ord)]
pub enum Refusal {
    /// 1, the host program: no sectors, more than 360,000, or image length is
    /// not 2048 × kinds length.
    DiscSize = 1,
    /// 2, the host program: a lent block is not 2048 bytes, a lent ledger not
    /// 16,364, a lent timestamp not 12, a lent answer not 8, the lent roles are not
    /// as many as the kinds, or a buffer lent to a view is above 65,536.
    LentLength = 2,
    /// 3, the disc: a kind above 3, or a recorded sector after a blank one.
    DiscUnsound = 3,
    /// 4, the host program: the ledger does not fit. Its size is above 4,087; an
    /// entry from size on is not FFFFFFFF; one below size is neither FFFFFFFF
    /// nor below recorded; recorded differs from the disc's; last table is
    /// neither FFFFFFFF nor a table sector; mode is above 2; or mode is 1 where
    /// the last recorded sector is missing or not kind 1.
    LedgerUnfit = 4,
    /// 5, the operator: write, numbered or not, release, close packet, either form
    /// of commit or closing the session with mode 2.
    ReadOnly = 5,
    /// 6, the disc: begin, and a table sector exists.
    VatExists = 6,
    /// 7, the disc: mount, look back or asking for a time, and no table sector
    /// exists.
    NoVat = 7,
    /// 8, the disc: a step back names a sector that is not a table sector.
    ChainBroken = 8,
    /// 9, the operator: going back meets FFFFFFFF before k steps.
    ChainEnded = 9,
    /// 10, the operator: read, view or release of v not below size, or of an
    /// unused entry.
    NotInUse = 10,
    /// 11, the disc: read or view, and the entry's sector is not kind 1.
    Unreadable = 11,
    /// 12, the operator: write of v above size.
    AboveSize = 12,
    /// 13, the operator: write of v at or above 4,087.
    AboveLimit = 13,
    /// 14, the recording: no room. Write, numbered or not, needs links + 1 + 16 blank
    /// sectors, on discs of 1,000 sectors or more links + 1 + 264; either form of
    /// commit needs links, the table's own sectors that it records, and 1; closing the
    /// session links + 257.
    NoRoom = 14,
    /// 15, the recording: the lent block would be a table sector at the block
    /// it is about to take, or has the tag of a closing's pointer there: tag
    /// identifier 2, a right tag checksum and a tag location from that block to
    /// that block + 400,000.
    WouldBeVat = 15,
    /// 16, the operator on a commit, the disc when asking: a timestamp given or
    /// found breaks the limits that [`Timestamp`](crate::Timestamp) names.
    BadTimestamp = 16,
    /// 17, the disc: write, numbered or not, release, close packet, either form of
    /// commit or closing the session on a closed disc.
    /// [`is_closed`](crate::is_closed) says what that is.
    SessionClosed = 17,
    /// 18, the operator: closing the session, and the partition start exceeds
    /// 400,000.
    PartitionStart = 18,
    /// 19, the operator, or the disc where a sector of the run is not kind 1: view,
    /// and the numbered block is not a run's entry.
    /// [`file_entry`](crate::file_entry) says what that is.
    NotARun = 19,
    /// 20, the operator: view, and the offset exceeds the run's length.
    BeyondTheRun = 20,
}

impl Refusal {
    /// Each refusal, at the place of its number less one.
    pub const ALL: [Refusal; 20] = [
        Refusal::DiscSize,
        Refusal::LentLength,
        Refusal::DiscUnsound,
        Refusal::LedgerUnfit,
        Refusal::ReadOnly,
        Refusal::VatExists,
        Refusal::NoVat,
        Refusal::ChainBroken,
        Refusal::ChainEnded,
        Refusal::NotInUse,
        Refusal::Unreadable,
        Refusal::AboveSize,
        Refusal::AboveLimit,
        Refusal::NoRoom,
        Refusal::WouldBeVat,
        Refusal::BadTimestamp,
        Refusal::SessionClosed,
        Refusal::PartitionStart,
        Refusal::NotARun,
        Refusal::BeyondTheRun,
    ];

    /// Its number in documents 01 and 02, 1 to 20.
    pub const fn number(self) -> u32 {
        self as u32
    }

    /// The refusal of an outcome that is not 0.
    pub(crate) fn of(outcome: u32) -> Refusal {
        let place = (outcome as usize).wrapping_sub(1);
        match Refusal::ALL.get(place) {
            Some(refusal) => *refusal,
            None => panic!("the core answered outcome {outcome}, which the documents do not have"),
        }
    }

    /// The condition in the documents' words.
    fn condition(self) -> &'static str {
        match self {
            Refusal::DiscSize => {
                "no sectors, more than 360,000, or image length is not 2048 × kinds length"
            }
            Refusal::LentLength => {
                "a lent block is not 2048 bytes, a lent ledger not 16,364, \
                 a lent timestamp not 12, a lent answer not 8, \
                 the lent roles are not as many as the kinds, \
                 or a buffer lent to a view is above 65,536"
            }
            Refusal::DiscUnsound => "a kind above 3, or a recorded sector after a blank one",
            Refusal::LedgerUnfit => {
                "the ledger does not fit: size above 4,087; an entry from size on not FFFFFFFF; \
                 one below size neither FFFFFFFF nor below recorded; recorded differs from the \
                 disc's; last table neither FFFFFFFF nor a table sector; mode above 2; \
                 mode 1 where the last recorded sector is missing or not kind 1"
            }
            Refusal::ReadOnly => {
                "write, numbered or not, release, close packet, either form of commit \
                 or closing the session with mode 2"
            }
            Refusal::VatExists => "begin, and a table sector exists",
            Refusal::NoVat => "mount, look back or asking for a time, and no table sector exists",
            Refusal::ChainBroken => "a step back names a sector that is not a table sector",
            Refusal::ChainEnded => "going back meets FFFFFFFF before k steps",
            Refusal::NotInUse => "read, view or release of v not below size, or of an unused entry",
            Refusal::Unreadable => "read or view, and the entry's sector is not kind 1",
            Refusal::AboveSize => "write of v above size",
            Refusal::AboveLimit => "write of v at or above 4,087",
            Refusal::NoRoom => {
                "no room: write needs links + 1 + 16 blank sectors, on discs of 1,000 sectors or \
                 more links + 1 + 264, commit links + own sectors recorded + 1, closing \
                 links + 257, where links is 7 in mode 0 with recorded above 0, else 0"
            }
            Refusal::WouldBeVat => {
                "the lent block would be a table sector at the block it is about to take, \
                 or has the tag of a closing's pointer there"
            }
            Refusal::BadTimestamp => "a timestamp given or found breaks the limits",
            Refusal::SessionClosed => {
                "write, numbered or not, release, close packet, either form of commit \
                 or closing the session on a closed disc"
            }
            Refusal::PartitionStart => "the partition start exceeds 400,000",
            Refusal::NotARun => "view, and the numbered block is not a run's entry",
            Refusal::BeyondTheRun => "view, and the offset exceeds the run's length",
        }
    }
}

impl fmt::Display for Refusal {
    fn fmt(&self, out: &mut fmt::Formatter) -> fmt::Result {
        write!(out, "refusal {}: {}", self.number(), self.condition())
    }
}

impl Error for Refusal {}

#[cfg(test)]
mod tests {
    use super::Refusal;

    #[test]
    fn each_number_is_its_own_refusal() {
        for number in 1..=20 {
            let refusal = Refusal::of(number);
            assert_eq!(refusal.number(), number);
            assert!(refusal
                .to_string()
                .starts_with(&format!("refusal {number}: ")));
        }
    }

    #[test]
    #[should_panic(expected = "outcome 21")]
    fn no_refusal_beyond_20() {
        Refusal::of(21);
    }
}
