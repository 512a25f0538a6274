//! "Each call answers an outcome (0 done, else a refusal) and a second number."

/// "Refusals, by who causes them": each with its number in the documents.
#[derive(Clone, Copy, Debug, PartialEq, Eq)]
pub enum Refusal {
    /// "no sectors, more than 360,000, or image length is not 2048 × kinds length"
    DiscSize = 1,
    /// "a lent block is not 2048 bytes"; a lent ledger is not "16,364 bytes"; "A lent
    /// timestamp or answer of another length gives 2", a view's "lent buffer (at most
    /// 65,536 bytes, else 2)", and "a lent role buffer of another length than the
    /// kinds gives 2" (document 02)
    LentLength = 2,
    /// "a kind above 3, or a recorded sector after a blank one"
    DiscUnsound = 3,
    /// "the ledger does not fit"
    LedgerUnfit = 4,
    /// "write, release, close packet or commit with mode 2"; a closing's "mode 2
    /// gives 5" (document 02)
    ReadOnly = 5,
    /// "begin, and a table sector exists"
    VatExists = 6,
    /// "mount or look back, and none exists"
    NoVat = 7,
    /// "a step of look back names a sector that is not a table sector"
    ChainBroken = 8,
    /// "look back meets FFFFFFFF before k steps"
    ChainEnded = 9,
    /// "read or release of v not below size, or of an unused entry"
    NotInUse = 10,
    /// "read, and the entry's sector is not kind 1"
    Unreadable = 11,
    /// "write of v above size"
    AboveSize = 12,
    /// "write of v at or above" the limit, 4,087
    AboveLimit = 13,
    /// "no room"
    NoRoom = 14,
    /// "the lent block would be a table sector at the block it is about to take";
    /// it "also covers every block with such a tag" as a closing's pointer has
    /// (document 02)
    WouldBeVat = 15,
    /// "a timestamp given or found breaks these limits" (document 02)
    BadTimestamp = 16,
    /// "write, release, commit, close packet or closing on a closed disc"
    /// (document 02)
    SessionClosed = 17,
    /// "the partition start exceeds 400,000" (document 02)
    PartitionStart = 18,
    /// "the numbered block is not such an entry" (document 02)
    NotARun = 19,
    /// "the offset exceeds the run's length" (document 02)
    BeyondTheRun = 20,
}

/// The two numbers.
#[derive(Clone, Copy, Debug, PartialEq, Eq)]
pub struct Answer {
    pub outcome: u32,
    pub second: u32,
}

impl Answer {
    /// Outcome "0 done".
    pub fn done(second: u32) -> Answer {
        Answer { outcome: 0, second }
    }

    /// "A refusal's second number is 0."
    pub fn refused(refusal: Refusal) -> Answer {
        Answer {
            outcome: refusal as u32,
            second: 0,
        }
    }

    pub fn is_done(self) -> bool {
        self.outcome == 0
    }

    /// "the pair is one 64-bit number: outcome × 4,294,967,296 + second number"
    pub fn packed(self) -> u64 {
        u64::from(self.outcome) * 4_294_967_296 + u64::from(self.second)
    }
}

/// One test of a call's ordered list of refusals.
pub fn refuse(condition: bool, refusal: Refusal) -> Result<(), Refusal> {
    if condition {
        Err(refusal)
    } else {
        Ok(())
    }
}
