//! Calls of a random list, each made whole on a copy of the core before it is taken
//! or cut.

use station_model::answer::Answer;
use station_model::calls::Call;
use station_model::disc::DATA;
use station_model::table::SECTOR;

use super::core::{Core, Short};
use super::forge;
use super::random::Random;

/// A call about to be made, with the block, timestamp or answer that it is lent;
/// the host lends some calls too little, or such a buffer of another length.
pub struct Attempt {
    pub call: Call,
    pub buffer: Vec<u8>,
    pub short: Short,
}

impl Attempt {
    /// "a write's lent block", or a commit's timestamp.
    pub fn written(&self) -> Option<&[u8]> {
        matches!(self.call, Call::Write(_) | Call::CommitAt).then_some(&self.buffer)
    }

    /// Makes the whole call on a copy.
    pub fn made_on(&self, core: &Core) -> Made {
        let mut after = core.clone();
        let mut buffer = self.buffer.clone();
        let answer = after.call_short(self.call, &mut buffer, self.short);
        let sectors = after.disc().recorded() - core.disc().recorded();
        Made {
            answer,
            after,
            buffer,
            sectors: sectors as usize,
        }
    }
}

/// What the core made of a call.
pub struct Made {
    pub answer: Answer,
    pub after: Core,
    pub buffer: Vec<u8>,
    /// How many sectors it recorded.
    pub sectors: usize,
}

impl Made {
    /// "stays blank or has kind 3 with arbitrary bytes": also those of a table
    /// sector for that block, or those that were about to be recorded.
    pub fn torn_bytes(
        &self,
        random: &mut Random,
        j: usize,
    ) -> (&'static str, Option<[u8; SECTOR]>) {
        if j == self.sectors {
            return ("no next sector", None);
        }
        let block = self.after.disc().recorded() as usize - self.sectors + j;
        let mut bytes = [0; SECTOR];
        match random.below(4) {
            0 => ("next blank", None),
            1 if self.after.kinds[block] == DATA => {
                bytes.copy_from_slice(&self.after.image[block * SECTOR..][..SECTOR]);
                ("next torn, its own bytes", Some(bytes))
            }
            2 => {
                random.fill(&mut bytes);
                ("next torn, random bytes", Some(bytes))
            }
            _ => (
                "next torn, bytes of a table sector",
                Some(forge::valid_vat(random, block as u32)),
            ),
        }
    }
}
