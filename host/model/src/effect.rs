//! What a call does that is not refused: its second number, the sectors that it
//! records, the roles that it sets, the ledger and the lent buffer afterwards. A cut
//! keeps the first of its sectors ([`fail_power`](crate::disc::fail_power)).

use crate::disc::{record, Disc, Sector};
use crate::ledger::{Volume, PACKET_OPEN};
use crate::roles::{let_go, scan, Role};

#[derive(Clone, Debug, PartialEq, Eq)]
pub struct Effect {
    pub second: u32,
    pub sectors: Vec<Sector>,
    /// The roles that it sets, each with its block. The others stay.
    pub roles: Vec<(u32, Role)>,
    /// The ledger; none where it stays as it is, whatever that is.
    pub volume: Option<Volume>,
    /// What is put into the lent buffer, from its start on: a read's block, the time
    /// asked for, or a part of a run.
    pub shown: Option<Vec<u8>>,
}

impl Effect {
    /// The effect of a call that records nothing.
    pub fn unrecorded(second: u32, volume: Volume) -> Effect {
        Effect {
            second,
            sectors: Vec::new(),
            roles: Vec::new(),
            volume: Some(volume),
            shown: None,
        }
    }

    /// Begin, mount or look back, after which every role is that of a scan.
    pub fn opened(second: u32, disc: &Disc, volume: Volume) -> Effect {
        Effect {
            roles: scan(disc, &volume),
            ..Effect::unrecorded(second, volume)
        }
    }

    /// The effect of a call that only tells.
    pub fn told(second: u32, shown: Vec<u8>) -> Effect {
        Effect {
            second,
            sectors: Vec::new(),
            roles: Vec::new(),
            volume: None,
            shown: Some(shown),
        }
    }

    /// Puts what is shown into the lent buffer; bytes behind it stay.
    pub fn show_in(&self, buffer: &mut [u8]) {
        if let Some(shown) = &self.shown {
            buffer[..shown.len()].copy_from_slice(shown);
        }
    }

    /// A write, commit or closing: links, then data sectors with their roles, the
    /// last of which is told. "After each call that is done, the ledger's recorded
    /// equals the disc's."
    pub fn recorded(mut volume: Volume, data: Vec<(Sector, Role)>) -> Effect {
        let mut recorded = vec![(Sector::Link, Role::Link); volume.links() as usize];
        recorded.extend(data);
        let (sectors, roles): (Vec<Sector>, Vec<Role>) = recorded.into_iter().unzip();
        let roles = (volume.recorded..).zip(roles).collect();
        volume.recorded += sectors.len() as u32;
        volume.mode = PACKET_OPEN;
        Effect {
            second: volume.recorded - 1,
            sectors,
            roles,
            volume: Some(volume),
            shown: None,
        }
    }

    /// The same where a number has let go of a block, if it had one, whose role is
    /// among those lent.
    pub fn letting_go(mut self, lent: &[u8], block: Option<u32>) -> Effect {
        let left = self.volume.as_ref().zip(block);
        let superseded = left.and_then(|(volume, block)| let_go(lent, volume, block));
        self.roles.extend(superseded);
        self
    }

    /// Sets the roles that change.
    pub fn set_roles(&self, roles: &mut [u8]) {
        for (block, role) in &self.roles {
            roles[*block as usize] = *role as u8;
        }
    }

    /// "Only the sectors that a call records change."
    pub fn carry_out(
        &self,
        image: &mut [u8],
        kinds: &mut [u8],
        roles: &mut [u8],
        ledger: &mut [u8],
        buffer: &mut [u8],
    ) {
        record(image, kinds, &self.sectors);
        self.set_roles(roles);
        if let Some(volume) = &self.volume {
            ledger.copy_from_slice(&volume.to_bytes());
        }
        self.show_in(buffer);
    }
}
