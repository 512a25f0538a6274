//! The core on a disc, roles and a ledger of its own, each between canaries.

use station::{raw, Sector};
use station_model::anchor::Anchor;
use station_model::answer::Answer;
use station_model::calls::Call;
use station_model::disc::{Disc, UNREADABLE};
use station_model::ledger::Volume;
use station_model::table::SECTOR;

use super::guarded::Guarded;
use super::station::Station;

#[derive(Clone)]
pub struct Core {
    pub image: Guarded,
    pub kinds: Guarded,
    pub roles: Guarded,
    pub ledger: Guarded,
}

/// How many bytes of a buffer are not lent.
#[derive(Clone, Copy, Debug, Default, PartialEq)]
pub struct Short {
    pub image: usize,
    pub kinds: usize,
    pub roles: usize,
    pub ledger: usize,
}

impl Core {
    pub fn holding(station: &Station, shift: usize) -> Core {
        Core {
            image: Guarded::holding(&station.image, shift),
            kinds: Guarded::holding(&station.kinds, shift / 3),
            roles: Guarded::holding(&station.roles, shift / 2),
            ledger: Guarded::holding(&station.ledger, shift / 5),
        }
    }

    /// Any of the thirteen, with the last buffer that some are lent.
    pub fn perform(&mut self, call: Call, buffer: &mut [u8]) -> u64 {
        self.perform_short(call, buffer, Short::default())
    }

    /// The same with the last bytes of some buffers not lent.
    pub fn perform_short(&mut self, call: Call, buffer: &mut [u8], short: Short) -> u64 {
        let image = all_but(&mut self.image, short.image);
        let kinds = all_but(&mut self.kinds, short.kinds);
        let roles = all_but(&mut self.roles, short.roles);
        let ledger = all_but(&mut self.ledger, short.ledger);
        match call {
            Call::Begin => raw::begin(image, kinds, roles, ledger),
            Call::Mount => raw::mount(image, kinds, roles, ledger),
            Call::Write(v) => raw::write(image, kinds, roles, ledger, v, buffer),
            Call::WriteUnnumbered => raw::write_unnumbered(image, kinds, roles, ledger, buffer),
            Call::Release(v) => raw::release(image, kinds, roles, ledger, v),
            Call::ClosePacket => raw::close_packet(image, kinds, roles, ledger),
            Call::Commit => raw::commit(image, kinds, roles, ledger),
            Call::CommitAt => raw::commit_at(image, kinds, roles, ledger, buffer),
            Call::Read(v) => raw::read(image, kinds, ledger, v, buffer),
            Call::LookBack(k) => raw::look_back(image, kinds, roles, ledger, k),
            Call::TimeOf(k) => raw::time_of(image, kinds, ledger, k, buffer),
            Call::CloseSession(Anchor {
                main,
                reserve,
                partition_start,
            }) => raw::close_session(
                image,
                kinds,
                roles,
                ledger,
                main.length,
                main.location,
                reserve.length,
                reserve.location,
                partition_start,
            ),
            Call::View { v, offset } => raw::view(image, kinds, ledger, v, offset, buffer),
        }
    }

    /// The same with a copy of the buffer, between canaries too. A canary that
    /// was changed ends the test.
    pub fn call_lent(&mut self, call: Call, buffer: &mut [u8]) -> Answer {
        self.call_short(call, buffer, Short::default())
    }

    pub fn call_short(&mut self, call: Call, buffer: &mut [u8], short: Short) -> Answer {
        let mut lent = Guarded::holding(buffer, 0);
        let answer = self.perform_short(call, &mut lent, short);
        if let Some(struck) = self.struck(&lent) {
            panic!("{call:?} on the core wrote outside: {struck}");
        }
        buffer.copy_from_slice(&lent);
        unpacked(answer)
    }

    /// A call that is lent no such buffer.
    pub fn call(&mut self, call: Call) -> Answer {
        self.call_lent(call, &mut [])
    }

    /// The buffer outside which the core wrote, and where.
    pub fn struck(&self, last: &Guarded) -> Option<String> {
        let buffers = [
            ("image", &self.image),
            ("kinds", &self.kinds),
            ("roles", &self.roles),
            ("ledger", &self.ledger),
            ("last buffer", last),
        ];
        buffers
            .iter()
            .find_map(|(name, buffer)| buffer.struck().map(|place| format!("{name}, {place}")))
    }

    pub fn disc(&self) -> Disc<'_> {
        Disc::lent(&self.image, &self.kinds).expect("a disc of right size")
    }

    pub fn volume(&self) -> Volume {
        Volume::load(&self.ledger).expect("16,364 bytes")
    }

    pub fn same_bytes(&self, other: &Core) -> bool {
        self.image[..] == other.image[..]
            && self.kinds[..] == other.kinds[..]
            && self.roles[..] == other.roles[..]
            && self.ledger[..] == other.ledger[..]
    }

    /// The disc that a cut leaves, from the one that the whole call left: the
    /// first j sectors that the call recorded are burned, and the next, if there
    /// is one, stays as it was or is torn.
    pub fn cut(&mut self, whole: &Core, j: usize, torn: Option<&[u8; SECTOR]>) {
        let before = station::recorded(&self.kinds);
        let mut sectors = station::recorded_since(&whole.image, &whole.kinds, before);
        for sector in sectors.by_ref().take(j) {
            self.burn(sector);
        }
        if let (Some(next), Some(_)) = (sectors.next(), torn) {
            self.burn(Sector {
                kind: UNREADABLE,
                bytes: torn,
                ..next
            });
        }
    }

    /// As a host burns a sector that a call recorded.
    pub fn burn(&mut self, sector: Sector) {
        let block = sector.block as usize;
        self.kinds[block] = sector.kind;
        if let Some(bytes) = sector.bytes {
            self.image[block * SECTOR..][..SECTOR].copy_from_slice(bytes);
        }
    }
}

fn all_but(bytes: &mut [u8], not_lent: usize) -> &mut [u8] {
    let lent = bytes.len() - not_lent;
    &mut bytes[..lent]
}

/// "outcome × 4,294,967,296 + second number"
pub fn unpacked(answer: u64) -> Answer {
    Answer {
        outcome: (answer >> 32) as u32,
        second: answer as u32,
    }
}
