//! A disc, roles and a ledger to make calls on by hand. Each call is made on the core
//! and on the model, and all that they leave is compared.

use station_model::answer::Answer;
use station_model::calls::{effect, Call, Lent};
use station_model::disc::{fail_power, Disc};
use station_model::effect::Effect;
use station_model::fields::u32_at;
use station_model::ledger::{Volume, LEDGER};
use station_model::table::SECTOR;

use super::core::Core;
use super::pair::Pair;
use super::stamps::{Told, ANSWER};

/// What the roles are before a begin, mount or look back: bytes that no call sets.
const NO_ROLE: u8 = 0xA7;

#[derive(Clone, PartialEq)]
pub struct Station {
    pub image: Vec<u8>,
    pub kinds: Vec<u8>,
    pub roles: Vec<u8>,
    pub ledger: Vec<u8>,
}

impl Station {
    pub fn blank(sectors: usize) -> Station {
        Station {
            image: vec![0; sectors * SECTOR],
            kinds: vec![0; sectors],
            roles: vec![NO_ROLE; sectors],
            ledger: vec![0; LEDGER],
        }
    }

    /// A blank disc on which begin was done.
    pub fn begun(sectors: usize) -> Station {
        let mut station = Station::blank(sectors);
        assert_eq!(station.call(Call::Begin), Answer::done(0));
        station
    }

    pub fn disc(&self) -> Disc<'_> {
        Disc::lent(&self.image, &self.kinds).expect("a disc of right size")
    }

    pub fn volume(&self) -> Volume {
        Volume::load(&self.ledger).expect("16,364 bytes")
    }

    pub fn change(&mut self, change: impl FnOnce(&mut Volume)) {
        let mut volume = self.volume();
        change(&mut volume);
        self.ledger = volume.to_bytes().to_vec();
    }

    pub fn sector(&self, block: u32) -> &[u8; SECTOR] {
        let bytes = self.image[block as usize * SECTOR..].first_chunk();
        bytes.expect("a block of the disc")
    }

    pub fn put_sector(&mut self, block: u32, kind: u8, bytes: &[u8; SECTOR]) {
        self.kinds[block as usize] = kind;
        self.image[block as usize * SECTOR..][..SECTOR].copy_from_slice(bytes);
    }

    /// Leaves of the disc so many sectors.
    pub fn shorten(&mut self, sectors: usize) {
        self.image.truncate(sectors * SECTOR);
        self.kinds.truncate(sectors);
        self.roles.truncate(sectors);
    }

    /// A call that is lent no block, timestamp, answer or view.
    pub fn call(&mut self, call: Call) -> Answer {
        self.call_lent(call, &mut [])
    }

    pub fn call_lent(&mut self, call: Call, buffer: &mut [u8]) -> Answer {
        let mut pair = Pair::holding(self);
        let answer = pair.call(call, buffer);
        buffer.copy_from_slice(pair.buffer());
        *self = pair.into_station();
        answer
    }

    pub fn write(&mut self, v: u32, block: &[u8]) -> Answer {
        self.call_lent(Call::Write(v), &mut block.to_vec())
    }

    pub fn write_unnumbered(&mut self, block: &[u8]) -> Answer {
        self.call_lent(Call::WriteUnnumbered, &mut block.to_vec())
    }

    pub fn commit_at(&mut self, stamp: &[u8]) -> Answer {
        self.call_lent(Call::CommitAt, &mut stamp.to_vec())
    }

    /// What is told of the save k back; a refusal leaves the lent answer as it was.
    pub fn time_of(&mut self, k: u32) -> Told {
        let mut answer = ANSWER;
        let numbers = self.call_lent(Call::TimeOf(k), &mut answer);
        assert_eq!(numbers.second, 0);
        if numbers.is_done() {
            return Ok((u32_at(&answer, 0) as i32, u32_at(&answer, 4)));
        }
        assert_eq!(answer, ANSWER);
        Err(numbers.outcome)
    }

    /// A read into a block of the given byte.
    pub fn read(&mut self, v: u32, before: u8) -> (Answer, [u8; SECTOR]) {
        let mut block = [before; SECTOR];
        let answer = self.call_lent(Call::Read(v), &mut block);
        (answer, block)
    }

    /// What a view of so many bytes shows. A refusal leaves the lent buffer as it
    /// was, and what is shown the bytes behind it.
    pub fn view(&mut self, v: u32, offset: u64, most: usize) -> Result<Vec<u8>, u32> {
        let mut buffer = vec![0xC7; most];
        let answer = self.call_lent(Call::View { v, offset }, &mut buffer);
        let behind = buffer.split_off(answer.second as usize);
        assert!(behind.iter().all(|byte| *byte == 0xC7), "{answer:?}");
        match answer.outcome {
            0 => Ok(buffer),
            refusal => Err(refusal),
        }
    }

    /// What the call would do, if it is not refused.
    pub fn effect(&self, call: Call, buffer: &[u8]) -> Option<Effect> {
        let lent = Lent {
            image: &self.image,
            kinds: &self.kinds,
            roles: &self.roles,
            ledger: &self.ledger,
            buffer,
        };
        effect(&lent, call).ok()
    }

    /// The call cut after j sectors, of those that the core records and of those
    /// that the model does; the discs left are compared, and ledger and roles are
    /// lost.
    pub fn cut(&mut self, call: Call, buffer: &[u8], j: usize, torn: Option<&[u8; SECTOR]>) {
        let mut core = Core::holding(self, 0);
        let mut whole = core.clone();
        whole.call_lent(call, &mut buffer.to_vec());
        core.cut(&whole, j, torn);
        let sectors = self.effect(call, buffer).map_or(Vec::new(), |e| e.sectors);
        fail_power(&mut self.image, &mut self.kinds, &sectors, j, torn);
        let same = core.image[..] == self.image && core.kinds[..] == self.kinds;
        assert!(same, "core and model differ, {call:?} cut after {j}");
        self.ledger.fill(0xA5);
        self.roles.fill(NO_ROLE);
    }
}

pub fn done(second: u32) -> Answer {
    Answer::done(second)
}

pub fn refused(outcome: u32) -> Answer {
    Answer { outcome, second: 0 }
}
