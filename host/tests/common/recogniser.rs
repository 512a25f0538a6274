//! The places where the calls ask whether a sector is a table sector: the
//! search of mount and begin, the ledger's last table, the walk back, the table whose
//! time is told, and the block about to be written. Sectors below it may be its own.

use station_model::answer::Answer;
use station_model::calls::Call;
use station_model::disc::{DATA, LINK};
use station_model::ledger::{Volume, PACKET_OPEN};
use station_model::table::{vat_sector, SECTOR};

use super::pair::Pair;
use super::stamps::ANSWER;
use super::station::{done, refused, Station};

pub struct Recogniser {
    block: u32,
    /// The sector is the last recorded one, and the ledger's last table.
    last: Pair,
    /// The sector is the previous one of the table behind it.
    previous: Pair,
    /// The sector is to be written.
    written: Pair,
    last_ledger: Vec<u8>,
    written_ledger: Vec<u8>,
}

impl Recogniser {
    /// For sectors at the block.
    pub fn at(block: u32) -> Recogniser {
        let last = with_links(block, 1);
        let mut previous = with_links(block, 2);
        let newest = vat_sector(block + 1, &[], block);
        previous.put_sector(block + 1, DATA, &newest);
        let written = open_packet(block);
        Recogniser {
            block,
            last_ledger: last.ledger.clone(),
            written_ledger: written.ledger.clone(),
            last: Pair::holding(&last),
            previous: Pair::holding(&previous),
            written: Pair::holding(&written),
        }
    }

    /// Puts a sector on all of these discs, below the block.
    pub fn put_below(&mut self, below: u32, kind: u8, bytes: &[u8; SECTOR]) {
        assert!(below < self.block);
        for pair in [&mut self.last, &mut self.previous, &mut self.written] {
            pair.put_sector(below, kind, bytes);
        }
    }

    /// Whether all of these places, on the core and on the model, take the
    /// sector for a table sector; all or none do.
    pub fn is_vat(&mut self, sector: &[u8; SECTOR]) -> bool {
        let found = self.mounts(sector);
        assert_eq!(self.tells(), found);
        assert_eq!(self.last_table_fits(), found);
        assert_eq!(self.begins(), !found);
        assert_eq!(self.is_previous(sector), found);
        assert_eq!(self.writes(sector), !found);
        found
    }

    fn mounts(&mut self, sector: &[u8; SECTOR]) -> bool {
        self.last.put_sector(self.block, DATA, sector);
        is(self.last.call(Call::Mount, &[]), done(1), refused(7))
    }

    /// Whatever its time is.
    fn tells(&mut self) -> bool {
        let answer = self.last.call(Call::TimeOf(0), &ANSWER);
        answer == done(0) || is(answer, refused(16), refused(7))
    }

    fn last_table_fits(&mut self) -> bool {
        self.last.lend_ledger(&self.last_ledger);
        is(self.last.call(Call::ClosePacket, &[]), done(0), refused(4))
    }

    fn begins(&mut self) -> bool {
        is(self.last.call(Call::Begin, &[]), done(0), refused(6))
    }

    fn is_previous(&mut self, sector: &[u8; SECTOR]) -> bool {
        self.previous.put_sector(self.block, DATA, sector);
        let answer = self.previous.call(Call::LookBack(1), &[]);
        is(answer, done(self.block), refused(8))
    }

    fn writes(&mut self, sector: &[u8; SECTOR]) -> bool {
        let answer = self.written.call(Call::Write(0), sector);
        let written = is(answer, done(self.block), refused(15));
        if written {
            self.written.put_sector(self.block, 0, &[0; SECTOR]);
            self.written.lend_ledger(&self.written_ledger);
        }
        written
    }
}

fn is(answer: Answer, yes: Answer, no: Answer) -> bool {
    assert!(answer == yes || answer == no, "{answer:?}");
    answer == yes
}

/// Links up to the block and data sectors from there on; the ledger names the
/// block as its last table.
fn with_links(block: u32, data: usize) -> Station {
    let mut station = Station::blank(block as usize + data);
    station.kinds[..block as usize].fill(LINK);
    station.kinds[block as usize..].fill(DATA);
    let mut volume = Volume::begun(&station.disc());
    volume.last_vat = block;
    station.ledger = volume.to_bytes().to_vec();
    station
}

/// A packet is open and the block is the next.
fn open_packet(block: u32) -> Station {
    let mut station = Station::blank(block as usize + 17);
    station.kinds[..block as usize].fill(DATA);
    let mut volume = Volume::begun(&station.disc());
    volume.mode = if block == 0 { 0 } else { PACKET_OPEN };
    station.ledger = volume.to_bytes().to_vec();
    station
}
