//! A volume as the station sees it: the partition's sectors are the disc, and
//! what stands in front of them (recognition, volume descriptors, anchor) is
//! kept only to hand the whole to another reader.

use station::{Extent, Refusal, SaveTime, Timestamp, LEDGER, SECTOR};
use station_model::table::Vat;

use super::descriptors::{partition, put, u32_at, NONE};

const BLANK: u8 = 0;
const DATA: u8 = 1;

/// What a blank sector's bytes are here. They mean nothing, and links keep
/// them; so they are no zeros, which readers like to take for an end.
const UNRECORDED: u8 = 0xA5;

/// The ledger: 4,087 "map entries, then size, recorded, last table, mode, each 32
/// bits".
const SIZE: usize = 4 * 4087;
const LAST_VAT: usize = SIZE + 8;

/// What a lost ledger and lost roles hold: begin and mount do not read them.
const LOST: u8 = 0xEE;

#[derive(Clone)]
pub struct Disc {
    front: Vec<u8>,
    pub image: Vec<u8>,
    pub kinds: Vec<u8>,
    pub roles: Vec<u8>,
    pub ledger: Vec<u8>,
}

impl Disc {
    /// The partition of a volume, all of it data; no sector is blank.
    pub fn of_volume(volume: &[u8]) -> Disc {
        let (front, image) = volume.split_at(partition(volume).start * SECTOR);
        assert_eq!(image.len() % SECTOR, 0, "whole sectors");
        Disc {
            front: front.to_vec(),
            image: image.to_vec(),
            kinds: vec![DATA; image.len() / SECTOR],
            roles: vec![LOST; image.len() / SECTOR],
            ledger: vec![LOST; LEDGER],
        }
    }

    /// The same with so many blank sectors behind.
    pub fn with_blank(mut self, sectors: usize) -> Disc {
        let all = self.kinds.len() + sectors;
        self.kinds.resize(all, BLANK);
        self.roles.resize(all, LOST);
        self.image.resize(all * SECTOR, UNRECORDED);
        self
    }

    /// The disc when only its first sectors were recorded, and ledger and roles are
    /// lost: what a power cut leaves.
    pub fn cut_to(&self, recorded: usize) -> Disc {
        let mut disc = self.clone();
        disc.kinds[recorded..].fill(BLANK);
        disc.image[recorded * SECTOR..].fill(UNRECORDED);
        disc.ledger.fill(LOST);
        disc.roles.fill(LOST);
        disc
    }

    /// The whole volume up to the last recorded sector, where other readers
    /// expect the table.
    pub fn volume(&self) -> Vec<u8> {
        let end = self.recorded() * SECTOR;
        [&self.front, &self.image[..end]].concat()
    }

    /// The first sector of the partition on the volume.
    pub fn start(&self) -> usize {
        self.front.len() / SECTOR
    }

    pub fn recorded(&self) -> usize {
        self.kinds.iter().filter(|kind| **kind != BLANK).count()
    }

    pub fn sector(&self, block: usize) -> &[u8] {
        &self.image[block * SECTOR..(block + 1) * SECTOR]
    }

    /// Records a sector of another writer behind the last one; its block.
    pub fn append(&mut self, bytes: &[u8]) -> usize {
        let block = self.recorded();
        self.kinds[block] = DATA;
        self.set_sector(block, bytes);
        block
    }

    pub fn set_sector(&mut self, block: usize, bytes: &[u8]) {
        self.image[block * SECTOR..(block + 1) * SECTOR].copy_from_slice(bytes);
    }

    /// What the model finds at the block, which is a table to it.
    pub fn found_by_model(&self, block: usize) -> Vat {
        let disc = station_model::disc::Disc::lent(&self.image, &self.kinds);
        let found = disc.expect("a disc of right size").vat_at(block as u32);
        found.expect("a table to the model")
    }

    /// The ledger's map below its size.
    pub fn map(&self) -> Vec<u32> {
        let size = u32_at(&self.ledger, SIZE) as usize;
        (0..size).map(|v| u32_at(&self.ledger, 4 * v)).collect()
    }

    /// The ledger's last table.
    pub fn last_vat(&self) -> Option<usize> {
        let block = u32_at(&self.ledger, LAST_VAT);
        (block != NONE).then_some(block as usize)
    }

    pub fn begin(&mut self) -> Result<(), Refusal> {
        station::begin(&self.image, &self.kinds, &mut self.roles, &mut self.ledger)
    }

    /// Whether the disc is clean.
    pub fn mount(&mut self) -> Result<bool, Refusal> {
        station::mount(&self.image, &self.kinds, &mut self.roles, &mut self.ledger)
    }

    pub fn look_back(&mut self, k: u32) -> Result<usize, Refusal> {
        let block = station::look_back(
            &self.image,
            &self.kinds,
            &mut self.roles,
            &mut self.ledger,
            k,
        )?;
        Ok(block as usize)
    }

    /// What the mounted table shows for v.
    pub fn read(&self, v: u32) -> Result<Vec<u8>, Refusal> {
        let mut block = vec![0; SECTOR];
        station::read(&self.image, &self.kinds, &self.ledger, v, &mut block)?;
        Ok(block)
    }

    /// What a view shows, of at most so many bytes.
    pub fn view(&self, v: u32, offset: u64, most: usize) -> Result<Vec<u8>, Refusal> {
        let mut shown = vec![0xC7; most];
        let filled = station::view(
            &self.image,
            &self.kinds,
            &self.ledger,
            v,
            offset,
            &mut shown,
        )?;
        let behind = shown.split_off(filled as usize);
        assert!(behind.iter().all(|byte| *byte == 0xC7), "bytes behind");
        Ok(shown)
    }

    /// Lets the ledger have this recorded block as number v, which is its size.
    pub fn name(&mut self, v: u32, block: usize) {
        assert_eq!(u32_at(&self.ledger, SIZE), v, "the size");
        put(
            &mut self.ledger,
            4 * v as usize,
            &(block as u32).to_le_bytes(),
        );
        put(&mut self.ledger, SIZE, &(v + 1).to_le_bytes());
    }

    /// Records a block as number v; the block's place.
    pub fn write(&mut self, v: u32, block: &[u8]) -> usize {
        match station::write(
            &mut self.image,
            &mut self.kinds,
            &mut self.roles,
            &mut self.ledger,
            v,
            block,
        ) {
            Ok(block) => block as usize,
            Err(refusal) => panic!("write {v} is refused: {}", refusal.number()),
        }
    }

    /// The table's place.
    pub fn commit(&mut self) -> usize {
        match station::commit(
            &mut self.image,
            &mut self.kinds,
            &mut self.roles,
            &mut self.ledger,
        ) {
            Ok(block) => block as usize,
            Err(refusal) => panic!("commit is refused: {}", refusal.number()),
        }
    }

    /// The same with a timestamp.
    pub fn commit_at(&mut self, stamp: Timestamp) -> usize {
        match station::commit_at(
            &mut self.image,
            &mut self.kinds,
            &mut self.roles,
            &mut self.ledger,
            &stamp.to_bytes(),
        ) {
            Ok(block) => block as usize,
            Err(refusal) => panic!("commit at is refused: {}", refusal.number()),
        }
    }

    /// Closes the session; the table's place.
    pub fn close_session(&mut self, [main, reserve]: [Extent; 2]) -> usize {
        let start = self.start() as u32;
        match station::close_session(
            &mut self.image,
            &mut self.kinds,
            &mut self.roles,
            &mut self.ledger,
            main,
            reserve,
            start,
        ) {
            Ok(block) => block as usize,
            Err(refusal) => panic!("close session is refused: {}", refusal.number()),
        }
    }

    pub fn is_closed(&self) -> bool {
        station::is_closed(&self.image, &self.kinds).expect("a sound disc")
    }

    /// When the save k back was made.
    pub fn time_of(&self, k: u32) -> Result<SaveTime, Refusal> {
        station::time_of(&self.image, &self.kinds, &self.ledger, k)
    }

    pub fn release(&mut self, v: u32) {
        if let Err(refusal) = station::release(
            &mut self.image,
            &mut self.kinds,
            &mut self.roles,
            &mut self.ledger,
            v,
        ) {
            panic!("release {v} is refused: {}", refusal.number());
        }
    }

    pub fn close_packet(&mut self) {
        if let Err(refusal) =
            station::close_packet(&self.image, &self.kinds, &self.roles, &mut self.ledger)
        {
            panic!("close packet is refused: {}", refusal.number());
        }
    }
}
