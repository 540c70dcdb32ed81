//! Books that keep the layout, each with a displacement and a storage to load it with.

use crate::random::Random;
use model::book::{Book, Record, ADDRESSES, LAST_CARD, LONGEST_TEXT};

/// What one load takes, but for the bytes that storage holds before.
pub struct Case {
    pub book: Book,
    pub displacement: u16,
    pub storage: usize,
}

const DISPLACEMENTS: [u16; 14] =
    [0, 1, 2, 127, 255, 256, 257, 4096, 32767, 32768, 65279, 65280, 65534, 65535];
const STORAGES: [usize; 13] =
    [0, 1, 2, 255, 256, 257, 4096, 32768, 65535, 65536, 65537, 65792, 70000];
const LONGEST_STORAGE: usize = 70_000;
const LENGTHS: [usize; 6] = [1, 2, 3, 6, 255, 256];

/// A case that is accepted, unless its text has no room or it is spoiled.
pub fn good(random: &mut Random, least_records: usize) -> Case {
    let (displacement, storage) = place(random);
    let room = room(displacement, storage);
    let count = records(random).max(least_records);
    let centre = random.below(room.max(1));
    let cards = cards(random, count);
    let record = |card| {
        let length = text_length(random);
        let address = address(random, length, room, centre);
        let offsets = offsets(random, length);
        let mut record = Record { card, address, offsets, text: random.bytes(length) };
        for i in 0..record.offsets.len() {
            set_field(&mut record, i, fitting(random, displacement));
        }
        record
    };
    let records = cards.into_iter().map(record).collect();
    let entry = random.one_in(2).then(|| fitting(random, displacement));
    let mut case = Case { book: Book { entry, records }, displacement, storage };
    spoil(random, &mut case);
    case
}

/// A displacement and a storage length that mostly leave room for text.
fn place(random: &mut Random) -> (u16, usize) {
    loop {
        let displacement = match random.below(3) {
            0 => random.pick(&DISPLACEMENTS),
            1 => random.below(2048) as u16,
            _ => random.next() as u16,
        };
        let storage = match random.below(4) {
            0 => random.within(0..=LONGEST_STORAGE),
            1 => random.within(65_000..=LONGEST_STORAGE),
            _ => random.pick(&STORAGES),
        };
        if room(displacement, storage) > LONGEST_TEXT || random.one_in(8) {
            return (displacement, storage);
        }
    }
}

/// The addresses, from 0 on, that lie in storage once the displacement is added.
fn room(displacement: u16, storage: usize) -> usize {
    storage.min(ADDRESSES).saturating_sub(usize::from(displacement))
}

fn records(random: &mut Random) -> usize {
    match random.below(400) {
        0 => usize::from(LAST_CARD),
        1 => random.within(41..=4000),
        2..=40 => 0,
        41..=300 => random.within(1..=4),
        _ => random.within(5..=40),
    }
}

/// Rising card numbers.
fn cards(random: &mut Random, count: usize) -> Vec<u16> {
    let mut spare = usize::from(LAST_CARD) - count;
    let mut cards = Vec::with_capacity(count);
    let mut last = 0;
    for _ in 0..count {
        let most = if random.one_in(8) { spare } else { spare.min(3) };
        let skipped = random.within(0..=most);
        spare -= skipped;
        last += 1 + skipped as u16;
        cards.push(last);
    }
    if let Some(last) = cards.last_mut().filter(|_| random.one_in(4)) {
        *last = LAST_CARD;
    }
    cards
}

fn text_length(random: &mut Random) -> usize {
    match random.below(3) {
        0 => random.pick(&LENGTHS),
        1 => random.within(1..=8),
        _ => random.within(1..=LONGEST_TEXT),
    }
}

/// An address where the text has room, often near the centre, so that texts overlap.
fn address(random: &mut Random, length: usize, room: usize, centre: usize) -> u16 {
    let highest = if length <= room { room - length } else { ADDRESSES - length };
    let address = match random.below(8) {
        0 => 0,
        1 => highest,
        2..=5 => (centre + random.below(24)).min(highest),
        _ => random.within(0..=highest),
    };
    address as u16
}

fn offsets(random: &mut Random, length: usize) -> Vec<u8> {
    let (mut at, gap) = match random.below(4) {
        0 => return Vec::new(),
        1 => (random.below(2), 1),
        _ => (random.below(length), 40),
    };
    let mut offsets = Vec::new();
    while at + 2 <= length {
        offsets.push(at as u8);
        at += 2 + random.below(gap);
    }
    offsets
}

/// A value that is at most 65535 with the displacement added.
fn fitting(random: &mut Random, displacement: u16) -> u16 {
    let highest = u16::MAX - displacement;
    let any = random.within(0..=usize::from(highest)) as u16;
    random.pick(&[0, highest, any, any])
}

/// A value that is over 65535 with the displacement, which is not 0, added.
fn too_high(random: &mut Random, displacement: u16) -> u16 {
    let lowest = u16::MAX - displacement + 1;
    let any = random.within(usize::from(lowest)..=usize::from(u16::MAX)) as u16;
    random.pick(&[lowest, any, u16::MAX])
}

fn set_field(record: &mut Record, field: usize, value: u16) {
    let at = usize::from(record.offsets[field]);
    record.text[at..at + 2].copy_from_slice(&value.to_be_bytes());
}

/// Makes some cases tight and some refused: each refusal alone, and several at once.
fn spoil(random: &mut Random, case: &mut Case) {
    let displacement = case.displacement;
    if random.one_in(6) {
        cut_storage(random, case, 0);
    }
    if random.one_in(6) {
        cut_storage(random, case, 1);
    }
    if random.one_in(6) {
        raise_address(random, case);
    }
    if displacement > 0 && random.one_in(6) {
        let value = too_high(random, displacement);
        if let Some(record) = any_record(random, &mut case.book) {
            if !record.offsets.is_empty() {
                set_field(record, random.below(record.offsets.len()), value);
            }
        }
    }
    if displacement > 0 && random.one_in(6) {
        case.book.entry = Some(too_high(random, displacement));
    }
}

fn any_record<'a>(random: &mut Random, book: &'a mut Book) -> Option<&'a mut Record> {
    let count = book.records.len();
    (count > 0).then(|| &mut book.records[random.below(count)])
}

/// Makes storage so short that this many bytes of the furthest text are outside.
fn cut_storage(random: &mut Random, case: &mut Case, outside: usize) {
    let end = |r: &Record| usize::from(r.address) + r.text.len();
    if let Some(end) = case.book.records.iter().map(end).max() {
        let end = end + usize::from(case.displacement) - outside;
        let spare = if outside > 0 { random.below(2) * random.below(end + 1) } else { 0 };
        case.storage = (end - spare).min(LONGEST_STORAGE);
    }
}

/// Puts a text so high that it ends a byte, or some bytes, past its room.
fn raise_address(random: &mut Random, case: &mut Case) {
    let room = room(case.displacement, case.storage);
    if let Some(record) = any_record(random, &mut case.book) {
        let length = record.text.len();
        let past = random.pick(&[1, 1, length, 300]);
        record.address = (room + past).saturating_sub(length).min(ADDRESSES - length) as u16;
    }
}
