//! Ways to break a book. Most break one rule of the layout and keep the others.

use crate::random::Random;
use model::book::{Book, Record, ADDRESSES, LAST_CARD, LONGEST_TEXT};

/// Gives the bytes of the broken book. The book it takes has at least two records.
pub type Damage = fn(&mut Random, Book) -> Vec<u8>;

pub const DAMAGES: [(&str, Damage); 17] = [
    ("a changed byte", changed_byte),
    ("several changed bytes", changed_bytes),
    ("cut", cut),
    ("lengthened", lengthened),
    ("wrong length", wrong_length),
    ("wrong version", wrong_version),
    ("wrong flag", wrong_flag),
    ("an entry with flag 0", entry_with_flag_0),
    ("card not 1 to 4,000", card_outside),
    ("card not rising", card_not_rising),
    ("wrong length of a record", wrong_record_length),
    ("wrong count of fields", wrong_count),
    ("offsets too close", offsets_too_close),
    ("offset outside the text", offset_outside),
    ("text of 0 or 257 bytes", text_length_outside),
    ("address too high", address_too_high),
    ("noise", noise),
];

/// The bytes of the book, at times without its records.
fn some_bytes(random: &mut Random, mut book: Book) -> Vec<u8> {
    if random.one_in(4) {
        book.records.clear();
    }
    book.bytes()
}

/// Where a record of the book begins in its bytes.
fn place(book: &Book, record: usize) -> usize {
    let before = book.records[..record].iter();
    8 + before.map(|r| 2 + r.rest_length()).sum::<usize>()
}

/// Makes the first four bytes agree with the length, half of the time.
fn maybe_mend(random: &mut Random, bytes: &mut [u8]) {
    if random.one_in(2) && bytes.len() >= 4 {
        set_length(bytes, bytes.len() - 4);
    }
}

fn set_length(bytes: &mut [u8], length: usize) {
    bytes[..4].copy_from_slice(&(length as u32).to_be_bytes());
}

fn any_record<'a>(random: &mut Random, book: &'a mut Book) -> &'a mut Record {
    let count = book.records.len();
    &mut book.records[random.below(count)]
}

/// Gives the record at least so many bytes of text, at an address where they have room.
fn with_text(record: &mut Record, least: usize) {
    record.text.resize(record.text.len().max(least), 0);
    record.address = record.address.min((ADDRESSES - record.text.len()) as u16);
}

fn change(random: &mut Random, bytes: &mut [u8]) {
    let reach = random.pick(&[8, 24, bytes.len()]).min(bytes.len());
    let at = random.below(reach);
    bytes[at] = match random.below(3) {
        0 => random.byte(),
        1 => bytes[at] ^ 1 << random.below(8),
        _ => bytes[at].wrapping_add(random.pick(&[1, 255])),
    };
}

fn changed_byte(random: &mut Random, book: Book) -> Vec<u8> {
    let mut bytes = some_bytes(random, book);
    change(random, &mut bytes);
    bytes
}

fn changed_bytes(random: &mut Random, book: Book) -> Vec<u8> {
    let mut bytes = some_bytes(random, book);
    for _ in 0..random.within(2..=6) {
        change(random, &mut bytes);
    }
    bytes
}

fn cut(random: &mut Random, book: Book) -> Vec<u8> {
    let mut bytes = some_bytes(random, book);
    let most = random.pick(&[4, 300]).min(bytes.len());
    let lost = random.within(1..=most);
    bytes.truncate(bytes.len() - lost);
    maybe_mend(random, &mut bytes);
    bytes
}

fn lengthened(random: &mut Random, book: Book) -> Vec<u8> {
    let mut bytes = some_bytes(random, book);
    let more = random.within(1..=12);
    let tail = if random.one_in(2) { vec![0; more] } else { random.bytes(more) };
    bytes.extend(tail);
    maybe_mend(random, &mut bytes);
    bytes
}

fn wrong_length(random: &mut Random, book: Book) -> Vec<u8> {
    let mut bytes = some_bytes(random, book);
    let length = bytes.len() - 4;
    let any = random.next() as usize;
    let high_bit = 1 << random.within(8..=31);
    let wrong = [0, length - 1, length + 1, length + 4, length + high_bit, any];
    set_length(&mut bytes, random.pick(&wrong));
    bytes
}

fn wrong_version(random: &mut Random, book: Book) -> Vec<u8> {
    let mut bytes = some_bytes(random, book);
    let any = random.within(2..=255) as u8;
    bytes[4] = random.pick(&[0, 2, 3, 129, 255, any]);
    bytes
}

fn wrong_flag(random: &mut Random, book: Book) -> Vec<u8> {
    let mut bytes = some_bytes(random, book);
    let any = random.within(2..=255) as u8;
    bytes[5] = random.pick(&[2, 3, 129, 255, any]);
    bytes
}

fn entry_with_flag_0(random: &mut Random, book: Book) -> Vec<u8> {
    let mut bytes = some_bytes(random, book);
    let any = random.within(1..=65535) as u16;
    bytes[5] = 0;
    bytes[6..8].copy_from_slice(&random.pick(&[1, 255, 256, any]).to_be_bytes());
    bytes
}

fn card_outside(random: &mut Random, mut book: Book) -> Vec<u8> {
    let last = book.records.len() - 1;
    if random.one_in(2) {
        book.records[0].card = 0;
    } else {
        let above = usize::from(LAST_CARD) + 1;
        let any = random.within(above..=65535);
        book.records[last].card = random.pick(&[above, any]) as u16;
    }
    book.bytes()
}

fn card_not_rising(random: &mut Random, mut book: Book) -> Vec<u8> {
    let second = random.within(1..=book.records.len() - 1);
    let before = book.records[second - 1].card;
    let lower = random.within(1..=usize::from(before)) as u16;
    book.records[second].card = random.pick(&[before, lower]);
    book.bytes()
}

fn wrong_record_length(random: &mut Random, book: Book) -> Vec<u8> {
    let record = random.pick(&[0, book.records.len() - 1]);
    let at = place(&book, record);
    let length = book.records[record].rest_length() as u16;
    let any = random.next() as u16;
    let wrong = random.pick(&[0, 4, 5, length - 1, length + 1, length + 256, 65535, any]);
    let mut bytes = book.bytes();
    bytes[at..at + 2].copy_from_slice(&wrong.to_be_bytes());
    bytes
}

fn wrong_count(random: &mut Random, book: Book) -> Vec<u8> {
    let record = random.below(book.records.len());
    let at = place(&book, record) + 6;
    let mut bytes = book.bytes();
    let any = random.byte();
    bytes[at] = random.pick(&[bytes[at].wrapping_sub(1), bytes[at] + 1, 255, any]);
    bytes
}

fn offsets_too_close(random: &mut Random, mut book: Book) -> Vec<u8> {
    let record = any_record(random, &mut book);
    with_text(record, 4);
    let at = random.below(record.text.len() - 3) as u8;
    let close = random.pick(&[[at, at + 1], [at, at], [at + 1, at], [at + 2, at]]);
    record.offsets.retain(|&offset| u16::from(offset) + 2 <= u16::from(at));
    record.offsets.extend(close);
    book.bytes()
}

fn offset_outside(random: &mut Random, mut book: Book) -> Vec<u8> {
    let record = any_record(random, &mut book);
    let lowest = record.text.len() - 1;
    let any = random.within(lowest..=255);
    let outside = random.pick(&[lowest, any, 255]);
    record.offsets.retain(|&offset| usize::from(offset) + 2 <= outside);
    record.offsets.push(outside as u8);
    book.bytes()
}

fn text_length_outside(random: &mut Random, mut book: Book) -> Vec<u8> {
    let record = any_record(random, &mut book);
    if random.one_in(2) {
        record.text.clear();
        record.offsets.clear();
    } else {
        with_text(record, LONGEST_TEXT + 1);
    }
    book.bytes()
}

fn address_too_high(random: &mut Random, mut book: Book) -> Vec<u8> {
    let record = any_record(random, &mut book);
    with_text(record, 2);
    let lowest = ADDRESSES - record.text.len() + 1;
    let any = random.within(lowest..=65535);
    record.address = random.pick(&[lowest, any]) as u16;
    book.bytes()
}

fn noise(random: &mut Random, _: Book) -> Vec<u8> {
    let count = random.below(40);
    let mut bytes = random.bytes(count);
    maybe_mend(random, &mut bytes);
    if bytes.len() >= 6 && random.one_in(2) {
        bytes[4..6].copy_from_slice(&[1, 1]);
    }
    bytes
}
