//! Operands of DC and DS.

use super::expressions::Writer;

impl Writer<'_> {
    /// The operand of DC.
    pub fn constant(&mut self) -> String {
        let kind = self.random.pick(b"CXDA");
        if kind == b'A' {
            return self.address_constant();
        }
        let needed = self.random.pick(&[1, 1, 2, 3, 5, 9, 16]);
        let hex_digits = 2 * needed - self.random.below(2);
        let value = match kind {
            _ if self.wild > 0 && self.random.one_in(8) => String::new(),
            b'C' => self.quoted(needed),
            b'X' => self.digits(b"0123456789ABCDEF", hex_digits),
            _ => self.digits(b"0123456789", needed),
        };
        let most = self.random.pick(&[needed, needed + 2, 30, 256]).max(needed);
        let length = self.random.near(needed..=most);
        let written = length != needed || self.random.one_in(2);
        let copies = self.copies(256 / length);
        let length =
            if self.goes_wild() { self.random.pick(&[0, 257, needed - 1, 99_999]) } else { length };
        let length = if written { self.length(length) } else { String::new() };
        format!("{copies}{}{length}'{value}'", char::from(kind))
    }

    fn address_constant(&mut self) -> String {
        let length = if self.goes_wild() {
            self.random.pick(&[0, 1, 3, 4])
        } else {
            self.random.within(1..=3)
        };
        let copies = self.copies(256 / length.max(1));
        let value = match length {
            2 => self.either(),
            _ if self.goes_wild() => self.relocatable(),
            _ => self.absolute(0..=65_535),
        };
        let length =
            if length == 2 && self.random.one_in(2) { String::new() } else { self.length(length) };
        format!("{copies}A{length}({value})")
    }

    /// The operand of DS.
    pub fn area(&mut self) -> String {
        let kind = self.random.pick(b"CXDA");
        let longest = if kind == b'A' { 3 } else { 256 };
        let most = self.random.pick(&[4, 8, longest]).min(longest);
        let length = self.random.near(1..=most);
        let length = if self.goes_wild() { self.random.pick(&[0, longest + 1]) } else { length };
        let length = if self.random.one_in(4) { String::new() } else { self.length(length) };
        let most = self.random.pick(&[1, 1, 1, 3, 20]);
        let copies = if self.goes_wild() {
            self.random.pick(&["65535", "65536", "257", "99999999999999999999"]).to_string()
        } else {
            self.copies(most)
        };
        format!("{copies}{}{length}", char::from(kind))
    }

    /// Copies up to so many, or nothing for one.
    fn copies(&mut self, most: usize) -> String {
        if self.goes_wild() {
            let copies = ["0", "0", "256", "257", "65537", "4294967297", "18446744073709551617"];
            return self.random.pick(&copies).to_string();
        }
        let most = self.random.pick(&[1, 3, most]).min(most);
        match self.random.below(4) {
            0 => format!("{}", self.random.near(0..=most)),
            1 => format!("{:03}", self.random.within(1..=most)),
            _ => String::new(),
        }
    }

    fn length(&mut self, length: usize) -> String {
        if self.random.one_in(12) {
            format!("L{length:09}")
        } else {
            format!("L{length}")
        }
    }

    fn digits(&mut self, from: &[u8], count: usize) -> String {
        (0..count).map(|_| char::from(self.random.pick(from))).collect()
    }
}
