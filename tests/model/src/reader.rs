//! Reading an operand from the left.

/// What is left of an operand.
#[derive(Debug, Clone, Copy)]
pub struct Reader<'a> {
    pub rest: &'a [u8],
}

impl<'a> Reader<'a> {
    pub fn of(text: &'a [u8]) -> Reader<'a> {
        Reader { rest: text }
    }

    /// Passes over the byte if it is next, and says whether it was.
    pub fn takes(&mut self, byte: u8) -> bool {
        let next = self.rest.first() == Some(&byte);
        if next {
            self.pass(1);
        }
        next
    }

    /// Takes the byte, or gives none if it is not next.
    pub fn needs(&mut self, byte: u8) -> Option<()> {
        self.takes(byte).then_some(())
    }

    /// Takes the bytes of this class, as many as there are.
    pub fn run(&mut self, class: impl Fn(u8) -> bool) -> &'a [u8] {
        let end = self.rest.iter().position(|&byte| !class(byte)).unwrap_or(self.rest.len());
        self.pass(end)
    }

    /// Takes what stands between two apostrophes, the first of which is next.
    pub fn quoted(&mut self) -> Option<&'a [u8]> {
        self.needs(b'\'')?;
        let mut end = 0;
        loop {
            match self.rest[end..] {
                [b'\'', b'\'', ..] => end += 2,
                [b'\'', ..] => break,
                [_, ..] => end += 1,
                [] => return None,
            }
        }
        let inside = self.pass(end);
        self.pass(1);
        Some(inside)
    }

    /// Says whether nothing is left.
    pub fn ended(&self) -> Option<()> {
        self.rest.is_empty().then_some(())
    }

    /// Takes so many bytes.
    pub fn pass(&mut self, count: usize) -> &'a [u8] {
        let (passed, rest) = self.rest.split_at(count);
        self.rest = rest;
        passed
    }
}

/// The characters of quoted text: an apostrophe is written twice.
pub fn characters(quoted: &[u8]) -> impl Iterator<Item = u8> + '_ {
    let mut doubled = false;
    quoted.iter().copied().filter(move |&byte| {
        doubled = byte == b'\'' && !doubled;
        !doubled
    })
}

#[cfg(test)]
mod tests {
    use super::*;

    #[test]
    fn quoted_text_ends_at_a_lone_apostrophe() {
        let quoted = |text: &'static [u8]| Reader::of(text).quoted();
        assert_eq!(quoted(b"'A'''X"), Some(&b"A''"[..]));
        assert_eq!(quoted(b"''"), Some(&b""[..]));
        assert_eq!(quoted(b"''''"), Some(&b"''"[..]));
        assert_eq!(quoted(b"'''"), None);
        assert_eq!(quoted(b"'A"), None);
        assert_eq!(quoted(b"A'"), None);
    }

    #[test]
    fn two_apostrophes_are_one_character() {
        let all = |text: &[u8]| characters(text).collect::<Vec<u8>>();
        assert_eq!(all(b"A''B"), b"A'B");
        assert_eq!(all(b"''''"), b"''");
        assert_eq!(all(b""), b"");
    }
}
