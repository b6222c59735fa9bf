//! Parts: a one-byte tag, a two-byte length, a body. What queries and lists are made of.

/// Reads parts from the front of a slice; each fault is the refusal that it is given.
pub struct Reader<'a> {
    rest: &'a [u8],
    fault: u32,
}

impl<'a> Reader<'a> {
    #[must_use]
    pub const fn new(bytes: &'a [u8], fault: u32) -> Self {
        Self { rest: bytes, fault }
    }

    #[must_use]
    pub const fn is_done(&self) -> bool {
        self.rest.is_empty()
    }

    /// The fault, unless it is so.
    pub const fn need(&self, is_so: bool) -> Result<(), u32> {
        if is_so { Ok(()) } else { Err(self.fault) }
    }

    /// Nothing is left over.
    pub const fn end(&self) -> Result<(), u32> {
        self.need(self.rest.is_empty())
    }

    /// So many bytes.
    pub fn take(&mut self, n: usize) -> Result<&'a [u8], u32> {
        let (taken, rest) = self.rest.split_at_checked(n).ok_or(self.fault)?;
        self.rest = rest;
        Ok(taken)
    }

    /// A big-endian number of so many bytes.
    pub fn number(&mut self, n: usize) -> Result<u64, u32> {
        let bytes = self.take(n)?;
        Ok(bytes.iter().fold(0, |sum, b| sum << 8 | u64::from(*b)))
    }

    /// A part with one of these tags: its tag, and its body to read.
    pub fn part(&mut self, tags: &[u8]) -> Result<(u8, Self), u32> {
        let tag = *self.take(1)?.first().ok_or(self.fault)?;
        let length = usize::try_from(self.number(2)?).expect("two bytes");
        self.need(tags.contains(&tag))?;
        Ok((tag, Reader::new(self.take(length)?, self.fault)))
    }

    /// All that is left, which has to be ASCII.
    pub fn text(mut self) -> Result<Vec<u8>, u32> {
        let text = self.take(self.rest.len())?;
        self.need(text.is_ascii())?;
        Ok(text.to_vec())
    }

    /// A part 10: a field of at most 32 ASCII bytes.
    pub fn field(&mut self) -> Result<Vec<u8>, u32> {
        let name = self.part(&[0x10])?.1.text()?;
        self.need(name.len() <= 32)?;
        Ok(name)
    }

    /// A part 12: a position and a text.
    pub fn word(&mut self) -> Result<(u32, Vec<u8>), u32> {
        let (_, mut body) = self.part(&[0x12])?;
        let position = u32::try_from(body.number(4)?).expect("four bytes");
        Ok((position, body.text()?))
    }
}

/// Writes a part. Panics on a body over 65,535 bytes.
pub fn put(out: &mut Vec<u8>, tag: u8, body: &[u8]) {
    let length = u16::try_from(body.len()).expect("a part of at most 65,535 bytes");
    out.push(tag);
    out.extend(length.to_be_bytes());
    out.extend(body);
}

/// A part 12.
pub fn put_word(out: &mut Vec<u8>, position: u32, text: &[u8]) {
    put(out, 0x12, &[&position.to_be_bytes(), text].concat());
}
