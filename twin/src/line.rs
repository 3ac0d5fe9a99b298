//! Numbers and texts as they stand on the line.

/// A number in groups of seven bits, lowest first, in its shortest form and at most `most`; `next` yields the octets.
/// Stops at the first octet that rules such a number out.
#[inline(always)]
pub fn number_from<E>(most: u64, mut next: impl FnMut() -> Result<Option<u8>, E>) -> Result<Option<u64>, E> {
    let mut value = 0;
    let mut shift = 0;
    loop {
        let Some(octet) = next()? else { return Ok(None) };
        value |= u64::from(octet & 0x7f) << shift;
        if octet < 0x80 {
            let shortest = octet != 0 || shift == 0;
            return Ok(if shortest && value <= most { Some(value) } else { None });
        }
        shift += 7;
        // The last group isn't 0, so a further one makes the number at least this.
        if most >> shift == 0 {
            return Ok(None);
        }
    }
}

/// Reads fields off the front of a body. `None`: the body is not as laid out.
pub struct Reader<'a> {
    rest: &'a [u8],
}

impl<'a> Reader<'a> {
    pub fn new(body: &'a [u8]) -> Self {
        Reader { rest: body }
    }

    #[inline]
    pub fn octet(&mut self) -> Option<u8> {
        let (&first, rest) = self.rest.split_first()?;
        self.rest = rest;
        Some(first)
    }

    #[inline]
    pub fn number(&mut self, most: u64) -> Option<u64> {
        let read = number_from(most, || Ok::<_, std::convert::Infallible>(self.octet()));
        match read {
            Ok(number) => number,
            Err(never) => match never {},
        }
    }

    /// A number that is at most `most`, which has 32 bits.
    #[inline]
    pub fn number32(&mut self, most: u32) -> Option<u32> {
        Some(self.number(u64::from(most))? as u32)
    }

    #[inline]
    pub fn octets(&mut self, count: usize) -> Option<&'a [u8]> {
        if count > self.rest.len() {
            return None;
        }
        let (octets, rest) = self.rest.split_at(count);
        self.rest = rest;
        Some(octets)
    }

    #[inline]
    pub fn array<const N: usize>(&mut self) -> Option<&'a [u8; N]> {
        self.octets(N)?.try_into().ok()
    }

    #[inline]
    pub fn text(&mut self, least: usize, most: usize) -> Option<&'a [u8]> {
        let length = self.number(most as u64)? as usize;
        if length < least {
            return None;
        }
        self.octets(length)
    }

    /// Nothing may follow the last field.
    #[inline]
    pub fn end(&self) -> Option<()> {
        self.rest.is_empty().then_some(())
    }
}

/// Writes an answer at the front of a buffer that is long enough for any.
pub struct Writer<'a> {
    out: &'a mut [u8],
    at: usize,
}

impl<'a> Writer<'a> {
    pub fn new(out: &'a mut [u8]) -> Self {
        Writer { out, at: 0 }
    }

    #[inline]
    pub fn octet(&mut self, octet: u8) {
        self.out[self.at] = octet;
        self.at += 1;
    }

    #[inline]
    pub fn number(&mut self, mut value: u64) {
        while value >= 0x80 {
            self.octet(value as u8 | 0x80);
            value >>= 7;
        }
        self.octet(value as u8);
    }

    #[inline]
    pub fn octets(&mut self, octets: &[u8]) {
        self.out[self.at..self.at + octets.len()].copy_from_slice(octets);
        self.at += octets.len();
    }

    #[inline]
    pub fn text(&mut self, text: &[u8]) {
        self.number(text.len() as u64);
        self.octets(text);
    }

    pub fn length(self) -> usize {
        self.at
    }
}
