//! Octets of a length up to `N`, by value.

#[derive(Clone, Copy)]
pub struct Text<const N: usize> {
    length: u8,
    octets: [u8; N],
}

impl<const N: usize> Text<N> {
    pub const EMPTY: Self = Text { length: 0, octets: [0; N] };

    /// At most `N` octets, and `N` is below 256.
    pub fn new(octets: &[u8]) -> Self {
        let mut text = Self::EMPTY;
        text.octets[..octets.len()].copy_from_slice(octets);
        text.length = octets.len() as u8;
        text
    }

    #[inline]
    pub fn octets(&self) -> &[u8] {
        &self.octets[..usize::from(self.length)]
    }

    #[inline]
    pub fn is(&self, octets: &[u8]) -> bool {
        self.octets() == octets
    }
}
