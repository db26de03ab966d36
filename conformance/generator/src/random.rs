//! A small fixed generator of numbers (splitmix64).

pub(crate) struct Random(u64);

impl Random {
    /// The numbers for one case. They depend on nothing else, so a case is
    /// the same however many others are drawn.
    pub(crate) fn for_case(seed: u64, sort: u64, index: usize) -> Random {
        Random(mixed(mixed(seed.wrapping_add(sort)) ^ index as u64))
    }

    fn next(&mut self) -> u64 {
        self.0 = self.0.wrapping_add(0x9E37_79B9_7F4A_7C15);
        mixed(self.0)
    }

    /// A number from 0 to `limit` less one.
    pub(crate) fn below(&mut self, limit: usize) -> usize {
        (self.next() % limit as u64) as usize
    }

    /// A number from `low` to `high`, both included.
    pub(crate) fn between(&mut self, low: usize, high: usize) -> usize {
        low + self.below(high - low + 1)
    }

    pub(crate) fn one_in(&mut self, times: usize) -> bool {
        self.below(times) == 0
    }

    /// True `part` times of a hundred.
    pub(crate) fn percent(&mut self, part: usize) -> bool {
        self.below(100) < part
    }

    pub(crate) fn pick<'a, T: ?Sized>(&mut self, from: &[&'a T]) -> &'a T {
        from[self.below(from.len())]
    }

    /// One octet of the text.
    pub(crate) fn octet_of(&mut self, text: &[u8]) -> u8 {
        text[self.below(text.len())]
    }

    pub(crate) fn octet(&mut self) -> u8 {
        self.below(256) as u8
    }
}

fn mixed(mut number: u64) -> u64 {
    number = (number ^ (number >> 30)).wrapping_mul(0xBF58_476D_1CE4_E5B9);
    number = (number ^ (number >> 27)).wrapping_mul(0x94D0_49BB_1331_11EB);
    number ^ (number >> 31)
}
