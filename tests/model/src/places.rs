// A set of rooms or places as 01 writes it: 32 bits, with place p as bit p.

#[derive(Clone, Copy, PartialEq, Eq, Debug, Default)]
pub struct Places(u32);

fn bit(p: u8) -> u32 {
    // A shift too far would fold a wrong place onto a right one.
    assert!(p < 32, "place {p} has no bit");
    1 << p
}

impl Places {
    pub fn only(p: u8) -> Places {
        Places(bit(p))
    }

    /// True where the place was not there before.
    pub fn insert(&mut self, p: u8) -> bool {
        let new = !self.contains(p);
        self.0 |= bit(p);
        new
    }

    pub fn remove(&mut self, p: u8) {
        self.0 &= !bit(p);
    }

    pub fn contains(&self, p: u8) -> bool {
        self.0 & bit(p) != 0
    }

    pub fn is_empty(&self) -> bool {
        self.0 == 0
    }

    pub fn len(&self) -> usize {
        self.0.count_ones() as usize
    }

    pub fn is_disjoint(&self, other: &Places) -> bool {
        self.0 & other.0 == 0
    }

    pub fn is_subset(&self, other: &Places) -> bool {
        self.0 & !other.0 == 0
    }

    /// The places, lowest first.
    pub fn iter(&self) -> impl Iterator<Item = u8> + '_ {
        (0..32).filter(|p| self.contains(*p))
    }
}

impl From<Places> for u32 {
    fn from(places: Places) -> u32 {
        places.0
    }
}

impl From<u32> for Places {
    fn from(bits: u32) -> Places {
        Places(bits)
    }
}
