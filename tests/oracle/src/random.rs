//! A small generator of random numbers (splitmix64). One seed gives one series, on every machine.

pub struct Random {
    state: u64,
}

impl Random {
    pub fn new(seed: u64) -> Random {
        Random { state: seed }
    }

    /// The series of one case of a run: it depends on the seed and the case's number only.
    pub fn for_case(seed: u64, case: u64) -> Random {
        let mut of_case = Random::new(case);
        Random::new(seed ^ of_case.next())
    }

    pub fn next(&mut self) -> u64 {
        self.state = self.state.wrapping_add(0x9E37_79B9_7F4A_7C15);
        let mut z = self.state;
        z = (z ^ (z >> 30)).wrapping_mul(0xBF58_476D_1CE4_E5B9);
        z = (z ^ (z >> 27)).wrapping_mul(0x94D0_49BB_1331_11EB);
        z ^ (z >> 31)
    }

    /// A number from low to high, both included.
    pub fn from(&mut self, low: u64, high: u64) -> u64 {
        match (high - low).checked_add(1) {
            Some(size) => low + self.next() % size,
            None => self.next(),
        }
    }

    /// A place in a list of this length, which is not 0.
    pub fn place(&mut self, length: usize) -> usize {
        self.from(0, length as u64 - 1) as usize
    }

    pub fn pick<T: Copy>(&mut self, list: &[T]) -> T {
        list[self.place(list.len())]
    }

    pub fn shuffle<T>(&mut self, list: &mut [T]) {
        (1..list.len()).rev().for_each(|k| list.swap(k, self.place(k + 1)));
    }

    pub fn percent(&mut self, chance: u64) -> bool {
        self.from(1, 100) <= chance
    }

    pub fn bytes(&mut self, length: usize) -> Vec<u8> {
        (0..length).map(|_| self.next() as u8).collect()
    }
}
