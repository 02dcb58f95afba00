//! The touched addresses as a machine of the port has them: places and a
//! count, which a set command can make larger than the places. What stands
//! behind the live ones is not fixed, save where a set command put it there.

use crate::sizes::MEMORY_WORDS;

/// How many places there are: one for each address of memory.
pub const PLACES: usize = MEMORY_WORDS;

#[derive(Clone)]
pub struct Touched {
    count: usize,
    /// None where it is not fixed what stands there.
    places: [Option<u8>; PLACES],
}

impl Touched {
    /// As a call leaves them.
    pub fn of(addresses: &[u8]) -> Self {
        let mut places = [None; PLACES];
        for (place, address) in places.iter_mut().zip(addresses) {
            *place = Some(*address);
        }
        Touched {
            count: addresses.len(),
            places,
        }
    }

    pub fn count(&self) -> usize {
        self.count
    }

    /// Where the count falls, what was live is no longer fixed.
    pub fn set_count(&mut self, count: usize) {
        if count < self.count {
            self.places[count.min(PLACES)..].fill(None);
        }
        self.count = count;
    }

    pub fn set(&mut self, place: usize, address: u8) {
        self.places[place % PLACES] = Some(address);
    }

    pub fn at(&self, place: usize) -> Option<u8> {
        self.places[place % PLACES]
    }

    /// The live ones, as many as there are places for; none where one of them
    /// is not fixed.
    pub fn live(&self) -> Option<Vec<u8>> {
        self.live_places().iter().copied().collect()
    }

    fn live_places(&self) -> &[Option<u8>] {
        &self.places[..self.count.min(PLACES)]
    }

    /// Refusal 8's words on them: not over the places, and none twice. None where it
    /// hangs on a place that is not fixed.
    pub fn is_lawful(&self) -> Option<bool> {
        if self.count > PLACES || self.has_one_twice() {
            return Some(false);
        }
        self.live().map(|_| true)
    }

    fn has_one_twice(&self) -> bool {
        let mut seen = [false; PLACES];
        let known = self.live_places().iter().flatten();
        known
            .into_iter()
            .any(|address| std::mem::replace(&mut seen[*address as usize], true))
    }
}
