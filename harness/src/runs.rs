//! The four runs that a viewer lends, each with guards around it.

use crate::guarded::Lent;

#[derive(Clone, Debug, PartialEq, Eq)]
pub struct Runs {
    pub standings: Lent,
    /// Lots: offered, pending and offset.
    pub lots: [Lent<u64>; 3],
}

/// How many places each run has: standings, offered, pending, offsets.
pub type Places = [usize; 4];

impl Runs {
    pub fn new(places: Places, variety: u64) -> Self {
        let lots = [1, 2, 3];
        Runs {
            standings: Lent::new(places[0], variety),
            lots: lots.map(|run| Lent::new(places[run], variety + run as u64)),
        }
    }

    pub fn places(&self) -> Places {
        let [offered, pending, offsets] = &self.lots;
        [
            self.standings.size(),
            offered.size(),
            pending.size(),
            offsets.size(),
        ]
    }

    /// The four rooms at once.
    pub fn rooms_mut(&mut self) -> (&mut [u8], [&mut [u64]; 3]) {
        let lots = self.lots.each_mut().map(Lent::room_mut);
        (self.standings.room_mut(), lots)
    }

    /// What stands at one place of each run: a standing, and three numbers of lots.
    pub fn at(&self, who: usize) -> (u8, [u64; 3]) {
        let lots = self.lots.each_ref().map(|run| run.room()[who]);
        (self.standings.room()[who], lots)
    }
}
