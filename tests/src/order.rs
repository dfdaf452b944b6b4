//! The order, and the sizes that follow from nothing else.

pub const SLOT: usize = 2048;
pub const LONGEST: usize = 952;

#[derive(Clone, Copy, Debug, PartialEq, Eq)]
pub struct Order {
    pub t: u32,
    pub f: u32,
    pub n: u32,
}

impl Order {
    pub fn new(t: u32, f: u32, n: u32) -> Order {
        Order { t, f, n }
    }

    pub fn lawful(self) -> bool {
        let Order { t, f, n } = self;
        (1..=7).contains(&t) && f <= t && t + 4 * f < n && n <= 16
    }

    pub fn has_keeper(self, keeper: u32) -> bool {
        (1..=self.n).contains(&keeper)
    }

    /// Fewer usable letters than this are never joined.
    pub fn fewest(self) -> u32 {
        self.t + self.f + 1
    }

    /// The fewest letters whose join can be made to give 7. Through any t+1 there are polynomials.
    pub fn differing(self) -> u32 {
        self.fewest().max(self.t + 2)
    }

    /// So many of the usable letters may lie. Need is m-f or t+f+1, so it is the less of f and m-(t+f+1).
    pub fn borne(self, usable: u32) -> u32 {
        self.f.min(usable.saturating_sub(self.fewest()))
    }

    pub fn tray(self) -> usize {
        self.n as usize * SLOT
    }

    /// Every lawful order.
    pub fn all() -> Vec<Order> {
        let mut orders = Vec::new();
        for t in 1..=7 {
            for f in 0..=t {
                orders.extend((t + 4 * f + 1..=16).map(|n| Order { t, f, n }));
            }
        }
        orders
    }
}

pub fn lawful_length(length: usize) -> bool {
    (1..=LONGEST).contains(&length)
}
