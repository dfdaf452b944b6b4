//! What is wrong with a call that is to be refused, so that the order in which it judges shows.

/// As bits, and the number of each in the order in which the call judges.
#[derive(Clone, Copy)]
pub struct Faults<'a> {
    bits: u32,
    numbers: &'a [u32],
}

impl<'a> Faults<'a> {
    pub fn has(self, number: u32) -> bool {
        let at = self.numbers.iter().position(|&other| other == number);
        self.bits >> at.expect("one of the call's numbers") & 1 == 1
    }

    pub fn first(self) -> u32 {
        self.numbers.iter().copied().find(|&number| self.has(number)).unwrap_or(0)
    }

    /// Each way to have some of these, several times over.
    pub fn each(numbers: &'a [u32], times: usize) -> impl Iterator<Item = Faults<'a>> + 'a {
        let every = 1 << numbers.len();
        (0..every).cycle().take(times * every as usize).map(move |bits| Faults { bits, numbers })
    }

    /// Each way to have none, one or two of these, several times over.
    pub fn pairs(numbers: &'a [u32], times: usize) -> impl Iterator<Item = Faults<'a>> + 'a {
        Faults::each(numbers, times).filter(|faults| faults.bits.count_ones() <= 2)
    }
}
