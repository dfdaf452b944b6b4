//! Some keepers, in rising order, without a heap.

#[derive(Clone, Copy)]
pub struct Keepers {
    list: [u16; 16],
    count: usize,
}

impl Keepers {
    pub fn none() -> Keepers {
        Keepers { list: [0; 16], count: 0 }
    }

    pub fn push(&mut self, keeper: u16) {
        self.list[self.count] = keeper;
        self.count += 1;
    }

    pub fn all(&self) -> &[u16] {
        &self.list[..self.count]
    }

    pub fn set(&self) -> u32 {
        self.all().iter().map(|&keeper| 1 << (keeper - 1)).sum()
    }
}
