//! What a letter is of, and what every call on letters is told of them: the order, and the key.

use crate::order::Order;

#[derive(Clone, Copy, Debug, PartialEq, Eq)]
pub struct Told {
    pub order: Order,
    /// The number that tells the letters of one secret key from those of another.
    pub key: u32,
}

impl Told {
    pub fn new(order: Order, key: u32) -> Told {
        Told { order, key }
    }

    pub fn lawful(self) -> bool {
        self.order.lawful() && self.key <= 255
    }
}
