//! The library and the second program, asked the same. Each call gives what both answer, and leaves what
//! it is lent as both leave it.

use crate::compare::{compare, Compared, Difference};
use crate::cut::cut;
use crate::desk::{Desk, Stored};
use crate::join::{join, Joined};
use crate::letter::{Fault, Head, Letter};
use crate::moving::{CutAgain, Move, Weighed};
use crate::order::Order;
use crate::peer::Peer;
use crate::pick::{pick, Picked};
use crate::tally::Tally;
use crate::told::Told;

pub struct Both {
    library: Peer,
    /// The numbers answered.
    pub tally: Tally,
}

impl Both {
    pub fn over(library: Peer) -> Both {
        Both { library, tally: Tally::default() }
    }

    /// The head of a good letter.
    pub fn read(&mut self, slot: &[u8]) -> Result<Head, Fault> {
        let head = Letter::read(slot).map(|letter| letter.head);
        let numbers = match head {
            Ok(Head { told: Told { order, key }, keeper, stamp, length }) => {
                [0, 0, order.t, order.f, order.n, key, keeper, stamp, length]
            }
            Err(Fault { number, place }) => [number, place, 0, 0, 0, 0, 0, 0, 0],
        };
        assert_eq!(self.library.read(slot), numbers);
        self.tally.add(numbers[0]);
        head
    }

    pub fn cut(
        &mut self,
        told: Told,
        stamp: u32,
        secret: &[u8],
        random: &[u16],
        tray: &mut [u8],
    ) -> u32 {
        let mut second = tray.to_vec();
        let number = self.library.cut(told, stamp, secret, random, tray);
        assert_eq!(cut(told, stamp, secret, random, &mut second), number, "{told:?}");
        assert!(second == tray, "{told:?}: not the same tray");
        self.tally.add(number);
        number
    }

    /// The tray of a cut that is done.
    pub fn cut_tray(&mut self, told: Told, stamp: u32, secret: &[u8], random: &[u16]) -> Vec<u8> {
        let mut tray = vec![99; told.order.tray()];
        assert_eq!(self.cut(told, stamp, secret, random, &mut tray), 0, "{told:?}");
        tray
    }

    pub fn join(
        &mut self,
        told: Told,
        stamp: u32,
        length: u32,
        tray: &[u8],
        room: &mut [u8],
    ) -> Joined {
        let mut second = room.to_vec();
        let joined = self.library.join(told, stamp, length, tray, room);
        assert_eq!(join(told, stamp, length, tray, &mut second), joined, "{told:?}");
        assert!(second == room, "{told:?}: not the same secret");
        self.tally.add(joined.number);
        joined
    }

    pub fn store(&mut self, desk: Desk, held: &mut [u8], letter: &[u8]) -> Stored {
        let mut second = held.to_vec();
        let stored = self.library.store(desk, held, letter);
        assert_eq!(desk.store(&mut second, letter), stored, "{desk:?}");
        assert!(second == held, "{desk:?}: not the same slot held");
        self.tally.add(stored.number);
        stored
    }

    pub fn fetch(&mut self, desk: Desk, held: &[u8]) -> u32 {
        let number = self.library.fetch(desk, held);
        assert_eq!(desk.fetch(held).err().unwrap_or(0), number, "{desk:?}");
        self.tally.add(number);
        number
    }

    pub fn pick(&mut self, told: Told, tray: &[u8]) -> Picked {
        let picked = self.library.pick(told, tray);
        assert_eq!(pick(told, tray), picked, "{told:?}");
        self.tally.add(picked.number);
        picked
    }

    pub fn compare(
        &mut self,
        order: Order,
        first: &[u8],
        second: &[u8],
        list: &mut [Difference],
    ) -> Compared {
        let mut expected = list.to_vec();
        let compared = self.library.compare(order, first, second, list);
        assert_eq!(compare(order, first, second, &mut expected), compared, "{order:?}");
        assert!(expected == list, "{order:?}: not the same list");
        self.tally.add(compared.number);
        compared
    }
    pub fn move_cut(
        &mut self,
        told: Move,
        keeper: u32,
        letter: &[u8],
        random: &[u16],
        tray: &mut [u8],
    ) -> CutAgain {
        let mut second = tray.to_vec();
        let cut = self.library.move_cut(told, keeper, letter, random, tray);
        assert_eq!(told.cut(keeper, letter, random, &mut second), cut, "{told:?}, keeper {keeper}");
        assert!(second == tray, "{told:?}, keeper {keeper}: not the same sub-letters");
        self.tally.add(cut.number);
        cut
    }

    pub fn move_weigh(
        &mut self,
        told: Move,
        keepers: &[u32],
        keeper: u32,
        letters: &[u8],
        slot: &mut [u8],
    ) -> Weighed {
        let mut second = slot.to_vec();
        let weighed = self.library.move_weigh(told, keepers, keeper, letters, slot);
        let expected = told.weigh(keepers, keeper, letters, &mut second);
        assert_eq!(expected, weighed, "{told:?}, keepers {keepers:?} to {keeper}");
        assert!(second == slot, "{told:?}, keepers {keepers:?} to {keeper}: not the same letter");
        self.tally.add(weighed.number);
        weighed
    }
}
