//! A race: who does one piece of work, and how fast.

use std::hint::black_box;
use std::time::Instant;

use crate::programs::is_library;

/// Many short slices, so that a slow spell of the machine hits every side.
const SLICES: usize = 60;
const SLICE: f64 = 0.004;

/// One who does the work.
pub trait Side {
    fn name(&self) -> &'static str;

    /// The bytes worked on: of a secret, of the letters where these are read, of the block where one is
    /// sealed, of one tray where two are compared.
    fn bytes(&self) -> usize;

    /// Before a slice, off the clock: spoils what the last one left.
    fn prepare(&mut self);

    /// The work, on the clock.
    fn work(&mut self);

    /// How many pieces of work one call of `work` does. The time is that of one.
    fn pieces(&self) -> usize {
        1
    }

    /// After a slice, off the clock: whether the work was done, and right.
    fn right(&mut self) -> bool;
}

pub type Sides<'a> = Vec<Box<dyn Side + 'a>>;

/// The best time of one side, in seconds.
pub struct Best {
    pub name: &'static str,
    pub bytes: usize,
    pub time: f64,
}

/// One piece of work, and the best time of each side. The first is the library, compiled for any processor
/// of the machine's kind.
pub struct Race {
    pub work: &'static str,
    pub bests: Vec<Best>,
}

impl Race {
    pub fn run(work: &'static str, sides: Sides) -> Race {
        let [race] = Race::run_together([(work, sides)]);
        race
    }

    /// Pieces of work whose times are compared with each other: a slow spell should hit all of them.
    pub fn run_together<const WORKS: usize>(
        mut works: [(&'static str, Sides); WORKS],
    ) -> [Race; WORKS] {
        let mut races = works.each_ref().map(|(work, sides)| Race::before(work, sides));
        for depth in 0..SLICES {
            for ((_, sides), race) in works.iter_mut().zip(&mut races) {
                race.take_turns(depth, sides);
            }
        }
        races
    }

    fn before(work: &'static str, sides: &Sides) -> Race {
        let (mut bests, time) = (Vec::new(), f64::MAX);
        for side in sides {
            bests.push(Best { name: side.name(), bytes: side.bytes(), time });
        }
        Race { work, bests }
    }

    fn take_turns(&mut self, depth: usize, sides: &mut Sides) {
        for (side, best) in sides.iter_mut().zip(&mut self.bests) {
            best.time = deeper(depth, &mut || slice(side.as_mut())).min(best.time);
            assert!(side.right(), "{}: {} gives a wrong answer", self.work, side.name());
        }
    }

    pub fn library(&self) -> &Best {
        &self.bests[0]
    }

    /// The library as it is compiled for this processor and that.
    pub fn libraries(&self) -> impl Iterator<Item = &Best> {
        self.bests.iter().filter(|best| best.is_library())
    }

    pub fn of(&self, name: &str) -> &Best {
        self.bests.iter().find(|best| best.name == name).expect("a side of this race")
    }
}

impl Best {
    pub fn per_byte(&self) -> f64 {
        self.time / self.bytes as f64
    }

    /// The time for a byte, in those of another side.
    pub fn times(&self, other: &Best) -> f64 {
        self.per_byte() / other.per_byte()
    }

    pub fn is_library(&self) -> bool {
        is_library(self.name)
    }
}

/// Does this some steps down the stack. Where a process has its stack can change a time by a tenth, and
/// the best of many should not hang on that.
fn deeper(steps: usize, work: &mut dyn FnMut() -> f64) -> f64 {
    let step = black_box([0_u8; 48]);
    let time = if steps == 0 { work() } else { deeper(steps - 1, work) };
    black_box(step);
    time
}

/// The best time of one piece of work in one slice.
fn slice(side: &mut dyn Side) -> f64 {
    side.prepare();
    let mut best = f64::MAX;
    let begun = Instant::now();
    while begun.elapsed().as_secs_f64() < SLICE {
        best = best.min(seconds(|| side.work()));
    }
    best / side.pieces() as f64
}

pub fn seconds(work: impl FnOnce()) -> f64 {
    let begun = Instant::now();
    work();
    begun.elapsed().as_secs_f64()
}
