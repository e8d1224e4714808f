//! The rings that crates/replay replays: of each kind some that are answered and some for each number,
//! without an area of use and then with one, and 02's cases. All but those are of few corners and
//! points.

use crate::line::KINDS as ALL;
use crate::ring::{KINDS, Meant, NO_AREA, NO_RING, Ring, Rule};
use crate::ring_cases::ring_cases;
use crate::rings::{Rings, Shape};

/// So many rings are tried for one.
const MOST: usize = 1_000_000;

/// So many corners and places of a buffer are stored at most.
const FEW_CORNERS: usize = 5;
const FEW_PLACES: usize = 240;

/// Those without an area of use, and then those with one.
pub fn ring_sample() -> Vec<(Ring, &'static str)> {
    let mut list = of(false, Drawn::without);
    list.extend(of(true, Drawn::within));
    list
}

/// Drawn rings, and the cases.
fn of(in_area: bool, draw: fn(&mut Drawn)) -> Vec<(Ring, &'static str)> {
    let mut drawn = Drawn::new(in_area);
    draw(&mut drawn);
    let drawn = drawn.list.into_iter().map(|ring| (ring, ""));
    let cases = ring_cases().into_iter().map(|case| (case.ring, case.why));
    let fitting = cases.filter(|(ring, _)| ring.area.is_some() == in_area);
    drawn.chain(fitting).collect()
}

/// Rings that are drawn.
struct Drawn {
    in_area: bool,
    rings: Rings,
    list: Vec<Ring>,
}

impl Drawn {
    fn new(in_area: bool) -> Drawn {
        Drawn {
            in_area,
            rings: Rings::new(2 + u64::from(in_area)),
            list: Vec::new(),
        }
    }

    fn without(&mut self) {
        for kind in KINDS {
            for shape in [
                Shape::Catchment,
                Shape::Tolerance,
                Shape::Repeated,
                Shape::Offsets,
                Shape::Tiny,
                Shape::Random,
                Shape::Country,
            ] {
                self.draw(&[kind], 0, shape);
            }
            for (number, shape) in [
                (16, Shape::Faulty),
                (17, Shape::Faulty),
                (19, Shape::Settings),
                (NO_RING, Shape::Lists),
                (NO_AREA, Shape::Catchment),
                (NO_AREA, Shape::Offsets),
            ] {
                self.draw(&[kind], number, shape);
            }
        }
        for kind in *b"LS" {
            self.draw(&[kind], 0, Shape::Antipode);
            self.draw(&[kind], 18, Shape::Antipode);
        }
        for kind in *b"CPG" {
            self.draw(&[kind], NO_RING, Shape::Kinds);
        }
        for number in 4..=15 {
            self.draw(&ALL, number, Shape::Settings);
        }
    }

    fn within(&mut self) {
        for kind in KINDS {
            for shape in [Shape::Catchment, Shape::Outside, Shape::Repeated] {
                self.draw(&[kind], 0, shape);
            }
            for (number, shape) in [
                (25, Shape::Outside),
                (26, Shape::Catchment),
                (26, Shape::Outside),
                (NO_AREA, Shape::Catchment),
            ] {
                self.draw(&[kind], number, shape);
            }
        }
        for kind in *b"LS" {
            for number in [0, 16, 17, 18, 26] {
                self.draw(&[kind], number, Shape::Order);
            }
        }
        for kind in *b"CPG" {
            self.draw(&[kind], NO_RING, Shape::Kinds);
        }
        for number in [4, 8, 13, 15, 19] {
            self.draw(&ALL, number, Shape::Settings);
        }
    }

    /// A ring of a shape, and of one of the kinds, that gets a number.
    fn draw(&mut self, kinds: &[u8], number: u8, shape: Shape) {
        for _ in 0..MOST {
            let ring = self.rings.next(shape);
            let fits = kinds.contains(&ring.kind) && ring.area.is_some() == self.in_area;
            if fits && is_short(&ring) && Meant.answer(&ring).number == number {
                return self.list.push(ring);
            }
        }
        panic!("{number} was not met by {shape:?}")
    }
}

fn is_short(ring: &Ring) -> bool {
    let few = ring.corners.len() <= FEW_CORNERS;
    few && ring.buffers.iter().all(|&places| places <= FEW_PLACES)
}
