//! Homes and schools to try the nearest list on: towns, grids and circles whose sums are equal or
//! nearly so, many schools at few places, lists that are sorted already, numbers so small or large that
//! squares vanish or pass the limit, coordinates and lengths that are refused, lists of every length, and
//! any patterns; each with rolls of all kinds.

use crate::fixed::{T, cos, sin};
use crate::nearest::{LARGEST, MOST, Meant, Nearest, Rule};
use crate::patterns::{Patterns, SPECIALS};
use crate::ring::Pair;

/// What a question is like.
#[derive(Clone, Copy, Debug, PartialEq)]
pub enum Shape {
    /// Schools within some kilometres of a home on an office's map.
    Town,
    /// Whole steps from the home, so that many sums are equal.
    Grid,
    /// About equally far from the home.
    Circle,
    /// The same dx and dy with other signs, or turned about.
    Mirror,
    /// A school or a few, again and again.
    Equal,
    /// At a place or a few, each with a roll of its own.
    Campus,
    /// Few numbers from each other, so that sums differ in their last bits.
    Steps,
    /// Some near and some far.
    Clusters,
    /// In order already, or nearly.
    Sorted,
    /// The same from the farthest.
    Reversed,
    /// So small that squares vanish.
    Tiny,
    /// About the limit of a coordinate.
    Huge,
    /// Of any size.
    Sized,
    /// Any patterns.
    Any,
    /// With coordinates that are refused, or nearly.
    Faulty,
    /// With lists that are too short, too long or unequal.
    Lengths,
    /// As long as a list may be, or of a length at which a sort may change its ways.
    Sizes,
}

pub const SHAPES: [Shape; 17] = [
    Shape::Town,
    Shape::Grid,
    Shape::Circle,
    Shape::Mirror,
    Shape::Equal,
    Shape::Campus,
    Shape::Steps,
    Shape::Clusters,
    Shape::Sorted,
    Shape::Reversed,
    Shape::Tiny,
    Shape::Huge,
    Shape::Sized,
    Shape::Any,
    Shape::Faulty,
    Shape::Lengths,
    Shape::Sizes,
];

/// The least and the largest roll, and those about which a number of fewer bits, or with a sign, would
/// go wrong.
const EDGE_ROLLS: [u16; 12] = [
    0, 1, 127, 128, 255, 256, 32_766, 32_767, 32_768, 32_769, 65_534, 65_535,
];

/// No list is longer.
pub const LONGEST: usize = 300;

/// Such lengths, and the longest.
const SIZES: [usize; 13] = [2, 4, 8, 16, 20, 32, 50, 64, 100, 128, 200, 255, MOST];

/// A seeded source of homes and schools.
pub struct Nearests {
    patterns: Patterns,
}

impl Nearests {
    pub fn new(seed: u64) -> Nearests {
        Nearests {
            patterns: Patterns::new(seed),
        }
    }

    pub fn next(&mut self, shape: Shape) -> Nearest {
        let mut asked = match shape {
            Shape::Town => self.town(),
            Shape::Grid => self.grid(),
            Shape::Circle => self.circle(),
            Shape::Mirror => self.mirror(),
            Shape::Equal => self.equal(),
            Shape::Campus => self.campus(),
            Shape::Steps => self.steps(),
            Shape::Clusters => self.clusters(),
            Shape::Sorted => self.sorted(),
            Shape::Reversed => self.reversed(),
            Shape::Tiny => self.tiny(),
            Shape::Huge => self.huge(),
            Shape::Sized => self.sized(),
            Shape::Any => self.any(),
            Shape::Faulty => self.faulty(),
            Shape::Lengths => self.lengths(),
            Shape::Sizes => self.sizes(),
        };
        asked.lent = self.places(asked.lists[0]);
        asked.rolled = self.places(asked.lists[0]);
        asked.rolls = self.rolls(asked.schools.len());
        asked
    }

    fn below(&mut self, most: usize) -> usize {
        self.patterns.below(most as u64) as usize
    }

    /// The length of the lent list, and of that of rolls: mostly as many places as there are schools, or
    /// some more.
    fn places(&mut self, schools: usize) -> usize {
        let places = match self.below(32) {
            0 => schools.saturating_sub(1),
            1 => self.below(schools + 1),
            2 => LONGEST,
            3..=13 => schools + self.below(8),
            _ => schools,
        };
        places.min(LONGEST)
    }

    /// Few numbers, so that many are equal, or any; of the edges, rising, falling or all the same.
    fn rolls(&mut self, count: usize) -> Vec<u16> {
        let kind = self.below(8);
        let any = self.patterns.bits() as u16;
        let roll = |place: usize| match kind {
            0 => any,
            1 => (place as u16).wrapping_add(any),
            2 => any.wrapping_sub(place as u16),
            3 => self.patterns.choose(&EDGE_ROLLS),
            4 => self.patterns.bits() as u16,
            5 => 20 + self.patterns.below(1500) as u16,
            _ => self.patterns.below(4) as u16,
        };
        (0..count).map(roll).collect()
    }

    /// How many schools.
    fn count(&mut self) -> usize {
        let most = match self.below(64) {
            0 => return self.size(),
            1..=4 => MOST,
            5..=20 => 40,
            _ => 8,
        };
        1 + self.below(most)
    }

    /// One of the sizes, or one more or less.
    fn size(&mut self) -> usize {
        self.patterns.choose(&SIZES) + self.below(3) - 1
    }

    /// Some schools, by their dx and dy from a home.
    fn about(&mut self, home: Pair, mut offset: impl FnMut(&mut Patterns) -> Pair) -> Nearest {
        let count = self.count();
        let mut school = |_| {
            let offset = offset(&mut self.patterns);
            [0, 1].map(|i| home[i] + offset[i])
        };
        let schools = (0..count).map(&mut school).collect();
        asked(home, schools)
    }

    /// On an office's map, or the origin.
    fn home(&mut self) -> Pair {
        match self.below(4) {
            0 => [0.0; 2],
            _ => [5e5 + 2e5 * self.patterns.unit(), 5e6 * self.patterns.unit()],
        }
    }

    /// In metres of some decimals, half of the time.
    fn town(&mut self) -> Nearest {
        let home = self.home();
        let reach = self.patterns.choose(&[500.0, 1e4, 1e4, 1e5]);
        let mut town = self.about(home, |patterns| [(); 2].map(|()| reach * patterns.unit()));
        if self.patterns.coin() {
            let decimals = 10.0_f64.powi(self.below(4) as i32);
            for place in town.schools.iter_mut().chain([&mut town.home]) {
                *place = place.map(|x| (x * decimals).round() / decimals);
            }
        }
        town
    }

    fn grid(&mut self) -> Nearest {
        let home = self.home();
        let step = self.patterns.choose(&[1.0, 0.1, 0.3, 25.0, 1000.0]);
        let most = 1 + self.below(8) as i64;
        let steps = |patterns: &mut Patterns| patterns.below(2 * most as u64 + 1) as i64 - most;
        self.about(home, |patterns| {
            [(); 2].map(|()| step * steps(patterns) as f64)
        })
    }

    fn circle(&mut self) -> Nearest {
        let home = self.home();
        let radius = self.patterns.choose(&[1.0, 5.0, 1e3, 25e3, 1e7]);
        self.about(home, |patterns| {
            let angle = T * patterns.fraction();
            [radius * cos(angle), radius * sin(angle)]
        })
    }

    fn mirror(&mut self) -> Nearest {
        let home = self.home();
        let reach = self.patterns.choose(&[1.0, 1e3, 1e7]);
        let offsets = [(); 3].map(|()| [(); 2].map(|()| reach * self.patterns.unit()));
        self.about(home, |patterns| {
            let [dx, dy] = patterns.choose(&offsets);
            let [x, y] = patterns.choose(&[[dx, dy], [dy, dx]]);
            [x, y].map(|x| patterns.choose(&[x, -x]))
        })
    }

    fn equal(&mut self) -> Nearest {
        let mut asked = match self.patterns.coin() {
            true => self.town(),
            false => self.grid(),
        };
        let few = 1 + self.below(3);
        asked.schools.truncate(few);
        asked
    }

    fn campus(&mut self) -> Nearest {
        let count = match self.patterns.coin() {
            true => self.size().clamp(1, MOST),
            false => self.count(),
        };
        let mut asked = self.equal();
        let schools = (0..count).map(|_| self.patterns.choose(&asked.schools));
        asked.schools = schools.collect();
        asked.lists = [count; 2];
        asked
    }

    fn steps(&mut self) -> Nearest {
        let home = match self.below(4) {
            0 => self.home(),
            _ => [0.0; 2],
        };
        let reach = self.patterns.choose(&[1.0, 1.0, 1e3, 1e6]);
        let [dx, dy] = [(); 2].map(|()| reach * self.patterns.unit());
        let small = self.patterns.choose(&[1.0, 1e-3, 1e-8]);
        self.about(home, |patterns| {
            let near = [patterns.around(dx), patterns.around(small * dy)];
            let [x, y] = near;
            patterns.choose(&[near, near, [x, 0.0], [y, x]])
        })
    }

    fn clusters(&mut self) -> Nearest {
        let home = self.home();
        let far = [(); 2].map(|()| 1e4 * self.patterns.unit());
        self.about(home, |patterns| {
            let [x, y] = patterns.choose(&[[0.0; 2], far]);
            [x + 100.0 * patterns.unit(), y + 100.0 * patterns.unit()]
        })
    }

    /// With two schools in each other's place, half of the time.
    fn sorted(&mut self) -> Nearest {
        let mut asked = match self.below(4) {
            0 => self.grid(),
            _ => self.town(),
        };
        let from_home = |school: &Pair| Meant.sum(asked.home, *school);
        let farther = |one: &Pair, other: &Pair| from_home(one).total_cmp(&from_home(other));
        asked.schools.sort_by(farther);
        if self.patterns.coin() {
            let [one, other] = [(); 2].map(|()| self.below(asked.schools.len()));
            asked.schools.swap(one, other);
        }
        asked
    }

    fn reversed(&mut self) -> Nearest {
        let mut asked = self.sorted();
        asked.schools.reverse();
        asked
    }

    fn tiny(&mut self) -> Nearest {
        let home = match self.patterns.coin() {
            true => [0.0; 2],
            false => [(); 2].map(|()| small(&mut self.patterns)),
        };
        self.about(home, |patterns| [(); 2].map(|()| small(patterns)))
    }

    fn huge(&mut self) -> Nearest {
        let patterns = &mut self.patterns;
        let large = |patterns: &mut Patterns| match patterns.below(4) {
            0 => patterns.choose(&[LARGEST, -LARGEST]),
            _ => LARGEST * patterns.unit(),
        };
        let home = [(); 2].map(|()| large(patterns));
        let mut asked = self.about([0.0; 2], |patterns| [(); 2].map(|()| large(patterns)));
        asked.home = home;
        if self.patterns.coin() {
            let at_limit = self.patterns.near(LARGEST);
            *self.coordinate(&mut asked) = f64::from_bits(at_limit);
        }
        asked
    }

    fn sized(&mut self) -> Nearest {
        let reach = 2.0_f64.powi(self.below(600) as i32 - 573);
        let home = match self.patterns.coin() {
            true => [0.0; 2],
            false => [(); 2].map(|()| reach * self.patterns.unit()),
        };
        self.about(home, |patterns| {
            [(); 2].map(|()| {
                let size = patterns.choose(&[1.0, 0.1, 1e-8]);
                reach * size * patterns.unit()
            })
        })
    }

    /// None that is refused, half of the time.
    fn any(&mut self) -> Nearest {
        let sound = self.patterns.coin();
        let count = self.count();
        let mut coordinate = || loop {
            let x = f64::from_bits(self.patterns.one());
            if !(sound && Meant.refuses_coordinate(x)) {
                return x;
            }
        };
        let home = [(); 2].map(|()| coordinate());
        let school = |_| [(); 2].map(|()| coordinate());
        asked(home, (0..count).map(school).collect())
    }

    /// The home's, or a school's.
    fn coordinate<'a>(&mut self, asked: &'a mut Nearest) -> &'a mut f64 {
        let place = match self.below(3) {
            0 => &mut asked.home,
            _ => {
                let place = self.below(asked.schools.len());
                &mut asked.schools[place]
            }
        };
        &mut place[self.below(2)]
    }

    /// Makes a coordinate one that is refused, or nearly.
    fn spoil(&mut self, asked: &mut Nearest) {
        let patterns = &mut self.patterns;
        let bits = match patterns.below(4) {
            0 | 1 => patterns.choose(&SPECIALS),
            2 => patterns.near(LARGEST),
            _ => patterns.near(1.5 * LARGEST),
        };
        *self.coordinate(asked) = f64::from_bits(bits);
    }

    fn faulty(&mut self) -> Nearest {
        let mut asked = match self.patterns.coin() {
            true => self.town(),
            false => self.grid(),
        };
        for _ in 0..self.patterns.choose(&[1, 1, 1, 2, 3]) {
            self.spoil(&mut asked);
        }
        asked
    }

    fn lengths(&mut self) -> Nearest {
        let mut asked = match self.patterns.coin() {
            true => self.town(),
            false => self.grid(),
        };
        let count = asked.schools.len();
        asked.lists = match self.below(8) {
            0 => [count, count + 1],
            1 => [count + 1, count],
            2 => [count, self.below(6)],
            3 => [self.below(6), count],
            4 => [0; 2],
            5 => [MOST + 1 + self.below(2); 2],
            6 => [MOST + 1 + self.below(LONGEST - MOST); 2],
            _ => [1 + self.below(count); 2],
        };
        if self.below(4) == 0 {
            self.spoil(&mut asked);
        }
        asked
    }

    fn sizes(&mut self) -> Nearest {
        let mut asked = match self.below(6) {
            0 => self.grid(),
            1 => self.circle(),
            2 => self.mirror(),
            3 => self.equal(),
            4 => self.steps(),
            _ => self.town(),
        };
        asked.lists = [self.size(); 2];
        asked
    }
}

/// Each school is in the lists once.
fn asked(home: Pair, schools: Vec<Pair>) -> Nearest {
    Nearest {
        home,
        lists: [schools.len(); 2],
        rolled: 0,
        lent: 0,
        schools,
        rolls: Vec::new(),
    }
}

/// The squares of these vanish, or are among the least f64.
const SMALL: [f64; 7] = [
    1e-150,
    1e-154,
    1e-160,
    1e-161,
    1e-162,
    1e-300,
    f64::MIN_POSITIVE,
];

pub fn small(patterns: &mut Patterns) -> f64 {
    match patterns.below(4) {
        0 => patterns.choose(&[0.0, -0.0]),
        _ => patterns.choose(&SMALL) * 4.0 * patterns.unit(),
    }
}
