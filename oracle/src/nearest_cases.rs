//! Homes and schools of which 02 and its readings say what number and what list they get, each with
//! the wrong readings that it notices.

use crate::nearest::{LARGEST, MOST, NEAREST_INPUT, Nearest};
use crate::ring::Pair;
use crate::roll_cases::roll_cases;

/// A request, and the number of its reading; 0 where 02's own words say it.
#[derive(Clone, Copy, Debug, PartialEq)]
pub enum Reading {
    Q5(usize),
    Q8(usize),
}

pub struct NearestCase {
    pub reading: Reading,
    pub number: u8,
    /// The positions; none where it is refused.
    pub order: Vec<u16>,
    pub asked: Nearest,
    /// The wrong readings that it notices.
    pub why: &'static str,
}

pub fn nearest_cases() -> Vec<NearestCase> {
    let all = [
        least_first,
        coordinates,
        sums_not_roots,
        equal_sums,
        many_equal_sums,
        lent_lists,
        counts,
        differences,
        positions,
    ];
    let by_sums = all.iter().flat_map(|cases| cases());
    by_sums.chain(roll_cases()).collect()
}

/// The reading of Q-5, the home, the schools. The lent list has a place more than there are schools, and
/// each roll is 0.
pub(crate) fn refused(
    reading: usize,
    home: Pair,
    schools: &[Pair],
    why: &'static str,
) -> NearestCase {
    let count = schools.len();
    let asked = Nearest {
        home,
        lists: [count; 2],
        rolled: count,
        lent: count + 1,
        schools: schools.to_vec(),
        rolls: vec![0; count],
    };
    NearestCase {
        reading: Reading::Q5(reading),
        number: NEAREST_INPUT,
        order: Vec::new(),
        asked,
        why,
    }
}

/// The same with the order that it gets.
pub(crate) fn case(
    reading: usize,
    home: Pair,
    schools: &[Pair],
    order: &[u16],
    why: &'static str,
) -> NearestCase {
    NearestCase {
        number: 0,
        order: order.to_vec(),
        ..refused(reading, home, schools, why)
    }
}

/// So many schools, which are these again and again. The groups have equal sums, the least first.
fn again(
    reading: usize,
    schools: &[Pair],
    groups: &[&[usize]],
    count: usize,
    why: &'static str,
) -> NearestCase {
    let of_group = |group: &&[usize]| {
        let places = (0..count).filter(|place| group.contains(&(place % schools.len())));
        places.map(|place| place as u16).collect::<Vec<_>>()
    };
    let order: Vec<u16> = groups.iter().flat_map(of_group).collect();
    case(reading, HOME, schools, &order, why)
        .listed(count, count)
        .lent(count + 1)
}

/// How a case differs from that.
impl NearestCase {
    /// With a roll for each easting.
    pub(crate) fn listed(mut self, eastings: usize, northings: usize) -> NearestCase {
        self.asked.lists = [eastings, northings];
        self.asked.rolled = eastings;
        self
    }

    pub(crate) fn lent(mut self, places: usize) -> NearestCase {
        self.asked.lent = places;
        self
    }

    /// So many rolls.
    pub(crate) fn rolled(mut self, rolls: usize) -> NearestCase {
        self.asked.rolled = rolls;
        self
    }

    /// The rolls of the schools, by a reading of Q-8.
    pub(crate) fn rolls(mut self, rolls: &[u16], reading: usize) -> NearestCase {
        assert_eq!(rolls.len(), self.asked.schools.len());
        self.asked.rolls = rolls.to_vec();
        self.reading = Reading::Q8(reading);
        self
    }
}

pub(crate) const HOME: Pair = [0.0, 0.0];

/// A place on an office's map.
const OFFICE: Pair = [450_000.0, 5_400_000.0];

/// In this order.
const TWO: &[Pair] = &[[1.0, 0.0], [0.0, 2.0]];
const THREE: &[Pair] = &[[2.0, 0.0], [0.0, 3.0], [1.0, 0.0]];

/// What 02 says.
#[rustfmt::skip]
fn least_first() -> Vec<NearestCase> {
    let rising = &[[1.0, 0.0], [0.0, 2.0], [3.0, 0.0], [0.0, 4.0]];
    let falling = &[[0.0, 4.0], [3.0, 0.0], [0.0, 2.0], [1.0, 0.0]];
    vec![
        case(0, HOME, rising, &[0, 1, 2, 3], "the farthest first"),
        case(0, HOME, falling, &[3, 2, 1, 0], "input order kept"),
        case(0, HOME, THREE, &[2, 0, 1], "places of the schools for schools of the places"),
        case(0, HOME, &[[2.0, 2.0], [3.0, 0.0]], &[0, 1], "dx and dy added"),
        case(0, HOME, &[[3.0, 0.0], [2.5, 2.5]], &[0, 1], "dx or dy, the larger"),
        case(0, HOME, &[[1.0, 5.0], [2.0, 0.0]], &[1, 0], "dx alone"),
        case(0, HOME, &[[5.0, 1.0], [0.0, 2.0]], &[1, 0], "dy alone"),
        case(0, [10.0, 10.0], &[[10.0, 9.0], [1.0, 1.0]], &[0, 1], "the home left out"),
        case(0, [0.0, 10.0], &[[0.0, 9.0], [9.0, 0.0]], &[0, 1], "the home turned about"),
        case(0, [-3.0, -4.0], &[[3.0, 4.0], [-4.0, -3.0], [0.0, 0.0]], &[1, 2, 0], "signs dropped"),
    ]
}

/// Every coordinate is looked at, the home's too.
fn coordinates() -> Vec<NearestCase> {
    let beyond = LARGEST.next_up();
    let mut list = Vec::new();
    for (x, of_home, of_school) in [
        (f64::NAN, "home unchecked", "NaN passed"),
        (f64::INFINITY, "home unchecked", "infinities passed"),
        (f64::NEG_INFINITY, "home unchecked", "-infinity passed"),
        (beyond, "home unchecked", "a step above 1e8 passed"),
        (-beyond, "home unchecked", "the size not tested"),
    ] {
        list.extend([
            refused(1, [x, 0.0], TWO, of_home),
            refused(1, [0.0, x], TWO, of_home),
            refused(1, HOME, &[[x, 0.0], [0.0, 2.0]], of_school),
            refused(1, HOME, &[[1.0, 0.0], [0.0, x]], of_school),
        ]);
    }
    list.extend(limits());
    list
}

#[rustfmt::skip]
fn limits() -> Vec<NearestCase> {
    let (most, beyond) = (LARGEST, LARGEST.next_up());
    let all = &[[most, 0.0], [0.0, -most], [-most, 0.0], [0.0, most]];
    let corners = &[[-most, most], [most, most], [most, -most]];
    let [quiet, signalling] = [0xffff_ffff_ffff_ffff, 0x7ff0_0000_0000_0001].map(f64::from_bits);
    vec![
        case(1, HOME, all, &[0, 1, 2, 3], "1e8 refused"),
        case(1, [most, -most], corners, &[2, 1, 0], "1e8 refused, or the difference compared with it"),
        case(1, [-most, most], corners, &[0, 1, 2], "1e8 refused, or the difference compared with it"),
        case(1, HOME, &[[most, most], [most, 0.0]], &[1, 0], "the distance compared with 1e8"),
        case(1, HOME, &[[most, 0.0], [most.next_down(), 0.0]], &[1, 0], "the sum in f32, or in millimetres"),
        refused(1, [beyond, 0.0], &[[beyond, 0.0]], "the difference compared with 1e8"),
        refused(1, [f64::INFINITY, 0.0], &[[f64::INFINITY, 0.0]], "infinities passed"),
        refused(1, HOME, &[[1.0, quiet], [1.0, 0.0]], "NaN passed"),
        refused(1, HOME, &[[1.0, 0.0], [signalling, 0.0]], "NaN passed"),
        refused(1, HOME, &[[f64::MAX, 0.0], [1.0, 0.0]], "no limit"),
        refused(1, HOME, &[[1.0, 0.0], [2.0, 0.0], [f64::NAN, 0.0], [3.0, 0.0]], "the middle not looked at"),
        refused(1, OFFICE, &[[1.0, 0.0], [2.0, 0.0], [0.0, -beyond], [3.0, 0.0]], "the middle not looked at"),
    ]
}

/// Sums that differ though their roots do not.
#[rustfmt::skip]
fn sums_not_roots() -> Vec<NearestCase> {
    let root = "sorted by the root";
    let [east, north] = OFFICE;
    let far = east + 5000.0;
    vec![
        case(2, HOME, &[[1.0, 2.0_f64.powi(-26)], [1.0, 0.0]], &[1, 0], root),
        case(2, HOME, &[[0.8, 0.9], [0.1, 1.2]], &[1, 0], root),
        case(2, HOME, &[[5000.0, 6e-5], [5000.0, 0.0]], &[1, 0], root),
        case(2, OFFICE, &[[far, north + 6e-5], [far, north]], &[1, 0], root),
        case(2, HOME, &[[0.6, 1.3], [0.3, 1.4]], &[1, 0], "sorted by the hypotenuse"),
        case(2, HOME, &[[1.0, 1.1], [0.5, 1.4]], &[0, 1], "sorted by the hypotenuse"),
    ]
}

/// Equal f64 sums are equal, whatever the exact distances are.
#[rustfmt::skip]
fn equal_sums() -> Vec<NearestCase> {
    let exact = "by exact sums";
    let hypotenuse = "sorted by the hypotenuse";
    let fused = "a fused sum";
    let turned = "equal sums turned about";
    let zeros = &[[0.0, -0.0], [-0.0, 0.0], [0.0, 0.0], [-0.0, -0.0]];
    let fives = &[[3.0, 4.0], [5.0, 0.0], [-4.0, 3.0], [0.0, -5.0], [4.0, -3.0]];
    let mixed = &[[2.0, 0.0], [1.0, 0.0], [2.0, 0.0], [0.0, 1.0], [0.0, 2.0], [0.0, 0.0]];
    let swapped = &[[2.0, 0.0], [0.0, 2.0], [1.0, 0.0]];
    let least = f64::from_bits(1);
    vec![
        case(3, HOME, &[[1.0, 1e-9], [1.0, 0.0]], &[0, 1], exact),
        case(3, HOME, &[[1.0, 0.0], [1.0, 1e-9]], &[0, 1], turned),
        case(3, HOME, &[[1e-200, 0.0], [0.0, 0.0]], &[0, 1], hypotenuse),
        case(3, HOME, &[[0.0, 0.0], [1e-200, 0.0]], &[0, 1], turned),
        case(3, HOME, &[[0.3, 0.4], [0.0, 0.5]], &[0, 1], exact),
        case(3, HOME, &[[3.9, 0.2], [0.9, 3.8]], &[0, 1], exact),
        case(3, HOME, &[[0.5, 0.2], [0.2, 0.5]], &[0, 1], fused),
        case(3, HOME, &[[0.4, 0.1], [0.1, 0.4]], &[0, 1], fused),
        case(3, HOME, &[[3.9, 0.2], [3.8, 0.9]], &[0, 1], fused),
        case(3, HOME, &[[1.5e-162, 0.0], [0.0, 0.0]], &[0, 1], hypotenuse),
        case(3, HOME, &[[1.6e-162, 0.0], [0.0, 0.0]], &[1, 0], "a subnormal result taken for 0"),
        case(3, HOME, &[[0.0, 1e-160], [-1e-161, 0.0]], &[1, 0], "a subnormal result taken for 0"),
        case(3, HOME, &[[least, 0.0], [0.0, -least], [0.0, 0.0]], &[0, 1, 2], hypotenuse),
        case(3, [-0.0, 0.0], zeros, &[0, 1, 2, 3], "equal sums by easting, -0 first"),
        case(3, HOME, fives, &[0, 1, 2, 3, 4], turned),
        case(3, HOME, mixed, &[5, 1, 3, 0, 2, 4], turned),
        case(3, HOME, swapped, &[2, 0, 1], "equal sums by a selection that swaps"),
        case(3, HOME, &[[1.0, 1.0]; 3], &[0, 1, 2], "a school that comes again left out"),
    ]
}

/// The same of lists that are long.
#[rustfmt::skip]
fn many_equal_sums() -> Vec<NearestCase> {
    let why = "equal sums turned about in a long list";
    let two = &[[2.0, 0.0], [1.0, 0.0]];
    let three = &[[0.0, 2.0], [1.0, 0.0], [0.0, -1.0]];
    let five = &[[3.0, 4.0], [1.0, 0.0], [-5.0, 0.0], [0.0, 0.0], [0.0, 1.0]];
    let fives: &[&[usize]] = &[&[3], &[1, 4], &[0, 2]];
    vec![
        again(3, three, &[&[1, 2], &[0]], 16, why),
        again(3, two, &[&[1], &[0]], 33, why),
        again(3, five, fives, 64, why),
        again(3, three, &[&[1, 2], &[0]], 100, why),
        again(3, five, fives, 129, why),
        again(3, five, fives, 255, why),
        again(3, &[[1.0, 0.0]], &[&[0]], MOST, why),
        again(3, five, fives, MOST, why),
    ]
}

/// The lent list has a place for each school, or more.
#[rustfmt::skip]
fn lent_lists() -> Vec<NearestCase> {
    let (enough, later) = ("more places asked for than schools", "later places touched");
    let (short, equal) = ("a short list filled", "a longer list refused");
    let three = |why| case(4, HOME, THREE, &[2, 0, 1], why);
    let too_short = |why| refused(4, HOME, THREE, why);
    let most = |why| again(4, TWO, &[&[0], &[1]], MOST, why);
    vec![
        three(enough).lent(3),
        three(later).lent(4),
        three(equal).lent(MOST),
        three(later).lent(300),
        too_short(short).lent(2),
        too_short(short).lent(1),
        too_short("an empty list passed").lent(0),
        case(4, HOME, &[[7.0, 7.0]], &[0], enough).lent(1),
        refused(4, HOME, &[[7.0, 7.0]], "an empty list passed").lent(0),
        most(enough).lent(MOST),
        most(later).lent(MOST + 1),
        refused(4, HOME, TWO, short).listed(MOST, MOST).lent(MOST - 1),
    ]
}

/// How many schools there may be, and that nothing is written before all is looked at.
#[rustfmt::skip]
fn counts() -> Vec<NearestCase> {
    let written = "a refusal has written the list";
    let shorter = "the shorter list taken";
    let none = "answered at once where there are none";
    let nan = f64::NAN;
    let of = |eastings, northings, why| refused(5, HOME, THREE, why).listed(eastings, northings).lent(300);
    vec![
        of(0, 0, "no schools answered"),
        of(0, 0, "no schools answered").lent(0),
        case(5, HOME, &[[-4.0, 4.0]], &[0], "a school refused").lent(3),
        again(5, TWO, &[&[0], &[1]], MOST, "256 schools refused"),
        of(MOST + 1, MOST + 1, "257 schools passed"),
        of(MOST + 1, MOST + 1, "the first 256 taken").lent(MOST),
        of(300, 300, "300 schools passed"),
        of(2, 3, shorter),
        of(3, 2, shorter),
        of(0, 3, none),
        of(3, 0, none),
        of(MOST, MOST + 1, shorter),
        of(MOST + 1, MOST, shorter),
        refused(5, [nan, 0.0], THREE, none).listed(0, 0),
        refused(5, [nan; 2], &[[nan; 2]], written).listed(MOST + 1, MOST).lent(2),
        refused(5, HOME, &[[2.0, 0.0], [1.0, 0.0], [nan, 0.0]], written),
        refused(5, HOME, &[[2.0, 0.0], [1.0, 0.0], [0.0, f64::INFINITY]], written).lent(3),
        refused(5, [0.0, -1.1e8], &[[2.0, 0.0], [1.0, 0.0]], written),
        case(5, HOME, &[[2.0, 0.0], [1.0, 0.0], [nan; 2]], &[1, 0], "a school behind the lists looked at").listed(2, 2),
    ]
}

/// Each difference rounds.
#[rustfmt::skip]
fn differences() -> Vec<NearestCase> {
    let exact = "by exact differences";
    let (most, [east, north]) = (LARGEST, OFFICE);
    let near = &[[east, north + 0.2], [east + 0.1, north]];
    vec![
        case(6, [1.0, 0.0], &[[0.0, 0.0], [1e-17, 0.0]], &[0, 1], exact),
        case(6, [0.0, most], &[[1.0, 1e-9], [-1.0, 2e-9]], &[0, 1], exact),
        case(6, [0.1, 0.0], &[[-0.1, 0.0], [0.3, 0.0]], &[1, 0], "in millimetres"),
        case(6, [0.3, 0.1], &[[0.4, 0.1], [0.2, 0.1]], &[1, 0], "in millimetres"),
        case(6, [most; 2], &[[most - 1.0, most], [most, most - 0.5]], &[1, 0], "the squares multiplied out"),
        case(6, OFFICE, near, &[1, 0], "coordinates in f32"),
        case(6, OFFICE, &[[east + 1.0, north], [east - 1.0, north]], &[0, 1], "equal sums by the sign of dx"),
    ]
}

/// They are counted from 0 to 255.
#[rustfmt::skip]
fn positions() -> Vec<NearestCase> {
    let falling: Vec<Pair> = (0..8).map(|place| [f64::from(8 - place), 0.0]).collect();
    let groups: [&[usize]; 8] = [&[7], &[6], &[5], &[4], &[3], &[2], &[1], &[0]];
    vec![
        case(7, HOME, &[[1.0, 2.0]], &[0], "counted from 1"),
        again(7, &falling, &groups, 8, "counted from 1"),
        again(7, &falling, &groups, 129, "a position above 127 lost"),
        again(7, &falling, &groups, MOST, "a position above 127 lost"),
    ]
}
