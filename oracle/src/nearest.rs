//! Document 02's nearest schools for a home, with rolls, from its words alone. Each step is a method of
//! `Rule`, so that a test can put a wrong reading in its place.

use crate::line::pattern;
use crate::ring::Pair;
use crate::stored::question;

/// How many schools there may be.
pub const MOST: usize = 256;

/// How large a coordinate may be.
pub const LARGEST: f64 = 1e8;

/// 02's number for all that is refused.
pub const NEAREST_INPUT: u8 = 29;

/// A home, schools, and how long the lists are.
#[derive(Clone, Debug)]
pub struct Nearest {
    pub home: Pair,
    /// How long the lists of eastings and northings are.
    pub lists: [usize; 2],
    /// How long the list of rolls is.
    pub rolled: usize,
    /// How long the lent list is.
    pub lent: usize,
    /// At least one. Where a list is longer, it has them again from the first.
    pub schools: Vec<Pair>,
    /// One for each of these schools, and again from the first likewise.
    pub rolls: Vec<u16>,
}

/// The name of such a question.
const NAME: &str = "nearest";

impl Nearest {
    /// The name, the home, the lengths of the lists, those of the rolls and the lent list, the schools, and
    /// their rolls.
    pub fn text(&self) -> String {
        let Nearest { home, lists, .. } = self;
        let bits = |x: &f64| x.to_bits();
        let lengths = lists.iter().chain([&self.rolled, &self.lent]);
        let lengths = lengths.map(|&length| length as u64);
        let schools = self.schools.as_flattened().iter().map(bits);
        let rolls = self.rolls.iter().map(|&roll| u64::from(roll));
        let fields: Vec<u64> = home
            .iter()
            .map(bits)
            .chain(lengths)
            .chain(schools)
            .chain(rolls)
            .collect();
        question(NAME, &fields)
    }

    /// The question of such a text; none where it has another form.
    pub fn read(text: &str) -> Option<Nearest> {
        let (name, rest) = text.split_once(',')?;
        let read = |field: &str| pattern(field.as_bytes());
        let fields: Option<Vec<u64>> = rest.split(',').map(read).collect();
        let fields = fields?;
        let (home, rest) = fields.split_first_chunk::<2>()?;
        let (lengths, rest) = rest.split_first_chunk::<4>()?;
        let [eastings, northings, rolled, lent] = lengths.map(|length| length as usize);
        let (schools, rolls) = rest.split_at(rest.len() / 3 * 2);
        let rolls: Option<Vec<u16>> = rolls.iter().map(|&roll| roll.try_into().ok()).collect();
        let rolls = rolls?;
        let (schools, _) = schools.as_chunks::<2>();
        let known = name == NAME && rolls.len() == schools.len() && !schools.is_empty();
        let pair = |bits: &[u64; 2]| bits.map(f64::from_bits);
        known.then_some(Nearest {
            home: pair(home),
            lists: [eastings, northings],
            rolled,
            lent,
            schools: schools.iter().map(pair).collect(),
            rolls,
        })
    }

    /// The school at a place of the lists.
    pub fn school(&self, place: usize) -> Pair {
        self.schools[place % self.schools.len()]
    }

    /// The two lists.
    pub fn eastings_and_northings(&self) -> [Vec<f64>; 2] {
        [0, 1].map(|i| {
            let schools = (0..self.lists[i]).map(|place| self.school(place));
            schools.map(|school| school[i]).collect()
        })
    }

    /// The roll at a place of its list.
    pub fn roll(&self, place: usize) -> u16 {
        self.rolls[place % self.rolls.len()]
    }

    /// The list of rolls.
    pub fn rolls(&self) -> Vec<u16> {
        (0..self.rolled).map(|place| self.roll(place)).collect()
    }

    /// The lent list before the call.
    pub fn lent(&self) -> Vec<u16> {
        lent(self.lent)
    }
}

/// A lent list before the call: its places count down from the largest number, so that none of them
/// holds a school's position.
pub fn lent(length: usize) -> Vec<u16> {
    (0..=u16::MAX).rev().take(length).collect()
}

/// A number, 0 if answered, and what the lent list holds after the call.
#[derive(Clone, Debug, PartialEq)]
pub struct NearestAnswer {
    pub number: u8,
    pub list: Vec<u16>,
}

impl NearestAnswer {
    /// The list in one number.
    fn print(&self) -> u64 {
        let places = self.list.iter();
        places.fold(0_u64, |print, &place| {
            print.rotate_left(9) ^ u64::from(place)
        })
    }

    pub fn text(&self) -> String {
        format!("{},{:016x}", self.number, self.print())
    }
}

/// What 02 says, step by step.
pub trait Rule {
    /// 29 "means no schools, more than 256".
    fn refuses_count(&self, schools: usize) -> bool {
        schools == 0 || schools > MOST
    }

    /// "coordinate lists of unequal length"
    fn refuses_lists(&self, [eastings, northings]: [usize; 2]) -> bool {
        eastings != northings
    }

    /// "a list too short for them"
    fn refuses_lent(&self, lent: usize, schools: usize) -> bool {
        lent < schools
    }

    /// "fewer rolls than schools is refused by number 29 too"
    fn refuses_rolls(&self, rolls: usize, schools: usize) -> bool {
        rolls < schools
    }

    /// "or a coordinate not finite or above 1e8 in size"
    fn refuses_coordinate(&self, x: f64) -> bool {
        !x.is_finite() || x.abs() > LARGEST
    }

    /// The home's coordinates, and the schools'.
    fn coordinates(&self, asked: &Nearest) -> Vec<f64> {
        let [eastings, northings] = asked.eastings_and_northings();
        [&asked.home, eastings.as_slice(), &northings].concat()
    }

    fn refuses(&self, asked: &Nearest) -> bool {
        let schools = asked.lists[0];
        let coordinates = self.coordinates(asked);
        self.refuses_count(schools)
            || self.refuses_lists(asked.lists)
            || self.refuses_lent(asked.lent, schools)
            || self.refuses_rolls(asked.rolled, schools)
            || coordinates.into_iter().any(|x| self.refuses_coordinate(x))
    }

    /// "planar distance from a home": "dx×dx + dy×dy"
    fn sum(&self, home: Pair, school: Pair) -> f64 {
        let [dx, dy] = [0, 1].map(|i| school[i] - home[i]);
        dx * dx + dy * dy
    }

    /// The sums of the schools, in input order.
    fn sums(&self, asked: &Nearest) -> Vec<f64> {
        let schools = (0..asked.lists[0]).map(|place| asked.school(place));
        schools.map(|school| self.sum(asked.home, school)).collect()
    }

    /// "their positions in the input, counted from 0, least" sum "first"; "schools with equal sums now go
    /// by fewer pupils on roll first, and only then in input order": the sort is stable. No sum is NaN or
    /// -0, so this is the order of the numbers.
    fn positions(&self, sums: &[f64], rolls: &[u16]) -> Vec<usize> {
        let mut positions: Vec<usize> = (0..sums.len()).collect();
        positions.sort_by(|&one, &other| {
            let by_sum = sums[one].total_cmp(&sums[other]);
            by_sum.then(rolls[one].cmp(&rolls[other]))
        });
        positions
    }

    /// What the list is filled with.
    fn order(&self, asked: &Nearest) -> Vec<usize> {
        self.positions(&self.sums(asked), &asked.rolls())
    }

    /// "fill a lent list with" them, and "later places of the list are untouched".
    fn fill(&self, order: &[usize], list: &mut [u16]) {
        for (place, &position) in list.iter_mut().zip(order) {
            *place = position as u16;
        }
    }

    /// 29 is "checked first", and "the list is then unchanged".
    fn answer(&self, asked: &Nearest) -> NearestAnswer {
        let mut list = asked.lent();
        if self.refuses(asked) {
            let number = NEAREST_INPUT;
            return NearestAnswer { number, list };
        }
        self.fill(&self.order(asked), &mut list);
        NearestAnswer { number: 0, list }
    }
}

/// 02 as it is meant.
pub struct Meant;

impl Rule for Meant {}
