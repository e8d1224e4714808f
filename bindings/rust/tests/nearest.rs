//! The nearest schools: inputs on which two readings of the rule would differ; any town, place for
//! place, by the rule written a second time; which rolls are read and which places of the list are
//! written; and what is refused.

mod common;

use common::{NANS, Random, next_down, next_up};
use lenthuc::{NEAREST_SCHOOLS, Refusal, nearest, nearest_into};
use std::f64::consts::PI;

type Place = (f64, f64);

/// A home at the origin: a school's coordinates are its differences, exactly.
const HOME: Place = (0.0, 0.0);

/// The largest coordinate in size.
const LIMIT: f64 = 1e8;

const REFUSED: Result<Vec<u16>, Refusal> = Err(Refusal::NearestInput);

/// What a list holds before: numbers that are no positions, so that any place that is written is
/// noticed.
fn unwritten(places: usize) -> Vec<u16> {
    (0..places).map(|place| u16::MAX - place as u16).collect()
}

/// The order with a list of so many places. Of a refusal the list is as it was; else the places after
/// the schools are.
fn listed(
    home: Place,
    [eastings, northings]: [&[f64]; 2],
    rolls: &[u16],
    places: usize,
) -> Result<Vec<u16>, Refusal> {
    let mut order = unwritten(places);
    let answer = nearest_into(home, eastings, northings, rolls, &mut order);
    let schools = answer.map_or(0, |()| eastings.len());
    assert_eq!(order[schools..], unwritten(places)[schools..]);
    order.truncate(schools);
    answer.map(|()| order)
}

/// The order by rolls, which is the same with lists that are just long enough, with longer ones, and by
/// `nearest`.
fn rolled(home: Place, schools: &[Place], rolls: &[u16]) -> Result<Vec<u16>, Refusal> {
    let (eastings, northings): (Vec<_>, Vec<_>) = schools.iter().copied().unzip();
    let answer = nearest(home, schools, rolls);
    let mut rolls = rolls.to_vec();
    for more in [0, 1, 300] {
        let places = schools.len() + more;
        // what is more than the schools is less than any of theirs, or greater
        rolls.resize(places, if more == 1 { 0 } else { u16::MAX });
        let lists = [&eastings, &northings].map(|list| list.as_slice());
        assert_eq!(listed(home, lists, &rolls, places), answer);
    }
    answer
}

/// The order without rolls: any one number is none.
fn order(home: Place, schools: &[Place]) -> Result<Vec<u16>, Refusal> {
    let [answer, other] = [0, 400].map(|roll| rolled(home, schools, &vec![roll; schools.len()]));
    assert_eq!(answer, other);
    answer
}

/// What is compared, of a school's differences.
type Formula = fn(f64, f64) -> f64;

/// The rule's formula.
fn sum(dx: f64, dy: f64) -> f64 {
    dx * dx + dy * dy
}

/// The rule, written a second time, for any formula: a plain stable sort, by rolls and then by what is
/// compared.
fn sorted_by(formula: Formula, home: Place, schools: &[Place], rolls: &[u16]) -> Vec<u16> {
    let of = |&(easting, northing): &Place| formula(easting - home.0, northing - home.1);
    let far: Vec<_> = schools.iter().map(of).collect();
    let mut order: Vec<_> = (0..schools.len() as u16).collect();
    order.sort_by_key(|&i| rolls[usize::from(i)]);
    order.sort_by(|&i, &j| far[usize::from(i)].total_cmp(&far[usize::from(j)]));
    order
}

/// How many schools have the same sum as the one before them in the order.
fn ties(home: Place, schools: &[Place], order: &[u16]) -> usize {
    let of = |i: u16| {
        let (easting, northing) = schools[usize::from(i)];
        sum(easting - home.0, northing - home.1)
    };
    order
        .windows(2)
        .filter(|pair| of(pair[0]) == of(pair[1]))
        .count()
}

/// Distances of 1,300, 500, 1,000, 500 and 2,500 by whole numbers.
#[test]
fn of_a_home() {
    let home = (700.0, -300.0);
    let schools = [
        (1200.0, 900.0),
        (1000.0, 100.0),
        (-300.0, -300.0),
        (700.0, -800.0),
        (0.0, 2100.0),
    ];
    assert_eq!(order(home, &schools), Ok(vec![1, 3, 2, 0, 4]));
    assert_eq!(order(home, &schools[4..]), Ok(vec![0]));
    assert_eq!(order(home, &[home]), Ok(vec![0]));
}

/// The sums are compared, and not their roots: these sums differ and their roots are equal.
#[test]
fn by_the_sum() {
    let schools = [(1.0, 2.0_f64.powi(-26)), (1.0, 0.0)];
    let [far, near] = schools.map(|(dx, dy)| sum(dx, dy));
    assert!(near < far && near.sqrt() == far.sqrt());
    assert_eq!(order(HOME, &schools), Ok(vec![1, 0]));
    assert_eq!(order(HOME, &[schools[1], schools[0]]), Ok(vec![0, 1]));
}

/// Sums are compared as they round: schools at other distances may have equal ones.
#[test]
fn of_equal_sums() {
    for (home, near, far) in [
        // 1 and 1e-18 is 1
        (HOME, (1.0, 0.0), (1.0, 1e-9)),
        // the square vanishes
        (HOME, (0.0, 0.0), (1e-200, 0.0)),
        // the difference rounds, to 1e8 and to 1
        ((1e8, 0.0), (1e-9, 0.0), (0.0, 0.0)),
        ((0.0, 1.0), (0.0, 1e-17), (0.0, -1e-17)),
        // zeros are one number
        ((0.0, -0.0), (-0.0, 0.0), (0.0, -0.0)),
        // whole numbers
        (HOME, (3.0, 4.0), (-5.0, 0.0)),
    ] {
        assert_eq!(order(home, &[near, far]), Ok(vec![0, 1]));
        assert_eq!(order(home, &[far, near]), Ok(vec![0, 1]));
    }
}

/// Every list of six schools at four distances: before a school stand those that are nearer, and those
/// that are equally far and were given before it.
#[test]
fn of_every_short_list() {
    for code in 0..4_usize.pow(6) {
        let far = [0, 1, 2, 3, 4, 5].map(|place| code / 4_usize.pow(place) % 4);
        let mut expected = vec![0; 6];
        for (i, own) in far.into_iter().enumerate() {
            let nearer = far.iter().filter(|&&other| other < own).count();
            let before = far[..i].iter().filter(|&&other| other == own).count();
            expected[nearer + before] = i as u16;
        }
        let schools = far.map(|distance| (0.0, distance as f64));
        assert_eq!(order(HOME, &schools), Ok(expected), "{far:?}");
    }
}

/// Fewer pupils come first, of equal sums alone, and only then the first given. 0 and 65,535 are rolls
/// like others.
#[test]
fn by_rolls() {
    let around = [(5.0, 0.0), (0.0, -5.0), (-3.0, 4.0), (4.0, 3.0)];
    for (rolls, expected) in [
        ([300, 900, 120, 450], [2, 0, 3, 1]),
        ([8, 7, 8, 7], [1, 3, 0, 2]),
        ([65_535, 0, 65_534, 1], [1, 3, 2, 0]),
        ([32_768, 32_767, 256, 255], [3, 2, 1, 0]),
        ([9, 9, 9, 8], [3, 0, 1, 2]),
    ] {
        assert_eq!(rolled(HOME, &around, &rolls), Ok(expected.to_vec()));
    }
    // the sums differ in their last bit, and their roots are equal
    let near = [(1.0, 2.0_f64.powi(-26)), (1.0, 0.0)];
    // the sums are equal by rounding alone
    let equal = [(1.0, 1e-9), (1.0, 0.0)];
    for (rolls, by_roll) in [([0, 65_535], [0, 1]), ([65_535, 0], [1, 0])] {
        assert_eq!(rolled(HOME, &near, &rolls), Ok(vec![1, 0]));
        assert_eq!(rolled(HOME, &equal, &rolls), Ok(by_roll.to_vec()));
    }
}

/// Every list of four schools at three distances with three rolls: before a school stand those that are
/// nearer, those that are equally far with fewer pupils, and those that are alike and were given before it.
#[test]
fn of_every_short_list_with_rolls() {
    for code in 0..9_usize.pow(4) {
        let kinds = [0, 1, 2, 3].map(|place| code / 9_usize.pow(place) % 9);
        let mut expected = vec![0; 4];
        for (i, own) in kinds.into_iter().enumerate() {
            // a kind is three times the distance, and a roll
            let less = kinds.iter().filter(|&&other| other < own).count();
            let before = kinds[..i].iter().filter(|&&other| other == own).count();
            expected[less + before] = i as u16;
        }
        let schools = kinds.map(|kind| ((kind / 3) as f64, 0.0));
        let rolls = kinds.map(|kind| [0, 500, 65_535][kind % 3]);
        assert_eq!(rolled(HOME, &schools, &rolls), Ok(expected), "{kinds:?}");
    }
}

/// As many as there may be, at one place: rising rolls, falling ones, and two in turn.
#[test]
fn of_every_length_at_one_place() {
    for count in 1..=NEAREST_SCHOOLS {
        let schools = vec![(3.0, 4.0); count];
        let of = |roll: &dyn Fn(usize) -> usize| {
            let rolls: Vec<_> = (0..count).map(|i| roll(i) as u16).collect();
            rolled(HOME, &schools, &rolls)
        };
        let positions = 0..count as u16;
        assert_eq!(of(&|i| i), Ok(positions.clone().collect()));
        assert_eq!(of(&|i| 60_000 - i), Ok(positions.clone().rev().collect()));
        let evens = positions.clone().step_by(2);
        let odds = positions.skip(1).step_by(2);
        assert_eq!(of(&|i| 1 - i % 2), Ok(odds.chain(evens).collect()));
    }
}

/// As many as there may be: in order, the other way round, all at one distance, and at two in turn.
#[test]
fn of_every_length() {
    for count in 1..=NEAREST_SCHOOLS {
        let of = |distance: &dyn Fn(usize) -> usize| {
            let school = |i| (0.0, distance(i) as f64);
            order(HOME, &(0..count).map(school).collect::<Vec<_>>())
        };
        let positions = 0..count as u16;
        assert_eq!(of(&|i| i), Ok(positions.clone().collect()));
        assert_eq!(of(&|i| count - i), Ok(positions.clone().rev().collect()));
        assert_eq!(of(&|_| 7), Ok(positions.clone().collect()));
        let evens = positions.clone().step_by(2);
        let odds = positions.skip(1).step_by(2);
        assert_eq!(of(&|i| i % 2), Ok(evens.chain(odds).collect()));
    }
}

/// Makes a school of a town.
type Draw = fn(&mut Random, Place) -> Place;

/// Towns, by how a school is drawn about the home, and whether some of their schools are equally far.
const TOWNS: [(&str, bool, Draw); 8] = [
    ("a town", false, |random, home| {
        (home.0 + random.within(2e4), home.1 + random.within(2e4))
    }),
    ("streets", true, |random, _| {
        let block = |bits: u64| 100.0 * (bits % 9) as f64;
        (block(random.bits()), block(random.bits()))
    }),
    ("a circle", true, |random, home| {
        let angle = random.within(PI);
        (home.0 + 2500.0 * angle.cos(), home.1 + 2500.0 * angle.sin())
    }),
    ("two villages", false, |random, _| {
        let village = (random.bits() % 2) as f64 * 5e4;
        (village + random.within(300.0), random.within(300.0))
    }),
    ("one house", true, |_, home| (home.0 + 0.1, home.1 - 0.7)),
    ("a dot", true, |random, _| {
        (random.within(1e-161), random.within(1e-161))
    }),
    ("the world", false, |random, _| {
        (random.within(LIMIT), random.within(LIMIT))
    }),
    ("any numbers", true, |random, _| (any(random), any(random))),
];

/// Any pattern that a coordinate may have.
fn any(random: &mut Random) -> f64 {
    loop {
        let x = f64::from_bits(random.bits());
        if x.abs() <= LIMIT {
            return x;
        }
    }
}

/// Towns of every size, twice each, with the home in the midst of them or anywhere.
#[test]
fn are_the_rule() {
    let mut random = Random(41);
    for (name, has_ties, draw) in TOWNS {
        let (mut tied, mut moved) = (0, 0);
        for count in (1..=NEAREST_SCHOOLS).flat_map(|count| [count; 2]) {
            let home = match random.bits() % 4 {
                0 => (random.within(LIMIT / 2.0), random.within(LIMIT / 2.0)),
                1 => (random.within(900.0).round(), random.within(900.0).round()),
                2 => (any(&mut random) / 2.0, any(&mut random) / 2.0),
                _ => HOME,
            };
            let schools: Vec<_> = (0..count).map(|_| draw(&mut random, home)).collect();
            // any numbers, few, or one
            let numbers = [65_536, 3, 1][(random.bits() % 3) as usize];
            let roll = |_| (random.bits() % numbers) as u16;
            let rolls: Vec<_> = (0..count).map(roll).collect();
            let found = rolled(home, &schools, &rolls).expect("an order");
            let expected = sorted_by(sum, home, &schools, &rolls);
            assert_eq!(found, expected, "{name} {home:?} {schools:?} {rolls:?}");
            let without = order(home, &schools).expect("an order");
            assert_eq!(without, sorted_by(sum, home, &schools, &vec![0; count]));
            moved += usize::from(found != without);
            let equal = ties(home, &schools, &found);
            assert_eq!(equal, ties(home, &schools, &without));
            assert!(equal > 0 || found == without, "{name} {home:?} {schools:?}");
            tied += equal;
        }
        assert!(tied > 1000 || !has_ties, "{name} {tied}");
        assert!(moved > 100 || !has_ties, "{name} {moved}");
    }
}

/// Pairs that are nearly equally far, which other formulas put in another order.
#[test]
fn by_no_other_formula() {
    let formulas: [(&str, Formula); 5] = [
        ("the root", |dx, dy| sum(dx, dy).sqrt()),
        ("hypot", f64::hypot),
        ("the first square fused", |dx, dy| dx.mul_add(dx, dy * dy)),
        ("the second square fused", |dx, dy| dy.mul_add(dy, dx * dx)),
        ("half as many bits", |dx, dy| sum(dx, dy) as f32 as f64),
    ];
    let mut random = Random(42);
    for (name, formula) in formulas {
        let mut others = 0;
        for _ in 0..2000 {
            let schools = [(); 2].map(|()| {
                let angle = random.within(PI);
                (2500.0 * angle.cos(), 2500.0 * angle.sin())
            });
            let rolls = [random.bits() as u16 % 2, random.bits() as u16 % 2];
            let expected = sorted_by(sum, HOME, &schools, &rolls);
            others += usize::from(sorted_by(formula, HOME, &schools, &rolls) != expected);
            assert_eq!(rolled(HOME, &schools, &rolls), Ok(expected), "{schools:?}");
        }
        assert!(others > 100, "{name} {others}");
    }
}

/// Every number that is no coordinate, the home's or a school's, at every place of the longest lists;
/// and 1e8, which is one.
#[test]
fn of_bad_coordinates() {
    let far = next_up(LIMIT);
    let bad = [far, -far, 2e8, f64::MAX, f64::MIN]
        .into_iter()
        .chain([f64::INFINITY, f64::NEG_INFINITY])
        .chain(NANS.map(f64::from_bits));
    let good = [LIMIT, -LIMIT, next_down(LIMIT), -next_down(LIMIT)];
    let cases = bad.map(|x| (x, false)).chain(good.map(|x| (x, true)));
    let schools: Vec<_> = (0..NEAREST_SCHOOLS).map(|i| (i as f64, 1.0)).collect();
    let judge = |home: Place, schools: &[Place], is_good: bool| {
        let expected = match is_good {
            true => Ok(sorted_by(sum, home, schools, &[0; NEAREST_SCHOOLS])),
            false => REFUSED,
        };
        assert_eq!(order(home, schools), expected, "{home:?}");
    };
    for (x, is_good) in cases {
        for count in [1, NEAREST_SCHOOLS] {
            judge((x, 0.0), &schools[..count], is_good);
            judge((0.0, x), &schools[..count], is_good);
            judge((x, x), &schools[..count], is_good);
        }
        for place in 0..NEAREST_SCHOOLS {
            let mut other = schools.clone();
            other[place].0 = x;
            judge(HOME, &other, is_good);
            other[place] = (schools[place].0, x);
            judge(HOME, &other, is_good);
        }
    }
}

/// Lists of any lengths: equal ones of 1 to 256 schools are taken, if the rolls and the list for the order
/// are as long. A length is taken whole: those over 65,535 are not what is left of them in 16 bits.
#[test]
fn of_lengths() {
    let lengths = [
        0, 1, 2, 3, 255, 256, 257, 258, 512, 513, 65_535, 65_536, 65_537, 65_540, 1_000_000,
    ];
    let list: Vec<_> = (0..1_000_000).map(f64::from).collect();
    let rolls = vec![7; 65_538];
    for (eastings, northings) in lengths.into_iter().flat_map(|n| lengths.map(|m| (n, m))) {
        let lists = [&list[..eastings], &list[..northings]];
        for (places, number) in [0, 1, 2, 3, 254, 255, 256, 257, 600]
            .into_iter()
            .flat_map(|places| [0, 1, 2, 255, 256, 65_536, 65_538].map(|number| (places, number)))
        {
            let found = listed(HOME, lists, &rolls[..number], places);
            let fits = (1..=NEAREST_SCHOOLS.min(places).min(number)).contains(&eastings);
            let expected = match fits && eastings == northings {
                true => Ok((0..eastings as u16).collect()),
                false => REFUSED,
            };
            assert_eq!(found, expected, "{eastings} {northings} {number} {places}");
        }
    }
}

/// No schools, and too many of them, whatever is in them.
#[test]
fn of_too_many_schools() {
    assert_eq!(order(HOME, &[]), REFUSED);
    let most = vec![(1.0, 2.0); NEAREST_SCHOOLS];
    assert!(order(HOME, &most).is_ok());
    for count in [257, 258, 511, 512, 513, 65_537, 65_792, 2_000_000] {
        for school in [(1.0, 2.0), (f64::NAN, 2.0)] {
            let rolls = vec![0; count];
            assert_eq!(
                nearest(HOME, &vec![school; count], &rolls),
                REFUSED,
                "{count}"
            );
        }
    }
}

/// A part of a list is a list: what stands before and after is neither read nor written.
#[test]
fn of_parts_of_lists() {
    let mut eastings = vec![f64::NAN; 600];
    let mut northings = vec![f64::INFINITY; 600];
    let mut rolls = vec![0; 600];
    for count in 1..=NEAREST_SCHOOLS {
        let (first, second, third, fourth) = (count % 7, count % 11, 300 - count, count % 13);
        for i in 0..count {
            // by twos, of which the second has fewer pupils
            eastings[first + i] = ((count - i).div_ceil(2)) as f64;
            northings[second + i] = 0.0;
            rolls[fourth + i] = 1 + (count - i) as u16;
        }
        let mut order = unwritten(600);
        let answer = nearest_into(
            HOME,
            &eastings[first..first + count],
            &northings[second..second + count],
            &rolls[fourth..fourth + count],
            &mut order[third..third + count],
        );
        assert_eq!(answer, Ok(()));
        let mut expected = unwritten(600);
        for i in 0..count {
            expected[third + i] = (count - 1 - i) as u16;
        }
        assert_eq!(order, expected);
        eastings.fill(f64::NAN);
        northings.fill(f64::INFINITY);
        rolls.fill(0);
    }
}

/// The constant is the header's, and the words' of the refusal.
#[test]
fn the_header() {
    let header = include_str!("../../c/lenthuc.h");
    let stated = format!("#define LENTHUC_NEAREST_SCHOOLS {NEAREST_SCHOOLS}\n");
    assert!(header.contains(&stated), "{stated}");
    let words = Refusal::NearestInput.to_string();
    assert!(words.contains(&format!("more than {NEAREST_SCHOOLS},")));
}

/// Threads that share their inputs get what one thread gets.
#[test]
fn by_several_threads() {
    let mut random = Random(43);
    let (_, _, draw) = TOWNS[0];
    let schools: Vec<_> = (0..200).map(|_| draw(&mut random, HOME)).collect();
    let expected = &order(HOME, &schools);
    assert!(expected.is_ok());
    std::thread::scope(|scope| {
        for _ in 0..4 {
            scope.spawn(|| (0..50).for_each(|_| assert_eq!(&order(HOME, &schools), expected)));
        }
    });
}
