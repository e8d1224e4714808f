//! The same of 02's rolls.

use crate::nearest::MOST;
use crate::nearest_cases::{HOME, NearestCase, case, refused};
use crate::ring::Pair;

pub fn roll_cases() -> Vec<NearestCase> {
    let all = [words, no_rolls, order, enough, edges, long_runs];
    all.iter().flat_map(|cases| cases()).collect()
}

/// Three at one place, and so many in a row to the east.
const ONE_PLACE: &[Pair] = &[[3.0, 4.0]; 3];
const ROW: &[Pair] = &[[1.0, 0.0], [2.0, 0.0], [3.0, 0.0]];

/// As far from the home, on all sides.
const AROUND: &[Pair] = &[[5.0, 0.0], [0.0, -5.0], [-3.0, 4.0], [4.0, 3.0]];

/// What 02 says.
#[rustfmt::skip]
fn words() -> Vec<NearestCase> {
    let unread = "rolls not read";
    let place = "rolls decide between schools of one place alone";
    vec![
        case(0, HOME, ONE_PLACE, &[2, 1, 0], unread).rolls(&[30, 20, 10], 0),
        case(0, HOME, ONE_PLACE, &[0, 1, 2], "more pupils first").rolls(&[10, 20, 30], 0),
        case(0, HOME, ONE_PLACE, &[1, 2, 0], "places of the schools for schools of the places").rolls(&[30, 10, 20], 0),
        case(0, HOME, AROUND, &[2, 0, 3, 1], place).rolls(&[300, 900, 120, 450], 0),
        case(0, HOME, &[[1.0, 1e-9], [1.0, 0.0]], &[1, 0], "by exact sums").rolls(&[2, 1], 0),
        case(0, HOME, &[[1e-200, 0.0], [0.0, 0.0]], &[1, 0], "sorted by the hypotenuse").rolls(&[1, 0], 0),
        case(0, HOME, &[[0.0, 0.0], [1e-200, 0.0]], &[1, 0], unread).rolls(&[7, 6], 0),
        case(0, HOME, &[[7.0, 7.0]], &[0], "a roll refused").rolls(&[400], 0),
    ]
}

/// Zeros, or one number for all, are no rolls.
#[rustfmt::skip]
fn no_rolls() -> Vec<NearestCase> {
    let why = "equal rolls turned about";
    vec![
        case(0, HOME, ONE_PLACE, &[0, 1, 2], why).rolls(&[0; 3], 1),
        case(0, HOME, AROUND, &[0, 1, 2, 3], why).rolls(&[65_535; 4], 1),
        case(0, HOME, ROW, &[0, 1, 2], why).rolls(&[250; 3], 1),
    ]
}

/// The sum, then the roll, then the input.
#[rustfmt::skip]
fn order() -> Vec<NearestCase> {
    let before = "the roll before the distance";
    let root = "rolls decide where roots are equal";
    let near = "rolls decide where sums are near";
    let lost = "rolls lose the input order";
    let mixed = &[[2.0, 0.0], [1.0, 0.0], [0.0, 2.0], [0.0, 1.0], [-2.0, 0.0], [0.0, 0.0]];
    let tiny = f64::from_bits(1);
    vec![
        case(0, HOME, ROW, &[0, 1, 2], before).rolls(&[3, 2, 1], 2),
        case(0, HOME, ROW, &[0, 1, 2], before).rolls(&[65_535, 0, 0], 2),
        case(0, HOME, &[[1.0, 2.0_f64.powi(-26)], [1.0, 0.0]], &[1, 0], root).rolls(&[0, 9], 2),
        case(0, HOME, &[[5000.0, 6e-5], [5000.0, 0.0]], &[1, 0], root).rolls(&[100, 200], 2),
        case(0, HOME, &[[5000.0, 0.0], [4999.999, 0.0]], &[1, 0], near).rolls(&[100, 200], 2),
        case(0, HOME, &[[1.0, 0.0], [1.0_f64.next_down(), 0.0]], &[1, 0], near).rolls(&[5, 6], 2),
        case(0, HOME, &[[1.6e-162, 0.0], [0.0, 0.0]], &[1, 0], "a subnormal result taken for 0").rolls(&[0, 1], 2),
        case(0, HOME, &[[tiny, 0.0], [0.0, 0.0], [0.0, -tiny]], &[1, 0, 2], lost).rolls(&[4, 3, 4], 2),
        case(0, HOME, ONE_PLACE, &[1, 0, 2], lost).rolls(&[20, 10, 20], 2),
        case(0, HOME, AROUND, &[1, 3, 0, 2], lost).rolls(&[8, 7, 8, 7], 2),
        case(0, HOME, mixed, &[5, 3, 1, 2, 0, 4], lost).rolls(&[6, 2, 5, 1, 6, 9], 2),
        case(0, HOME, mixed, &[5, 1, 3, 4, 0, 2], "equal sums by northing").rolls(&[6, 2, 6, 2, 5, 9], 2),
    ]
}

/// A roll for each school, or more, of which the rest is not read.
#[rustfmt::skip]
fn enough() -> Vec<NearestCase> {
    let fewer = "fewer rolls passed";
    let none = "no rolls taken for zeros";
    let more = "as many rolls as schools asked for";
    let rest = "the rest of the rolls read";
    let rolls = &[9, 8, 7];
    let of = |why| case(0, HOME, ONE_PLACE, &[2, 1, 0], why).rolls(rolls, 3);
    let too_few = |why| refused(0, HOME, ONE_PLACE, why).rolls(rolls, 3);
    let most = |why| refused(0, HOME, ROW, why).rolls(&[5; 3], 3).listed(MOST, MOST).lent(MOST);
    let two = |order: &[u16], why| {
        let schools = &[[1.0, 0.0], [-1.0, 0.0], [0.0, 0.0]];
        case(0, HOME, schools, order, why).listed(2, 2)
    };
    vec![
        of("a roll more than schools asked for"),
        of(more).rolled(4),
        of(more).rolled(300),
        of(rest).rolled(6),
        too_few(fewer).rolled(2),
        too_few(fewer).rolled(1),
        too_few(none).rolled(0),
        too_few("the number after the list").rolled(2).lent(3),
        too_few(fewer).rolled(2).lent(2),
        refused(0, HOME, ROW, fewer).rolls(&[1, 1, 1], 3).rolled(2),
        refused(0, HOME, &[[7.0, 7.0]], none).rolls(&[0], 3).rolled(0),
        refused(0, HOME, ONE_PLACE, "answered at once where there are none").rolls(rolls, 3).listed(0, 0),
        refused(0, HOME, ONE_PLACE, "no schools answered").rolls(rolls, 3).listed(0, 0).rolled(3),
        refused(0, HOME, ONE_PLACE, "the shorter list taken").rolls(rolls, 3).listed(2, 3).rolled(2),
        most("256 rolls refused").rolled(MOST - 1),
        most("257 schools passed").listed(MOST + 1, MOST + 1).rolled(300),
        two(&[0, 1], rest).rolls(&[5, 5, 0], 3).rolled(3),
        two(&[1, 0], "rolls from the end of their list").rolls(&[6, 5, 9], 3).rolled(3),
        two(&[0, 1], "rolls from the end of their list").rolls(&[5, 6, 4], 3).rolled(3),
    ]
}

/// 0 and 65,535 are rolls like others.
#[rustfmt::skip]
fn edges() -> Vec<NearestCase> {
    let sign = "rolls with a sign";
    let byte = "the last byte of a roll";
    let four = &[[0.0, 1.0]; 4];
    vec![
        case(0, HOME, ONE_PLACE, &[1, 2, 0], sign).rolls(&[65_535, 0, 65_534], 4),
        case(0, HOME, ONE_PLACE, &[2, 1, 0], sign).rolls(&[32_769, 32_768, 32_767], 4),
        case(0, HOME, ONE_PLACE, &[1, 0, 2], "0 taken for no roll, which comes last").rolls(&[1, 0, 2], 4),
        case(0, HOME, ONE_PLACE, &[1, 2, 0], "65,535 taken for no roll").rolls(&[65_535, 1, 65_535 - 1], 4),
        case(0, HOME, four, &[2, 0, 3, 1], byte).rolls(&[255, 512, 3, 256], 4),
        case(0, HOME, four, &[1, 2, 0, 3], "the first byte of a roll").rolls(&[258, 256, 257, 511], 4),
        case(0, HOME, ROW, &[0, 1, 2], "a roll refused").rolls(&[65_535, 65_535, 0], 4),
    ]
}

/// So many schools at one place, whose rolls are these again and again: the groups have equal rolls, the
/// least first.
fn again(rolls: &[u16], groups: &[usize], count: usize, why: &'static str) -> NearestCase {
    let schools = vec![[3.0, 4.0]; rolls.len()];
    let of_group = |&group: &usize| {
        let places = (0..count).filter(move |place| place % rolls.len() == group);
        places.map(|place| place as u16)
    };
    let order: Vec<u16> = groups.iter().flat_map(of_group).collect();
    case(0, HOME, &schools, &order, why)
        .rolls(rolls, 2)
        .listed(count, count)
        .lent(count + 1)
}

/// Of lists that are long.
#[rustfmt::skip]
fn long_runs() -> Vec<NearestCase> {
    let why = "rolls lose the input order in a long list";
    let falling = "rolls decide between neighbours alone";
    vec![
        again(&[2, 1], &[1, 0], 9, why),
        again(&[30, 10, 20], &[1, 2, 0], 17, why),
        again(&[5, 4, 3, 2, 1], &[4, 3, 2, 1, 0], 33, falling),
        again(&[700, 300, 900, 100, 500], &[3, 1, 4, 0, 2], 100, why),
        again(&[1, 65_535, 0], &[2, 0, 1], 255, why),
        again(&[8, 7, 6, 5, 4, 3, 2, 1], &[7, 6, 5, 4, 3, 2, 1, 0], MOST, falling),
        again(&[2, 1], &[1, 0], MOST, why),
    ]
}
