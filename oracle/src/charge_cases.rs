//! Stops of which 02 and its readings say what number, charge and shares they get, each with the wrong
//! readings that it notices.

use crate::charge::{CHARGE_INPUT, CHILDREN, FARTHEST, HIGHEST, Stop};
use crate::ring::Pair;

pub struct ChargeCase {
    /// By its number among Q-7's readings; 0 where 02's own words say it.
    pub reading: usize,
    pub number: u8,
    pub charge: u64,
    /// The children's; none where it is refused.
    pub shares: Vec<u64>,
    pub stop: Stop,
    /// The wrong readings that it notices.
    pub why: &'static str,
}

pub fn charge_cases() -> Vec<ChargeCase> {
    let all = [
        started_kilometres,
        charges,
        not_finite,
        without_limit,
        at_no_cost,
        rounded_roots,
        whole_kilometres,
        farthest,
        rates,
        children,
        next_to_whole_kilometres,
        larger_first,
        past_the_last,
        nothing_kept,
    ];
    all.iter().flat_map(|cases| cases()).collect()
}

/// The reading, dx and dy, the rate, and how many children.
fn refused(
    reading: usize,
    offset: Pair,
    rate: u64,
    children: u64,
    why: &'static str,
) -> ChargeCase {
    ChargeCase {
        reading,
        number: CHARGE_INPUT,
        charge: 0,
        shares: Vec::new(),
        stop: Stop {
            offset,
            rate,
            children,
        },
        why,
    }
}

/// The same with what it costs: how many children have which share, the first before the others.
fn case(
    reading: usize,
    offset: Pair,
    rate: u64,
    charge: u64,
    parts: &[(usize, u64)],
    why: &'static str,
) -> ChargeCase {
    let of_part = |&(children, share): &(usize, u64)| vec![share; children];
    let shares: Vec<u64> = parts.iter().flat_map(of_part).collect();
    let children = shares.len() as u64;
    ChargeCase {
        number: 0,
        charge,
        shares,
        ..refused(reading, offset, rate, children, why)
    }
}

/// For a coin a kilometre and one child, who then pays as many coins as there are kilometres.
fn kilometres(reading: usize, offset: Pair, k: u64, why: &'static str) -> ChargeCase {
    case(reading, offset, 1, k, &[(1, k)], why)
}

/// That is refused for its distance.
fn too_far(reading: usize, offset: Pair, why: &'static str) -> ChargeCase {
    refused(reading, offset, 1, 1, why)
}

/// One kilometre away, so that the charge is the rate.
fn shared(reading: usize, charge: u64, parts: &[(usize, u64)], why: &'static str) -> ChargeCase {
    case(reading, [600.0, 800.0], charge, charge, parts, why)
}

/// What 02 says of kilometres.
#[rustfmt::skip]
fn started_kilometres() -> Vec<ChargeCase> {
    vec![
        kilometres(0, [3000.0, 4000.0], 5, "dx and dy added"),
        kilometres(0, [-3000.0, -4000.0], 5, "signs kept"),
        kilometres(0, [4500.0, -4500.0], 7, "dx or dy, the larger"),
        kilometres(0, [0.0, 2500.0], 3, "dx alone"),
        kilometres(0, [2500.0, 0.0], 3, "dy alone"),
        kilometres(0, [2400.0, 0.0], 3, "kilometres rounded to the nearest"),
        kilometres(0, [0.0, -7999.9], 8, "whole kilometres alone counted"),
        kilometres(0, [0.001, 0.0], 1, "the first kilometre free"),
        kilometres(0, [255_500.0, 0.0], 256, "kilometres in a byte"),
        kilometres(0, [0.0, 300_456.789], 301, "kilometres in a byte"),
    ]
}

/// What it says of the charge.
#[rustfmt::skip]
fn charges() -> Vec<ChargeCase> {
    let near = [1500.0, 0.0];
    let far = [0.0, -4200.0];
    vec![
        case(0, near, 1000, 2000, &[(1, 2000)], "by the metre"),
        case(0, near, 240, 480, &[(2, 240)], "each child pays the charge"),
        case(0, near, 75, 150, &[(2, 75)], "charged for each child"),
        case(0, far, 10, 50, &[(2, 17), (1, 16)], "the rate shared, and then multiplied"),
        case(0, far, 250, 1250, &[(2, 313), (2, 312)], "the charge rounded up, so that all pay the same"),
        case(0, far, 999_983, 4_999_915, &[(55, 83_332), (5, 83_331)], "the charge in 16 bits"),
        case(0, [344_678.9, 0.0], 54_321, 18_740_745, &[(10, 1_441_596), (3, 1_441_595)], "the charge in f32"),
    ]
}

/// Whatever makes the distance infinite or NaN.
#[rustfmt::skip]
fn not_finite() -> Vec<ChargeCase> {
    let (nan, infinity, minus) = (f64::NAN, f64::INFINITY, f64::NEG_INFINITY);
    let [quiet, signalling] = [0xffff_ffff_ffff_ffff, 0x7ff0_0000_0000_0001].map(f64::from_bits);
    vec![
        too_far(1, [nan, 0.0], "a NaN distance answered"),
        too_far(1, [0.0, nan], "a NaN distance answered, or dx alone looked at"),
        too_far(1, [quiet, 3000.0], "a NaN distance answered, or dy alone looked at"),
        too_far(1, [3000.0, signalling], "a NaN distance answered"),
        too_far(1, [infinity, nan], "a NaN distance answered"),
        too_far(1, [infinity, 0.0], "an infinite distance answered"),
        too_far(1, [0.0, infinity], "an infinite distance answered, or dx alone looked at"),
        too_far(1, [minus, 4000.0], "an infinite distance answered, or dy alone looked at"),
        too_far(1, [4000.0, minus], "an infinite distance answered"),
        too_far(1, [infinity, minus], "signs kept"),
        too_far(1, [1e200, 0.0], "an infinite distance answered"),
        too_far(1, [0.0, -1e200], "an infinite distance answered"),
        too_far(1, [1e154, -1e154], "an infinite distance answered"),
        too_far(1, [f64::MAX, f64::MAX], "an infinite distance answered"),
    ]
}

/// The distance has a limit, and dx and dy have none of their own.
#[rustfmt::skip]
fn without_limit() -> Vec<ChargeCase> {
    let least = f64::from_bits(1);
    vec![
        kilometres(1, [-FARTHEST, 0.0], 1000, "a negative dx refused"),
        kilometres(1, [0.0, -FARTHEST], 1000, "a negative dy refused"),
        kilometres(1, [least, -2000.0], 2, "a subnormal number refused"),
        kilometres(1, [-0.0, 2000.0], 2, "-0 refused"),
        too_far(1, [FARTHEST, FARTHEST], "dx and dy compared with the limit"),
        too_far(1, [-800_000.0, 800_000.0], "dx and dy compared with the limit"),
        too_far(1, [0.0, 1_000_000.5], "dx alone looked at"),
        too_far(1, [-1_000_000.5, 0.0], "dy alone looked at"),
        too_far(1, [1e8, 0.0], "1e8 for the limit"),
    ]
}

/// A distance of 0 costs nothing, and all is looked at even so.
#[rustfmt::skip]
fn at_no_cost() -> Vec<ChargeCase> {
    let here = [0.0, 0.0];
    let flushed = "a subnormal result taken for 0";
    let at_once = "answered at once at distance 0";
    let at_rate_0 = "answered at once where the rate is 0";
    vec![
        kilometres(2, here, 0, "floor + 1"),
        kilometres(2, [-0.0, -0.0], 0, "at least one kilometre"),
        case(2, here, HIGHEST, 0, &[(CHILDREN, 0)], "at least one kilometre"),
        case(2, here, 7, 0, &[(3, 0)], "a distance of 0 refused"),
        kilometres(2, [1e-200, 0.0], 0, "the hypotenuse"),
        kilometres(2, [0.0, -1e-200], 0, "the hypotenuse"),
        kilometres(2, [f64::MIN_POSITIVE, f64::from_bits(1)], 0, "the hypotenuse"),
        kilometres(2, [1.5e-162, 0.0], 0, "the hypotenuse"),
        kilometres(2, [1.5e-162, 1.5e-162], 0, "by the exact distance"),
        kilometres(2, [1.6e-162, 0.0], 1, flushed),
        kilometres(2, [0.0, 1e-160], 1, flushed),
        kilometres(2, [1e-150, 0.0], 1, "a tolerance of 1e-12 km"),
        refused(2, here, HIGHEST + 1, 3, at_once),
        refused(2, here, 10, 0, at_once),
        refused(2, here, 10, 61, at_once),
        refused(2, [0.0, 2e6], 0, 3, at_rate_0),
        refused(2, [f64::NAN, 0.0], 0, 3, at_rate_0),
        refused(2, [3000.0, 4000.0], 0, 61, at_rate_0),
        refused(2, [3000.0, 4000.0], 0, 0, at_rate_0),
    ]
}

/// The distance is the rounded root of the rounded sum.
#[rustfmt::skip]
fn rounded_roots() -> Vec<ChargeCase> {
    let squares = "by squares";
    let exact = "by the exact distance";
    vec![
        kilometres(3, [5000.0, 6e-5], 5, squares),
        kilometres(3, [-6e-5, -5000.0], 5, squares),
        kilometres(3, [17_707.2, 11_289.6], 21, squares),
        kilometres(3, [1000.0, 1e-5], 2, "the square aside dropped"),
        kilometres(3, [1000.0, 1e-9], 1, exact),
        kilometres(3, [9275.2, 5913.6], 11, exact),
        kilometres(3, [5913.6, -9275.2], 11, exact),
        kilometres(3, [FARTHEST, 0.007], 1000, exact),
        kilometres(3, [843.2, 537.6], 2, "the hypotenuse"),
        kilometres(3, [1075.2, 1686.4], 3, "the hypotenuse"),
        kilometres(3, [22_766.4, 14_515.2], 27, "a fused sum"),
        kilometres(3, [14_515.2, 22_766.4], 27, "a fused sum, the other square rounded"),
        kilometres(3, [1000.00001, 0.0], 2, "the distance in f32"),
        kilometres(3, [0.0, 1000.0001], 2, "in millimetres"),
        kilometres(3, [0.0, 1000.04], 2, "in decimetres"),
    ]
}

/// A whole kilometre is that kilometre.
#[rustfmt::skip]
fn whole_kilometres() -> Vec<ChargeCase> {
    let more = "floor + 1";
    vec![
        kilometres(4, [1000.0, 0.0], 1, more),
        kilometres(4, [0.0, -1000.0], 1, more),
        kilometres(4, [600.0, 800.0], 1, more),
        kilometres(4, [-7000.0, 24_000.0], 25, more),
        kilometres(4, [999_000.0, 0.0], 999, more),
    ]
}

/// 1,000,000 m pass, and nothing above.
#[rustfmt::skip]
fn farthest() -> Vec<ChargeCase> {
    let beyond = FARTHEST.next_up();
    let farthest = "1,000,000 m refused";
    vec![
        kilometres(4, [FARTHEST, 0.0], 1000, farthest),
        kilometres(4, [-600_000.0, 800_000.0], 1000, farthest),
        kilometres(4, [352_000.0, -936_000.0], 1000, farthest),
        kilometres(4, [0.0, FARTHEST.next_down()], 1000, "whole kilometres alone counted"),
        too_far(4, [beyond, 0.0], "a step above 1,000,000 m passed"),
        too_far(4, [0.0, -beyond], "a step above 1,000,000 m passed"),
        too_far(4, [1_000_000.02, 0.0], "the limit compared in f32"),
        too_far(4, [1_000_000.4, 0.0], "the limit compared in whole metres"),
        too_far(4, [FARTHEST, 0.1], "dx and dy compared with the limit"),
        too_far(4, [1_000_999.0, 0.0], "the limit compared in whole kilometres"),
        too_far(4, [2e6, 0.0], "no limit"),
    ]
}

#[rustfmt::skip]
fn rates() -> Vec<ChargeCase> {
    let (near, far) = ([3000.0, 4000.0], [FARTHEST, 0.0]);
    let cut = 1 << 32;
    let highest = "1,000,000 refused";
    vec![
        case(4, near, 0, 0, &[(3, 0)], "a rate of 0 refused"),
        case(4, near, HIGHEST, 5_000_000, &[(4, 1_250_000)], highest),
        case(4, far, HIGHEST - 1, 999_999_000, &[(2, 499_999_500)], "shares in f32"),
        case(4, far, HIGHEST, 1_000_000_000, &[(40, 16_666_667), (20, 16_666_666)], highest),
        refused(4, near, HIGHEST + 1, 3, "1,000,001 passed"),
        refused(4, near, 2 * HIGHEST, 3, "no limit of the rate"),
        refused(4, near, cut, 3, "the rate in 32 bits"),
        refused(4, near, cut + 1, 3, "the rate in 32 bits"),
        refused(4, near, cut + HIGHEST, 3, "the rate in 32 bits"),
        refused(4, near, (1 << 16) * 20 + 7, 3, "the rate in 16 bits"),
        refused(4, near, 1 << 63, 3, "the rate with a sign, negative ones for 0"),
        refused(4, near, u64::MAX, 3, "the rate with a sign, by its size"),
    ]
}

#[rustfmt::skip]
fn children() -> Vec<ChargeCase> {
    let near = [3000.0, 4000.0];
    let cut = 1 << 32;
    vec![
        case(4, near, 120, 600, &[(60, 10)], "60 children refused"),
        case(4, near, 121, 605, &[(15, 11), (44, 10)], "60 places shared among"),
        case(4, near, 9, 45, &[(1, 45)], "one child refused"),
        refused(4, near, 9, 0, "no children answered, without shares"),
        refused(4, near, 120, 61, "61 children passed"),
        refused(4, near, 120, 100, "no limit of the children"),
        refused(4, near, 120, 256, "no limit of the children"),
        refused(4, near, 120, 257, "the children in a byte"),
        refused(4, near, 120, cut, "no limit of the children"),
        refused(4, near, 120, cut + 1, "the children in 32 bits"),
        refused(4, near, 120, cut + 60, "the children in 32 bits"),
        refused(4, near, 120, 1 << 63, "the children with a sign, negative ones for 1"),
        refused(4, near, 120, u64::MAX, "the children with a sign, by their size"),
    ]
}

/// The least k is told by the f64 next to a whole kilometre.
#[rustfmt::skip]
fn next_to_whole_kilometres() -> Vec<ChargeCase> {
    let mut list = Vec::new();
    for k in [1, 2, 3, 8, 9, 64, 125, 512, 600, 999] {
        let metres = (1000 * k) as f64;
        list.extend([
            kilometres(5, [metres.next_down(), 0.0], k, "whole kilometres alone counted"),
            kilometres(5, [0.0, -metres], k, "floor + 1, or a root a step too high"),
            kilometres(5, [-metres.next_up(), 0.0], k + 1, "a root a step too low, or a tolerance of 1e-12 km"),
        ]);
    }
    list
}

#[rustfmt::skip]
fn larger_first() -> Vec<ChargeCase> {
    let first = "the rest to the first child";
    let last = "the rest to the last child";
    let turned = "the larger last";
    vec![
        shared(6, 11, &[(2, 4), (1, 3)], first),
        shared(6, 10, &[(1, 4), (2, 3)], turned),
        shared(6, 23, &[(3, 6), (1, 5)], last),
        shared(6, 10, &[(2, 3), (2, 2)], "the rest spread"),
        shared(6, 13, &[(1, 4), (3, 3)], "the ceiling until nothing is left"),
        shared(6, 14, &[(2, 4), (2, 3)], "rounded shares, and the last gets what is left"),
        shared(6, 1, &[(1, 1), (1, 0)], turned),
        shared(6, 1, &[(1, 1), (59, 0)], "the ceiling for all"),
        shared(6, 59, &[(59, 1), (1, 0)], "whole shares alone"),
        shared(6, 60, &[(60, 1)], "one more child has the larger share"),
        shared(6, 61, &[(1, 2), (59, 1)], last),
        shared(6, 119, &[(59, 2), (1, 1)], first),
        shared(6, 999_999, &[(39, 16_667), (21, 16_666)], turned),
        shared(6, 65_543, &[(1, 65_543)], "shares in 16 bits"),
        shared(6, 999_999, &[(1, 500_000), (1, 499_999)], "shares in 16 bits"),
    ]
}

#[rustfmt::skip]
fn past_the_last() -> Vec<ChargeCase> {
    vec![
        shared(6, 5, &[(1, 3), (1, 2)], "the smaller share past the last child"),
        shared(6, 5, &[(1, 5)], "the larger share past the last child"),
        shared(6, 118, &[(59, 2)], "the last place left as it was past the last child"),
        shared(6, 0, &[(7, 0)], "left as they were past the last child"),
    ]
}

/// Neither the charge nor a share is left where it is refused.
#[rustfmt::skip]
fn nothing_kept() -> Vec<ChargeCase> {
    let near = [3000.0, 4000.0];
    vec![
        refused(6, near, HIGHEST + 1, 3, "the charge and shares kept where it is refused"),
        refused(6, near, 500, 61, "shares kept where it is refused"),
        refused(6, near, 500, 0, "the charge kept where it is refused"),
        refused(6, [1_000_001.0, 0.0], 500, 3, "the charge kept where it is refused"),
    ]
}
