//! Wrong readings of 02's travel charge: each gives another answer to a stop that crates/replay has
//! stored, and to one that `charges` draws.

use oracle::charge::{
    CHARGE_INPUT, CHILDREN, ChargeAnswer, FARTHEST, HIGHEST, Meant, Rule, Shares, Stop, before,
};
use oracle::charge_cases::charge_cases;
use oracle::charges::{Charges, SHAPES};
use oracle::exact;
use oracle::fixed::root;
use oracle::nearest::NEAREST_INPUT;
use oracle::ring::Pair;
use oracle::stored;

#[rustfmt::skip]
const WRONG: [(&str, &dyn Rule); 120] = [
    // the distance
    ("the hypotenuse", &Distance(f64::hypot)),
    ("a fused sum", &Distance(|dx, dy| root(dx.mul_add(dx, dy * dy)))),
    ("a fused sum, the other square rounded", &Distance(|dx, dy| root(dy.mul_add(dy, dx * dx)))),
    ("dx and dy added", &Distance(|dx, dy| dx.abs() + dy.abs())),
    ("signs kept", &Distance(|dx, dy| (dx + dy).max(0.0))),
    ("dx or dy, the larger", &Distance(|dx, dy| if dx.abs() > dy.abs() { dx.abs() } else { dy.abs() })),
    ("dx alone", &Distance(|dx, _| dx.abs())),
    ("dy alone", &Distance(|_, dy| dy.abs())),
    ("the square aside dropped", &Distance(aside_dropped)),
    ("dx + dy squared", &Distance(|dx, dy| root((dx + dy) * (dx + dy)))),
    ("no root", &Distance(|dx, dy| dx * dx + dy * dy)),
    ("a root a step too high", &Distance(|dx, dy| stepped(rounded(dx, dy), f64::next_up))),
    ("a root a step too low", &Distance(|dx, dy| stepped(rounded(dx, dy), f64::next_down))),
    ("the sum in f32", &Distance(|dx, dy| root(f64::from((dx * dx + dy * dy) as f32)))),
    ("the distance in f32", &Distance(|dx, dy| f64::from(rounded(dx, dy) as f32))),
    ("dx and dy in f32", &Distance(|dx, dy| rounded(f64::from(dx as f32), f64::from(dy as f32)))),
    ("dx and dy in whole metres", &Distance(|dx, dy| rounded(dx.round(), dy.round()))),
    ("a subnormal result taken for 0", &Distance(flushed)),
    ("in whole metres, cut", &Distance(|dx, dy| rounded(dx, dy).trunc())),
    ("in whole metres, rounded", &Distance(|dx, dy| rounded(dx, dy).round())),
    ("in decimetres", &Distance(|dx, dy| (rounded(dx, dy) * 10.0).round() / 10.0)),
    ("in millimetres", &Distance(|dx, dy| (rounded(dx, dy) * 1000.0).round() / 1000.0)),
    // the kilometres
    ("floor + 1", &Least(|distance| (distance / 1000.0).floor() as u64 + 1)),
    ("at least one kilometre", &Least(|distance| Meant.least(distance).max(1))),
    ("at least one kilometre, but at distance 0", &Least(|distance| whole(distance).max(u64::from(distance > 0.0)))),
    ("whole kilometres alone counted", &Least(whole)),
    ("the first kilometre free", &Least(|distance| Meant.least(distance).saturating_sub(1))),
    ("kilometres rounded to the nearest", &Least(|distance| (distance / 1000.0).round() as u64)),
    ("a tolerance of 1e-12 km", &Least(|distance| (distance / 1000.0 - 1e-12).ceil() as u64)),
    ("a tolerance of 1e-9 km", &Least(|distance| (distance / 1000.0 - 1e-9).ceil() as u64)),
    ("a tolerance of a part in 1e15", &Least(|distance| (distance * (1.0 - 1e-15) / 1000.0).ceil() as u64)),
    ("the quotient in f32", &Least(|distance| (distance as f32 / 1000.0).ceil() as u64)),
    ("1,024 m a kilometre", &Least(|distance| (distance / 1024.0).ceil() as u64)),
    ("kilometres in a byte", &Least(|distance| Meant.least(distance) & 255)),
    ("999 km at most", &Least(|distance| Meant.least(distance).min(999))),
    ("by squares", &Kilometres(by_squares)),
    ("by the exact distance", &Kilometres(by_exact_squares)),
    ("dx and dy each in kilometres", &Kilometres(each_in_kilometres)),
    // the charge
    ("by the metre", &Charged(|stop| (Meant.distance(stop.offset) * stop.rate as f64 / 1000.0).ceil() as u64)),
    ("charged for each child", &Charged(|stop| Meant.charge(stop) * stop.children)),
    ("the charge in f32", &Charged(|stop| (Meant.charge(stop) as f32) as u64)),
    ("the charge in 16 bits", &Charged(|stop| Meant.charge(stop) & 0xffff)),
    ("the charge rounded up, so that all pay the same", &Charged(|stop| Meant.charge(stop).next_multiple_of(stop.children))),
    ("the charge rounded down, so that all pay the same", &Charged(|stop| Meant.charge(stop) / stop.children * stop.children)),
    ("the rate for the charge", &Charged(|stop| stop.rate)),
    ("there and back", &Charged(|stop| 2 * Meant.charge(stop))),
    ("at least a coin", &Charged(|stop| Meant.charge(stop).max(1))),
    // the shares
    ("the rest to the first child", &Shared(|charge, children| parts(charge, children, |place, rest| if place == 0 { rest } else { 0 }))),
    ("the rest to the last child", &Shared(|charge, children| parts(charge, children, |place, rest| if place == children - 1 { rest } else { 0 }))),
    ("the larger last", &Shared(|charge, children| parts(charge, children, |place, rest| u64::from(place >= children - rest)))),
    ("the larger from the second child on", &Shared(|charge, children| parts(charge, children, |place, rest| u64::from(1 <= place && place <= rest)))),
    ("whole shares alone", &Shared(|charge, children| parts(charge, children, |_, _| 0))),
    ("the ceiling for all", &Shared(|charge, children| parts(charge, children, |_, rest| u64::from(rest > 0)))),
    ("one more child has the larger share", &Shared(|charge, children| parts(charge, children, |place, rest| u64::from(place <= rest)))),
    ("one child fewer has the larger share", &Shared(|charge, children| parts(charge, children, |place, rest| u64::from(place + 1 < rest)))),
    ("the rest spread, the first child last", &Shared(|charge, children| spread(charge, children, |sum| sum / children))),
    ("the rest spread", &Shared(|charge, children| spread(charge, children, |sum| sum.div_ceil(children)))),
    ("the ceiling until nothing is left", &Shared(ceiling_first)),
    ("rounded shares, and the last gets what is left", &Shared(rounded_shares)),
    ("each child pays the charge", &Shared(|charge, children| among(children, |_| charge))),
    ("the first child pays all", &Shared(|charge, children| among(children, |place| if place == 0 { charge } else { 0 }))),
    ("60 places shared among", &Shared(|charge, _| Meant.shares(charge, CHILDREN as u64))),
    ("a child more shared among", &Shared(|charge, children| Meant.shares(charge, (children + 1).min(CHILDREN as u64)))),
    ("a child fewer shared among", &Shared(|charge, children| Meant.shares(charge, (children - 1).max(1)))),
    ("shares in f32", &Shared(|charge, children| Meant.shares(charge, children).map(|share| (share as f32) as u64))),
    ("shares in 16 bits", &Shared(|charge, children| Meant.shares(charge, children).map(|share| share & 0xffff))),
    ("the rate shared, and then multiplied", &RateShared),
    // past the last child
    ("the smaller share past the last child", &Shared(|charge, children| past(charge, children, |shares| shares[children as usize - 1]))),
    ("the larger share past the last child", &Shared(|charge, children| past(charge, children, |shares| shares[0]))),
    ("left as they were past the last child", &Unwritten(|place, children| place >= children)),
    ("the place past the last child left as it was", &Unwritten(|place, children| place == children)),
    ("the last place left as it was past the last child", &Unwritten(|place, children| place >= children && place == 59)),
    // the rate's limit
    ("1,000,000 refused", &Rate(|rate| rate >= HIGHEST)),
    ("1,000,001 passed", &Rate(|rate| rate > HIGHEST + 1)),
    ("no limit of the rate", &Rate(|rate| rate > 1 << 40)),
    ("a rate of 0 refused", &Rate(|rate| rate == 0 || rate > HIGHEST)),
    ("a rate of 1 refused", &Rate(|rate| rate == 1 || rate > HIGHEST)),
    ("the rate in 32 bits", &Other(|stop| Stop { rate: u64::from(stop.rate as u32), ..*stop })),
    ("the rate in 16 bits", &Other(|stop| Stop { rate: u64::from(stop.rate as u16), ..*stop })),
    ("the rate with a sign, negative ones for 0", &Other(|stop| Stop { rate: (stop.rate as i64).max(0) as u64, ..*stop })),
    ("the rate with a sign, by its size", &Other(|stop| Stop { rate: (stop.rate as i64).unsigned_abs(), ..*stop })),
    ("too high a rate for the highest", &Other(|stop| Stop { rate: stop.rate.min(HIGHEST), ..*stop })),
    // the children's limit
    ("no children answered, without shares", &NoChildren(|stop| Meant.charge(stop))),
    ("no children answered, without a charge", &NoChildren(|_| 0)),
    ("no children for one", &Other(|stop| Stop { children: stop.children.max(1), ..*stop })),
    ("one child refused", &Children(|children| children <= 1 || children > 60)),
    ("60 children refused", &Children(|children| children == 0 || children >= 60)),
    ("61 children passed", &Children(|children| children == 0 || children > 61)),
    ("no limit of the children", &Children(|children| children == 0)),
    ("more than 60 children for 60", &Other(|stop| Stop { children: stop.children.min(60), ..*stop })),
    ("the children in 32 bits", &Other(|stop| Stop { children: u64::from(stop.children as u32), ..*stop })),
    ("the children in a byte", &Other(|stop| Stop { children: u64::from(stop.children as u8), ..*stop })),
    ("the children with a sign, by their size", &Other(|stop| Stop { children: (stop.children as i64).unsigned_abs(), ..*stop })),
    ("the children with a sign, negative ones for 1", &Other(|stop| Stop { children: if stop.children >> 63 == 1 { 1 } else { stop.children }, ..*stop })),
    // the distance's limit
    ("1,000,000 m refused", &Far(|distance| !distance.is_finite() || distance >= FARTHEST)),
    ("a step above 1,000,000 m passed", &Far(|distance| !distance.is_finite() || distance > FARTHEST.next_up())),
    ("the limit compared in f32", &Far(|distance| !distance.is_finite() || distance as f32 > FARTHEST as f32)),
    ("the limit compared in whole metres", &Far(|distance| !distance.is_finite() || distance.trunc() > FARTHEST)),
    ("the limit compared in whole kilometres", &Far(|distance| !distance.is_finite() || whole(distance) > 1000)),
    ("1e8 for the limit", &Far(|distance| !distance.is_finite() || distance > 1e8)),
    ("a NaN distance answered", &Far(|distance| distance > FARTHEST)),
    ("an infinite distance answered", &Far(|distance| distance != f64::INFINITY && Meant.refuses_distance(distance))),
    ("no limit", &Far(|distance| !distance.is_finite())),
    ("a distance of 0 refused", &Far(|distance| distance == 0.0 || Meant.refuses_distance(distance))),
    ("dx and dy compared with the limit", &Offset(|[dx, dy]| !(dx.abs() <= FARTHEST && dy.abs() <= FARTHEST))),
    ("dx alone looked at", &Offset(|[dx, _]| Meant.refuses_distance(dx.abs()))),
    ("dy alone looked at", &Offset(|[_, dy]| Meant.refuses_distance(dy.abs()))),
    ("a negative dx refused", &Offset(|[dx, dy]| dx < 0.0 || Meant.refuses_distance(rounded(dx, dy)))),
    ("a negative dy refused", &Offset(|[dx, dy]| dy < 0.0 || Meant.refuses_distance(rounded(dx, dy)))),
    ("a subnormal number refused", &Offset(|[dx, dy]| dx.is_subnormal() || dy.is_subnormal() || Meant.refuses_distance(rounded(dx, dy)))),
    ("-0 refused", &Offset(|[dx, dy]| [dx, dy].iter().any(|x| x.to_bits() == 1 << 63) || Meant.refuses_distance(rounded(dx, dy)))),
    // what is looked at
    ("answered at once where the rate is 0", &AtOnce(|stop| stop.rate == 0)),
    ("answered at once at distance 0", &AtOnce(|stop| Meant.distance(stop.offset) == 0.0)),
    ("the rate and the children turned round", &Other(|stop| Stop { rate: stop.children, children: stop.rate, ..*stop })),
    // what a refusal leaves
    ("29 for 31", &TwentyNine),
    ("the charge kept where it is refused", &Kept(|charge, _| (charge, [0; CHILDREN]))),
    ("shares kept where it is refused", &Kept(|_, shares| (0, shares))),
    ("the charge and shares kept where it is refused", &Kept(|charge, shares| (charge, shares))),
    ("shares left as they were where it is refused", &Kept(|_, _| (0, before()))),
    ("the charge left as it was where it is refused", &Kept(|_, _| (u64::MAX, [0; CHILDREN]))),
];

#[test]
fn a_stored_stop_notices() {
    let stored = stored::read(&["travel_charge,"], Stop::read);
    assert!(!stored.is_empty());
    assert_eq!(noticing(&stored, &Meant), 0);
    let mut unnoticed = Vec::new();
    for (name, rule) in WRONG {
        let stops = noticing(&stored, rule);
        println!("{stops} stops notice: {name}");
        if stops == 0 {
            unnoticed.push(name);
        }
    }
    assert!(unnoticed.is_empty(), "{unnoticed:?}");
}

/// How many of the stops a rule answers otherwise.
fn noticing(stored: &[(Stop, String)], rule: &dyn Rule) -> usize {
    let other = |(stop, answer): &&(Stop, String)| rule.answer(stop).text() != *answer;
    stored.iter().filter(other).count()
}

/// Each case notices the wrong readings that it names.
#[test]
fn a_case_notices_what_it_says() {
    for case in charge_cases() {
        let text = case.stop.text();
        for why in case.why.split(", or ") {
            let wrong = WRONG.iter().find(|(name, _)| *name == why);
            let (_, rule) =
                wrong.unwrap_or_else(|| panic!("{text} has a reading that is none: {why}"));
            let noticed = rule.answer(&case.stop) != Meant.answer(&case.stop);
            assert!(noticed, "{text} does not notice: {why}");
        }
    }
}

#[test]
fn a_drawn_stop_notices() {
    let mut unnoticed = WRONG.to_vec();
    let mut charges = Charges::new(100);
    for place in 0..200_000 {
        let stop = charges.next(SHAPES[place % SHAPES.len()]);
        let meant = Meant.answer(&stop);
        unnoticed.retain(|(_, rule)| rule.answer(&stop) == meant);
        if unnoticed.is_empty() {
            break;
        }
    }
    let names: Vec<_> = unnoticed.iter().map(|(name, _)| name).collect();
    assert!(names.is_empty(), "{names:?}");
}

/// Another distance, of dx and dy.
struct Distance(fn(f64, f64) -> f64);
impl Rule for Distance {
    fn distance(&self, [dx, dy]: Pair) -> f64 {
        (self.0)(dx, dy)
    }
}

/// The distance as it is meant.
fn rounded(dx: f64, dy: f64) -> f64 {
    Meant.distance([dx, dy])
}

/// What is far less than the other is left out.
fn aside_dropped(dx: f64, dy: f64) -> f64 {
    let [near, far] = match dx.abs() < dy.abs() {
        true => [dx, dy],
        false => [dy, dx],
    };
    match near.abs() < 1e-6 * far.abs() {
        true => far.abs(),
        false => rounded(dx, dy),
    }
}

fn stepped(distance: f64, step: fn(f64) -> f64) -> f64 {
    match distance == 0.0 {
        true => distance,
        false => step(distance),
    }
}

fn flushed(dx: f64, dy: f64) -> f64 {
    let flush = |x: f64| if x.is_subnormal() { 0.0 } else { x };
    let [dx, dy] = [dx, dy].map(flush);
    root(flush(flush(dx * dx) + flush(dy * dy)))
}

/// Other kilometres, of the distance.
struct Least(fn(f64) -> u64);
impl Rule for Least {
    fn least(&self, distance: f64) -> u64 {
        (self.0)(distance)
    }
}

fn whole(distance: f64) -> u64 {
    (distance / 1000.0).floor() as u64
}

/// The same, of dx and dy.
struct Kilometres(fn(f64, f64) -> u64);
impl Rule for Kilometres {
    fn kilometres(&self, stop: &Stop) -> u64 {
        let [dx, dy] = stop.offset;
        (self.0)(dx, dy)
    }
}

/// The least k whose square, in metres, is not below.
fn least_square(below: impl Fn(f64) -> bool) -> u64 {
    let square = |k: u64| ((1000 * k) * (1000 * k)) as f64;
    let mut k = 0;
    while below(square(k)) {
        k += 1;
    }
    k
}

fn by_squares(dx: f64, dy: f64) -> u64 {
    least_square(|square| square < dx * dx + dy * dy)
}

/// Small ones are enlarged, so that their squares do not vanish: they make a sum a little larger even so.
fn by_exact_squares(dx: f64, dy: f64) -> u64 {
    let enlarged = |x: f64| if x == 0.0 { x } else { x.abs().max(1e-100) };
    let [dx, dy] = [dx, dy].map(enlarged);
    let [sum, rest] = exact::square_sum(dx, dy);
    least_square(|square| square < sum || (square == sum && 0.0 < rest))
}

fn each_in_kilometres(dx: f64, dy: f64) -> u64 {
    rounded(dx / 1000.0, dy / 1000.0).ceil() as u64
}

struct Charged(fn(&Stop) -> u64);
impl Rule for Charged {
    fn charge(&self, stop: &Stop) -> u64 {
        (self.0)(stop)
    }
}

/// Other shares, of the charge and the number of children.
struct Shared(fn(u64, u64) -> Shares);
impl Rule for Shared {
    fn shares(&self, charge: u64, children: u64) -> Shares {
        (self.0)(charge, children)
    }
}

/// What each child pays, by its place.
fn among(children: u64, pays: impl Fn(u64) -> u64) -> Shares {
    let of_place = |place: usize| match (place as u64) < children {
        true => pays(place as u64),
        false => 0,
    };
    std::array::from_fn(of_place)
}

/// The quotient, and what a child pays besides, by its place and the rest.
fn parts(charge: u64, children: u64, besides: impl Fn(u64, u64) -> u64) -> Shares {
    let (each, rest) = (charge / children, charge % children);
    among(children, |place| each + besides(place, rest))
}

/// By what all children up to a place pay together.
fn spread(charge: u64, children: u64, divided: impl Fn(u64) -> u64) -> Shares {
    let up_to = |place| divided(charge * place);
    among(children, |place| up_to(place + 1) - up_to(place))
}

fn ceiling_first(charge: u64, children: u64) -> Shares {
    let each = charge.div_ceil(children);
    among(children, |place| {
        each.min(charge.saturating_sub(each * place))
    })
}

fn rounded_shares(charge: u64, children: u64) -> Shares {
    let each = (2 * charge + children) / (2 * children);
    let others = each * (children - 1);
    among(children, |place| match place == children - 1 {
        true => charge.saturating_sub(others),
        false => each,
    })
}

/// What stands past the last child.
fn past(charge: u64, children: u64, filled: impl Fn(&Shares) -> u64) -> Shares {
    let mut shares = Meant.shares(charge, children);
    let filler = filled(&shares);
    shares[children as usize..].fill(filler);
    shares
}

/// Whether a place is left as it was, by the number of children.
struct Unwritten(fn(u64, u64) -> bool);
impl Rule for Unwritten {
    fn shares(&self, charge: u64, children: u64) -> Shares {
        let (meant, before) = (Meant.shares(charge, children), before::<CHILDREN>());
        std::array::from_fn(|place| match (self.0)(place as u64, children) {
            true => before[place],
            false => meant[place],
        })
    }
}

struct RateShared;
impl Rule for RateShared {
    fn answer(&self, stop: &Stop) -> ChargeAnswer {
        let mut answer = Meant.answer(stop);
        if answer.number == 0 {
            let k = Meant.kilometres(stop);
            answer.shares = Meant
                .shares(stop.rate, stop.children)
                .map(|share| k * share);
        }
        answer
    }
}

struct Rate(fn(u64) -> bool);
impl Rule for Rate {
    fn refuses_rate(&self, rate: u64) -> bool {
        (self.0)(rate)
    }

    fn shares(&self, charge: u64, children: u64) -> Shares {
        quotients(charge, children)
    }
}

/// As it is meant, also of charges and children beyond the limits.
fn quotients(charge: u64, children: u64) -> Shares {
    parts(charge, children, |place, rest| u64::from(place < rest))
}

struct Children(fn(u64) -> bool);
impl Rule for Children {
    fn refuses_children(&self, children: u64) -> bool {
        (self.0)(children)
    }

    fn shares(&self, charge: u64, children: u64) -> Shares {
        quotients(charge, children)
    }
}

/// Another stop is answered.
struct Other(fn(&Stop) -> Stop);
impl Rule for Other {
    fn answer(&self, stop: &Stop) -> ChargeAnswer {
        Meant.answer(&(self.0)(stop))
    }
}

/// What is charged where there are no children.
struct NoChildren(fn(&Stop) -> u64);
impl Rule for NoChildren {
    fn refuses_children(&self, children: u64) -> bool {
        children > CHILDREN as u64
    }

    fn charge(&self, stop: &Stop) -> u64 {
        match stop.children {
            0 => (self.0)(stop),
            _ => Meant.charge(stop),
        }
    }

    fn shares(&self, charge: u64, children: u64) -> Shares {
        match children {
            0 => [0; CHILDREN],
            _ => Meant.shares(charge, children),
        }
    }
}

struct Far(fn(f64) -> bool);
impl Rule for Far {
    fn refuses_distance(&self, distance: f64) -> bool {
        (self.0)(distance)
    }

    fn least(&self, distance: f64) -> u64 {
        quotient(distance)
    }
}

/// The kilometres as they are meant, also of any distance, but not so many that a charge overflows.
fn quotient(distance: f64) -> u64 {
    ((distance / 1000.0).ceil() as u64).min(2000)
}

/// Whether dx and dy pass, in place of the distance.
struct Offset(fn(Pair) -> bool);
impl Rule for Offset {
    fn refuses(&self, stop: &Stop) -> bool {
        Meant.refuses_rate(stop.rate)
            || Meant.refuses_children(stop.children)
            || (self.0)(stop.offset)
    }

    fn least(&self, distance: f64) -> u64 {
        quotient(distance)
    }
}

/// Where this holds it is free, and nothing is looked at.
struct AtOnce(fn(&Stop) -> bool);
impl Rule for AtOnce {
    fn answer(&self, stop: &Stop) -> ChargeAnswer {
        match (self.0)(stop) {
            true => ChargeAnswer {
                number: 0,
                charge: 0,
                shares: [0; CHILDREN],
            },
            false => Meant.answer(stop),
        }
    }
}

struct TwentyNine;
impl Rule for TwentyNine {
    fn refused(&self, stop: &Stop) -> ChargeAnswer {
        ChargeAnswer {
            number: NEAREST_INPUT,
            ..Meant.refused(stop)
        }
    }
}

/// What a refusal leaves, of the charge and the shares that it would have been.
struct Kept(fn(u64, Shares) -> (u64, Shares));
impl Rule for Kept {
    fn refused(&self, stop: &Stop) -> ChargeAnswer {
        let k = quotient(Meant.distance(stop.offset));
        let worked_out = k.wrapping_mul(stop.rate);
        let shared = quotients(worked_out, stop.children.max(1));
        let (charge, shares) = (self.0)(worked_out, shared);
        ChargeAnswer {
            number: CHARGE_INPUT,
            charge,
            shares,
        }
    }
}
