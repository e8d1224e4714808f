//! The readings of 02's second inverse, tried on `on_map.rs`.

use oracle::area::{OUTSIDE_AREA, WIDEST};
use oracle::clicks::{Clicks, SHAPES, shapes};
use oracle::expected::answer;
use oracle::fixed::{asin, atan2, clamp, cos, sin};
use oracle::line::{Answer, KINDS as ALL, Line, U, V};
use oracle::on_map::{
    Click, EqualEarth, Form, KINDS, Lambert, Map, Meant, OFF_THE_MAP, RIM, Rule, SIDE, TOP, share,
};
use oracle::on_map_cases::on_map_cases;
use oracle::on_map_sample::on_map_sample;
use oracle::ring::Pair;
use oracle::sheet::{NAMES, answers};
use oracle::source::fixed::parts::{authalic_latitude, authalic_q, e2, geodetic_from_authalic};
use oracle::sphere::{self, Rule as _};
use std::collections::BTreeSet;

/// The cases of a reading get the numbers that it says.
fn reading(number: usize) {
    let mut cases = on_map_cases();
    cases.retain(|case| case.reading == number);
    assert!(!cases.is_empty());
    for case in cases {
        let got = Meant.answer(&case.click).map(|answer| answer.number);
        assert_eq!(got, case.number, "{} {}", case.click.text(), case.why);
    }
}

/// Tries so many clicks of every kind that has a second inverse, and of every shape.
fn each_click(count: usize, mut tried: impl FnMut(&Click)) {
    for kind in KINDS {
        let mut clicks = Clicks::new(kind, 20);
        for place in 0..count {
            tried(&clicks.next(SHAPES[place % SHAPES.len()]));
        }
    }
}

#[test]
fn rho_is_the_one_that_the_inverse_forms() {
    reading(1);
}

#[test]
fn the_polar_quotient_is_q_over_the_poles_q() {
    reading(2);
}

#[test]
fn a_limit_passes_and_the_next_number_does_not() {
    reading(3);
}

#[test]
fn a_limit_is_summed_once() {
    let limits = [RIM, TOP, SIDE].map(|edge| Meant.limit(edge).to_bits());
    let said = [
        0x3ff0_0000_0000_1198,
        0x3ff5_13ea_f8f8_dbc3,
        0x4009_21fb_5444_35e4,
    ];
    assert_eq!(limits, said);
}

#[test]
fn the_centre_comes_first() {
    reading(4);
}

#[test]
fn the_longitude_is_from_the_origin() {
    reading(5);
}

#[test]
fn the_northing_comes_before_the_rounds_and_the_longitude_after() {
    reading(6);
}

#[test]
fn infinity_is_above_and_nan_is_not() {
    reading(7);
}

#[test]
fn the_area_of_use_is_asked_last() {
    reading(8);
}

#[test]
fn other_kinds_have_none() {
    reading(9);
}

#[test]
fn the_order_is_the_lists() {
    reading(0);
}

fn point(line: &Line) -> Pair {
    let [.., x, y] = line.fields;
    [x, y]
}

/// What is tested is what the inverse goes on with: from there on, its formulas answer as the source.
#[test]
fn the_numbers_are_the_inverses_own() {
    each_click(330_000, |click| {
        let line = &click.line;
        let first = answer(line);
        if !matches!(first.number, 0 | 22 | 23) {
            return;
        }
        let finished = match Meant.map(line).expect("a second inverse") {
            Map::Lambert(on) => lambert(line, &on),
            Map::EqualEarth(on) => equal_earth(line, &on),
        };
        assert_eq!(finished, first, "{}", line.text());
    });
}

fn lambert(line: &Line, on: &Lambert) -> Answer {
    let [a, f, lon0, lat0, ..] = line.fields;
    let [x, y] = point(line);
    let (dx, dy, e2) = (x - on.fe, y - on.fn_, e2(a, f));
    let rho = Meant.rho(on, [x, y]);
    let polar = matches!(on.form, Form::North | Form::South);
    let (lon, lat) = match (Meant.at_centre(rho), on.form) {
        (true, _) if polar => (lon0, geodetic_from_authalic(lat0, e2)),
        (true, _) => (lon0, lat0),
        (_, Form::North) => (lon0 + atan2(dx, -dy), polar_latitude(on, rho, e2)),
        (_, Form::South) => (lon0 + atan2(dx, dy), polar_latitude(on, rho, e2)),
        (_, Form::Spherical) => {
            let (angle, lat) = from_centre(on, rho, [dx, dy], lat0, 1.0);
            (lon0 + angle, lat)
        }
        (_, Form::Oblique) => {
            let beta0 = authalic_latitude(authalic_q(lat0, e2), on.q_p);
            let (angle, beta) = from_centre(on, rho, [dx, dy], beta0, on.d);
            (lon0 + angle, geodetic_from_authalic(beta, e2))
        }
    };
    sphere::Meant.place(lon, lat)
}

fn polar_latitude(on: &Lambert, rho: f64, e2: f64) -> f64 {
    let beta = asin(clamp(Meant.polar_quotient(on, rho), -1.0, 1.0));
    geodetic_from_authalic(beta, e2)
}

/// The longitude from the origin and the latitude on the sphere. A d of 1 changes nothing.
fn from_centre(on: &Lambert, rho: f64, [dx, dy]: Pair, lat0: f64, d: f64) -> (f64, f64) {
    let c = 2.0 * asin(clamp(Meant.quotient(on, rho), -1.0, 1.0));
    let (sin_c, cos_c, sin_0, cos_0) = (sin(c), cos(c), sin(lat0), cos(lat0));
    let sine = cos_c * sin_0 + d * dy * sin_c * cos_0 / rho;
    let angle = atan2(
        dx * sin_c,
        d * rho * cos_0 * cos_c - d * d * dy * sin_0 * sin_c,
    );
    (angle, asin(clamp(sine, -1.0, 1.0)))
}

fn equal_earth(line: &Line, on: &EqualEarth) -> Answer {
    let ([a, f, lon0, ..], [x, y]) = (line.fields, point(line));
    let Some(psi) = Meant.psi(Meant.clamped(Meant.northing(on, y))) else {
        return Answer::refused(22);
    };
    let beta = asin(clamp(sin(psi) / share(), -1.0, 1.0));
    let lat = match e2(a, f) {
        0.0 => beta,
        e2 => geodetic_from_authalic(beta, e2),
    };
    sphere::Meant.place(lon0 + Meant.longitude(on, x, psi), lat)
}

/// "Elsewhere both agree", and where they do not the first has answered, or has given 23 or 26.
#[test]
fn elsewhere_both_agree() {
    let mut others = BTreeSet::new();
    each_click(330_000, |click| {
        let (first, second) = (
            click.first(),
            Meant.answer(click).expect("a second inverse"),
        );
        if second.number == OFF_THE_MAP {
            others.insert(first.number);
            assert_eq!(second, Answer::refused(OFF_THE_MAP));
        } else {
            assert_eq!(second, first, "{}", click.text());
        }
    });
    assert_eq!(others, BTreeSet::from([0, 23, OUTSIDE_AREA]));
}

/// So whether 30 stands before 22 or after it cannot be told: the rounds are used up by NaN alone.
#[test]
fn what_is_used_up_is_not_above() {
    let mut used_up = 0;
    each_click(330_000, |click| {
        if answer(&click.line).number == 22 {
            let Some(Map::EqualEarth(on)) = Meant.map(&click.line) else {
                panic!("22 of another kind");
            };
            let [_, y] = point(&click.line);
            assert!(Meant.northing(&on, y).is_nan(), "{}", click.text());
            used_up += 1;
        }
    });
    assert!(used_up > 0);
}

/// Between an edge and its limit the second answers what the first does, by the clamp the edge's own
/// latitude.
#[test]
fn between_the_edge_and_the_limit_is_the_edge() {
    for y in [TOP, -TOP] {
        let on_edge = oracle::cases::line(b"IE", &[(U, 0.3), (V, y)]);
        let mut beyond = on_edge;
        beyond.fields[V] = y + 5e-13 * y.signum();
        let both = [on_edge, beyond].map(|line| Meant.answer(&Click::new(line)));
        assert_eq!(both, [Some(answer(&on_edge)); 2]);
    }
}

/// And nothing else: a kind that has none gives its projection's own number where that is refused.
#[test]
fn a_kind_that_has_none_answers_refusals_alone() {
    for kind in ALL.into_iter().filter(|kind| !KINDS.contains(kind)) {
        let mut clicks = Clicks::new(kind, 21);
        let mut missing = 0;
        for place in 0..20_000 {
            let click = clicks.next(shapes(kind)[place % shapes(kind).len()]);
            let refused = click.build().err().map(Answer::refused);
            assert_eq!(Meant.answer(&click), refused, "{}", click.text());
            missing += usize::from(refused.is_none());
        }
        assert!(missing > 0);
    }
}

#[test]
fn the_widest_area_changes_nothing() {
    each_click(110_000, |click| {
        let without = Click::new(click.line);
        let mut within = without;
        within.area = Some(WIDEST);
        let both = [without, within].map(|click| Meant.answer(&click));
        assert_eq!(both[0], both[1], "{}", click.text());
    });
}

/// On a sheet I is the first inverse.
#[test]
fn a_sheet_answers_off_the_map() {
    let mut off = 0;
    for case in on_map_cases()
        .iter()
        .filter(|case| case.number == Some(OFF_THE_MAP))
    {
        let line = &case.click.line;
        let sheet = [NAMES, b"\n", line.text().as_bytes()].concat();
        let said = format!("code,p,q\n{}\n", answer(line).text());
        assert_eq!(answers(&sheet, answer), said);
        off += usize::from(answer(line).number == 0);
    }
    assert!(off > 0);
}

#[test]
fn a_click_is_read_as_it_is_written() {
    each_click(1000, |click| {
        let text = click.text();
        let read = Click::read(&text).expect("a click");
        assert_eq!(read.text(), text);
        assert_eq!(Meant.answer(&read), Meant.answer(click), "{text}");
        let longer = format!("{text},{:016x}", 0);
        let forward = text.replacen(",I,", ",F,", 1);
        for other in [&text[1..], &text[..text.len() - 17], &longer, &forward] {
            assert!(Click::read(other).is_none(), "{other}");
        }
    });
}

/// Those with an area stand together, after the others.
#[test]
fn the_sample_stands_in_its_order() {
    let sample = on_map_sample();
    let within: Vec<bool> = sample
        .iter()
        .map(|(click, _)| click.area.is_some())
        .collect();
    assert!(within.is_sorted());
    assert!(sample.iter().all(|(click, _)| !click.handed));
    assert!((150..=250).contains(&sample.len()), "{}", sample.len());
}
