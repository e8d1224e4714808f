//! The readings of 02's Albers on a sphere, tried on `sphere.rs` and on what is expected.

use oracle::expected::{Projection, answer, on_sphere};
use oracle::fixed::{cos, sin};
use oracle::line::{Answer, F, KINDS, LAT1, Line, WAYS};
use oracle::lines::{Lines, SORTS};
use oracle::source::fixed::door;
use oracle::sphere::{Meant, Numbers, Rule, Sphere};
use oracle::sphere_cases::{SphereCase, sphere_cases};
use oracle::spheres::{SHAPES, Spheres};
use std::collections::BTreeSet;
use std::f64::consts::{FRAC_PI_2, PI};

/// The cases of a reading, which get the numbers that it says.
fn reading(number: usize) -> Vec<SphereCase> {
    let mut cases = sphere_cases();
    cases.retain(|case| case.reading == number);
    assert!(!cases.is_empty());
    for case in &cases {
        let text = case.line.text();
        assert_eq!(answer(&case.line).number, case.number, "{text}");
    }
    cases
}

/// Tries so many lines on a sphere, each way, of every shape.
fn each_line(count: usize, mut tried: impl FnMut(&Line)) {
    for way in WAYS {
        let mut spheres = Spheres::new(way, 1);
        for place in 0..count {
            tried(&spheres.next(SHAPES[place % SHAPES.len()]));
        }
    }
}

fn with_f(line: &Line, f: f64) -> Line {
    let mut line = *line;
    line.fields[F] = f;
    line
}

#[test]
fn an_e2_of_0_alone_is_a_sphere() {
    let cases = reading(1);
    let forward = cases[0].line;
    let northing = |f| f64::from_bits(answer(&with_f(&forward, f)).q);
    assert_eq!(format!("{:.3}", northing(0.0)), "653703.264");
    assert_eq!(format!("{:.3}", northing(1e-20)), "653704.089");
    for case in &cases {
        for f in [5e-324, 1e-20, 1e-16, 1.0 / 300.0] {
            let line = with_f(&case.line, f);
            assert_eq!(answer(&line), door::answer(&line), "{}", line.text());
        }
    }
}

#[test]
fn minus_zero_is_a_sphere() {
    each_line(100_000, |line| {
        let zeros = [0.0, -0.0].map(|f| answer(&with_f(line, f)));
        assert_eq!(zeros[0], zeros[1], "{}", line.text());
    });
}

/// The seven digits that Snyder prints, and his place on the way back.
#[test]
fn the_formulas_are_snyders() {
    let cases = reading(2);
    let [forward, inverse] = [&cases[0], &cases[1]].map(|case| {
        let answer = answer(&case.line);
        [answer.p, answer.q].map(f64::from_bits)
    });
    assert_eq!(
        forward.map(|x| format!("{x:.7}")),
        ["0.2952720", "0.2416774"]
    );
    let degrees = inverse.map(|x| format!("{:.12}", x.to_degrees()));
    assert_eq!(degrees, ["-75.000000000000", "35.000000000000"]);
}

/// The bits of C are the same.
#[test]
fn the_product_of_c_may_be_grouped() {
    each_line(100_000, |line| {
        if let Ok(Projection::Sphere(Sphere { n, c, .. })) = Projection::new(b'A', &line.fields) {
            let (s, cos) = (sin(line.fields[LAT1]), cos(line.fields[LAT1]));
            let products = [(2.0 * n) * s, 2.0 * (n * s), n * (2.0 * s)];
            let all = products.map(|product| cos * cos + product);
            assert_eq!(all.map(f64::to_bits), [c.to_bits(); 3], "{}", line.text());
        }
    });
}

#[test]
fn parallels_are_one_below_the_tolerance() {
    reading(3);
}

#[test]
fn a_small_n_is_refused() {
    reading(4);
}

#[test]
fn an_arcsine_beyond_1_is_refused() {
    reading(5);
}

/// Neither 22 nor 24, and what is answered lies on the map.
#[test]
fn an_inverse_answers_or_gets_23() {
    let mut numbers = BTreeSet::new();
    each_line(200_000, |line| {
        let Answer { number, p, q } = answer(line);
        let [lon, lat] = [p, q].map(f64::from_bits);
        if line.way == b'I' {
            assert!(lon.abs() <= PI && lat.abs() <= FRAC_PI_2, "{}", line.text());
            numbers.insert(number);
        }
    });
    assert_eq!(numbers, BTreeSet::from([0, 4, 6, 7, 8, 9, 10, 15, 20, 23]));
}

#[test]
fn the_inverse_is_as_on_the_ellipsoid() {
    reading(6);
}

/// Its numbers, with any e2 and the root of that.
fn with_e2(on: &Sphere, e2: f64) -> Numbers {
    Sphere { e2, ..*on }.numbers(e2.sqrt())
}

#[test]
fn one_that_is_handed_in_goes_by_its_own_e2() {
    let mut others = 0;
    each_line(20_000, |line| {
        let Ok(Projection::Sphere(on)) = Projection::new(b'A', &line.fields) else {
            return;
        };
        let [.., u, v] = line.fields;
        let by = |e2| Projection::albers(&with_e2(&on, e2)).project(line.way, u, v);
        let on_sphere = Meant.project(&on, line.way, u, v);
        assert_eq!([by(0.0), by(-0.0)], [on_sphere; 2], "{}", line.text());
        for e2 in [5e-324, 1e-20, 1.0 / 150.0] {
            let by_source = door::Projection::albers(&with_e2(&on, e2)).project(line.way, u, v);
            assert_eq!(by(e2), by_source, "{}", line.text());
            others += usize::from(by_source != on_sphere);
        }
    });
    assert!(others > 0);
}

/// The building comes before the point.
#[test]
fn what_the_source_refuses_on_a_sphere_becomes() {
    reading(8);
    let mut pairs = BTreeSet::new();
    each_line(200_000, |line| {
        let numbers = [door::answer(line).number, answer(line).number];
        if numbers[0] != numbers[1] {
            pairs.insert((numbers[0], numbers[1]));
        }
    });
    let known = [
        (16, 15),
        (17, 15),
        (19, 0),
        (19, 15),
        (20, 15),
        (22, 0),
        (22, 15),
        (22, 23),
    ];
    assert_eq!(pairs, BTreeSet::from(known));
}

/// "No point that a built projection answered before changes."
#[test]
fn elsewhere_all_is_the_sources() {
    for kind in KINDS {
        for way in WAYS {
            let mut lines = Lines::new(way, kind, 1);
            for place in 0..20_000 {
                let line = lines.next(SORTS[place % SORTS.len()]);
                let by_source = door::answer(&line);
                match on_sphere(&line) {
                    true => assert_ne!(by_source.number, 0, "{}", line.text()),
                    false => assert_eq!(answer(&line), by_source, "{}", line.text()),
                }
            }
        }
    }
}
