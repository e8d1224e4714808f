//! The readings of 02's area of use, tried on `area.rs`.

use oracle::area::{AREA_EDGES, AreaLine, Meant, OUTSIDE_AREA, Rule, WIDEST};
use oracle::area_cases::area_cases;
use oracle::areas::{Areas, SHAPES};
use oracle::cases::line;
use oracle::expected::answer;
use oracle::line::{KINDS, LON0, U, V, WAYS};
use oracle::lines::{Lines, SORTS};
use oracle::patterns::Patterns;
use oracle::sheet::{NAMES, answers};
use oracle::source::fixed::parts::normalize_longitude;

/// The cases of a reading get the numbers that it says.
fn reading(number: usize) {
    let cases = area_cases();
    let mut of_reading = cases
        .iter()
        .filter(|case| case.reading == number)
        .peekable();
    assert!(of_reading.peek().is_some());
    for case in of_reading {
        let text = case.question.text();
        assert_eq!(Meant.answer(&case.question).number, case.number, "{text}");
    }
}

#[test]
fn the_place_is_normalised_and_the_edges_are_not() {
    reading(1);
    assert_eq!(normalize_longitude(0.1).to_bits(), 0x3fb9_9999_9999_99a0);
    assert!(normalize_longitude(0.3) < 0.3);
}

/// So an edge that was normalised stays as it is.
#[test]
fn normalising_twice_changes_nothing() {
    let mut patterns = Patterns::new(1);
    for _ in 0..1_000_000 {
        let once = normalize_longitude(f64::from_bits(patterns.one()));
        let twice = normalize_longitude(once);
        assert!(once.is_nan() || once.to_bits() == twice.to_bits(), "{once}");
    }
}

#[test]
fn the_place_is_tested_and_not_its_distance_from_lon0() {
    reading(2);
}

#[test]
fn the_formula_gets_the_longitude_of_the_caller() {
    reading(3);
    let far = line(b"FE", &[(LON0, 1.0), (U, 1e300), (V, 0.5)]);
    let near = line(
        b"FE",
        &[(LON0, 1.0), (U, normalize_longitude(1e300)), (V, 0.5)],
    );
    let east = |line| f64::from_bits(answer(line).p);
    assert!((east(&far) - east(&near)).abs() > 0.5);
    let with = within_widest(far);
    assert_eq!(Meant.answer(&with), answer(&far));
}

/// What is neither 25 nor 26 is what the line gets without the area.
#[test]
fn a_place_inside_is_answered_as_before() {
    let mut inside = 0;
    each_line(|question| {
        let with = Meant.answer(question);
        if !matches!(with.number, AREA_EDGES | OUTSIDE_AREA) {
            assert_eq!(with, answer(&question.line), "{}", question.text());
            inside += 1;
        }
    });
    assert!(inside > 0);
}

#[test]
fn outside_stands_after_16_and_17_and_before_18_and_19() {
    reading(4);
}

#[test]
fn west_at_east_is_one_meridian() {
    reading(5);
}

#[test]
fn pi_and_minus_pi_are_two_numbers() {
    reading(6);
}

#[test]
fn zeros_are_one_number() {
    reading(7);
}

#[test]
fn edges_at_the_limits_pass() {
    reading(8);
}

#[test]
fn numbers_of_the_settings_come_before_25() {
    reading(9);
}

#[test]
fn an_area_handed_in_is_only_compared() {
    reading(10);
}

#[test]
fn an_inverse_tests_what_it_would_hand_out() {
    reading(11);
}

#[test]
fn between_the_pole_and_the_bound_is_outside() {
    reading(12);
}

#[test]
fn the_widest_area_holds_every_place() {
    for kind in KINDS {
        for way in WAYS {
            let mut lines = Lines::new(way, kind, 1);
            for place in 0..4000 {
                let line = lines.next(SORTS[place % SORTS.len()]);
                let with = within_widest(line);
                assert_eq!(Meant.answer(&with), answer(&line), "{}", line.text());
            }
        }
    }
}

/// A line of a sheet with four fields more is no line of a sheet.
#[test]
fn a_sheet_has_no_area() {
    let question = within_widest(line(b"FE", &[(U, 0.25), (V, 0.5)]));
    let text = question.text();
    let (_, longer) = text.split_once(',').expect("a name");
    let sheet = [NAMES, b"\n", longer.as_bytes()].concat();
    let refused = "code,p,q\n2,0000000000000000,0000000000000000\n";
    assert_eq!(answers(&sheet, answer), refused);
}

fn within_widest(line: oracle::line::Line) -> AreaLine {
    let (area, handed) = (WIDEST, false);
    AreaLine { line, area, handed }
}

/// Tries lines of every kind, way, sort and shape.
fn each_line(mut tried: impl FnMut(&AreaLine)) {
    for kind in KINDS {
        for way in WAYS {
            let mut areas = Areas::new(way, kind, 1);
            for place in 0..100 {
                for shape in SHAPES {
                    tried(&areas.next(SORTS[place % SORTS.len()], shape, place % 8 < 4));
                }
            }
        }
    }
}
