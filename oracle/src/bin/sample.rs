//! Writes the answers that crates/replay replays, of 01's functions, of the source with these, and of
//! 02: of functions, of the ellipsoid's numbers, constructors and names, of value lines of each kind,
//! with Albers on a sphere and its rounds, of such lines with an area of use, of rings, of nearest
//! schools, of Albers inverses with numbers handed in, of the second inverse, and of travel charges.

use oracle::area::{self, Rule as _};
use oracle::area_sample::area_sample;
use oracle::cases::{cases, numbers};
use oracle::charge::{self, Rule as _};
use oracle::charge_sample::charge_sample;
use oracle::ellipsoids::{CONSTRUCTORS, Constructor, NAMED, named_arguments};
use oracle::expected::answer;
use oracle::functions::{Arguments, ELLIPSOID, FUNCTIONS, Function, Takes};
use oracle::line::{KINDS, Line, WAYS};
use oracle::lines::{Lines, Sort};
use oracle::nearest::{self, Rule as _};
use oracle::nearest_sample::nearest_sample;
use oracle::on_map::{self, Rule as _};
use oracle::on_map_sample::on_map_sample;
use oracle::patterns::{Patterns, SPECIALS, edge_arguments};
use oracle::ring::{self, Rule as _};
use oracle::ring_sample::ring_sample;
use oracle::round_sample::{round_lines, round_sample};
use oracle::sharp::sharp;
use oracle::source::fixed::parts::axes;
use oracle::sphere_sample::sphere_sample;
use oracle::stored::{Stored, question};

/// So many lines are tried for a number.
const MOST: usize = 1_000_000;

fn main() {
    let ways = KINDS.iter().flat_map(|&kind| WAYS.map(|way| (way, kind)));
    let stored = FUNCTIONS
        .iter()
        .chain(&ELLIPSOID)
        .flat_map(of_function)
        .chain(CONSTRUCTORS.iter().flat_map(of_constructor))
        .chain(named())
        .chain(ways.flat_map(|(way, kind)| of_kind(way, kind)))
        .chain(with_area())
        .chain(rings())
        .chain(nearest_schools())
        .chain(handed_in())
        .chain(clicks())
        .chain(travel_charges());
    for line in stored {
        println!("{line}");
    }
}

fn of_function(function: &Function) -> Vec<Stored> {
    let count = function.takes.count();
    let stored = |(arguments, why): (Arguments, _)| Stored {
        question: question(function.name, &arguments[..count]),
        answer: format!("{:016x}", (function.expected)(arguments)),
        why,
    };
    chosen(function).into_iter().map(stored).collect()
}

fn of_constructor(constructor: &Constructor) -> Vec<Stored> {
    let count = constructor.takes.count();
    let stored = |arguments: Arguments| Stored {
        question: question(constructor.name, &arguments[..count]),
        answer: (constructor.built)(arguments).text(),
        why: "",
    };
    let mut list = constructor.edge_arguments();
    let mut patterns = Patterns::new(2);
    list.resize_with(lines_of(constructor.takes), || {
        patterns.arguments(constructor.takes)
    });
    list.into_iter().map(stored).collect()
}

fn named() -> impl Iterator<Item = Stored> {
    NAMED.into_iter().map(|(name, ellipsoid)| Stored {
        question: name.to_owned(),
        answer: axes(ellipsoid).text(),
        why: "",
    })
}

fn of_kind(way: u8, kind: u8) -> Vec<Stored> {
    let others = lines(way, kind).into_iter().map(|line| (line, ""));
    let sharp = sharp()
        .into_iter()
        .filter(|(line, _)| (line.way, line.kind) == (way, kind));
    let of_02 = match [way, kind] {
        [b'I', b'A'] => [sphere_sample(way), round_lines()].concat(),
        [_, b'A'] => sphere_sample(way),
        _ => Vec::new(),
    };
    let stored = |(line, why): (Line, _)| Stored {
        question: line.text(),
        answer: answer(&line).text(),
        why,
    };
    others.chain(sharp).chain(of_02).map(stored).collect()
}

fn with_area() -> impl Iterator<Item = Stored> {
    area_sample().into_iter().map(|(question, why)| Stored {
        question: question.text(),
        answer: area::Meant.answer(&question).text(),
        why,
    })
}

fn rings() -> impl Iterator<Item = Stored> {
    ring_sample().into_iter().map(|(question, why)| Stored {
        question: question.text(),
        answer: ring::Meant.answer(&question).text(),
        why,
    })
}

fn nearest_schools() -> impl Iterator<Item = Stored> {
    nearest_sample().into_iter().map(|(question, why)| Stored {
        question: question.text(),
        answer: nearest::Meant.answer(&question).text(),
        why,
    })
}

fn handed_in() -> impl Iterator<Item = Stored> {
    round_sample().into_iter().map(|(question, why)| Stored {
        question: question.text(),
        answer: question.expected().text(),
        why,
    })
}

fn clicks() -> impl Iterator<Item = Stored> {
    on_map_sample().into_iter().map(|(click, why)| Stored {
        question: click.text(),
        answer: on_map::text(on_map::Meant.answer(&click)),
        why,
    })
}

fn travel_charges() -> impl Iterator<Item = Stored> {
    charge_sample().into_iter().map(|(stop, why)| Stored {
        question: stop.text(),
        answer: charge::Meant.answer(&stop).text(),
        why,
    })
}

/// The named ellipsoids, the edges of one argument and the specials of two, and then random patterns
/// up to a round number.
fn chosen(function: &Function) -> Vec<(Arguments, &'static str)> {
    let takes = function.takes;
    let mut list = match takes {
        Takes::Ellipsoid(count) => named_arguments(count),
        _ => Vec::new(),
    };
    let edges = match takes.count() {
        1 => edge_arguments(takes),
        2 => special_pairs(takes),
        _ => Vec::new(),
    };
    list.extend(edges.into_iter().map(|arguments| (arguments, "")));
    let mut patterns = Patterns::new(2);
    list.resize_with(lines_of(takes), || (patterns.arguments(takes), ""));
    list
}

/// So many lines are stored of a function.
fn lines_of(takes: Takes) -> usize {
    match takes {
        Takes::Ellipsoid(count) => 40 * count,
        Takes::Any(1) => 160,
        _ => 320,
    }
}

fn special_pairs(takes: Takes) -> Vec<Arguments> {
    let pairs = |a| SPECIALS.map(|b| [a, b, 0, 0]);
    let all = SPECIALS.into_iter().flat_map(pairs);
    all.filter(|pair| takes.admits(pair)).collect()
}

/// The cases of 01 and READINGS, lines that are answered, and some for each number that the kind
/// can give, that way.
fn lines(way: u8, kind: u8) -> Vec<Line> {
    let of_kind = |line: &Line| (line.way, line.kind) == (way, kind);
    let mut chosen: Vec<Line> = cases()
        .into_iter()
        .map(|(line, _)| line)
        .filter(of_kind)
        .collect();
    let mut lines = Lines::new(way, kind, 2);
    for (sort, count) in [
        (Sort::Realistic, 24),
        (Sort::Edge, 36),
        (Sort::Random, 4),
        (Sort::Sized, 8),
    ] {
        let drawn = std::iter::repeat_with(|| lines.next(sort));
        chosen.extend(drawn.filter(|line| answer(line).number == 0).take(count));
    }
    for number in numbers(way, kind) {
        let mut sorts = [Sort::Edge, Sort::Random].into_iter().cycle();
        let drawn = std::iter::repeat_with(|| lines.next(sorts.next().expect("endless")));
        let given = drawn
            .take(MOST)
            .filter(|line| answer(line).number == number);
        let before = chosen.len();
        chosen.extend(given.take(3));
        assert_eq!(chosen.len(), before + 3, "{number} was not met");
    }
    chosen
}
