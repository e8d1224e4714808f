//! The clicks that crates/replay replays: of each kind that has a second inverse one of most shapes
//! that is answered and one that is off the map, one at each limit itself, and one for each other
//! number; of the other kinds one that has none and one that is refused; then 02's cases. Those without
//! an area come first.

use crate::area::{AREA_EDGES, OUTSIDE_AREA};
use crate::cases::numbers;
use crate::clicks::{Clicks, SHAPES, Shape, tested};
use crate::line::{KINDS as ALL, U, V};
use crate::lines::Sort;
use crate::on_map::{Click, Form, KINDS, Map, Meant, OFF_THE_MAP, Rule};
use crate::on_map_cases::on_map_cases;

/// So many clicks are tried for one.
const MOST: usize = 1_000_000;

/// The numbers that an area gives.
pub const OF_AREAS: [u8; 2] = [AREA_EDGES, OUTSIDE_AREA];

pub fn on_map_sample() -> Vec<(Click, &'static str)> {
    let cases = on_map_cases()
        .into_iter()
        .map(|case| (case.click, case.why));
    let drawn = ALL
        .iter()
        .flat_map(|&kind| drawn(kind))
        .map(|click| (click, ""));
    let all: Vec<_> = drawn.chain(cases).collect();
    let (within, without): (Vec<_>, Vec<_>) =
        all.into_iter().partition(|(click, _)| click.area.is_some());
    [without, within].concat()
}

fn drawn(kind: u8) -> Vec<Click> {
    let mut drawn = Drawn {
        clicks: Clicks::new(kind, 2),
        list: Vec::new(),
    };
    match KINDS.contains(&kind) {
        true => drawn.with_one(kind),
        false => drawn.without_one(),
    }
    drawn.list
}

/// Clicks that are drawn of one kind.
struct Drawn {
    clicks: Clicks,
    list: Vec<Click>,
}

impl Drawn {
    fn with_one(&mut self, kind: u8) {
        for shape in SHAPES {
            if !matches!(
                shape,
                Shape::Of(Sort::Realistic | Sort::Random | Sort::Sized)
            ) {
                self.draw(shape, |click| is_free(click) && gets(click, 0));
                self.draw(shape, |click| is_free(click) && gets(click, OFF_THE_MAP));
            }
        }
        for &limit in limits(kind) {
            self.draw(Shape::Limit, |click| {
                is_free(click) && gets(click, 0) && at_limit(click, limit)
            });
        }
        for number in numbers(b'I', kind) {
            let shape = match number {
                22 | 23 => Shape::Overflow,
                _ => Shape::Of(Sort::Edge),
            };
            self.draw(shape, |click| is_free(click) && gets(click, number));
        }
        for number in [0, OFF_THE_MAP].into_iter().chain(OF_AREAS) {
            self.draw(Shape::Limit, |click| {
                is_in_area(click) && gets(click, number)
            });
        }
    }

    fn without_one(&mut self) {
        let none = |click: &Click| Meant.answer(click).is_none();
        let edge = Shape::Of(Sort::Edge);
        self.draw(edge, |click| is_free(click) && none(click));
        self.draw(edge, |click| is_free(click) && !none(click));
    }

    /// A click of a shape that fits.
    fn draw(&mut self, shape: Shape, fits: impl Fn(&Click) -> bool) {
        let mut drawn = std::iter::repeat_with(|| self.clicks.next(shape)).take(MOST);
        let click = drawn.find(fits);
        self.list
            .push(click.unwrap_or_else(|| panic!("no {shape:?} fits")));
    }
}

fn is_free(click: &Click) -> bool {
    click.area.is_none()
}

/// Stored ones are built with it.
fn is_in_area(click: &Click) -> bool {
    click.area.is_some() && !click.handed
}

fn gets(click: &Click, number: u8) -> bool {
    Meant
        .answer(click)
        .is_some_and(|answer| answer.number == number)
}

/// The limits of a kind: the form of a Lambert, and the field along which it is met.
fn limits(kind: u8) -> &'static [(Option<Form>, usize)] {
    match kind {
        b'L' => &[
            (Some(Form::Oblique), U),
            (Some(Form::North), U),
            (Some(Form::South), U),
        ],
        b'S' => &[(Some(Form::Spherical), U)],
        _ => &[(None, U), (None, V)],
    }
}

/// Whether what is tested of an answered click is such a limit itself.
fn at_limit(click: &Click, (form, field): (Option<Form>, usize)) -> bool {
    let map = Meant.map(&click.line).expect("a second inverse");
    let [.., x, y] = click.line.fields;
    let (number, edge) = tested(&map, field, [x, y]);
    let of_form = match map {
        Map::Lambert(on) => Some(on.form),
        Map::EqualEarth(_) => None,
    };
    of_form == form && number == Meant.limit(edge)
}
