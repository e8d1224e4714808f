//! Wrong readings of 02's area of use: each gives another answer to a line that crates/replay has
//! stored, and to one that `areas` draws.

use oracle::area::{
    AREA_EDGES, Area, AreaLine, BOUND, EAST, Meant, NORTH, OUTSIDE_AREA, Rule, SOUTH, WEST, WIDEST,
};
use oracle::areas::{Areas, CAUSES, SHAPES, refused_by};
use oracle::expected::Projection;
use oracle::line::{Answer, KINDS, LON0, WAYS};
use oracle::lines::SORTS;
use oracle::source::fixed::parts::normalize_longitude;
use oracle::stored;
use std::f64::consts::{FRAC_PI_2, PI};

const WRONG: [(&str, &dyn Rule); 28] = [
    ("the edges are normalised too", &EdgesNormalised),
    ("the place is not normalised", &PlaceAsGiven),
    ("the distance from lon0 is tested", &DistanceFromOrigin),
    (
        "the formula gets the normalised longitude",
        &FormulaNormalised,
    ),
    ("26 after 18 and 19", &AfterFormula),
    ("26 before 16 and 17", &BeforeInput),
    ("26 before 20 to 24", &RefusalTested),
    ("an inverse is not tested", &InverseUntested),
    ("west at east crosses", &MeridianCrosses),
    (
        "crossing where west is not at most east",
        &CrossingUnlessOrdered,
    ),
    ("what crosses holds none", &CrossingHoldsNone),
    ("PI and -PI are one", &HalfTurnsAlike),
    ("-0 is less than +0 where it crosses", &ZerosCross),
    ("-0 is less than +0 at an edge", &ZerosOutside),
    ("-0 is less than +0 in 25", &ZerosRefused),
    ("west is outside", &EdgeOutside(WEST)),
    ("east is outside", &EdgeOutside(EAST)),
    ("south is outside", &EdgeOutside(SOUTH)),
    ("north is outside", &EdgeOutside(NORTH)),
    ("the latitude is brought to the pole", &BroughtToPole),
    ("25 at PI and at the bound", &LimitsRefused),
    ("25 beyond the pole", &BeyondPoleRefused),
    ("25 only from a step further on", &StepBeyondPasses),
    ("25 where south is north", &ParallelRefused),
    ("25 where west is above east", &CrossingRefused),
    ("25 before the kind's own numbers", &RefusedFirst),
    ("25 after 16, 17 and 20", &RefusedAtThePoint),
    ("25 for an area that is handed in", &HandedInChecked),
];

#[test]
fn a_stored_line_notices() {
    let stored = stored();
    assert_eq!(noticing(&stored, &Meant), 0);
    for (name, rule) in WRONG {
        let lines = noticing(&stored, rule);
        println!("{lines} lines notice: {name}");
        assert!(lines > 0, "{name}");
    }
}

#[test]
fn a_stored_line_has_each_cause_of_25() {
    let stored = stored();
    for cause in 0..CAUSES {
        let lines = noticing(&stored, &CausePasses(cause));
        assert!(lines > 0, "{:?}", refused_by(cause, WIDEST));
    }
}

/// How many of the lines a rule answers otherwise.
fn noticing(stored: &[(AreaLine, String)], rule: &dyn Rule) -> usize {
    let other = |(question, answer): &&(AreaLine, String)| rule.answer(question).text() != *answer;
    stored.iter().filter(other).count()
}

/// The stored lines that have an area.
fn stored() -> Vec<(AreaLine, String)> {
    stored::read(&["area,", "handed,"], AreaLine::read)
}

#[test]
fn a_drawn_line_notices() {
    let mut unnoticed = WRONG.to_vec();
    for place in 0..2000 {
        for kind in KINDS {
            for way in WAYS {
                let mut areas = Areas::new(way, kind, 100 + place);
                for shape in SHAPES {
                    let sort = SORTS[place as usize % SORTS.len()];
                    let question = areas.next(sort, shape, place % 8 < 4);
                    let meant = Meant.answer(&question);
                    unnoticed.retain(|(_, rule)| rule.answer(&question) == meant);
                }
            }
        }
    }
    let names: Vec<_> = unnoticed.iter().map(|(name, _)| name).collect();
    assert!(names.is_empty(), "{names:?}");
}

struct EdgesNormalised;
impl Rule for EdgesNormalised {
    fn holds(&self, question: &AreaLine, lon: f64, lat: f64) -> bool {
        let mut other = *question;
        for edge in &mut other.area[..2] {
            *edge = normalize_longitude(*edge);
        }
        Meant.holds(&other, lon, lat)
    }
}

struct PlaceAsGiven;
impl Rule for PlaceAsGiven {
    fn tested(&self, lon: f64) -> f64 {
        lon
    }
}

struct DistanceFromOrigin;
impl Rule for DistanceFromOrigin {
    fn holds(&self, question: &AreaLine, lon: f64, lat: f64) -> bool {
        Meant.holds(question, lon - question.line.fields[LON0], lat)
    }
}

struct FormulaNormalised;
impl Rule for FormulaNormalised {
    fn forward(&self, built: &Projection, question: &AreaLine) -> Answer {
        let [.., lon, lat] = question.line.fields;
        Meant.forward(built, &question.at(normalize_longitude(lon), lat))
    }
}

struct AfterFormula;
impl Rule for AfterFormula {
    fn forward(&self, built: &Projection, question: &AreaLine) -> Answer {
        let [.., lon, lat] = question.line.fields;
        match built.project(b'F', lon, lat) {
            Answer { number: 0, .. } => Meant.forward(built, question),
            refused => refused,
        }
    }
}

struct BeforeInput;
impl Rule for BeforeInput {
    fn forward(&self, built: &Projection, question: &AreaLine) -> Answer {
        let [.., lon, lat] = question.line.fields;
        match self.holds(question, lon, lat) {
            true => Meant.forward(built, question),
            false => Answer::refused(OUTSIDE_AREA),
        }
    }
}

/// The results of a refused inverse, which are +0, taken for a place.
struct RefusalTested;
impl Rule for RefusalTested {
    fn inverse(&self, built: &Projection, question: &AreaLine) -> Answer {
        match Meant.inverse(built, question) {
            refused if refused.number != 0 && !self.holds(question, 0.0, 0.0) => {
                Answer::refused(OUTSIDE_AREA)
            }
            answer => answer,
        }
    }
}

struct InverseUntested;
impl Rule for InverseUntested {
    fn inverse(&self, built: &Projection, question: &AreaLine) -> Answer {
        let [.., x, y] = question.line.fields;
        built.project(b'I', x, y)
    }
}

struct MeridianCrosses;
impl Rule for MeridianCrosses {
    fn crosses(&self, [west, east, ..]: &Area) -> bool {
        west >= east
    }
}

struct CrossingUnlessOrdered;
impl Rule for CrossingUnlessOrdered {
    #[allow(clippy::neg_cmp_op_on_partial_ord)]
    fn crosses(&self, [west, east, ..]: &Area) -> bool {
        !(west <= east)
    }
}

struct CrossingHoldsNone;
impl Rule for CrossingHoldsNone {
    fn crosses(&self, _: &Area) -> bool {
        false
    }
}

struct HalfTurnsAlike;
impl Rule for HalfTurnsAlike {
    fn tested(&self, lon: f64) -> f64 {
        match normalize_longitude(lon) {
            half if half == -PI => PI,
            other => other,
        }
    }
}

struct ZerosCross;
impl Rule for ZerosCross {
    fn crosses(&self, [west, east, ..]: &Area) -> bool {
        west > east || west == east && west.total_cmp(east).is_gt()
    }
}

struct ZerosOutside;
impl Rule for ZerosOutside {
    fn holds(&self, question: &AreaLine, lon: f64, lat: f64) -> bool {
        let [west, east, south, north] = question.area;
        let lon = normalize_longitude(lon);
        let below = |one: f64, other: f64| one == other && one.total_cmp(&other).is_lt();
        let outside =
            below(lon, west) || below(east, lon) || below(lat, south) || below(north, lat);
        Meant.holds(question, lon, lat) && !outside
    }
}

struct ZerosRefused;
impl Rule for ZerosRefused {
    fn refuses(&self, area: &Area) -> bool {
        Meant.refuses(area) || area[SOUTH].total_cmp(&area[NORTH]).is_gt()
    }
}

struct EdgeOutside(usize);
impl Rule for EdgeOutside {
    fn holds(&self, question: &AreaLine, lon: f64, lat: f64) -> bool {
        let place = [normalize_longitude(lon), lat][self.0 / 2];
        Meant.holds(question, lon, lat) && place != question.area[self.0]
    }
}

struct BroughtToPole;
impl Rule for BroughtToPole {
    fn holds(&self, question: &AreaLine, lon: f64, lat: f64) -> bool {
        Meant.holds(question, lon, lat.clamp(-FRAC_PI_2, FRAC_PI_2))
    }
}

struct LimitsRefused;
impl Rule for LimitsRefused {
    fn refuses(&self, area: &Area) -> bool {
        let [west, east, south, north] = area.map(f64::abs);
        Meant.refuses(area) || west == PI || east == PI || south == BOUND || north == BOUND
    }
}

struct BeyondPoleRefused;
impl Rule for BeyondPoleRefused {
    fn refuses(&self, area: &Area) -> bool {
        let [.., south, north] = area.map(f64::abs);
        Meant.refuses(area) || south > FRAC_PI_2 || north > FRAC_PI_2
    }
}

struct StepBeyondPasses;
impl Rule for StepBeyondPasses {
    fn refuses(&self, area: &Area) -> bool {
        let within = |edge: f64, limit: f64| {
            if edge.abs() == limit.next_up() {
                limit
            } else {
                edge
            }
        };
        let [west, east, south, north] = *area;
        let [west, east] = [west, east].map(|edge| within(edge, PI));
        let [south, north] = [south, north].map(|edge| within(edge, BOUND));
        Meant.refuses(&[west, east, south, north])
    }
}

struct ParallelRefused;
impl Rule for ParallelRefused {
    fn refuses(&self, area: &Area) -> bool {
        Meant.refuses(area) || area[SOUTH] == area[NORTH]
    }
}

struct CrossingRefused;
impl Rule for CrossingRefused {
    fn refuses(&self, area: &Area) -> bool {
        Meant.refuses(area) || area[WEST] > area[EAST]
    }
}

struct RefusedFirst;
impl Rule for RefusedFirst {
    fn build(&self, question: &AreaLine) -> Result<Projection, u8> {
        match !question.handed && self.refuses(&question.area) {
            true => Err(AREA_EDGES),
            false => Meant.build(question),
        }
    }
}

struct RefusedAtThePoint;
impl Rule for RefusedAtThePoint {
    fn answer(&self, question: &AreaLine) -> Answer {
        let mut other = *question;
        other.handed = true;
        match Meant.answer(&other) {
            input if matches!(input.number, 16 | 17 | 20) => input,
            _ => Meant.answer(question),
        }
    }
}

struct HandedInChecked;
impl Rule for HandedInChecked {
    fn build(&self, question: &AreaLine) -> Result<Projection, u8> {
        let mut other = *question;
        other.handed = false;
        Meant.build(&other)
    }
}

/// One cause of 25 left out.
struct CausePasses(usize);
impl Rule for CausePasses {
    fn refuses(&self, area: &Area) -> bool {
        let of_cause = refused_by(self.0, *area).map(f64::to_bits) == area.map(f64::to_bits);
        Meant.refuses(area) && !of_cause
    }
}
