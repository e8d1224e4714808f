//! Wrong readings of 02's area of a catchment ring: each gives another answer to a ring that
//! crates/replay has stored, and to one that `rings` draws.

use oracle::fixed::root;
use oracle::line::Answer;
use oracle::ring::{
    DEEPEST, Edge, FEWEST, MOST, Map, Meant, NO_AREA, NO_RING, OFF, Pair, Point, Ring, RingAnswer,
    Rule,
};
use oracle::rings::{Rings, SHAPES, turn};
use oracle::source::fixed::parts::{normalize_longitude, validate_lon_lat};
use oracle::stored;

const WRONG: [(&str, &dyn Rule); 81] = [
    // the test
    ("the sum at most 0.25", &SumCompared(0.25)),
    ("the sum at most 0.5", &SumCompared(0.5)),
    ("the root less than 0.5", &LessThan),
    ("dx and dy added", &SizesAdded),
    ("dx or dy, the larger", &LargerSize),
    ("the distance from the chord", &FromChord),
    ("the length of the chord", &LengthCompared),
    // the depth
    ("depth 10 is tested", &DeepestTested),
    ("depth 9 is not cut", &Deepest(9)),
    ("depth 10 is cut", &Deepest(11)),
    ("edges are never cut", &Deepest(0)),
    // the midpoint
    ("a/2 + b/2", &HalvesAdded),
    ("a/2 + b/2 for places", &HalvesOfPlaces),
    ("a/2 + b/2 for projected ends", &HalvesOfImages),
    ("a + (b - a)/2", &HalfDifference),
    ("the corners' longitudes are normalised", &CornersNormalised),
    ("a midpoint's longitude is normalised", &MidpointNormalised),
    ("the short way is taken", &ShortWay),
    // the working order
    ("the second half first", &SecondHalfFirst),
    ("level by level", &LevelByLevel),
    ("halves before the midpoint", &MidpointLast),
    ("corners projected when their edge comes", &CornersWithEdges),
    ("all corners checked first", &CheckedFirst),
    ("the last corner first", &LastCornerFirst),
    ("the last edge first", &LastEdgeFirst),
    ("the least number of the corners", &LeastNumber),
    ("a refused midpoint leaves its edge uncut", &RefusedUncut),
    (
        "a refused midpoint has its edge's number 19",
        &RefusedAsNoResult,
    ),
    // the area of use
    ("midpoints are not judged", &MidpointsUnjudged),
    ("corners are not judged", &CornersUnjudged),
    ("the area of use is left out", &AreaLeftOut),
    // the points
    ("the midpoint of an uncut edge is stored", &UncutStored),
    ("the chord's middle is stored", &ChordStored),
    ("cut points are not stored", &CornersStored),
    ("the first point is repeated", &FirstRepeated),
    ("the last edge is not cut", &LastEdgeUncut),
    (
        "a last corner that is the first is left out",
        &ClosingLeftOut,
    ),
    ("an edge of no length is not tested", &NoLengthUntested),
    ("corners that are the next are left out", &SameLeftOut),
    ("northings first", &NorthingsFirst),
    ("the ring turned about", &TurnedAbout),
    ("places past the last point are cleared", &RestCleared),
    // the area
    ("not halved", &NotHalved),
    ("each term is halved", &TermsHalved),
    ("each product is halved", &ProductsHalved),
    ("terms shifted to the first corner", &Shifted),
    ("the sum from the first term", &FromFirstTerm),
    ("the sum from -0", &FromMinusZero),
    ("the wrap first", &WrapFirst),
    ("the wrap left out", &WrapLeftOut),
    ("two sums", &TwoSums),
    ("a fused term", &Fused),
    ("a fused term, the other product rounded", &FusedOther),
    ("from the last", &FromTheLast),
    ("by trapezoids", &Trapezoids),
    ("the sign dropped", &SignDropped),
    ("the sign turned about", &SignTurned),
    ("-0 taken for +0", &ZeroWithoutSign),
    // 27
    ("27 after the points", &PointsFirst),
    ("27 before the building", &CornersFirst),
    ("2 corners pass", &Fewest(FEWEST - 1)),
    ("3 corners are refused", &Fewest(FEWEST + 1)),
    ("4,096 corners are refused", &Most(MOST - 1)),
    ("4,097 corners pass", &Most(MOST + 1)),
    ("the shorter list is taken", &ShorterList),
    ("L is refused", &Unmeasured(b'L')),
    ("S is refused", &Unmeasured(b'S')),
    ("A is refused", &Unmeasured(b'A')),
    ("E is refused", &Unmeasured(b'E')),
    ("C is measured", &Measured(b'C')),
    ("P is measured", &Measured(b'P')),
    ("G is measured", &Measured(b'G')),
    // 28
    ("28 before a refused midpoint", &RoomFirst),
    ("28 where a buffer is just long enough", &JustEnoughRefused),
    ("28 by the corners", &RoomForCorners),
    ("28 by the eastings' buffer alone", &RoomOf(0)),
    ("28 by the northings' buffer alone", &RoomOf(1)),
    ("an area that is not finite is answered", &NotFinitePasses),
    ("28 has written the buffers", &WrittenBefore),
    ("a refusal has written the corners", &CornersWritten),
    ("28 says how many points are needed", &NeededSaid),
];

#[test]
fn a_stored_ring_notices() {
    let stored = stored();
    assert_eq!(noticing(&stored, &Meant), 0);
    let mut unnoticed = Vec::new();
    for (name, rule) in WRONG {
        let rings = noticing(&stored, rule);
        println!("{rings} rings notice: {name}");
        if rings == 0 {
            unnoticed.push(name);
        }
    }
    assert!(unnoticed.is_empty(), "{unnoticed:?}");
}

/// How many of the rings a rule answers otherwise.
fn noticing(stored: &[(Ring, String)], rule: &dyn Rule) -> usize {
    let other = |(ring, answer): &&(Ring, String)| rule.answer(ring).text() != *answer;
    stored.iter().filter(other).count()
}

/// The stored rings.
fn stored() -> Vec<(Ring, String)> {
    stored::read(&["ring,", "ring_in_area,"], Ring::read)
}

#[test]
fn a_drawn_ring_notices() {
    let mut unnoticed = WRONG.to_vec();
    let mut rings = Rings::new(100);
    for place in 0..200_000 {
        let ring = rings.next(SHAPES[turn(place)]);
        let meant = Meant.answer(&ring);
        unnoticed.retain(|(_, rule)| rule.answer(&ring) == meant);
        if unnoticed.is_empty() {
            break;
        }
    }
    let names: Vec<_> = unnoticed.iter().map(|(name, _)| name).collect();
    assert!(names.is_empty(), "{names:?}");
}

/// The differences from an edge's middle to that of its chord.
fn differences(middle: Pair, [from, to]: Edge) -> Pair {
    let chord = Meant.midpoint_of_images(from.image, to.image);
    [0, 1].map(|i| chord[i] - middle[i])
}

struct SumCompared(f64);
impl Rule for SumCompared {
    fn uncut(&self, middle: Pair, edge: Edge) -> bool {
        let [dx, dy] = differences(middle, edge);
        dx * dx + dy * dy <= self.0
    }
}

struct LessThan;
impl Rule for LessThan {
    fn uncut(&self, middle: Pair, edge: Edge) -> bool {
        let [dx, dy] = differences(middle, edge);
        root(dx * dx + dy * dy) < OFF
    }
}

struct SizesAdded;
impl Rule for SizesAdded {
    fn uncut(&self, middle: Pair, edge: Edge) -> bool {
        let [dx, dy] = differences(middle, edge);
        dx.abs() + dy.abs() <= OFF
    }
}

struct LargerSize;
impl Rule for LargerSize {
    fn uncut(&self, middle: Pair, edge: Edge) -> bool {
        let [dx, dy] = differences(middle, edge);
        dx.abs().max(dy.abs()) <= OFF
    }
}

struct FromChord;
impl Rule for FromChord {
    fn uncut(&self, middle: Pair, [from, to]: Edge) -> bool {
        let [along, up] = [0, 1].map(|i| to.image[i] - from.image[i]);
        let [dx, dy] = differences(middle, [from, to]);
        let length = root(along * along + up * up);
        (dx * up - dy * along).abs() <= OFF * length
    }
}

/// At most 1 m, so that it is half of that to the middle.
struct LengthCompared;
impl Rule for LengthCompared {
    fn uncut(&self, _: Pair, [from, to]: Edge) -> bool {
        Meant.off(from.image, to.image) <= 2.0 * OFF
    }
}

struct DeepestTested;
impl Rule for DeepestTested {
    fn cut_point(&self, map: &Map, edge: Edge, depth: u32) -> Result<Option<Point>, u8> {
        let [from, to] = edge;
        self.point(map, self.midpoint(from.place, to.place))?;
        Meant.cut_point(map, edge, depth)
    }
}

struct Deepest(u32);
impl Rule for Deepest {
    fn deepest(&self, depth: u32) -> bool {
        depth == self.0
    }
}

fn halves_added(from: Pair, to: Pair) -> Pair {
    [0, 1].map(|i| from[i] / 2.0 + to[i] / 2.0)
}

struct HalvesAdded;
impl Rule for HalvesAdded {
    fn half_sum(&self, one: f64, other: f64) -> f64 {
        one / 2.0 + other / 2.0
    }
}

struct HalvesOfPlaces;
impl Rule for HalvesOfPlaces {
    fn midpoint(&self, from: Pair, to: Pair) -> Pair {
        halves_added(from, to)
    }
}

struct HalvesOfImages;
impl Rule for HalvesOfImages {
    fn midpoint_of_images(&self, from: Pair, to: Pair) -> Pair {
        halves_added(from, to)
    }
}

struct HalfDifference;
impl Rule for HalfDifference {
    fn half_sum(&self, one: f64, other: f64) -> f64 {
        one + (other - one) / 2.0
    }
}

/// The ring with other corners.
fn with_corners(ring: &Ring, corner: impl FnMut(Pair) -> Pair) -> Ring {
    let mut other = ring.clone();
    other.corners = ring.corners.iter().copied().map(corner).collect();
    other
}

struct CornersNormalised;
impl Rule for CornersNormalised {
    fn corners(&self, map: &Map, ring: &Ring) -> Result<Vec<Point>, u8> {
        let normalised = |[lon, lat]: Pair| [normalize_longitude(lon), lat];
        Meant.corners(map, &with_corners(ring, normalised))
    }
}

struct MidpointNormalised;
impl Rule for MidpointNormalised {
    fn midpoint(&self, from: Pair, to: Pair) -> Pair {
        let [lon, lat] = Meant.midpoint(from, to);
        [normalize_longitude(lon), lat]
    }
}

struct ShortWay;
impl Rule for ShortWay {
    fn midpoint(&self, from: Pair, to: Pair) -> Pair {
        let near = from[0] + normalize_longitude(to[0] - from[0]);
        Meant.midpoint(from, [near, to[1]])
    }
}

struct SecondHalfFirst;
impl Rule for SecondHalfFirst {
    fn cut(&self, map: &Map, edge: Edge, depth: u32, cut: &mut Vec<Pair>) -> Result<(), u8> {
        let [from, to] = edge;
        if let Some(middle) = self.cut_point(map, edge, depth)? {
            let mut second = Vec::new();
            self.cut(map, [middle, to], depth + 1, &mut second)?;
            self.cut(map, [from, middle], depth + 1, cut)?;
            cut.push(middle.image);
            cut.extend(second);
        }
        Ok(())
    }
}

struct LevelByLevel;
impl Rule for LevelByLevel {
    fn cut(&self, map: &Map, edge: Edge, depth: u32, cut: &mut Vec<Pair>) -> Result<(), u8> {
        let mut level = vec![edge];
        for depth in depth..DEEPEST {
            let mut next = Vec::new();
            for edge in level {
                let [from, to] = edge;
                if let Some(middle) = self.cut_point(map, edge, depth)? {
                    next.extend([[from, middle], [middle, to]]);
                }
            }
            level = next;
        }
        Meant.cut(map, edge, depth, cut)
    }
}

/// The halves of an edge are worked before what its midpoint gets counts.
struct MidpointLast;
impl Rule for MidpointLast {
    fn cut(&self, map: &Map, edge: Edge, depth: u32, cut: &mut Vec<Pair>) -> Result<(), u8> {
        let [from, to] = edge;
        let middle = Meant.midpoint(from.place, to.place);
        let refused = map.forward(middle).number;
        if depth + 1 < DEEPEST && refused != 0 {
            for [one, other] in [[from.place, middle], [middle, to.place]] {
                self.point(map, Meant.midpoint(one, other))?;
            }
            return Err(refused);
        }
        if let Some(middle) = self.cut_point(map, edge, depth)? {
            self.cut(map, [from, middle], depth + 1, cut)?;
            cut.push(middle.image);
            self.cut(map, [middle, to], depth + 1, cut)?;
        }
        Ok(())
    }
}

struct CornersWithEdges;
impl Rule for CornersWithEdges {
    fn points(&self, map: &Map, ring: &Ring) -> Result<Vec<Pair>, u8> {
        let count = ring.lists[0];
        let mut corners = vec![self.point(map, ring.corner(0))?];
        let mut points = Vec::new();
        for place in 0..count {
            if place + 1 < count {
                corners.push(self.point(map, ring.corner(place + 1))?);
            }
            let edge = [corners[place], corners[(place + 1) % count]];
            points.push(edge[0].image);
            self.cut(map, edge, 0, &mut points)?;
        }
        Ok(points)
    }
}

struct CheckedFirst;
impl Rule for CheckedFirst {
    fn corners(&self, map: &Map, ring: &Ring) -> Result<Vec<Point>, u8> {
        let checks = ring
            .corners
            .iter()
            .map(|&[lon, lat]| validate_lon_lat(lon, lat));
        match checks.into_iter().find(|&number| number != 0) {
            Some(number) => Err(number),
            None => Meant.corners(map, ring),
        }
    }
}

struct LastCornerFirst;
impl Rule for LastCornerFirst {
    fn corners(&self, map: &Map, ring: &Ring) -> Result<Vec<Point>, u8> {
        for place in (0..ring.lists[0]).rev() {
            self.point(map, ring.corner(place))?;
        }
        Meant.corners(map, ring)
    }
}

struct LastEdgeFirst;
impl Rule for LastEdgeFirst {
    fn points(&self, map: &Map, ring: &Ring) -> Result<Vec<Pair>, u8> {
        let corners = self.corners(map, ring)?;
        for edge in self.edges(&corners).into_iter().rev() {
            self.cut(map, edge, 0, &mut Vec::new())?;
        }
        Meant.points(map, ring)
    }
}

struct LeastNumber;
impl Rule for LeastNumber {
    fn corners(&self, map: &Map, ring: &Ring) -> Result<Vec<Point>, u8> {
        let numbers = (0..ring.lists[0]).map(|place| map.forward(ring.corner(place)).number);
        match numbers.filter(|&number| number != 0).min() {
            Some(number) => Err(number),
            None => Meant.corners(map, ring),
        }
    }
}

struct RefusedUncut;
impl Rule for RefusedUncut {
    fn cut_point(&self, map: &Map, edge: Edge, depth: u32) -> Result<Option<Point>, u8> {
        Ok(Meant.cut_point(map, edge, depth).unwrap_or(None))
    }
}

struct RefusedAsNoResult;
impl Rule for RefusedAsNoResult {
    fn cut_point(&self, map: &Map, edge: Edge, depth: u32) -> Result<Option<Point>, u8> {
        Meant.cut_point(map, edge, depth).map_err(|_| 19)
    }
}

/// What a place is projected to, whatever the area.
fn anywhere(map: &Map, place: Pair) -> Result<Point, u8> {
    let Answer { number, p, q } = map.anywhere(place);
    let image = [p, q].map(f64::from_bits);
    match number {
        0 => Ok(Point { place, image }),
        refused => Err(refused),
    }
}

struct MidpointsUnjudged;
impl Rule for MidpointsUnjudged {
    fn point(&self, map: &Map, place: Pair) -> Result<Point, u8> {
        anywhere(map, place)
    }

    fn corners(&self, map: &Map, ring: &Ring) -> Result<Vec<Point>, u8> {
        Meant.corners(map, ring)
    }
}

struct CornersUnjudged;
impl Rule for CornersUnjudged {
    fn corners(&self, map: &Map, ring: &Ring) -> Result<Vec<Point>, u8> {
        let places = (0..ring.lists[0]).map(|place| ring.corner(place));
        places.map(|place| anywhere(map, place)).collect()
    }
}

struct AreaLeftOut;
impl Rule for AreaLeftOut {
    fn point(&self, map: &Map, place: Pair) -> Result<Point, u8> {
        anywhere(map, place)
    }
}

struct UncutStored;
impl Rule for UncutStored {
    fn cut(&self, map: &Map, edge: Edge, depth: u32, cut: &mut Vec<Pair>) -> Result<(), u8> {
        let before = cut.len();
        Meant.cut(map, edge, depth, cut)?;
        if cut.len() == before {
            let [from, to] = edge;
            let middle = self.point(map, self.midpoint(from.place, to.place))?;
            cut.push(middle.image);
        }
        Ok(())
    }
}

struct ChordStored;
impl Rule for ChordStored {
    fn cut(&self, map: &Map, edge: Edge, depth: u32, cut: &mut Vec<Pair>) -> Result<(), u8> {
        let [from, to] = edge;
        if let Some(middle) = self.cut_point(map, edge, depth)? {
            self.cut(map, [from, middle], depth + 1, cut)?;
            cut.push(self.midpoint_of_images(from.image, to.image));
            self.cut(map, [middle, to], depth + 1, cut)?;
        }
        Ok(())
    }
}

struct CornersStored;
impl Rule for CornersStored {
    fn cut(&self, map: &Map, edge: Edge, depth: u32, _: &mut Vec<Pair>) -> Result<(), u8> {
        Meant.cut(map, edge, depth, &mut Vec::new())
    }
}

struct FirstRepeated;
impl Rule for FirstRepeated {
    fn points(&self, map: &Map, ring: &Ring) -> Result<Vec<Pair>, u8> {
        let mut points = Meant.points(map, ring)?;
        points.push(points[0]);
        Ok(points)
    }
}

struct LastEdgeUncut;
impl Rule for LastEdgeUncut {
    fn points(&self, map: &Map, ring: &Ring) -> Result<Vec<Pair>, u8> {
        let corners = self.corners(map, ring)?;
        let mut points = vec![corners[0].image];
        for edge in corners.windows(2) {
            let [from, to] = [edge[0], edge[1]];
            self.cut(map, [from, to], 0, &mut points)?;
            points.push(to.image);
        }
        Ok(points)
    }
}

struct ClosingLeftOut;
impl Rule for ClosingLeftOut {
    fn points(&self, map: &Map, ring: &Ring) -> Result<Vec<Pair>, u8> {
        let mut other = ring.clone();
        if ring.corner(0) == ring.corner(ring.lists[0] - 1) {
            other.lists[0] -= 1;
        }
        Meant.points(map, &other)
    }
}

struct NoLengthUntested;
impl Rule for NoLengthUntested {
    fn cut_point(&self, map: &Map, edge: Edge, depth: u32) -> Result<Option<Point>, u8> {
        let [from, to] = edge;
        match from.place == to.place {
            true => Ok(None),
            false => Meant.cut_point(map, edge, depth),
        }
    }
}

struct SameLeftOut;
impl Rule for SameLeftOut {
    fn edges(&self, corners: &[Point]) -> Vec<Edge> {
        let mut edges = Meant.edges(corners);
        edges.retain(|[from, to]| from.place != to.place);
        edges
    }
}

struct NorthingsFirst;
impl Rule for NorthingsFirst {
    fn fill(&self, points: &[Pair], buffers: &mut [Vec<f64>; 2]) {
        let turned: Vec<Pair> = points.iter().map(|&[e, n]| [n, e]).collect();
        Meant.fill(&turned, buffers);
    }
}

struct TurnedAbout;
impl Rule for TurnedAbout {
    fn fill(&self, points: &[Pair], buffers: &mut [Vec<f64>; 2]) {
        let turned: Vec<Pair> = points.iter().rev().copied().collect();
        Meant.fill(&turned, buffers);
    }
}

struct RestCleared;
impl Rule for RestCleared {
    fn fill(&self, points: &[Pair], buffers: &mut [Vec<f64>; 2]) {
        Meant.fill(points, buffers);
        for buffer in buffers {
            buffer[points.len()..].fill(0.0);
        }
    }
}

struct NotHalved;
impl Rule for NotHalved {
    fn area(&self, points: &[Pair]) -> f64 {
        self.sum(points)
    }
}

struct TermsHalved;
impl Rule for TermsHalved {
    fn term(&self, point: Pair, next: Pair) -> f64 {
        0.5 * Meant.term(point, next)
    }

    fn area(&self, points: &[Pair]) -> f64 {
        self.sum(points)
    }
}

struct ProductsHalved;
impl Rule for ProductsHalved {
    fn term(&self, [e, n]: Pair, [next_e, next_n]: Pair) -> f64 {
        0.5 * e * next_n - 0.5 * next_e * n
    }

    fn area(&self, points: &[Pair]) -> f64 {
        self.sum(points)
    }
}

struct Shifted;
impl Rule for Shifted {
    fn area(&self, points: &[Pair]) -> f64 {
        let from_first = |&[e, n]: &Pair| [e - points[0][0], n - points[0][1]];
        let shifted: Vec<Pair> = points.iter().map(from_first).collect();
        Meant.area(&shifted)
    }
}

/// The terms of a sum, in ring order.
fn terms(points: &[Pair]) -> Vec<f64> {
    let next = points.iter().cycle().skip(1);
    let all = points.iter().zip(next);
    all.map(|(&point, &next)| Meant.term(point, next)).collect()
}

struct FromFirstTerm;
impl Rule for FromFirstTerm {
    fn sum(&self, points: &[Pair]) -> f64 {
        let terms = terms(points);
        terms[1..].iter().fold(terms[0], |sum, term| sum + term)
    }
}

struct FromMinusZero;
impl Rule for FromMinusZero {
    fn sum(&self, points: &[Pair]) -> f64 {
        terms(points).iter().fold(-0.0, |sum, term| sum + term)
    }
}

struct WrapFirst;
impl Rule for WrapFirst {
    fn sum(&self, points: &[Pair]) -> f64 {
        let mut terms = terms(points);
        terms.rotate_right(1);
        terms.iter().fold(0.0, |sum, term| sum + term)
    }
}

struct WrapLeftOut;
impl Rule for WrapLeftOut {
    fn sum(&self, points: &[Pair]) -> f64 {
        let mut terms = terms(points);
        terms.pop();
        terms.iter().fold(0.0, |sum, term| sum + term)
    }
}

struct TwoSums;
impl Rule for TwoSums {
    fn sum(&self, points: &[Pair]) -> f64 {
        let next = points.iter().cycle().skip(1);
        let (mut one, mut other) = (0.0, 0.0);
        for ([e, n], [next_e, next_n]) in points.iter().zip(next) {
            one += e * next_n;
            other += next_e * n;
        }
        one - other
    }
}

struct Fused;
impl Rule for Fused {
    fn term(&self, [e, n]: Pair, [next_e, next_n]: Pair) -> f64 {
        e.mul_add(next_n, -(next_e * n))
    }
}

struct FusedOther;
impl Rule for FusedOther {
    fn term(&self, [e, n]: Pair, [next_e, next_n]: Pair) -> f64 {
        (-next_e).mul_add(n, e * next_n)
    }
}

struct FromTheLast;
impl Rule for FromTheLast {
    fn sum(&self, points: &[Pair]) -> f64 {
        terms(points).iter().rev().fold(0.0, |sum, term| sum + term)
    }
}

struct Trapezoids;
impl Rule for Trapezoids {
    fn term(&self, [e, n]: Pair, [next_e, next_n]: Pair) -> f64 {
        (e + next_e) * (next_n - n)
    }
}

struct SignDropped;
impl Rule for SignDropped {
    fn area(&self, points: &[Pair]) -> f64 {
        Meant.area(points).abs()
    }
}

struct SignTurned;
impl Rule for SignTurned {
    fn area(&self, points: &[Pair]) -> f64 {
        -Meant.area(points)
    }
}

struct ZeroWithoutSign;
impl Rule for ZeroWithoutSign {
    fn area(&self, points: &[Pair]) -> f64 {
        Meant.area(points) + 0.0
    }
}

struct PointsFirst;
impl Rule for PointsFirst {
    fn work(&self, ring: &Ring) -> Result<(f64, Vec<Pair>), u8> {
        let map = self.build(ring)?;
        self.points(&map, ring)?;
        Meant.work(ring)
    }
}

struct CornersFirst;
impl Rule for CornersFirst {
    fn work(&self, ring: &Ring) -> Result<(f64, Vec<Pair>), u8> {
        match self.refuses(ring) {
            true => Err(NO_RING),
            false => Meant.work(ring),
        }
    }
}

struct Fewest(usize);
impl Rule for Fewest {
    fn refuses(&self, ring: &Ring) -> bool {
        let [lons, lats] = ring.lists;
        lons != lats || lons < self.0 || lons > MOST || !self.measures(ring.kind)
    }
}

struct Most(usize);
impl Rule for Most {
    fn refuses(&self, ring: &Ring) -> bool {
        let [lons, lats] = ring.lists;
        lons != lats || lons < FEWEST || lons > self.0 || !self.measures(ring.kind)
    }
}

struct ShorterList;
impl Rule for ShorterList {
    fn work(&self, ring: &Ring) -> Result<(f64, Vec<Pair>), u8> {
        let [lons, lats] = ring.lists;
        let mut other = ring.clone();
        other.lists = [lons.min(lats); 2];
        Meant.work(&other)
    }
}

struct Measured(u8);
impl Rule for Measured {
    fn measures(&self, kind: u8) -> bool {
        kind == self.0 || Meant.measures(kind)
    }
}

struct Unmeasured(u8);
impl Rule for Unmeasured {
    fn measures(&self, kind: u8) -> bool {
        kind != self.0 && Meant.measures(kind)
    }
}

struct RoomFirst;
impl Rule for RoomFirst {
    fn points(&self, map: &Map, ring: &Ring) -> Result<Vec<Pair>, u8> {
        self.corners(map, ring)?;
        match ring.buffers.iter().any(|&length| length < ring.lists[0]) {
            true => Err(NO_AREA),
            false => Meant.points(map, ring),
        }
    }
}

struct JustEnoughRefused;
impl Rule for JustEnoughRefused {
    fn too_short(&self, ring: &Ring, points: &[Pair]) -> bool {
        ring.buffers.iter().any(|&length| length <= points.len())
    }
}

struct RoomForCorners;
impl Rule for RoomForCorners {
    fn too_short(&self, ring: &Ring, _: &[Pair]) -> bool {
        ring.buffers.iter().any(|&length| length < ring.lists[0])
    }
}

struct RoomOf(usize);
impl Rule for RoomOf {
    fn too_short(&self, ring: &Ring, points: &[Pair]) -> bool {
        ring.buffers[self.0] < points.len()
    }
}

struct NotFinitePasses;
impl Rule for NotFinitePasses {
    fn not_finite(&self, _: f64) -> bool {
        false
    }
}

/// The points of a ring that gets 28.
fn refused_points(ring: &Ring) -> Option<Vec<Pair>> {
    let refused = Meant.work(ring).err() == Some(NO_AREA);
    let map = Meant.build(ring).ok().filter(|_| refused)?;
    Meant.points(&map, ring).ok()
}

struct WrittenBefore;
impl Rule for WrittenBefore {
    fn answer(&self, ring: &Ring) -> RingAnswer {
        let long_enough = |points: &Vec<Pair>| !self.too_short(ring, points);
        let Some(points) = refused_points(ring).filter(long_enough) else {
            return Meant.answer(ring);
        };
        let mut buffers = ring.lent();
        self.fill(&points, &mut buffers);
        RingAnswer::new(NO_AREA, 0.0, 0, &buffers)
    }
}

struct CornersWritten;
impl Rule for CornersWritten {
    fn answer(&self, ring: &Ring) -> RingAnswer {
        let meant = Meant.answer(ring);
        let map = Meant
            .build(ring)
            .ok()
            .filter(|_| !matches!(meant.number, 0 | 27 | 28));
        let corners = map.and_then(|map| self.corners(&map, ring).ok());
        let Some(corners) = corners else {
            return meant;
        };
        let images: Vec<Pair> = corners.iter().map(|corner| corner.image).collect();
        let mut buffers = ring.lent();
        self.fill(&images, &mut buffers);
        RingAnswer::new(meant.number, 0.0, 0, &buffers)
    }
}

struct NeededSaid;
impl Rule for NeededSaid {
    fn answer(&self, ring: &Ring) -> RingAnswer {
        let mut answer = Meant.answer(ring);
        answer.points += refused_points(ring).map_or(0, |points| points.len());
        answer
    }
}
