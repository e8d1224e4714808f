//! The Rattle functions, by the static libraries of crates/probe and, as users have them, crates/capi.

use crate::area::{Area, AreaLine};
use crate::cases;
use crate::charge::{self, CHILDREN, ChargeAnswer, Shares, Stop};
use crate::fixed;
use crate::line::{Answer, Columns, F, LAT1, LAT2, Line, U, V};
use crate::nearest::{self, Nearest, NearestAnswer};
use crate::on_map::Click;
use crate::ring::{Pair, Ring, RingAnswer, lent};
use crate::rounds::Handed;
use crate::sphere;

/// A projection as the archive's callers keep it.
type Numbers = [f64; 36];

/// The place of the number that says which kind it is.
pub const KIND: usize = 0;

/// From this place on, the numbers of an Albers.
const ALBERS: usize = 1;

/// From this place on, whether it has an area, and the area's edges.
const FLAG: usize = 31;

/// What the flag is where it has one.
const SET: f64 = 1.0;

#[link(name = "probe", kind = "static")]
unsafe extern "C" {
    #[link_name = "probe_identity"]
    pub safe fn identity(x: f64) -> f64;
    #[link_name = "probe_root"]
    pub safe fn root(x: f64) -> f64;
    #[link_name = "probe_sin"]
    pub safe fn sin(x: f64) -> f64;
    #[link_name = "probe_cos"]
    pub safe fn cos(x: f64) -> f64;
    #[link_name = "probe_tan"]
    pub safe fn tan(x: f64) -> f64;
    #[link_name = "probe_atan"]
    pub safe fn atan(x: f64) -> f64;
    #[link_name = "probe_asin"]
    pub safe fn asin(x: f64) -> f64;
    #[link_name = "probe_atan2"]
    pub safe fn atan2(y: f64, x: f64) -> f64;
    #[link_name = "probe_ln"]
    pub safe fn ln(x: f64) -> f64;
    #[link_name = "probe_powf_3_2"]
    pub safe fn powf_3_2(d: f64) -> f64;
    #[link_name = "probe_rem_euclid"]
    pub safe fn rem_euclid(x: f64) -> f64;
    #[link_name = "probe_abs"]
    pub safe fn abs(x: f64) -> f64;
    #[link_name = "probe_signum"]
    pub safe fn signum(x: f64) -> f64;
    #[link_name = "probe_clamp"]
    pub safe fn clamp(x: f64, low: f64, high: f64) -> f64;
    #[link_name = "probe_max_zero"]
    pub safe fn max_zero(x: f64) -> f64;
    #[link_name = "probe_is_finite"]
    pub safe fn is_finite(x: f64) -> bool;
    #[link_name = "probe_is_negative"]
    pub safe fn is_negative(x: f64) -> bool;
    #[link_name = "probe_is_nan"]
    pub safe fn is_nan(x: f64) -> bool;
    #[link_name = "probe_f64_of"]
    pub safe fn f64_of(bits: u64) -> f64;
    #[link_name = "probe_bits_of"]
    pub safe fn bits_of(x: f64) -> u64;
    #[link_name = "probe_from_a_rf"]
    pub safe fn from_a_rf(a: f64, rf: f64) -> u8;
    #[link_name = "probe_from_a_f"]
    pub safe fn from_a_f(a: f64, f: f64) -> u8;
    #[link_name = "probe_inverse_flattening"]
    pub safe fn inverse_flattening(a: f64, f: f64) -> f64;
    #[link_name = "probe_b"]
    pub safe fn b(a: f64, f: f64) -> f64;
    #[link_name = "probe_e2"]
    pub safe fn e2(a: f64, f: f64) -> f64;
    #[link_name = "probe_e"]
    pub safe fn e(a: f64, f: f64) -> f64;
    #[link_name = "probe_n"]
    pub safe fn n(a: f64, f: f64) -> f64;
    #[link_name = "probe_ep2"]
    pub safe fn ep2(a: f64, f: f64) -> f64;
    #[link_name = "probe_n_radius"]
    pub safe fn n_radius(a: f64, f: f64, phi: f64) -> f64;
    #[link_name = "probe_m_radius"]
    pub safe fn m_radius(a: f64, f: f64, phi: f64) -> f64;
    #[link_name = "probe_deg_to_rad"]
    pub safe fn deg_to_rad(deg: f64) -> f64;
    #[link_name = "probe_rad_to_deg"]
    pub safe fn rad_to_deg(rad: f64) -> f64;
    #[link_name = "probe_validate_angle"]
    pub safe fn validate_angle(value: f64) -> u8;
    #[link_name = "probe_validate_latitude_param"]
    pub safe fn validate_latitude_param(value: f64) -> u8;
    #[link_name = "probe_validate_offset"]
    pub safe fn validate_offset(value: f64) -> u8;
    #[link_name = "probe_validate_lon_lat"]
    pub safe fn validate_lon_lat(lon: f64, lat: f64) -> u8;
    #[link_name = "probe_validate_projected"]
    pub safe fn validate_projected(x: f64, y: f64) -> u8;
    #[link_name = "probe_ensure_finite_xy"]
    pub safe fn ensure_finite_xy(x: f64, y: f64) -> u8;
    #[link_name = "probe_ensure_finite_lon_lat"]
    pub safe fn ensure_finite_lon_lat(lon: f64, lat: f64) -> u8;
    #[link_name = "probe_normalize_longitude"]
    pub safe fn normalize_longitude(lon: f64) -> f64;
    #[link_name = "probe_authalic_q"]
    pub safe fn authalic_q(lat: f64, e2: f64) -> f64;
    #[link_name = "probe_authalic_latitude"]
    pub safe fn authalic_latitude(q: f64, q_p: f64) -> f64;
    #[link_name = "probe_geodetic_from_authalic"]
    pub safe fn geodetic_from_authalic(beta: f64, e2: f64) -> f64;
    #[link_name = "probe_meridian_arc_coefficient"]
    pub safe fn meridian_arc_coefficient(es: f64, i: usize) -> f64;
    #[link_name = "probe_meridian_arc"]
    pub safe fn meridian_arc(phi: f64, sin_phi: f64, cos_phi: f64, es: f64) -> f64;
    #[link_name = "probe_inverse_meridian_arc"]
    pub safe fn inverse_meridian_arc(ml: f64, es: f64) -> f64;
}

#[link(name = "capi", kind = "static")]
unsafe extern "C" {
    pub safe fn lenthuc_normalize_longitude(lon: f64) -> f64;
    safe fn lenthuc_build(kind: u8, settings: &[f64; 8], projection: &mut Numbers) -> u8;
    safe fn lenthuc_build_in_area(
        kind: u8,
        settings: &[f64; 8],
        area: &Area,
        projection: &mut Numbers,
    ) -> u8;
    safe fn lenthuc_forward(p: &Numbers, u: f64, v: f64, x: &mut f64, y: &mut f64) -> u8;
    safe fn lenthuc_inverse(p: &Numbers, u: f64, v: f64, x: &mut f64, y: &mut f64) -> u8;
    fn lenthuc_forward_column(
        projection: &Numbers,
        u: *const f64,
        us: usize,
        v: *const f64,
        vs: usize,
        p: *mut f64,
        ps: usize,
        q: *mut f64,
        qs: usize,
        numbers: *mut u8,
        ns: usize,
    ) -> u8;
    fn lenthuc_inverse_column(
        projection: &Numbers,
        u: *const f64,
        us: usize,
        v: *const f64,
        vs: usize,
        p: *mut f64,
        ps: usize,
        q: *mut f64,
        qs: usize,
        numbers: *mut u8,
        ns: usize,
    ) -> u8;
    safe fn lenthuc_inverse_on_map(
        projection: &Numbers,
        easting: f64,
        northing: f64,
        lon: &mut f64,
        lat: &mut f64,
        number: &mut u8,
    ) -> u8;
    fn lenthuc_inverse_on_map_column(
        projection: &Numbers,
        easting: *const f64,
        eastings: usize,
        northing: *const f64,
        northings: usize,
        lon: *mut f64,
        lons: usize,
        lat: *mut f64,
        lats: usize,
        numbers: *mut u8,
        ns: usize,
        number: &mut u8,
    ) -> u8;
    fn lenthuc_ring_area(
        projection: &Numbers,
        lon: *const f64,
        lons: usize,
        lat: *const f64,
        lats: usize,
        easting: *mut f64,
        eastings: usize,
        northing: *mut f64,
        northings: usize,
        area: &mut f64,
        points: &mut usize,
    ) -> u8;
    fn lenthuc_nearest(
        easting: f64,
        northing: f64,
        eastings: *const f64,
        es: usize,
        northings: *const f64,
        ns: usize,
        rolls: *const u16,
        rs: usize,
        order: *mut u16,
        os: usize,
    ) -> u8;
    safe fn lenthuc_travel_charge(
        dx: f64,
        dy: f64,
        rate: u64,
        children: u64,
        charge: &mut u64,
        shares: &mut Shares,
    ) -> u8;
}

/// The projection of a line, and the number of its building.
fn built(line: &Line) -> (Numbers, u8) {
    let mut projection = [f64::NAN; 36];
    let number = lenthuc_build(line.kind, &settings(line), &mut projection);
    (projection, number)
}

fn settings(line: &Line) -> [f64; 8] {
    let [settings @ .., _, _] = line.fields;
    settings
}

/// The same with its area.
fn built_with(question: &AreaLine) -> (Numbers, u8) {
    let AreaLine { line, area, handed } = question;
    if *handed {
        return handed_in(line, SET, area);
    }
    let mut projection = [f64::NAN; 36];
    let number = lenthuc_build_in_area(line.kind, &settings(line), area, &mut projection);
    (projection, number)
}

/// The projection of a line, to which a flag and an area are handed in.
fn handed_in(line: &Line, flag: f64, area: &Area) -> (Numbers, u8) {
    let (mut projection, number) = built(line);
    projection[FLAG] = flag;
    projection[FLAG + 1..].copy_from_slice(area);
    (projection, number)
}

/// The numbers of a line's Albers, if it is built.
pub fn albers(line: &Line) -> Option<sphere::Numbers> {
    let (projection, number) = built(line);
    let numbers = projection[ALBERS..].first_chunk().copied();
    numbers.filter(|_| number == 0)
}

/// One point by a projection.
fn point(way: u8, projection: &Numbers, u: f64, v: f64, p: &mut f64, q: &mut f64) -> u8 {
    match way {
        b'F' => lenthuc_forward(projection, u, v, p, q),
        b'I' => lenthuc_inverse(projection, u, v, p, q),
        way => panic!("the way {way} is none"),
    }
}

/// The answer to a line.
pub fn answer(line: &Line) -> Answer {
    answer_by(built(line), line)
}

/// The answer to a line with an area.
pub fn answer_with(question: &AreaLine) -> Answer {
    answer_by(built_with(question), &question.line)
}

/// The same, handed in with any flag.
pub fn answer_flagged(line: &Line, flag: f64, area: &Area) -> Answer {
    answer_by(handed_in(line, flag, area), line)
}

/// The answer to a line of Albers, to which these numbers are handed in.
pub fn answer_handed(line: &Line, numbers: &sphere::Numbers) -> Answer {
    let (mut projection, number) = built(line);
    projection[ALBERS..][..numbers.len()].copy_from_slice(numbers);
    answer_by((projection, number), line)
}

/// The answer to an inverse point of an Albers of any numbers.
pub fn answer_by_numbers(question: &Handed) -> Answer {
    let Handed { numbers, point } = question;
    let [x, y] = *point;
    let named = [(F, 0.1), (LAT1, 0.5), (LAT2, 0.5), (U, x), (V, y)];
    answer_handed(&cases::line(b"IA", &named), numbers)
}

fn answer_by((projection, refused): (Numbers, u8), line: &Line) -> Answer {
    let [.., u, v] = line.fields;
    let (mut p, mut q) = (f64::NAN, f64::NAN);
    let number = point(line.way, &projection, u, v, &mut p, &mut q);
    assert!(
        refused == 0 || refused == number,
        "a refused projection gives its own number"
    );
    let (p, q) = (p.to_bits(), q.to_bits());
    Answer { number, p, q }
}

/// Whether a projection that is built with an area has the numbers of one to which it is handed in.
pub fn same_numbers(question: &AreaLine) -> bool {
    let (projection, number) = built_with(question);
    let (other, _) = handed_in(&question.line, SET, &question.area);
    let same = |(x, y): (&f64, &f64)| fixed::bits_of(*x) == fixed::bits_of(*y);
    number != 0 || projection.iter().zip(&other).all(same)
}

/// A column's points by one call each, the projection built once.
pub fn one_by_one(line: &Line, u: &[f64], v: &[f64], filled: &mut Columns) {
    let (projection, _) = built(line);
    let Columns { p, q, numbers } = filled;
    for i in 0..u.len() {
        numbers[i] = point(line.way, &projection, u[i], v[i], &mut p[i], &mut q[i]);
    }
}

/// The same, the projection built anew for each.
pub fn built_anew(line: &Line, u: &[f64], v: &[f64], filled: &mut Columns) {
    let Columns { p, q, numbers } = filled;
    for i in 0..u.len() {
        let (projection, _) = built(line);
        numbers[i] = point(line.way, &projection, u[i], v[i], &mut p[i], &mut q[i]);
    }
}

/// A column of points by one projection.
pub fn column(line: &Line, u: &[f64], v: &[f64], filled: &mut Columns) {
    column_by(line.way, &built(line).0, u, v, filled);
}

/// The same with an area.
pub fn column_with(question: &AreaLine, u: &[f64], v: &[f64], filled: &mut Columns) {
    column_by(question.line.way, &built_with(question).0, u, v, filled);
}

fn column_by(way: u8, projection: &Numbers, u: &[f64], v: &[f64], filled: &mut Columns) {
    let Columns { p, q, numbers } = filled;
    let (us, vs, ps, qs, ns) = (u.len(), v.len(), p.len(), q.len(), numbers.len());
    let (u, v, numbers) = (u.as_ptr(), v.as_ptr(), numbers.as_mut_ptr());
    let (p, q) = (p.as_mut_ptr(), q.as_mut_ptr());
    let column = match way {
        b'F' => lenthuc_forward_column,
        b'I' => lenthuc_inverse_column,
        way => panic!("the way {way} is none"),
    };
    // SAFETY: it reads two slices and writes three others, each with its length.
    let said = unsafe { column(projection, u, us, v, vs, p, ps, q, qs, numbers, ns) };
    assert_eq!(said, 0, "the columns have one length");
}

/// The projection of a click.
fn built_for_click(click: &Click) -> (Numbers, u8) {
    match click.in_area() {
        None => built(&click.line),
        Some(question) => built_with(&question),
    }
}

/// What the first inverse answers to a click.
pub fn first(click: &Click) -> Answer {
    answer_by(built_for_click(click), &click.line)
}

/// What the second answers; none where the kind has none.
pub fn on_map(click: &Click) -> Option<Answer> {
    let (projection, refused) = built_for_click(click);
    let answer = on_map_by(&projection, &click.line);
    let own = answer.is_some_and(|answer| answer.number == refused);
    assert!(
        refused == 0 || own,
        "a refused projection gives its own number"
    );
    answer
}

/// What the results of a click are before the call, which no answer has.
const BEFORE: (f64, f64, u8) = (f64::MAX, f64::MIN, 99);

fn on_map_by(projection: &Numbers, line: &Line) -> Option<Answer> {
    let [.., x, y] = line.fields;
    let (mut lon, mut lat, mut number) = BEFORE;
    match lenthuc_inverse_on_map(projection, x, y, &mut lon, &mut lat, &mut number) {
        0 => {
            let untouched = (lon, lat, number) == BEFORE;
            assert!(untouched, "nothing is written where there is none");
            None
        }
        1 => {
            let (p, q) = (lon.to_bits(), lat.to_bits());
            Some(Answer { number, p, q })
        }
        other => panic!("neither 0 nor 1: {other}"),
    }
}

/// What both answer by a click's projection with these of its numbers replaced, the second first.
pub fn both_replaced(click: &Click, replaced: &[(usize, f64)]) -> (Option<Answer>, Answer) {
    let (mut projection, _) = built_for_click(click);
    for &(place, number) in replaced {
        projection[place] = number;
    }
    let first = answer_by((projection, 0), &click.line);
    (on_map_by(&projection, &click.line), first)
}

/// What says in a projection's numbers that it is of a kind.
pub fn number_of_kind(kind: u8) -> f64 {
    let named = [(F, 0.1), (LAT1, 0.5), (LAT2, 0.5)];
    built(&cases::line(&[b'I', kind], &named)).0[KIND]
}

/// The second inverse of a column: the number that it gives; none where the kind has none.
pub fn on_map_column(click: &Click, x: &[f64], y: &[f64], filled: &mut Columns) -> Option<u8> {
    let (projection, _) = built_for_click(click);
    let Columns { p, q, numbers } = filled;
    let (xs, ys, ps, qs, ns) = (x.len(), y.len(), p.len(), q.len(), numbers.len());
    let (x, y, numbers) = (x.as_ptr(), y.as_ptr(), numbers.as_mut_ptr());
    let (p, q) = (p.as_mut_ptr(), q.as_mut_ptr());
    let (.., mut number) = BEFORE;
    // SAFETY: it reads two slices and writes three others, each with its length, and a number.
    let said = unsafe {
        lenthuc_inverse_on_map_column(
            &projection,
            x,
            xs,
            y,
            ys,
            p,
            ps,
            q,
            qs,
            numbers,
            ns,
            &mut number,
        )
    };
    match said {
        0 => {
            assert_eq!(number, BEFORE.2, "nothing is written where there is none");
            None
        }
        1 => Some(number),
        other => panic!("neither 0 nor 1: {other}"),
    }
}

/// The projection of a ring.
fn built_for(ring: &Ring) -> (Numbers, u8) {
    let (kind, settings) = (ring.kind, &ring.settings);
    let mut projection = [f64::NAN; 36];
    let number = match &ring.area {
        None => lenthuc_build(kind, settings, &mut projection),
        Some(area) => lenthuc_build_in_area(kind, settings, area, &mut projection),
    };
    (projection, number)
}

/// The answer to a ring, and the buffers after the call.
pub fn ring(question: &Ring) -> RingAnswer {
    let (projection, refused) = built_for(question);
    let [lon, lat] = question.lons_and_lats();
    let mut longer = question.buffers.map(|length| lent(length + BEHIND));
    let (mut area, mut points) = (f64::NAN, usize::MAX);
    let [easting, northing] = &mut longer;
    let buffers = [
        &mut easting[..question.buffers[0]],
        &mut northing[..question.buffers[1]],
    ];
    let number = ring_by(&projection, [&lon, &lat], buffers, &mut area, &mut points);
    assert!(
        refused == 0 || refused == number,
        "a refused projection gives its own number"
    );
    for (buffer, length) in longer.iter_mut().zip(question.buffers) {
        let behind = buffer.split_off(length);
        let mut places = behind.iter().zip(length as u64..);
        let untouched = places.all(|(x, place)| x.to_bits() == place);
        assert!(untouched, "nothing is written behind a buffer");
    }
    RingAnswer::new(number, area, points, &longer)
}

/// So many places behind a buffer, a lent list or the shares are to stay as they are.
const BEHIND: usize = 2;

fn ring_by(
    projection: &Numbers,
    [lon, lat]: [&[f64]; 2],
    [easting, northing]: [&mut [f64]; 2],
    area: &mut f64,
    points: &mut usize,
) -> u8 {
    let (lons, lats, es, ns) = (lon.len(), lat.len(), easting.len(), northing.len());
    let (lon, lat) = (lon.as_ptr(), lat.as_ptr());
    let (e, n) = (easting.as_mut_ptr(), northing.as_mut_ptr());
    // SAFETY: it reads two slices and writes two others, each with its length, and two numbers.
    unsafe { lenthuc_ring_area(projection, lon, lons, lat, lats, e, es, n, ns, area, points) }
}

/// A ring that is measured again and again, with what is built and lent for it.
pub struct Lent {
    projection: Numbers,
    lists: [Vec<f64>; 2],
    buffers: [Vec<f64>; 2],
}

impl Lent {
    pub fn new(question: &Ring) -> Lent {
        Lent {
            projection: built_for(question).0,
            lists: question.lons_and_lats(),
            buffers: question.lent(),
        }
    }

    /// The area, and how many points the buffers then start with.
    pub fn measure(&mut self) -> (f64, usize) {
        let (mut area, mut points) = (f64::NAN, 0);
        let lists = self.lists.each_ref().map(|list| list.as_slice());
        let buffers = self.buffers.each_mut().map(|buffer| buffer.as_mut_slice());
        let number = ring_by(&self.projection, lists, buffers, &mut area, &mut points);
        assert_eq!(number, 0, "the ring is answered");
        (area, points)
    }
}

/// The answer to a home and its schools, and the lent list after the call.
pub fn nearest(asked: &Nearest) -> NearestAnswer {
    let [eastings, northings] = asked.eastings_and_northings();
    let mut list = nearest::lent(asked.lent + BEHIND);
    let order = &mut list[..asked.lent];
    let number = nearest_into(asked.home, [&eastings, &northings], &asked.rolls(), order);
    let behind = list.split_off(asked.lent);
    let untouched = nearest::lent(asked.lent + BEHIND).ends_with(&behind);
    assert!(untouched, "nothing is written behind a lent list");
    NearestAnswer { number, list }
}

/// The number, and the order in the lent list.
pub fn nearest_into(
    [easting, northing]: Pair,
    [eastings, northings]: [&[f64]; 2],
    rolls: &[u16],
    order: &mut [u16],
) -> u8 {
    let (es, ns) = (eastings.len(), northings.len());
    let (e, n) = (eastings.as_ptr(), northings.as_ptr());
    let (r, rs, o, os) = (rolls.as_ptr(), rolls.len(), order.as_mut_ptr(), order.len());
    // SAFETY: it reads three slices and writes another, each with its length.
    unsafe { lenthuc_nearest(easting, northing, e, es, n, ns, r, rs, o, os) }
}

/// The answer to a stop.
pub fn travel_charge(stop: &Stop) -> ChargeAnswer {
    let Stop { rate, children, .. } = *stop;
    let [dx, dy] = stop.offset;
    let before = charge::before::<{ CHILDREN + BEHIND }>();
    let mut longer = before;
    let shares = longer.first_chunk_mut().expect("as many places");
    let (number, charge) = travel_charge_into((dx, dy, rate), children, shares);
    let shares = *shares;
    let untouched = longer[CHILDREN..] == before[CHILDREN..];
    assert!(untouched, "nothing is written behind the shares");
    ChargeAnswer {
        number,
        charge,
        shares,
    }
}

/// The number and the charge for dx, dy and a rate, and the shares in the lent places.
pub fn travel_charge_into(
    (dx, dy, rate): (f64, f64, u64),
    children: u64,
    shares: &mut Shares,
) -> (u8, u64) {
    let mut charge = u64::MAX;
    let number = lenthuc_travel_charge(dx, dy, rate, children, &mut charge, shares);
    (number, charge)
}
