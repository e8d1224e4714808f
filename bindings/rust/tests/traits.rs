//! A projection as a value: by reference, in a box, behind `dyn`, copied, compared, shown; and what
//! it was built of.

mod common;

use common::{EARTH, KINDS, Random, WAYS, area, bits, build, build_in, project};
use lenthuc::{
    AlbersEqualArea, AmericanPolyconic, Answer, Area, CassiniSoldner, Ellipsoid, EqualEarth,
    GuamProjection, LambertAzimuthalEqualArea, Outcome, Projection, Refusal, Ring, RingArea,
    TravelCharge, UnequalLengths, WGS84,
};
use std::error::Error;
use std::fmt::Debug;
use std::sync::Arc;

/// What every method of the trait gives, as text that has each bit.
fn all_methods<P: Projection + ?Sized>(map: &P) -> String {
    let (u, v) = ([0.2, f64::NAN], [0.6, 0.0]);
    let mut said = String::new();
    let mut say = |answer: Answer| said += &format!("{:x?}\n", bits(answer));
    say(map.forward(u[0], v[0]));
    say(map.inverse(2e5, -3e5));
    say(map.forward_degrees(11.0, 35.0));
    say(map.inverse_degrees(2e5, -3e5));
    map.forward_points(&[(u[0], v[0]), (u[1], v[1])])
        .into_iter()
        .chain(map.inverse_points(&[(2e5, -3e5), (u[1], v[1])]))
        .for_each(&mut say);
    for back in [false, true] {
        let (mut p, mut q) = ([f64::NAN; 2], [f64::NAN; 2]);
        let mut outcomes = [Outcome::default(); 2];
        let done = match back {
            false => map.forward_column(&u, &v, &mut p, &mut q, &mut outcomes),
            true => map.inverse_column(&u, &v, &mut p, &mut q, &mut outcomes),
        };
        assert_eq!(done, Ok(()));
        for i in 0..2 {
            say(outcomes[i].result().map(|()| (p[i], q[i])));
        }
        let few = match back {
            false => map.forward_column(&u[1..], &v, &mut p, &mut q, &mut outcomes),
            true => map.inverse_column(&u[1..], &v, &mut p, &mut q, &mut outcomes),
        };
        assert_eq!(few, Err(UnequalLengths));
    }
    let (lon, lat) = ([0.2, 0.21, 0.2], [0.6, 0.6, 0.605]);
    let (mut easting, mut northing) = ([f64::NAN; 99], [f64::NAN; 99]);
    let ring = map.ring_area(&lon, &lat, &mut easting, &mut northing);
    say(ring.map(|ring| (ring.area, ring.points as f64)));
    let corners = [(lon[0], lat[0]), (lon[1], lat[1]), (lon[2], lat[2])];
    let ring = map.ring(&corners);
    say(ring.map(|ring| (ring.area, ring.points.iter().map(|(x, y)| x + y).sum())));
    said + &format!("{map:?}")
}

/// A function that takes any projection takes what points to one, and pointers to these.
#[test]
#[allow(clippy::needless_borrows_for_generic_args)] // the borrows are what is tested
fn pointers_project() {
    fn by_value(map: impl Projection) -> String {
        all_methods(&map)
    }
    for kind in KINDS {
        let map = build(kind, EARTH).expect("a map of the Earth");
        let expected = all_methods(&*map);
        assert_eq!(expected.lines().count(), 15);
        let dynamic: &dyn Projection = &*map;
        assert_eq!(by_value(dynamic), expected);
        assert_eq!(by_value(&dynamic), expected);
        assert_eq!(by_value(&map), expected);
        assert_eq!(by_value(map), expected);
        let shared: Arc<dyn Projection> = Arc::from(build(kind, EARTH).expect("the same"));
        assert_eq!(by_value(Arc::clone(&shared)), expected);
        assert_eq!(by_value(Box::new(shared)), expected);
    }
    let world = EqualEarth::new(WGS84, 0.0, 0.0, 0.0).expect("the world");
    assert_eq!(by_value(&world), by_value(world));
    assert_eq!(by_value(Box::new(world)), by_value(Arc::new(world)));
    assert_eq!(by_value(Box::new(&world)), by_value(&&world));
}

#[test]
fn types_are_plain_values() {
    fn plain<T: Copy + Send + Sync + Unpin + PartialEq + Debug + 'static>(value: T) {
        let copy = value;
        assert_eq!(copy, value);
    }
    fn shared<T: Send + Sync + Debug + ?Sized>() {}
    plain(WGS84);
    plain(Outcome::ANSWERED);
    plain(Area::from_degrees(1.0, 2.0, 3.0, 4.0));
    plain(RingArea {
        area: 1.0,
        points: 3,
    });
    plain(TravelCharge {
        charge: 1,
        shares: [0; 60],
    });
    plain(LambertAzimuthalEqualArea::new(WGS84, 0.0, 0.0, 0.0, 0.0));
    plain(AlbersEqualArea::new(WGS84, 0.0, 0.0, 0.5, 0.5, 0.0, 0.0));
    plain(EqualEarth::new(WGS84, 0.0, 0.0, 0.0));
    plain(CassiniSoldner::new(WGS84, 0.0, 0.0, 0.0, 0.0));
    plain(AmericanPolyconic::new(WGS84, 0.0, 0.0, 0.0, 0.0));
    plain(GuamProjection::new(WGS84, 0.0, 0.0, 0.0, 0.0));
    shared::<Ring>();
    shared::<dyn Projection>();
    shared::<Box<dyn Projection>>();
    shared::<&dyn Projection>();
    shared::<Vec<Arc<dyn Projection>>>();
}

/// A copy is a projection of its own: it outlives what it was copied from.
#[test]
fn copies_answer_as_they_did() {
    let (copy, expected) = {
        let map = Box::new(GuamProjection::new(WGS84, 0.3, 0.7, 1.0, 2.0).expect("an island"));
        (*map, map.forward(0.31, 0.71))
    };
    assert_eq!(copy.forward(0.31, 0.71), expected);
    assert!(expected.is_ok());
    let many = vec![copy; 1000];
    assert!(many.iter().all(|map| map.forward(0.31, 0.71) == expected));
}

/// The settings say whether two are equal, and the form of a Lambert is one of them.
#[test]
fn equal_by_the_settings() {
    let new = |lat0| LambertAzimuthalEqualArea::new(WGS84, 0.1, lat0, 2.0, 3.0);
    let spherical = LambertAzimuthalEqualArea::new_spherical(WGS84, 0.1, 0.5, 2.0, 3.0);
    assert_eq!(new(0.5), new(0.5));
    assert_eq!(new(0.0), new(-0.0));
    assert_ne!(new(0.5), new(0.6));
    assert_ne!(new(0.5), spherical);
    assert_eq!(new(f64::NAN), Err(Refusal::LatitudeSetting));
    let albers = |lat1, lat2| AlbersEqualArea::new(WGS84, 0.1, 0.2, lat1, lat2, 0.0, 0.0);
    assert_eq!(albers(0.5, 0.6), albers(0.5, 0.6));
    assert_ne!(albers(0.5, 0.6), albers(0.6, 0.5));
}

/// So does the area, each edge of it.
#[test]
fn equal_by_the_area() {
    let world = EqualEarth::new(WGS84, 0.1, 2.0, 3.0).expect("the world");
    let edges = [-0.4, 0.3, -0.2, 0.1];
    let with = |edges| world.with_area(area(edges)).expect("an area");
    assert_eq!(with(edges), with(edges));
    assert_ne!(with(edges), world);
    for place in 0..4 {
        let mut other = edges;
        other[place] += 1e-9;
        assert_ne!(with(other), with(edges));
    }
    let other = EqualEarth::new(WGS84, 0.2, 2.0, 3.0).expect("another");
    assert_ne!(other.with_area(area(edges)), Ok(with(edges)));
}

/// `Debug` has the settings that the constructor takes, by name, the area if there is one, and nothing
/// else.
#[test]
fn shown_by_the_settings() {
    let sphere = "ellipsoid: Ellipsoid { a: 2.0, f: 0.5 }";
    let offsets = "false_easting: 5.0, false_northing: -6.0";
    let settings = [2.0, 0.5, 0.1, 0.2, 0.3, 0.4, 5.0, -6.0];
    for (kind, expected) in [
        (
            b'L',
            format!(
                "LambertAzimuthalEqualArea {{ {sphere}, lon0: 0.1, lat0: 0.2, {offsets}, \
                 spherical: false }}"
            ),
        ),
        (
            b'S',
            format!(
                "LambertAzimuthalEqualArea {{ {sphere}, lon0: 0.1, lat0: 0.2, {offsets}, \
                 spherical: true }}"
            ),
        ),
        (
            b'A',
            format!(
                "AlbersEqualArea {{ {sphere}, lon0: 0.1, lat0: 0.2, lat1: 0.3, lat2: 0.4, \
                 {offsets} }}"
            ),
        ),
        (
            b'E',
            format!("EqualEarth {{ {sphere}, lon0: 0.1, {offsets} }}"),
        ),
        (
            b'C',
            format!("CassiniSoldner {{ {sphere}, lon0: 0.1, lat0: 0.2, {offsets} }}"),
        ),
        (
            b'P',
            format!("AmericanPolyconic {{ {sphere}, lon0: 0.1, lat0: 0.2, {offsets} }}"),
        ),
        (
            b'G',
            format!("GuamProjection {{ {sphere}, lon0: 0.1, lat0: 0.2, {offsets} }}"),
        ),
    ] {
        let map = build(kind, settings).expect("a map");
        assert_eq!(format!("{map:?}"), expected);
        let with_area = build_in([0.5, -0.5, -1.0, 1.25], kind, settings).expect("an area");
        let shown = ", area: Area { west: 0.5, east: -0.5, south: -1.0, north: 1.25 } }";
        let start = expected.strip_suffix(" }").expect("an end");
        assert_eq!(format!("{with_area:?}"), format!("{start}{shown}"));
        assert_eq!(format!("{:?}", &&*map), expected);
        assert_eq!(
            format!("{map:#?}").lines().next(),
            expected.split_inclusive('{').next()
        );
    }
}

/// The accessors give what the constructor was given, to the bit.
#[test]
fn accessors() {
    let ellipsoid = Ellipsoid::from_a_f(7e6, 0.01).expect("an ellipsoid");
    let (lon0, lat0, lat1, lat2, fe, fn_) = (-0.0, -0.7, 0.5, -0.1, 1e6, -2e-300);
    let given_area = area([0.1, -0.0, -1.5, 1.5]);
    macro_rules! given {
        ($map:expr $(, $latitude:ident)*) => {
            let map = $map.expect("a map");
            let with_area = map.with_area(given_area).expect("an area");
            assert_eq!(map.area(), None);
            let found = with_area.area().expect("an area");
            assert_eq!(found, given_area);
            assert_eq!(found.east.to_bits(), given_area.east.to_bits());
            for map in [map, with_area, with_area.without_area()] {
                assert_eq!(map.ellipsoid(), ellipsoid);
                assert_eq!(map.lon0().to_bits(), f64::to_bits(lon0));
                $(assert_eq!(map.$latitude(), $latitude);)*
                assert_eq!(map.false_easting(), fe);
                assert_eq!(map.false_northing(), fn_);
            }
        };
    }
    let lambert = LambertAzimuthalEqualArea::new(ellipsoid, lon0, lat0, fe, fn_);
    given!(lambert, lat0);
    let spherical = LambertAzimuthalEqualArea::new_spherical(ellipsoid, lon0, lat0, fe, fn_);
    given!(spherical, lat0);
    assert_eq!(lambert.map(|map| map.is_spherical()), Ok(false));
    assert_eq!(spherical.map(|map| map.is_spherical()), Ok(true));
    let albers = AlbersEqualArea::new(ellipsoid, lon0, lat0, lat1, lat2, fe, fn_);
    given!(albers, lat0, lat1, lat2);
    given!(EqualEarth::new(ellipsoid, lon0, fe, fn_));
    given!(CassiniSoldner::new(ellipsoid, lon0, lat0, fe, fn_), lat0);
    given!(AmericanPolyconic::new(ellipsoid, lon0, lat0, fe, fn_), lat0);
    given!(GuamProjection::new(ellipsoid, lon0, lat0, fe, fn_), lat0);
}

/// A projection that was built of another's settings is that other.
#[test]
fn built_again_of_its_settings() {
    let mut random = Random(6);
    for _ in 0..200 {
        let [lon0, lat0, lat1, lat2] = [(); 4].map(|()| random.within(1.5));
        let Ok(map) = AlbersEqualArea::new(WGS84, lon0, lat0, lat1, lat2, 1.0, 2.0) else {
            continue;
        };
        let again = AlbersEqualArea::new(
            map.ellipsoid(),
            map.lon0(),
            map.lat0(),
            map.lat1(),
            map.lat2(),
            map.false_easting(),
            map.false_northing(),
        );
        let again = again.expect("the same");
        assert_eq!(again, map);
        for way in WAYS {
            let (u, v) = (random.input(way), random.input(way));
            assert_eq!(
                bits(project(&again, way, u, v)),
                bits(project(&map, way, u, v))
            );
        }
    }
}

#[test]
fn outcomes() {
    assert_eq!(size_of::<Outcome>(), 1);
    assert_eq!(align_of::<Outcome>(), 1);
    assert_eq!(Outcome::default(), Outcome::ANSWERED);
    assert!(Outcome::ANSWERED.is_answered());
    assert_eq!(Outcome::ANSWERED.number(), 0);
    assert_eq!(Outcome::ANSWERED.refusal(), None);
    assert_eq!(Outcome::ANSWERED.result(), Ok(()));
    assert_eq!(format!("{:?}", Outcome::ANSWERED), "Answered");
    for refusal in (0..=u8::MAX).filter_map(Refusal::from_number) {
        let outcome = Outcome::from(refusal);
        assert!(!outcome.is_answered());
        assert_eq!(outcome.number(), refusal.number());
        assert_eq!(outcome.refusal(), Some(refusal));
        assert_eq!(outcome.result(), Err(refusal));
        assert_eq!(format!("{outcome:?}"), format!("Refused({refusal:?})"));
        assert_ne!(outcome, Outcome::ANSWERED);
    }
}

/// `?` takes both errors, in a function that gives any error.
#[test]
fn with_question_marks() {
    fn easting(lat: f64) -> Result<f64, Box<dyn Error + Send + Sync>> {
        let map = EqualEarth::new(WGS84, 0.0, 0.0, 0.0)?;
        let (mut x, mut y, mut outcome) = ([0.0], [0.0], [Outcome::default()]);
        map.forward_column(&[0.1], &[lat], &mut x, &mut y, &mut outcome)?;
        outcome[0].result()?;
        Ok(x[0])
    }
    assert!(easting(0.5).is_ok());
    let refused = easting(2.0).expect_err("no such latitude");
    assert_eq!(refused.downcast_ref(), Some(&Refusal::ForwardBeyond));
}
