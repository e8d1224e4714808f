//! What `lenthuc.h` says and no type of the crate can ask: the version, any letter, projections that
//! are refused or that no one built, areas that no one checked, kinds without a second inverse, results
//! of refusals, a ring's and a charge's too, and pointers of length 0.

mod common;

use common::{
    BOUND, Bits, EARTH, Edges, KINDS, NANS, ON_MAP_KINDS, Random, Settings, holds, next_down,
    next_up,
};
use std::f64::consts::{FRAC_PI_2, PI};
use std::ptr;

// The crate links the archive.
use lenthuc as _;

type Numbers = [f64; 36];

/// Where an area stands in the numbers: a flag, which is 1 where there is one, and then its edges.
const FLAG: usize = 31;

// SAFETY: the signatures are those of lenthuc.h; a reference is a pointer as it asks for.
unsafe extern "C" {
    safe fn lenthuc_version() -> u32;
    safe fn lenthuc_from_a_f(a: f64, f: f64) -> u8;
    safe fn lenthuc_from_a_rf(a: f64, rf: f64, f: &mut f64) -> u8;
    safe fn lenthuc_normalize_longitude(lon: f64) -> f64;
    safe fn lenthuc_build(kind: u8, settings: &Settings, projection: &mut Numbers) -> u8;
    safe fn lenthuc_build_in_area(
        kind: u8,
        settings: &Settings,
        area: &Edges,
        projection: &mut Numbers,
    ) -> u8;
    safe fn lenthuc_forward(map: &Numbers, u: f64, v: f64, p: &mut f64, q: &mut f64) -> u8;
    safe fn lenthuc_inverse(map: &Numbers, u: f64, v: f64, p: &mut f64, q: &mut f64) -> u8;
    safe fn lenthuc_inverse_on_map(
        map: &Numbers,
        u: f64,
        v: f64,
        p: &mut f64,
        q: &mut f64,
        number: &mut u8,
    ) -> u8;
    safe fn lenthuc_travel_charge(
        dx: f64,
        dy: f64,
        rate: u64,
        children: u64,
        charge: &mut u64,
        shares: &mut [u64; 60],
    ) -> u8;
    fn lenthuc_forward_column(
        map: &Numbers,
        u: *const f64,
        us: usize,
        v: *const f64,
        vs: usize,
        p: *mut f64,
        ps: usize,
        q: *mut f64,
        qs: usize,
        numbers: *mut u8,
        ns: usize,
    ) -> u8;
    fn lenthuc_inverse_column(
        map: &Numbers,
        u: *const f64,
        us: usize,
        v: *const f64,
        vs: usize,
        p: *mut f64,
        ps: usize,
        q: *mut f64,
        qs: usize,
        numbers: *mut u8,
        ns: usize,
    ) -> u8;
    fn lenthuc_inverse_on_map_column(
        map: &Numbers,
        u: *const f64,
        us: usize,
        v: *const f64,
        vs: usize,
        p: *mut f64,
        ps: usize,
        q: *mut f64,
        qs: usize,
        numbers: *mut u8,
        ns: usize,
        number: &mut u8,
    ) -> u8;
    fn lenthuc_ring_area(
        map: &Numbers,
        lon: *const f64,
        lons: usize,
        lat: *const f64,
        lats: usize,
        easting: *mut f64,
        eastings: usize,
        northing: *mut f64,
        northings: usize,
        area: &mut f64,
        points: &mut usize,
    ) -> u8;
    fn lenthuc_nearest(
        easting: f64,
        northing: f64,
        eastings: *const f64,
        eastings_length: usize,
        northings: *const f64,
        northings_length: usize,
        rolls: *const u16,
        rolls_length: usize,
        order: *mut u16,
        order_length: usize,
    ) -> u8;
}

const LINE_FORM: u8 = 2;

/// The points that are asked, forward and back.
const POINTS: [[(f64, f64); 3]; 2] = [
    [(0.2, 0.6), (f64::NAN, 0.6), (0.2, 2.0)],
    [(2e5, -3e5), (f64::INFINITY, 0.0), (1e300, 0.0)],
];

/// What building says, and the projection, of which every number is NaN before.
fn build(kind: u8, settings: Settings) -> (u8, Numbers) {
    let mut map = [f64::NAN; 36];
    let number = lenthuc_build(kind, &settings, &mut map);
    (number, map)
}

/// The same with an area.
fn build_in(edges: Edges, kind: u8, settings: Settings) -> (u8, Numbers) {
    let mut map = [f64::NAN; 36];
    let number = lenthuc_build_in_area(kind, &settings, &edges, &mut map);
    (number, map)
}

/// The numbers of a projection, with an area that no one checked.
fn unchecked(map: &Numbers, edges: Edges) -> Numbers {
    let mut map = *map;
    map[FLAG] = 1.0;
    map[FLAG + 1..].copy_from_slice(&edges);
    map
}

/// What the second inverse gives for a point, into places that hold others before. None where the
/// projection has none: they hold the same after.
fn on_map(map: &Numbers, u: f64, v: f64) -> Option<Bits> {
    let (mut p, mut q, mut number) = (7.0, 8.0, 99);
    let has = lenthuc_inverse_on_map(map, u, v, &mut p, &mut q, &mut number);
    assert!(has == 1 || (has, p, q, number) == (0, 7.0, 8.0, 99));
    (has == 1).then_some((number, p.to_bits(), q.to_bits()))
}

/// What it gives for columns, of which the northings' may be shorter: *number, and what three columns
/// hold. None as above.
fn on_map_column(map: &Numbers, u: &[f64], v: &[f64]) -> Option<(u8, Vec<Bits>)> {
    let count = u.len();
    let (mut p, mut q, mut numbers) = (vec![7.0; count], vec![8.0; count], vec![9; count]);
    let mut number = 99;
    // SAFETY: each pointer and the length after it are of one slice.
    let has = unsafe {
        lenthuc_inverse_on_map_column(
            map,
            u.as_ptr(),
            count,
            v.as_ptr(),
            v.len(),
            p.as_mut_ptr(),
            count,
            q.as_mut_ptr(),
            count,
            numbers.as_mut_ptr(),
            count,
            &mut number,
        )
    };
    let place = |i: usize| (numbers[i], p[i].to_bits(), q[i].to_bits());
    let places: Vec<_> = (0..count).map(place).collect();
    assert!(has == 1 || (has, number) == (0, 99) && places == untouched(count));
    (has == 1).then_some((number, places))
}

/// What columns hold that `on_map_column` lends.
fn untouched(count: usize) -> Vec<Bits> {
    vec![(9, f64::to_bits(7.0), f64::to_bits(8.0)); count]
}

/// What a projection answers to the points, which is the same by single calls, into places that hold
/// NaN before, and by columns. Its second inverse, if it has one, gives the same for points back but for
/// those that it refuses by 30.
fn answers(map: &Numbers) -> [[Bits; 3]; 2] {
    let singles = [lenthuc_forward, lenthuc_inverse];
    let columns = [lenthuc_forward_column, lenthuc_inverse_column];
    let found = [0, 1].map(|way| {
        let single = POINTS[way].map(|(u, v)| {
            let (mut p, mut q) = (f64::NAN, f64::NAN);
            let number = singles[way](map, u, v, &mut p, &mut q);
            (number, p.to_bits(), q.to_bits())
        });
        let (u, v) = (
            POINTS[way].map(|point| point.0),
            POINTS[way].map(|point| point.1),
        );
        let (mut p, mut q, mut numbers) = ([f64::NAN; 3], [f64::NAN; 3], [99; 3]);
        // SAFETY: five arrays of three elements.
        let said = unsafe {
            columns[way](
                map,
                u.as_ptr(),
                3,
                v.as_ptr(),
                3,
                p.as_mut_ptr(),
                3,
                q.as_mut_ptr(),
                3,
                numbers.as_mut_ptr(),
                3,
            )
        };
        assert_eq!(said, 0);
        let column = [0, 1, 2].map(|i| (numbers[i], p[i].to_bits(), q[i].to_bits()));
        assert_eq!(column, single);
        single
    });
    let second = POINTS[1].map(|(u, v)| on_map(map, u, v));
    for (second, first) in second.into_iter().zip(found[1]) {
        assert!(second.is_none_or(|bits| bits == first || bits == (30, 0, 0)));
    }
    let (u, v) = (
        POINTS[1].map(|point| point.0),
        POINTS[1].map(|point| point.1),
    );
    let column = on_map_column(map, &u, &v);
    let expected: Option<Vec<_>> = second.into_iter().collect();
    assert_eq!(column, expected.map(|places| (0, places)));
    found
}

/// Whether a projection has a second inverse; and where it was refused, whether that gives its number.
fn has_second_inverse(map: &Numbers, refused: Option<u8>) -> bool {
    let second = on_map(map, f64::NAN, 0.0);
    assert!(second.is_none_or(|bits| bits == (refused.unwrap_or(20), 0, 0)));
    second.is_some()
}

/// What a projection that was refused answers: its number to every point, and +0.
fn refused(number: u8) -> [[Bits; 3]; 2] {
    [[(number, 0, 0); 3]; 2]
}

/// A ring's number, the pattern of its area and the number of its points, which hold others before. The
/// buffers, which have so many places, hold NaN before; of a refusal they do after, and else the places
/// after the points do.
fn ring(map: &Numbers, lon: &[f64], lat: &[f64], places: usize) -> (u8, u64, usize) {
    let (mut easting, mut northing) = (vec![f64::NAN; places], vec![f64::NAN; places]);
    let (mut area, mut points) = (f64::NAN, usize::MAX);
    // SAFETY: each pointer and the length after it are of one slice.
    let number = unsafe {
        lenthuc_ring_area(
            map,
            lon.as_ptr(),
            lon.len(),
            lat.as_ptr(),
            lat.len(),
            easting.as_mut_ptr(),
            places,
            northing.as_mut_ptr(),
            places,
            &mut area,
            &mut points,
        )
    };
    assert!(number == 0 || (area.to_bits(), points) == (0, 0));
    let written = |buffer: &[f64]| buffer.iter().take_while(|place| place.is_finite()).count();
    for buffer in [easting, northing] {
        assert_eq!(written(&buffer), points);
        assert!(buffer[points..].iter().all(|place| place.is_nan()));
    }
    (number, area.to_bits(), points)
}

/// The archive's version is the header's and the crate's.
#[test]
fn versions() {
    let header = include_str!("../../c/lenthuc.h");
    let stated = format!("#define LENTHUC_VERSION {}\n", lenthuc_version());
    assert!(header.contains(&stated), "{stated}");
    let version = lenthuc_version();
    let parts = [version / 10_000, version / 100 % 100, version % 100];
    let [major, minor, patch] = parts;
    assert_eq!(
        format!("{major}.{minor}.{patch}"),
        env!("CARGO_PKG_VERSION")
    );
}

/// Of all 256 letters seven name a kind.
#[test]
fn letters() {
    let mut named = 0;
    for kind in 0..=u8::MAX {
        let (number, map) = build(kind, EARTH);
        if KINDS.contains(&kind) {
            named += 1;
            assert_eq!(number, 0);
            let [[there, no_number, beyond], [back, no_place, _]] = answers(&map);
            assert_eq!((there.0, back.0), (0, 0));
            assert_eq!(no_number, (16, 0, 0));
            assert_eq!(beyond, (17, 0, 0));
            assert_eq!(no_place, (20, 0, 0));
        } else {
            assert_eq!(number, LINE_FORM);
            assert_eq!(answers(&map), refused(LINE_FORM));
        }
    }
    assert_eq!(named, 7);
}

/// A letter is looked at first, then a and f, then the settings. What is refused answers every point
/// by the number of its refusal, before the point is looked at.
#[test]
fn refusals_in_their_order() {
    let mut settings = [f64::NAN; 8];
    let (number, map) = build(b'x', settings);
    assert_eq!(number, LINE_FORM);
    assert_eq!(answers(&map), refused(LINE_FORM));
    for (place, expected) in [4, 5, 6, 7, 7, 7, 9, 10].into_iter().enumerate() {
        let (number, map) = build(b'A', settings);
        assert_eq!(number, expected);
        assert_eq!(answers(&map), refused(expected));
        settings[place] = EARTH[place];
    }
    assert_eq!(build(b'A', settings).0, 0);
}

/// The refusals that are a kind's own.
#[test]
fn refusals_of_kinds() {
    let near_pole = FRAC_PI_2 - 1e-9;
    let near_1 = 1.0 - 2.0_f64.powi(-53);
    let smallest = f64::from_bits(0x3cc2_03af_9ee7_5617);
    for (kind, expected, settings) in [
        (b'G', 11, [1.0, 0.0, 0.0, 0.0, 0.0, 0.0, 0.0, 0.0]),
        (b'L', 12, [1.0, near_1, 0.0, 0.0, 0.0, 0.0, 0.0, 0.0]),
        (b'S', 12, [1.0, near_1, 0.0, 0.0, 0.0, 0.0, 0.0, 0.0]),
        (b'S', 13, [1.0, 0.0, 0.0, near_pole, 0.0, 0.0, 0.0, 0.0]),
        (
            b'L',
            14,
            [f64::MAX, smallest, 0.0, -1.0, 0.0, 0.0, 0.0, 0.0],
        ),
        (b'A', 15, [1.0, 0.003, 0.0, 0.0, 0.5, -0.5, 0.0, 0.0]),
    ] {
        let (number, map) = build(kind, settings);
        assert_eq!(number, expected);
        assert_eq!(answers(&map), refused(expected));
    }
}

/// A setting that a kind does not use never affects an answer.
#[test]
fn settings_without_use() {
    for kind in KINDS {
        let places: &[usize] = match kind {
            b'A' => &[],
            b'E' => &[3, 4, 5],
            _ => &[4, 5],
        };
        let expected = answers(&build(kind, EARTH).1);
        for pattern in NANS.into_iter().chain([0, 1, 1 << 63, 9e9_f64.to_bits()]) {
            let mut settings = EARTH;
            for &place in places {
                settings[place] = f64::from_bits(pattern);
            }
            let (number, map) = build(kind, settings);
            assert_eq!(number, 0);
            assert_eq!(answers(&map), expected);
        }
    }
}

/// Numbers that hold no projection: 36 zeros, and others that no one built.
#[test]
fn no_projection() {
    for x in [0.0, -0.0, 1.0, -1.0, f64::INFINITY, f64::NAN, f64::MAX] {
        assert_eq!(answers(&[x; 36]), refused(LINE_FORM), "{x}");
    }
}

/// An area is looked at last: after the letter, the settings and what is a kind's own; but before any
/// point. What it is refused for answers every point.
#[test]
fn areas_in_their_order() {
    let no_edges = [f64::NAN; 4];
    let sound = [-PI, PI, -BOUND, BOUND];
    let opposite = [1.0, 0.003, 0.0, 0.0, 0.5, -0.5, 0.0, 0.0];
    let sphere = [1.0, 0.0, 0.0, 0.0, 0.0, 0.0, 0.0, 0.0];
    for (kind, settings, edges, expected) in [
        (b'x', EARTH, no_edges, LINE_FORM),
        (b'E', [f64::NAN; 8], no_edges, 4),
        (b'A', opposite, no_edges, 15),
        (b'G', sphere, no_edges, 11),
        (b'A', opposite, sound, 15),
        (b'A', EARTH, no_edges, 25),
        (b'G', EARTH, no_edges, 25),
    ] {
        let (number, map) = build_in(edges, kind, settings);
        assert_eq!(number, expected);
        assert_eq!(answers(&map), refused(expected));
    }
    for kind in KINDS {
        let (number, map) = build_in(no_edges, kind, EARTH);
        assert_eq!(number, 25);
        assert_eq!(answers(&map), refused(25));
        let (number, map) = build_in(sound, kind, EARTH);
        assert_eq!(number, 0);
        assert_eq!(answers(&map), answers(&build(kind, EARTH).1));
    }
}

/// A projection that was refused, or that is none, answers every ring by its own number, before the
/// lists and the corners are looked at.
#[test]
fn rings_of_refused_projections() {
    let sphere = [1.0, 0.0, 0.0, 0.0, 0.0, 0.0, 0.0, 0.0];
    let mut maps = vec![
        build(b'x', EARTH),
        build(b'G', sphere),
        build_in([f64::NAN; 4], b'A', EARTH),
        build_in([f64::NAN; 4], b'C', EARTH),
        (LINE_FORM, [0.0; 36]),
        (LINE_FORM, [f64::NAN; 36]),
    ];
    for kind in KINDS {
        for place in [0, 1, 2, 6, 7] {
            let mut settings = EARTH;
            settings[place] = f64::NAN;
            maps.push(build(kind, settings));
        }
    }
    let (list, nan) = ([0.2, 0.3, 0.25], [f64::NAN; 3]);
    for (number, map) in maps {
        assert!((2..=25).contains(&number));
        for (lon, lat) in [
            (&list[..], &list[..]),
            (&nan, &nan),
            (&list[1..], &list),
            (&[], &[]),
        ] {
            for places in [0, 2, 3072] {
                assert_eq!(ring(&map, lon, lat, places), (number, 0, 0));
            }
        }
    }
}

/// The results of a ring's refusals are +0 and 0, and the buffers are as they were.
#[test]
fn rings_that_are_refused() {
    let (lon, lat) = ([0.2, 0.3, 0.25], [0.6, 0.6, 0.7]);
    for kind in KINDS {
        let (_, map) = build(kind, EARTH);
        let (_, in_area) = build_in([0.1, 0.4, 0.5, 0.65], kind, EARTH);
        assert_eq!(ring(&map, &lon[1..], &lat, 3072), (27, 0, 0));
        if b"CPG".contains(&kind) {
            assert_eq!(ring(&map, &lon, &lat, 3072), (27, 0, 0));
            assert_eq!(ring(&in_area, &lon, &lat, 3072), (27, 0, 0));
            continue;
        }
        let (number, area, points) = ring(&map, &lon, &lat, 3072);
        assert!(number == 0 && f64::from_bits(area) > 1e9 && points > 3);
        assert_eq!(ring(&map, &lon, &lat, points), (0, area, points));
        assert_eq!(ring(&map, &lon, &lat, points - 1), (28, 0, 0));
        assert_eq!(ring(&map, &lon, &[0.6, 0.6, f64::NAN], 3072), (16, 0, 0));
        assert_eq!(ring(&map, &lon, &[0.6, 2.0, 0.7], 3072), (17, 0, 0));
        assert_eq!(ring(&in_area, &lon, &lat, 3072), (26, 0, 0));
    }
}

/// L, S and E have a second inverse, with an area or without one. The others have none, whatever they are
/// asked; but a projection that was refused has one, of any kind, and so have numbers that hold none.
#[test]
fn second_inverses() {
    let edges = [0.1, 0.4, 0.5, 0.8];
    let (u, v) = ([2e5, 1e300, f64::NAN], [-3e5, 0.0, 0.0]);
    for kind in KINDS {
        let has = ON_MAP_KINDS.contains(&kind);
        for (number, map) in [build(kind, EARTH), build_in(edges, kind, EARTH)] {
            assert_eq!(number, 0);
            assert_eq!(has_second_inverse(&map, None), has);
            let columns = on_map_column(&map, &u, &v);
            assert_eq!(columns.is_some(), has);
            if let Some((number, places)) = columns {
                assert_eq!((number, places[1], places[2]), (0, (30, 0, 0), (20, 0, 0)));
            }
            // of unequal lengths too, and of none
            let unequal = has.then(|| (255, untouched(3)));
            assert_eq!(on_map_column(&map, &u, &v[1..]), unequal);
            assert_eq!(on_map_column(&map, &[], &[]), has.then(|| (0, vec![])));
        }
        for place in [0, 1, 2, 6, 7] {
            let mut settings = EARTH;
            settings[place] = f64::NAN;
            let (number, map) = build(kind, settings);
            assert!((4..=10).contains(&number));
            assert!(has_second_inverse(&map, Some(number)));
            let places = vec![(number, 0, 0); 3];
            assert_eq!(on_map_column(&map, &u, &v), Some((0, places)));
            let unequal = Some((255, untouched(3)));
            assert_eq!(on_map_column(&map, &u, &v[1..]), unequal);
        }
        let (_, map) = build_in([f64::NAN; 4], kind, EARTH);
        assert!(has_second_inverse(&map, Some(25)));
    }
    for map in [[0.0; 36], [f64::NAN; 36], build(b'x', EARTH).1] {
        assert!(has_second_inverse(&map, Some(LINE_FORM)));
    }
    let sphere = [1.0, 0.0, 0.0, 0.0, 0.0, 0.0, 0.0, 0.0];
    assert!(has_second_inverse(&build(b'G', sphere).1, Some(11)));
}

/// The flag is 1, or there is no area, whatever stands after it.
#[test]
fn no_area() {
    for kind in KINDS {
        let (_, built) = build(kind, EARTH);
        let nowhere = unchecked(&built, [f64::NAN; 4]);
        assert_ne!(answers(&nowhere), answers(&built));
        for flag in [0.0, -0.0, -1.0, 2.0, next_up(1.0), next_down(1.0), f64::NAN] {
            let mut map = nowhere;
            map[FLAG] = flag;
            assert_eq!(answers(&map), answers(&built), "{flag}");
        }
    }
}

/// What a built projection would be with an area is what it is with one that was handed in.
#[test]
fn areas_handed_in() {
    for kind in KINDS {
        let (_, built) = build(kind, EARTH);
        for edges in [[0.1, 0.4, 0.5, 0.8], [0.4, 0.1, 0.5, 0.8]] {
            let (number, map) = build_in(edges, kind, EARTH);
            assert_eq!(number, 0);
            let bits = |map: &Numbers| map.map(f64::to_bits);
            assert_eq!(bits(&unchecked(&built, edges)), bits(&map));
        }
    }
}

/// An area that is handed in is only compared. A NaN edge holds no place, wherever it stands;
/// infinities are numbers; a south above its north holds no place.
#[test]
fn areas_that_no_one_checked() {
    let (_, built) = build(b'E', EARTH);
    let forward = |edges, lon, lat| {
        let (mut x, mut y) = (f64::NAN, f64::NAN);
        lenthuc_forward(&unchecked(&built, edges), lon, lat, &mut x, &mut y)
    };
    let sound = [-1.0, 1.0, -1.0, 1.0];
    assert_eq!(forward(sound, 0.0, 0.0), 0);
    for nan in NANS.map(f64::from_bits) {
        for place in 0..4 {
            for crossing in [false, true] {
                let mut edges = if crossing {
                    [1.0, -1.0, -1.0, 1.0]
                } else {
                    sound
                };
                edges[place] = nan;
                for lon in [0.0, 1.0, -1.0, 2.0, -2.0, PI, -PI] {
                    assert_eq!(forward(edges, lon, 0.0), 26, "{edges:?} {lon}");
                }
            }
        }
    }
    let (inf, minus_inf) = (f64::INFINITY, f64::NEG_INFINITY);
    for lon in [0.0, PI, -PI, 1e300] {
        assert_eq!(forward([minus_inf, inf, -1.0, 1.0], lon, 0.0), 0);
        assert_eq!(forward([inf, minus_inf, -1.0, 1.0], lon, 0.0), 26);
        assert_eq!(forward([-PI, PI, minus_inf, inf], lon, 1.5), 0);
        assert_eq!(forward([-PI, PI, 0.1, -0.1], lon, 0.0), 26);
        assert_eq!(forward([-9.0, 9.0, -9.0, 9.0], lon, 0.0), 0);
    }
    // 16 and 17 come before
    assert_eq!(forward([f64::NAN; 4], f64::NAN, 0.0), 16);
    assert_eq!(forward([f64::NAN; 4], 0.0, 2.0), 17);
}

/// Of any edges whatever, what is answered lies inside them, both ways, and what does not is 26.
#[test]
fn areas_of_any_numbers() {
    let mut random = Random(18);
    let odd = [
        0.0,
        PI,
        -PI,
        BOUND,
        f64::INFINITY,
        f64::NEG_INFINITY,
        f64::NAN,
    ];
    for kind in KINDS {
        let (_, built) = build(kind, EARTH);
        let (mut inside, mut outside) = (0, 0);
        for _ in 0..3000 {
            let edges = [(); 4].map(|()| match random.bits() % 8 {
                0 => f64::from_bits(random.bits()),
                1 => odd[random.bits() as usize % odd.len()],
                _ => random.within(2.0),
            });
            let map = unchecked(&built, edges);
            let (lon, lat) = (random.within(2.0), random.within(1.0));
            let (mut x, mut y, mut p, mut q) = (f64::NAN, f64::NAN, f64::NAN, f64::NAN);
            assert_eq!(lenthuc_forward(&built, lon, lat, &mut x, &mut y), 0);
            let number = lenthuc_forward(&map, lon, lat, &mut p, &mut q);
            let expected = match holds(edges, lon, lat) {
                true => (0, x.to_bits(), y.to_bits()),
                false => (26, 0, 0),
            };
            assert_eq!((number, p.to_bits(), q.to_bits()), expected, "{edges:?}");
            let without = lenthuc_inverse(&built, x, y, &mut p, &mut q);
            let place = (p, q);
            let number = lenthuc_inverse(&map, x, y, &mut p, &mut q);
            let expected = match without == 0 && !holds(edges, place.0, place.1) {
                true => (26, 0, 0),
                false => (without, place.0.to_bits(), place.1.to_bits()),
            };
            assert_eq!((number, p.to_bits(), q.to_bits()), expected, "{edges:?}");
            inside += usize::from(number == 0);
            outside += usize::from(number == 26);
        }
        assert!(inside > 100 && outside > 100, "{kind} {inside} {outside}");
    }
}

/// The header's example of an edge that is not normalised.
#[test]
fn normalising() {
    assert_eq!(
        lenthuc_normalize_longitude(0.1).to_bits(),
        0x3fb9_9999_9999_99a0
    );
    assert!(lenthuc_normalize_longitude(f64::INFINITY).is_nan());
}

/// A built projection may be copied to other memory, and built over another.
#[test]
fn copies_and_second_buildings() {
    let mut map = [f64::NAN; 36];
    for kind in KINDS {
        for settings in [EARTH, [f64::NAN; 8]] {
            for edges in [None, Some([0.4, 0.1, 0.5, 0.8]), Some([f64::NAN; 4]), None] {
                let (number, (first, fresh)) = match edges {
                    None => (
                        lenthuc_build(kind, &settings, &mut map),
                        build(kind, settings),
                    ),
                    Some(edges) => (
                        lenthuc_build_in_area(kind, &settings, &edges, &mut map),
                        build_in(edges, kind, settings),
                    ),
                };
                assert_eq!(number, first);
                assert_eq!(map.map(f64::to_bits), fresh.map(f64::to_bits));
                let copy = Box::new(map);
                assert_eq!(answers(&copy), answers(&fresh));
            }
        }
    }
}

/// A projection that something has written over still answers, and on the map, or refuses with +0.
#[test]
fn damaged_projections() {
    let mut random = Random(5);
    let edges = [0.4, 0.1, 0.5, 0.8];
    let maps = KINDS
        .into_iter()
        .flat_map(|kind| [build(kind, EARTH), build_in(edges, kind, EARTH)]);
    for (_, built) in maps {
        for place in 0..36 {
            let was = built[place];
            let nans = NANS.into_iter().map(f64::from_bits);
            let near = [0.0, next_up(0.0), -was, next_up(was.abs()), f64::INFINITY];
            let any = (0..30).map(|_| f64::from_bits(random.bits()));
            for x in nans.chain(near).chain(any) {
                let mut map = built;
                map[place] = x;
                let [there, back] = answers(&map);
                for (number, p, q) in there.into_iter().chain(back) {
                    let (p, q) = (f64::from_bits(p), f64::from_bits(q));
                    assert!(p.is_finite() && q.is_finite());
                    assert!(number == 0 || (p.to_bits(), q.to_bits()) == (0, 0));
                }
                for (_, lon, lat) in back {
                    let (lon, lat) = (f64::from_bits(lon), f64::from_bits(lat));
                    assert!(
                        lon.abs() <= PI && lat.abs() <= BOUND,
                        "{built:?} {place} {x:e}"
                    );
                }
                let lon = [0.2, 0.201, 0.2];
                let (_, area, _) = ring(&map, &lon, &[0.6, 0.6, 0.601], 3072);
                assert!(f64::from_bits(area).is_finite());
            }
        }
    }
}

#[test]
fn flattenings() {
    for (a, rf, number, flattening) in [
        (1.0, 300.0, 0, 1.0 / 300.0),
        (1.0, 1.0, 3, 0.0),
        (0.0, 300.0, 4, 0.0),
        (f64::NAN, f64::NAN, 3, 0.0),
        // the ends: still flattenings
        (f64::MAX, f64::MAX, 0, 1.0 / f64::MAX),
        (f64::from_bits(1), next_up(1.0), 0, 1.0 - f64::EPSILON),
    ] {
        let mut f = f64::NAN;
        assert_eq!(lenthuc_from_a_rf(a, rf, &mut f), number);
        assert_eq!(f.to_bits(), f64::to_bits(flattening));
        if number == 0 {
            assert_eq!(lenthuc_from_a_f(a, f), 0);
        }
    }
    assert_eq!(lenthuc_from_a_f(1.0, 1.0), 5);
}

/// NULL is a column of length 0, of a refused projection too.
#[test]
fn null_of_length_0() {
    let (inputs, results, numbers) = (ptr::null(), ptr::null_mut(), ptr::null_mut());
    for kind in KINDS {
        for settings in [EARTH, [f64::NAN; 8]] {
            let (_, map) = build(kind, settings);
            for column in [lenthuc_forward_column, lenthuc_inverse_column] {
                // SAFETY: of length 0 nothing is read or written.
                let said = unsafe {
                    column(
                        &map, inputs, 0, inputs, 0, results, 0, results, 0, numbers, 0,
                    )
                };
                assert_eq!(said, 0);
            }
            let mut number = 99;
            // SAFETY: as above.
            let has = unsafe {
                lenthuc_inverse_on_map_column(
                    &map,
                    inputs,
                    0,
                    inputs,
                    0,
                    results,
                    0,
                    results,
                    0,
                    numbers,
                    0,
                    &mut number,
                )
            };
            let expected = ON_MAP_KINDS.contains(&kind) || settings != EARTH;
            assert_eq!((has, number), if expected { (1, 0) } else { (0, 99) });
        }
    }
}

/// So it is a list or a buffer of a ring, which has no corners then: 27, or the projection's number.
#[test]
fn null_of_a_ring() {
    let (list, buffer) = (ptr::null(), ptr::null_mut());
    for kind in KINDS {
        for (settings, expected) in [(EARTH, 27), ([f64::NAN; 8], 4)] {
            let (_, map) = build(kind, settings);
            let (mut area, mut points) = (f64::NAN, 9);
            // SAFETY: of length 0 nothing is read or written.
            let number = unsafe {
                lenthuc_ring_area(
                    &map,
                    list,
                    0,
                    list,
                    0,
                    buffer,
                    0,
                    buffer,
                    0,
                    &mut area,
                    &mut points,
                )
            };
            assert_eq!((number, area.to_bits(), points), (expected, 0, 0));
        }
    }
}

/// So it is each list of the nearest schools: 29, since there is no school, no roll or no place for one.
#[test]
fn null_of_nearest_schools() {
    let (number, roll, mut place) = (300.0, 40, 9);
    let (one, none) = ((&raw const number, 1), (ptr::null(), 0));
    let rolls = [(ptr::null(), 0), (&raw const roll, 1)];
    let orders = [(ptr::null_mut(), 0), (&raw mut place, 1)];
    for ((eastings, e), (northings, n)) in [(none, none), (one, none), (none, one), (one, one)] {
        for ((rolls, r), (order, o)) in rolls.into_iter().flat_map(|r| orders.map(|o| (r, o))) {
            // SAFETY: of length 0 nothing is read or written, and else there is one number.
            let said =
                unsafe { lenthuc_nearest(0.0, 0.0, eastings, e, northings, n, rolls, r, order, o) };
            let expected = if e + n + r + o == 4 { 0 } else { 29 };
            assert_eq!(said, expected, "{e} {n} {r} {o}");
        }
    }
    assert_eq!(place, 0);
}

/// A charge and its 60 shares take the place of whatever stood there, of a refusal too, and what stands
/// beside them stays.
#[test]
fn places_of_a_charge() {
    for (dx, rate, children, expected) in [
        (4800.0, 40, 7, (0, 200)),
        (4800.0, 40, 60, (0, 200)),
        (4800.0, 0, 7, (0, 0)),
        (0.0, 40, 1, (0, 0)),
        (1e6, 1_000_000, 1, (0, 1_000_000_000)),
        (4800.0, 40, 0, (31, 0)),
        (4800.0, 40, 61, (31, 0)),
        (4800.0, u64::MAX, 7, (31, 0)),
        (f64::NAN, 40, 7, (31, 0)),
        (f64::INFINITY, 40, 7, (31, 0)),
    ] {
        for before in [0, 1, 99, 1 << 32, u64::MAX] {
            let (mut charges, mut places) = ([before; 3], [before; 62]);
            let ([_, charge, _], [_, shares @ .., _]) = (&mut charges, &mut places);
            let number = lenthuc_travel_charge(dx, 0.0, rate, children, charge, shares);
            let (charge, shares) = (charges[1], &places[1..61]);
            assert_eq!((number, charge), expected);
            for (i, &share) in (0..).zip(shares) {
                let due = match i < children && number == 0 {
                    true => charge / children + u64::from(i < charge % children),
                    false => 0,
                };
                assert_eq!(share, due, "{dx} {rate} {children} {i}");
            }
            let beside = [charges[0], charges[2], places[0], places[61]];
            assert_eq!(beside, [before; 4]);
        }
    }
}

/// Of unequal lengths 255 is given, of a refused projection too, and nothing is written.
#[test]
fn unequal_lengths() {
    for settings in [EARTH, [f64::NAN; 8]] {
        let (_, map) = build(b'C', settings);
        let inputs = [0.1; 2];
        for column in [lenthuc_forward_column, lenthuc_inverse_column] {
            let (mut p, mut q, mut numbers) = ([7.0; 2], [8.0; 2], [9; 2]);
            // SAFETY: no length is more than its array has.
            let said = unsafe {
                column(
                    &map,
                    inputs.as_ptr(),
                    2,
                    inputs.as_ptr(),
                    1,
                    p.as_mut_ptr(),
                    2,
                    q.as_mut_ptr(),
                    2,
                    numbers.as_mut_ptr(),
                    2,
                )
            };
            assert_eq!(said, 255);
            assert_eq!((p, q, numbers), ([7.0; 2], [8.0; 2], [9; 2]));
        }
    }
}
