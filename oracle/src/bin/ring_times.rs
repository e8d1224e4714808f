//! Times rings on an office's map of each kind that has them: ours, and the same in Rust, which is the
//! oracle's and keeps its points in a vector, so that it projects each once. The projection is built
//! before. A figure is the median of the passes, the sides taking turns. The last ring is the largest
//! that there is: 4,096 corners, and every edge cut to depth 10. Ends in 1 where an area of ours is
//! not the Rust's.

use oracle::line::{LAT0, LON0};
use oracle::offices::OFFICES;
use oracle::ours::Lent;
use oracle::ring::{KINDS, MOST, Map, Meant, Pair, Ring, Rule};
use std::f64::consts::TAU;
use std::hint::black_box;
use std::process::ExitCode;
use std::time::Instant;

/// Metres in a radian of latitude, about.
const RADIAN: f64 = 6.37e6;

/// What is timed: how many corners, how far they are from the map's origin in metres, and how often.
const CIRCLES: [(&str, usize, f64, usize); 4] = [
    ("a catchment of 12 corners, 2 km", 12, 2e3, 2001),
    ("a district of 200 corners, 20 km", 200, 2e4, 301),
    ("a region of 40 corners, 300 km", 40, 3e5, 101),
    ("a coast of 4,096 corners, 300 km", MOST, 3e5, 51),
];

const LARGEST: usize = 3;

fn main() -> ExitCode {
    println!("us a ring: points, ours, Rust, ours / Rust, ns a point of ours");
    let mut differ = 0;
    for kind in KINDS {
        for (name, corners, metres, passes) in CIRCLES {
            differ += line(kind, name, &circle(kind, corners, metres), passes);
        }
        differ += line(kind, "the largest ring", &largest(kind), LARGEST);
    }
    if differ > 0 {
        println!("{differ} areas are not the Rust's");
    }
    ExitCode::from(u8::from(differ > 0))
}

/// A ring on the first office's map of a kind, by corners that are given from its origin.
fn about(kind: u8, corner: impl Fn([f64; 2]) -> Vec<Pair>) -> Ring {
    let office = OFFICES.iter().find(|office| office.kind == kind);
    let office = office.expect("a map of each kind");
    let mut settings = [0.0; 8];
    settings[..2].copy_from_slice(&office.axes);
    settings[2..6].copy_from_slice(&office.origin.map(f64::to_radians));
    settings[6..].copy_from_slice(&office.offsets);
    let [west, south, east, north] = office.area.map(f64::to_radians);
    let middle = match kind {
        b'A' => [settings[LON0], (south + north) / 2.0],
        b'E' => [(west + east) / 2.0, 0.7],
        _ => [settings[LON0], settings[LAT0]],
    };
    let corners = corner(middle);
    Ring {
        kind,
        settings,
        area: None,
        lists: [corners.len(); 2],
        buffers: [1024 * corners.len(); 2],
        corners,
    }
}

fn circle(kind: u8, count: usize, metres: f64) -> Ring {
    about(kind, |[lon, lat]| {
        let corner = |place| {
            let angle = TAU * place as f64 / count as f64;
            // in and out, so that no edge lies along the circle
            let far = metres / RADIAN * if place % 2 == 0 { 1.0 } else { 0.8 };
            let wide = 1.0 / lat.cos().max(0.1);
            [lon + wide * far * angle.cos(), lat + far * angle.sin()]
        };
        (0..count).map(corner).collect()
    })
}

/// From side to side of the map, so that every edge is cut as deep as it can be.
fn largest(kind: u8) -> Ring {
    about(kind, |[lon, _]| {
        let corner = |place| {
            let side = if place % 2 == 0 { -1.0 } else { 1.0 };
            [lon + side, 0.9 * side + 1e-4 * (place as f64 / MOST as f64)]
        };
        (0..MOST).map(corner).collect()
    })
}

/// The median pass of both sides, in us.
fn line(kind: u8, name: &str, ring: &Ring, passes: usize) -> usize {
    let map = Meant.build(ring).ok().expect("a projection");
    let mut lent = Lent::new(ring);
    let (area, points) = lent.measure();
    let (expected, count) = in_rust(&map, ring);
    let mut times = [Vec::new(), Vec::new()];
    for _ in 0..passes {
        times[0].push(timed(|| lent.measure().0));
        times[1].push(timed(|| in_rust(&map, ring).0));
    }
    let [ours, rust] = times.map(|mut list| {
        list.sort_by(f64::total_cmp);
        list[list.len() / 2]
    });
    let (ratio, each) = (ours / rust, 1e3 * ours / points as f64);
    let kind = char::from(kind);
    println!("{kind} {name:33} {points:8} {ours:12.2} {rust:12.2} {ratio:5.2} {each:7.1}");
    usize::from(area.to_bits() != expected.to_bits() || points != count)
}

fn in_rust(map: &Map, ring: &Ring) -> (f64, usize) {
    let points = Meant.points(map, ring).expect("points");
    (Meant.area(&points), points.len())
}

fn timed(work: impl FnOnce() -> f64) -> f64 {
    let start = Instant::now();
    black_box(work());
    start.elapsed().as_nanos() as f64 / 1e3
}
