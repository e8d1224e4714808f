//! What the Rattle code is held against: document 01's fixed functions in Rust, written from 01
//! alone, the source's own files with those functions and with the platform's, document 02's Albers
//! on a sphere and its rounds beside them, its area of use over all and its ring on top, its nearest
//! schools, its second inverse and its travel charge, and what to try them on. No crate of a registry.

pub mod area;
pub mod area_cases;
pub mod area_sample;
pub mod areas;
pub mod cases;
pub mod charge;
pub mod charge_cases;
pub mod charge_sample;
pub mod charges;
pub mod clicks;
pub mod count;
pub mod damage;
pub mod ellipsoids;
pub mod exact;
pub mod expected;
pub mod fixed;
pub mod functions;
pub mod inverses;
pub mod line;
pub mod lines;
pub mod methods;
pub mod nearest;
pub mod nearest_cases;
pub mod nearest_sample;
pub mod nearests;
pub mod offices;
pub mod on_map;
pub mod on_map_cases;
pub mod on_map_sample;
pub mod ours;
pub mod patterns;
pub mod program;
pub mod ring;
pub mod ring_cases;
pub mod ring_sample;
pub mod rings;
pub mod roll_cases;
pub mod round_cases;
pub mod round_sample;
pub mod rounds;
pub mod sharp;
pub mod sheet;
pub mod sheets;
pub mod source;
pub mod sphere;
pub mod sphere_cases;
pub mod sphere_sample;
pub mod spheres;
pub mod stored;
pub mod whole;
