//! Maps that offices use, from the register of the EPSG, and the ellipsoids that they stand on.

use crate::source::fixed::ellipsoid::{self, Ellipsoid};

/// A map's settings in degrees and metres, and the area that it shows.
#[derive(Clone, Copy)]
pub struct Office {
    pub kind: u8,
    /// a and f.
    pub axes: [f64; 2],
    /// lon0, lat0, lat1, lat2.
    pub origin: [f64; 4],
    pub offsets: [f64; 2],
    /// West, south, east, north.
    pub area: [f64; 4],
}

/// The source's named ellipsoids of the Earth's size, as a and f, the sphere first.
pub const ELLIPSOIDS: [[f64; 2]; 8] = [
    axes(ellipsoid::WGS84_SPHERE),
    WGS84,
    GRS80,
    CLARKE_1866,
    BESSEL_1841,
    axes(ellipsoid::INTL1924),
    axes(ellipsoid::KRASSOWSKY),
    axes(ellipsoid::AIRY1830),
];

/// The spheres of the Earth's size that atlases stand on.
pub const SPHERES: [[f64; 2]; 2] = [ELLIPSOIDS[0], CLARKE_SPHERE];

const WGS84: [f64; 2] = axes(ellipsoid::WGS84);
const GRS80: [f64; 2] = axes(ellipsoid::GRS80);
const CLARKE_1866: [f64; 2] = axes(ellipsoid::CLARKE1866);
const BESSEL_1841: [f64; 2] = axes(ellipsoid::BESSEL1841);
const CLARKE_1858: [f64; 2] = [6378293.645208759, 1.0 / 294.2606763692654];
const CLARKE_1880: [f64; 2] = [6378300.789, 1.0 / 293.4663155389802];
const GRS_1967: [f64; 2] = [6378160.0, 1.0 / 298.25];
const EASE_SPHERE: [f64; 2] = [6371228.0, 0.0];
const CLARKE_SPHERE: [f64; 2] = [6370997.0, 0.0];

const fn axes(ellipsoid: Ellipsoid) -> [f64; 2] {
    [ellipsoid.semi_major_axis(), ellipsoid.flattening()]
}

#[rustfmt::skip]
pub const OFFICES: [Office; 26] = [
    // 3035 Europe, 6931 and 6932 the poles, 3574 the north Atlantic
    office(b'L', GRS80, [10.0, 52.0, 0.0, 0.0], [4321000.0, 3210000.0], [-35.0, 24.0, 45.0, 85.0]),
    office(b'L', WGS84, [0.0, 90.0, 0.0, 0.0], [0.0, 0.0], [-180.0, 0.0, 180.0, 90.0]),
    office(b'L', WGS84, [0.0, -90.0, 0.0, 0.0], [0.0, 0.0], [-180.0, -90.0, 180.0, 0.0]),
    office(b'L', WGS84, [-40.0, 90.0, 0.0, 0.0], [0.0, 0.0], [-180.0, 45.0, 180.0, 90.0]),
    // 9311 the United States, 3408 and 3409 the poles on their sphere
    office(b'S', CLARKE_1866, [-100.0, 45.0, 0.0, 0.0], [0.0, 0.0], [-175.0, 15.0, -60.0, 75.0]),
    office(b'S', EASE_SPHERE, [0.0, 90.0, 0.0, 0.0], [0.0, 0.0], [-180.0, 0.0, 180.0, 90.0]),
    office(b'S', EASE_SPHERE, [0.0, -90.0, 0.0, 0.0], [0.0, 0.0], [-180.0, -90.0, 180.0, 0.0]),
    // 5070 the United States, 3005 British Columbia, 3338 Alaska, 3577 Australia, 3310 California
    office(b'A', GRS80, [-96.0, 23.0, 29.5, 45.5], [0.0, 0.0], [-125.0, 24.0, -66.0, 50.0]),
    office(b'A', GRS80, [-126.0, 45.0, 50.0, 58.5], [1e6, 0.0], [-140.0, 48.0, -114.0, 60.0]),
    office(b'A', GRS80, [-154.0, 50.0, 55.0, 65.0], [0.0, 0.0], [-188.0, 51.0, -130.0, 72.0]),
    office(b'A', GRS80, [132.0, 0.0, -18.0, -36.0], [0.0, 0.0], [112.0, -44.0, 154.0, -9.0]),
    office(b'A', GRS80, [-120.0, 0.0, 34.0, 40.5], [0.0, -4e6], [-125.0, 32.0, -114.0, 42.0]),
    // 8857, 8858 and 8859 the world
    office(b'E', WGS84, [0.0; 4], [0.0, 0.0], [-180.0, -90.0, 180.0, 90.0]),
    office(b'E', WGS84, [-90.0, 0.0, 0.0, 0.0], [0.0, 0.0], [-180.0, -90.0, 180.0, 90.0]),
    office(b'E', WGS84, [150.0, 0.0, 0.0, 0.0], [0.0, 0.0], [-180.0, -90.0, 180.0, 90.0]),
    // 3068 Berlin, 2314 Trinidad, 28191 Palestine, 3377 Johor
    office(b'C', BESSEL_1841, [13.62720366666667, 52.41864827777778, 0.0, 0.0], [40000.0, 10000.0], [13.0, 52.3, 13.8, 52.7]),
    office(b'C', CLARKE_1858, [-61.33333333333334, 10.44166666666667, 0.0, 0.0], [86501.46392052, 65379.0134283], [-62.1, 9.8, -60.0, 11.5]),
    office(b'C', CLARKE_1880, [35.21208055555556, 31.73409694444445, 0.0, 0.0], [170251.555, 126867.909], [34.1, 29.1, 35.7, 33.4]),
    office(b'C', GRS80, [103.4279362361111, 2.121679744444445, 0.0, 0.0], [-14810.562, 8758.32], [102.4, 1.2, 104.6, 3.0]),
    // 5880 and 29101 Brazil, and Snyder's worked example
    office(b'P', GRS80, [-54.0, 0.0, 0.0, 0.0], [5e6, 1e7], [-74.1, -35.6, -25.2, 7.1]),
    office(b'P', GRS_1967, [-54.0, 0.0, 0.0, 0.0], [5e6, 1e7], [-74.1, -35.6, -25.2, 7.1]),
    office(b'P', CLARKE_1866, [-96.0, 30.0, 0.0, 0.0], [0.0, 0.0], [-125.0, 24.0, -66.0, 50.0]),
    office(b'P', CLARKE_SPHERE, [-96.0, 30.0, 0.0, 0.0], [0.0, 0.0], [-125.0, 24.0, -66.0, 50.0]),
    // 3993 Guam, and islands elsewhere
    office(b'G', CLARKE_1866, [144.7487507055556, 13.47246635277778, 0.0, 0.0], [50000.0, 50000.0], [144.5, 13.2, 145.1, 13.7]),
    office(b'G', WGS84, [-9.2, 38.7, 0.0, 0.0], [0.0, 0.0], [-10.0, 38.0, -8.0, 39.5]),
    office(b'G', GRS80, [170.5, -45.9, 0.0, 0.0], [300000.0, 700000.0], [169.0, -47.0, 172.0, -44.5]),
];

const fn office(
    kind: u8,
    axes: [f64; 2],
    origin: [f64; 4],
    offsets: [f64; 2],
    area: [f64; 4],
) -> Office {
    Office {
        kind,
        axes,
        origin,
        offsets,
        area,
    }
}
