//! Every type on worked examples of public documents, and the named ellipsoids.

use lenthuc::{
    AIRY1830, AlbersEqualArea, AmericanPolyconic, BESSEL1841, CLARKE1866, CassiniSoldner,
    Ellipsoid, EqualEarth, GRS80, GuamProjection, INTL1924, KRASSOWSKY, LambertAzimuthalEqualArea,
    Projection, UNIT_SPHERE, WGS84, WGS84_SPHERE,
};

fn degrees<const N: usize>(angles: [f64; N]) -> [f64; N] {
    angles.map(f64::to_radians)
}

/// The printed pair forward to half a unit of its last digit, and the point back to 1e-5 degrees.
fn held(map: &dyn Projection, lon_lat: [f64; 2], printed: [f64; 2], unit: f64) {
    let [lon, lat] = degrees(lon_lat);
    let (x, y) = map.forward(lon, lat).expect("an easting and northing");
    for (result, printed) in [x, y].into_iter().zip(printed) {
        let off = (result - printed).abs();
        assert!(off <= unit / 2.0, "{result} for {printed}");
    }
    let [x, y] = printed;
    let (lon, lat) = map.inverse(x, y).expect("a longitude and latitude");
    for (result, expected) in [lon, lat].into_iter().zip(lon_lat) {
        let off = (result.to_degrees() - expected).abs();
        assert!(off < 1e-5, "{result} for {expected} degrees");
    }
}

#[test]
fn albers() {
    let [lon0, lat0, lat1, lat2] = degrees([-96.0, 23.0, 29.5, 45.5]);
    let map = AlbersEqualArea::new(CLARKE1866, lon0, lat0, lat1, lat2, 0.0, 0.0);
    let map = map.expect("Snyder's");
    held(&map, [-75.0, 35.0], [1885472.7, 1535925.0], 0.1);
}

#[test]
fn lambert() {
    let [lon0, lat0] = degrees([10.0, 52.0]);
    let map = LambertAzimuthalEqualArea::new(GRS80, lon0, lat0, 4321000.0, 3210000.0);
    let map = map.expect("IOGP's LAEA Europe");
    held(&map, [5.0, 50.0], [3962799.45, 2999718.85], 0.01);
}

#[test]
fn lambert_spherical() {
    let sphere = Ellipsoid::sphere(3.0).expect("Snyder's sphere");
    let [lon0, lat0] = degrees([-100.0, 40.0]);
    let map = LambertAzimuthalEqualArea::new_spherical(sphere, lon0, lat0, 0.0, 0.0);
    let map = map.expect("Snyder's");
    held(&map, [100.0, -20.0], [-4.2339303, 4.0257775], 1e-7);
}

#[test]
fn cassini() {
    let clarke = Ellipsoid::from_a_rf(31706587.88, 294.2606764).expect("Clarke's, in links");
    let [lon0, lat0] = degrees([-(61.0 + 20.0 / 60.0), 10.0 + 26.0 / 60.0 + 30.0 / 3600.0]);
    let map = CassiniSoldner::new(clarke, lon0, lat0, 430000.0, 325000.0).expect("IOGP's Trinidad");
    held(&map, [-62.0, 10.0], [66644.94, 82536.22], 0.01);
    // the README's answers
    let [lon, lat] = degrees([-62.0, 10.0]);
    let patterns = |pair: (f64, f64)| (pair.0.to_bits(), pair.1.to_bits());
    assert_eq!(
        map.forward(lon, lat).map(patterns),
        Ok((0x40f0_454f_0bdb_9460, 0x40f4_2683_7fe7_fd8f))
    );
    assert_eq!(
        map.inverse(66644.94, 82536.22).map(patterns),
        Ok((0xbff1_504c_6d40_e818, 0x3fc6_5718_4afb_646b))
    );
}

#[test]
fn polyconic() {
    let [lon0, lat0] = degrees([-96.0, 30.0]);
    let map = AmericanPolyconic::new(CLARKE1866, lon0, lat0, 0.0, 0.0).expect("Snyder's");
    held(&map, [-75.0, 40.0], [1776774.5, 1319657.8], 0.1);
}

#[test]
fn guam() {
    let lon0 = 144.0 + 44.0 / 60.0 + 55.50254 / 3600.0;
    let lat0 = 13.0 + 28.0 / 60.0 + 20.87887 / 3600.0;
    let [origin_lon, origin_lat] = degrees([lon0, lat0]);
    let map = GuamProjection::new(CLARKE1866, origin_lon, origin_lat, 50000.0, 50000.0);
    let map = map.expect("IOGP's Guam");
    let lon = 144.0 + 38.0 / 60.0 + 7.19265 / 3600.0;
    let lat = 13.0 + 20.0 / 60.0 + 20.53846 / 3600.0;
    held(&map, [lon, lat], [37712.48, 35242.00], 0.01);
}

/// The map is 2.05458 times as wide as it is high, and its pole line is 0.59247 of its equator.
#[test]
fn equal_earth() {
    let map = EqualEarth::new(UNIT_SPHERE, 0.0, 0.0, 0.0).expect("the world");
    let [lon, pole] = degrees([180.0, 90.0]);
    let (equator, _) = map.forward(lon, 0.0).expect("the equator's end");
    let (pole_line, height) = map.forward(lon, pole).expect("the pole line's end");
    assert_eq!(format!("{:.5}", equator / height), "2.05458");
    assert_eq!(format!("{:.5}", pole_line / equator), "0.59247");
    let (back, north) = map.inverse(1.0, 1.0).expect("a point");
    let (x, y) = map.forward(back, north).expect("the same point");
    assert!((x - 1.0).abs() < 1e-11 && (y - 1.0).abs() < 1e-11);
}

/// The names are what the archive makes of a and 1/f.
#[test]
fn named_ellipsoids() {
    let named = [
        (WGS84, 6378137.0, 298.257223563),
        (GRS80, 6378137.0, 298.257222101),
        (CLARKE1866, 6378206.4, 294.978698214),
        (INTL1924, 6378388.0, 297.0),
        (BESSEL1841, 6377397.155, 299.1528128),
        (KRASSOWSKY, 6378245.0, 298.3),
        (AIRY1830, 6377563.396, 299.3249646),
    ];
    for (ellipsoid, a, rf) in named {
        assert_eq!(Ellipsoid::from_a_rf(a, rf), Ok(ellipsoid));
    }
    assert_eq!(Ellipsoid::sphere(1.0), Ok(UNIT_SPHERE));
    assert_eq!(Ellipsoid::sphere(6371007.181), Ok(WGS84_SPHERE));
}

/// What is derived of an ellipsoid, and the ends of it.
#[test]
fn derived_numbers() {
    assert_eq!(WGS84.b(), 6356752.314245179);
    assert_eq!(WGS84.e2(), 0.0066943799901413165);
    assert_eq!(GRS80.b(), 6356752.314140356);
    assert_eq!(INTL1924.inverse_flattening(), 297.0);
    assert_eq!(UNIT_SPHERE.inverse_flattening(), 0.0);
    assert_eq!((WGS84_SPHERE.b(), WGS84_SPHERE.e2()), (6371007.181, 0.0));
    let of = |f| Ellipsoid::from_a_f(1.0, f).expect("an ellipsoid");
    assert_eq!(of(-0.0).inverse_flattening().to_bits(), 0);
    let end = 2.0_f64.powi(-1023) / 2.0;
    assert_eq!(of(end).inverse_flattening(), f64::INFINITY);
    assert!(
        of(f64::from_bits(end.to_bits() + 1))
            .inverse_flattening()
            .is_finite()
    );
    const B: f64 = WGS84.b();
    assert_eq!(B, WGS84.b());
}
