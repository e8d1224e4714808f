//! Times C PROJ on the columns of `columns`, in ns a point, to stand beside them. Built with the
//! feature `proj`, where libproj is installed. PROJ's formulas and checks are its own: only the
//! time is compared.

use oracle::line::{A, F, FE, FN, KINDS, LAT0, LAT1, LAT2, LON0, Line, U, V, WAYS};
use oracle::lines::Lines;
use std::ffi::{CString, c_char, c_int, c_void};
use std::ptr::null_mut;
use std::time::Instant;

const POINTS: usize = 200_000;
const PASSES: usize = 9;

#[link(name = "proj")]
unsafe extern "C" {
    fn proj_create(context: *mut c_void, definition: *const c_char) -> *mut c_void;
    fn proj_trans_generic(
        map: *mut c_void,
        direction: c_int,
        x: *mut f64,
        x_step: usize,
        xs: usize,
        y: *mut f64,
        y_step: usize,
        ys: usize,
        z: *mut f64,
        z_step: usize,
        zs: usize,
        t: *mut f64,
        t_step: usize,
        ts: usize,
    ) -> usize;
}

fn main() {
    println!("ns a point: C PROJ");
    for kind in KINDS {
        let lines = WAYS.map(|way| Lines::new(way, kind, 3).column(POINTS));
        let definition = CString::new(definition(&lines[0][0])).expect("no byte 0");
        // SAFETY: the text ends in byte 0, and no context is the default one.
        let map = unsafe { proj_create(null_mut(), definition.as_ptr()) };
        assert!(!map.is_null(), "PROJ refuses {definition:?}");
        for (way, lines) in WAYS.iter().zip(&lines) {
            let (w, k) = (char::from(*way), char::from(kind));
            println!("{w},{k} {:7.1}", median(map, *way, lines));
        }
    }
}

/// A line's map in PROJ's words.
fn definition(line: &Line) -> String {
    let degrees = |field: usize| line.fields[field].to_degrees();
    let [a, f] = [A, F].map(|field| line.fields[field]);
    let (name, axes) = match line.kind {
        b'S' => ("laea", format!("+R={a}")),
        kind => {
            let names = [
                (b'L', "laea"),
                (b'A', "aea"),
                (b'E', "eqearth"),
                (b'C', "cass"),
                (b'P', "poly"),
                (b'G', "aeqd +guam"),
            ];
            let name = names.iter().find(|(letter, _)| *letter == kind);
            (name.expect("a kind").1, format!("+a={a} +f={f}"))
        }
    };
    let [lon0, lat0, lat1, lat2] = [LON0, LAT0, LAT1, LAT2].map(degrees);
    let [fe, fn_] = [FE, FN].map(|field| line.fields[field]);
    format!(
        "+proj={name} {axes} +lon_0={lon0} +lat_0={lat0} +lat_1={lat1} +lat_2={lat2} +x_0={fe} +y_0={fn_}"
    )
}

/// The median pass, in ns a point.
fn median(map: *mut c_void, way: u8, lines: &[Line]) -> f64 {
    let direction = if way == b'F' { 1 } else { -1 };
    let step = size_of::<f64>();
    let mut times: Vec<f64> = (0..PASSES)
        .map(|_| {
            let column = |field: usize| lines.iter().map(|line| line.fields[field]).collect();
            let (mut x, mut y): (Vec<f64>, Vec<f64>) = (column(U), column(V));
            let start = Instant::now();
            // SAFETY: two slices with their lengths, and none for the others.
            let done = unsafe {
                proj_trans_generic(
                    map,
                    direction,
                    x.as_mut_ptr(),
                    step,
                    x.len(),
                    y.as_mut_ptr(),
                    step,
                    y.len(),
                    null_mut(),
                    0,
                    0,
                    null_mut(),
                    0,
                    0,
                )
            };
            assert_eq!(done, lines.len(), "PROJ projects every point");
            start.elapsed().as_nanos() as f64 / lines.len() as f64
        })
        .collect();
    times.sort_by(f64::total_cmp);
    times[PASSES / 2]
}
