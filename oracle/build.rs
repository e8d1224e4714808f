//! Names where `tools/archive` writes the archives that `src/ours.rs` links, and makes of the source's
//! own files, in docs/src, two trees of modules that `src/source.rs` includes:
//!
//! - `platform.rs` has them as they are but for the cuts, `crate::` leading to the tree;
//! - `fixed.rs` has besides every function of the platform replaced by document 01's.
//!
//! What is cut is what docs/src lacks, and what uses it:
//!
//! - error.rs: the crate `thiserror`, which only writes an error out, and the error of the grids;
//! - mod.rs: the list of modules (those of 01's kinds stand in the tree), the choice over all kinds
//!   that the source has, and `latitude_from_conformal_t`, which no kind of 01's calls;
//! - azimuthal_equidistant.rs: `AzimuthalEquidistant`, with its crate `geographiclib_rs`.
//!
//! albers_equal_area.rs gets two functions more: one that takes its numbers as they are handed in, and
//! one that hands them out.
//!
//! The build fails where a text to cut is not found, or found twice, and where a method is left in
//! `fixed.rs` that is neither 01's nor on the list of those that may stay.

use std::fs;
use std::path::Path;

const HERE: &str = env!("CARGO_MANIFEST_DIR");

fn main() {
    let archives = format!("{HERE}/../target/staticlib");
    println!("cargo::rustc-link-search=native={archives}");
    for archive in ["libprobe.a", "libcapi.a"] {
        println!("cargo::rerun-if-changed={archives}/{archive}");
    }
    let source = format!("{HERE}/../docs/src/proj-core/src");
    println!("cargo::rerun-if-changed={source}");
    println!("cargo::rerun-if-changed=build.rs");
    let out = std::env::var("OUT_DIR").expect("cargo names a folder");
    for build in ["fixed", "platform"] {
        let tree = tree(Path::new(&source), build);
        fs::write(format!("{out}/{build}.rs"), tree).expect("cargo's folder can be written");
    }
}

/// The modules of one build.
fn tree(source: &Path, build: &str) -> String {
    let file = |name: &str| {
        let text = fs::read_to_string(source.join(name)).expect("docs/src has the file");
        let mut text = cut(name, text).replace("crate::", &format!("crate::source::{build}::"));
        if build == "fixed" {
            text = fixed(name, &text) + "use crate::methods::Fixed as _;\n";
        }
        match name {
            "projection/albers_equal_area.rs" => text + HANDED,
            _ => text,
        }
    };
    let kind = |name: &str| module(name, &file(&format!("projection/{name}.rs")));
    let projection = file("projection/mod.rs")
        + &kind("albers_equal_area")
        + &kind("american_polyconic")
        + &kind("azimuthal_equidistant")
        + &kind("cassini_soldner")
        + &kind("equal_earth")
        + &kind("lambert_azimuthal_equal_area");
    module("ellipsoid", &file("ellipsoid.rs"))
        + &module("error", &file("error.rs"))
        + &module("projection", &projection)
}

/// An Albers of any numbers, and the numbers of an Albers.
const HANDED: &str = "
impl AlbersEqualArea {
    pub(crate) fn handed(numbers: &[f64; 9]) -> Self {
        let [a, e, e2, lon0, n, c, rho0, false_easting, false_northing] = *numbers;
        Self { a, e, e2, lon0, n, c, rho0, false_easting, false_northing }
    }

    pub(crate) fn numbers(&self) -> [f64; 9] {
        let Self { a, e, e2, lon0, n, c, rho0, false_easting, false_northing } = *self;
        [a, e, e2, lon0, n, c, rho0, false_easting, false_northing]
    }
}
";

fn module(name: &str, text: &str) -> String {
    format!("pub mod {name} {{\n{text}}}\n")
}

/// A file of the source without what docs/src lacks.
fn cut(name: &str, text: String) -> String {
    match name {
        "error.rs" => {
            let text = without(&text, "use thiserror::Error;", "\npub type Result");
            let text = without(&text, "#[derive(Debug, Error)]", "#[non_exhaustive]");
            let text = without(&text, "    #[error(transparent)]", "}\n");
            lines_without(&text, "    #[error(")
        }
        "projection/mod.rs" => {
            let text = without(&text, "pub(crate) mod albers", "use crate::error::");
            let text = without(&text, "/// Geodetic latitude from the conformal", TRAIT);
            without(&text, CHOICE, "pub(crate) fn validate_lon_lat")
        }
        "projection/azimuthal_equidistant.rs" => {
            let text = without(&text, "use geographiclib_rs::", "use std::f64::consts::");
            without(
                &text,
                "#[derive(Clone, Copy, PartialEq)]",
                "/// Guam Projection",
            )
        }
        _ => text,
    }
}

const TRAIT: &str = "/// Internal trait for projection math.";
const CHOICE: &str = "#[derive(Clone)]\npub(crate) enum Projection {";

/// The text but for what goes from the one place of `from` to the next of `to`, which stays.
fn without(text: &str, from: &str, to: &str) -> String {
    assert_eq!(
        text.matches(from).count(),
        1,
        "to cut in the source: {from}"
    );
    let (before, rest) = text.split_once(from).expect("found");
    let end = rest
        .find(to)
        .unwrap_or_else(|| panic!("not in the source: {to}"));
    format!("{before}{}", &rest[end..])
}

/// The text but for the lines that start with `start`, of which there are some.
fn lines_without(text: &str, start: &str) -> String {
    assert!(text.contains(start), "to cut in the source: {start}");
    let kept = text.lines().filter(|line| !line.starts_with(start));
    kept.flat_map(|line| [line, "\n"]).collect()
}

/// The platform's functions, and 01's for them in `src/methods.rs`.
const REPLACED: [(&str, &str); 14] = [
    (".sin()", ".fixed_sin()"),
    (".cos()", ".fixed_cos()"),
    (".tan()", ".fixed_tan()"),
    (".asin()", ".fixed_asin()"),
    (".atan2(", ".fixed_atan2("),
    (".ln()", ".fixed_ln()"),
    (".sqrt()", ".fixed_sqrt()"),
    (".powf(1.5)", ".fixed_powf_3_2()"),
    (".rem_euclid(", ".fixed_rem_euclid("),
    (".max(0.0)", ".fixed_max_zero()"),
    (".clamp(", ".fixed_clamp("),
    (".abs()", ".fixed_abs()"),
    (".signum()", ".fixed_signum()"),
    (".is_finite()", ".fixed_is_finite()"),
];

/// The methods that may stay, since no number of an answer comes from the platform by them: the
/// source's own, the walk over coefficients, a range's comparisons, and what makes messages.
const STAYS: [&str; 12] = [
    "e2",
    "ep2",
    "semi_major_axis",
    "meridional_arc",
    "into",
    "contains",
    "iter",
    "rev",
    "fold",
    "to_degrees",
    "forward",
    "inverse",
];

/// The text with the platform's functions replaced by 01's.
fn fixed(name: &str, text: &str) -> String {
    let text = REPLACED
        .iter()
        .fold(text.to_owned(), |text, (platform, ours)| {
            text.replace(platform, ours)
        });
    let code = text
        .lines()
        .filter(|line| !line.trim_start().starts_with("//"));
    for line in code {
        for after in line.split('.').skip(1) {
            let end = after.find(|c: char| !c.is_alphanumeric() && c != '_');
            let (word, rest) = after.split_at(end.unwrap_or(after.len()));
            let called = rest.starts_with('(') || rest.starts_with("::");
            let known = word.starts_with("fixed_") || STAYS.contains(&word);
            assert!(
                !called || known,
                "{name} calls a method of the platform: {line}"
            );
        }
        let others = line.replace("std::f64::consts::", "");
        assert!(
            !others.contains("f64::"),
            "{name} calls a function of the platform: {line}"
        );
    }
    text
}
