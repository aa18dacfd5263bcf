//! Makes the copies of the original that the oracle runs, by text, from the
//! unmodified files in `original/`. Every cut and every replacement asserts how
//! often its text is found, so a changed original stops the build.

use std::env;
use std::fs;
use std::path::{Path, PathBuf};

/// Calls of `hypot` in uv.rs; document 01's stand-in takes the place of each.
const HYPOT_CALLS: usize = 10;

/// What the recorded copy adds: (text of uv.rs, the recorder before it).
/// `reached(n)` stands before check n of document 01 decides.
const RECORDERS: [(&str, &str); 11] = [
    ("    let mut sides = Vec::new();", "reached(17)"),
    (
        "    if sides\n        .iter()\n        .zip(",
        "reached(18)",
    ),
    ("    let mut sum = [0.0; 3];", "reached(19)"),
    (
        "    // A candidate must be inside an odd number",
        "reached(11)",
    ),
    ("    if periodic_ray {\n        scale[0] = ", "reached(12)"),
    ("    if joins.iter().any(", "reached(13)"),
    ("    let normalized: Vec<Vec<_>> = ", "reached(14)"),
    ("            let mut distance = f64::INFINITY;", "covered()"),
    ("    let p = best.filter(", "searched(clearance)"),
    ("    let point = xyz(", "chosen(p)"),
    ("    (physical_clearance > ", "reached(15)"),
];

/// The same in what is cut out of faces.rs' `cylinder_point`.
const MIDDLE_RECORDER: (&str, &str) = ("    let tau = std::f64::consts::TAU;", "reached(23)");

/// Appended to every copy of uv.rs: its private functions, for the driver.
const EXPORTS: &str = "
// Appended by build.rs. Above this line stands the original's text.
pub(crate) mod exports {
    use super::{Context, SurfaceGeometry, Value, V3};

    pub(crate) fn sample_parameter(range: [f64; 2], n: usize) -> f64 {
        super::sample_parameter(range, n)
    }

    pub(crate) fn edge_points(
        ctx: &Context,
        coedge: &Value,
        surface: &SurfaceGeometry,
    ) -> Option<(Vec<[f64; 2]>, f64)> {
        super::edge_points(ctx, coedge, surface)
    }

    pub(crate) fn point(ctx: &Context, face: &Value, geometry: &Value) -> Option<V3> {
        super::point(ctx, face, geometry)
    }

    pub(crate) fn pick(ctx: &Context, face: &Value, geometry: &Value, phase: f64) -> Option<V3> {
        super::pick(ctx, face, geometry, phase)
    }

    pub(crate) fn spherical_triangle(
        ctx: &Context,
        face: &Value,
        geometry: &Value,
    ) -> Option<V3> {
        super::spherical_triangle(ctx, face, geometry)
    }

    pub(crate) fn inside(ring: &[[f64; 2]], p: [f64; 2]) -> bool {
        super::inside(ring, p)
    }

    pub(crate) fn periodic_winding(rings: &[Vec<[f64; 2]>], p: [f64; 2], period: f64) -> i32 {
        super::periodic_winding(rings, p, period)
    }
}
";

/// Appended to the functions of faces.rs: those that are calls, for the driver.
const FACES_EXPORTS: &str = "
pub(crate) mod calls {
    use super::{Context, Value, V3};

    pub(crate) fn point_on(ctx: &Context, face: &Value) -> Option<V3> {
        super::point_on(ctx, face)
    }

    pub(crate) fn placed(body: &Value, p: V3) -> Option<V3> {
        super::placed(body, p)
    }
}
";

/// Appended where `hypot` was replaced: the stand-in is a method of this trait.
const STAND_IN: &str = "
use crate::stand_in::RootOfSquares as _;
";

fn main() {
    let manifest = PathBuf::from(env::var_os("CARGO_MANIFEST_DIR").expect("set by cargo"));
    let out = PathBuf::from(env::var_os("OUT_DIR").expect("set by cargo"));
    println!("cargo:rerun-if-changed=build.rs");
    write_copies(&manifest.join("original"), &out);
    find_calls();
}

fn write_copies(original: &Path, out: &Path) {
    println!("cargo:rerun-if-changed={}", original.display());
    let uv = read(&original.join("uv.rs"));
    let sketch = sketch_parts(&read(&original.join("sketch.rs")));
    let faces = read(&original.join("faces.rs"));
    let middle = middle_of(&faces);
    let faces = faces_parts(&faces);

    let standing_in = replaced(&uv, ".hypot(", ".root_of_squares(", HYPOT_CALLS);
    let mut recorded = standing_in.clone();
    for (text, recorder) in RECORDERS {
        let with_recorder = format!("    crate::recorder::{recorder};\n{text}");
        recorded = replaced(&recorded, text, &with_recorder, 1);
    }
    let (text, recorder) = MIDDLE_RECORDER;
    let with_recorder = format!("    crate::recorder::{recorder};\n{text}");
    let recorded_middle = replaced(&middle, text, &with_recorder, 1);
    let copies = [
        ("stand_in", standing_in + STAND_IN + EXPORTS, &middle),
        ("recorded", recorded + STAND_IN + EXPORTS, &recorded_middle),
        ("published", uv + EXPORTS, &middle),
    ];
    let mut modules = String::new();
    for (name, text, middle) in copies {
        let path = out.join(format!("uv_{name}.rs"));
        write(&path, &text);
        let faces = format!("{faces}{middle}{FACES_EXPORTS}");
        modules += &wrapper(name, &sketch, &faces, &path);
    }
    write(&out.join("copies.rs"), &modules);
}

/// The modules around one copy of uv.rs, under the names that it looks for.
fn wrapper(name: &str, sketch: &str, faces: &str, uv: &Path) -> String {
    format!(
        "pub(crate) mod {name} {{
mod sketch {{
use serde_json::Value;
{sketch}}}
pub(crate) mod faces {{
use super::sketch::{{dot, v3, V3}};
use crate::shims::Context;
use serde_json::Value;
{faces}
#[path = {uv:?}]
mod uv;
pub(crate) use uv::exports;
}}
}}
"
    )
}

/// Of sketch.rs, what uv.rs needs.
fn sketch_parts(text: &str) -> String {
    let mut parts = statement(text, "const PARALLEL: f64 = ");
    parts += &statement(text, "pub(crate) type V3 = ");
    for name in ["number", "v3", "dot", "cross", "unit"] {
        parts += &function(text, &format!("pub(crate) fn {name}("));
    }
    parts
}

/// Of faces.rs, the two calls and what they need, `inside` for uv.rs among it.
fn faces_parts(text: &str) -> String {
    let functions = ["placed", "point_on", "cylinder_point", "inside"];
    let cut = functions.map(|name| function(text, &format!("fn {name}(")));
    cut.concat()
}

/// `cylinder_point` from its lows and highs to its middle height, as a function of
/// both lists: its angles come from atan2, and what follows turns them back.
fn middle_of(text: &str) -> String {
    let text = function(text, "fn cylinder_point(");
    let text = cut(
        &text,
        "    let low = ",
        "    let mid_height = (low + high) / 2.0;\n",
    );
    format!(
        "
pub(crate) fn middle(heights: &[f64], mut angles: Vec<f64>) -> Option<(f64, f64)> {{
{text}    Some((middle, mid_height))
}}
"
    )
}

/// A function at the left margin, from `start` to the brace that closes it.
fn function(text: &str, start: &str) -> String {
    cut(text, start, "\n}\n")
}

fn statement(text: &str, start: &str) -> String {
    cut(text, start, ";\n")
}

/// The text from `start`, which begins exactly one line, through the next `end`.
fn cut(text: &str, start: &str, end: &str) -> String {
    let start = format!("\n{start}");
    assert_eq!(text.matches(&start).count(), 1, "{start:?} is found once");
    let tail = text.split_once(&start).expect("found above").1;
    let body = tail.split_once(end).expect("a cut has an end").0;
    format!("{}{body}{end}", &start[1..])
}

fn replaced(text: &str, from: &str, to: &str, hits: usize) -> String {
    assert_eq!(text.matches(from).count(), hits, "hits of {from:?}");
    text.replace(from, to)
}

/// The exported calls on a sheet.
const PICKER: [&str; 3] = [
    "facepoint_chart",
    "facepoint_image_pick",
    "facepoint_plane_pick",
];
/// The exported calls after the picker.
const AFTER: [&str; 6] = [
    "facepoint_sample_parameter",
    "facepoint_direction",
    "facepoint_spherical_triangle",
    "facepoint_point_on",
    "facepoint_cylinder_point",
    "facepoint_placed",
];

/// Tells which calls there are: rust/calls links their archive where one stands and
/// names it; all else builds without.
fn find_calls() {
    println!("cargo:rustc-check-cfg=cfg(facepoint_archive)");
    println!("cargo:rustc-check-cfg=cfg(facepoint_picker)");
    println!("cargo:rustc-check-cfg=cfg(facepoint_after)");
    let Some(archive) = env::var_os("DEP_FACEPOINT_ARCHIVE").map(PathBuf::from) else {
        return;
    };
    println!("cargo:rerun-if-changed={}", archive.display());
    println!("cargo:rustc-cfg=facepoint_archive");
    println!("cargo:rustc-env=ARCHIVE={}", archive.display());
    if has_names(&archive, &PICKER) {
        println!("cargo:rustc-cfg=facepoint_picker");
    }
    if has_names(&archive, &AFTER) {
        println!("cargo:rustc-cfg=facepoint_after");
    }
}

/// Whether the archive has all these functions; one that is missing would stop
/// the linking of every test.
fn has_names(archive: &Path, names: &[&str]) -> bool {
    let bytes = fs::read(archive).expect("the archive is a file");
    let has = |name: &str| {
        bytes
            .windows(name.len())
            .any(|part| part == name.as_bytes())
    };
    names.iter().all(|name| has(name))
}

fn read(path: &Path) -> String {
    fs::read_to_string(path).unwrap_or_else(|e| panic!("{}: {e}", path.display()))
}

fn write(path: &Path, text: &str) {
    fs::write(path, text).unwrap_or_else(|e| panic!("{}: {e}", path.display()));
}
