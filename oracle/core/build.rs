//! Copies the twelve Rust files of docs/src into the build's folder, makes the one recorded
//! change, adds the stand-ins, and compares the copies with what was read.

use std::path::{Path, PathBuf};
use std::{env, fs};

const FILES: [&str; 12] = [
    "geometry/mod.rs",
    "geometry/polyline.rs",
    "id.rs",
    "entities.rs",
    "diagnostics.rs",
    "map.rs",
    "topology.rs",
    "edit/mod.rs",
    "edit/lane.rs",
    "edit/merge.rs",
    "edit/split.rs",
    "ops.rs",
];

const STAND_INS: [&str; 7] = [
    "root.rs",
    "access.rs",
    "attributes.rs",
    "geometry/polygon.rs",
    "edit/features.rs",
    "edit/regulatory.rs",
    "edit/road.rs",
];

/// The recorded change of document 01 (geometry/mod.rs): `Point2::norm` is the root of the rounded
/// sum of squares.
const CHANGED: &str = "geometry/mod.rs";
const OLD: &str = "        self.x.hypot(self.y)\n";
const NEW: &str = "        (self.x * self.x + self.y * self.y).sqrt()\n";

/// `locate` is private to its file: a name for it is added below the file's last line.
const LOCATED: &str = "geometry/polyline.rs";
const LOCATE: &str = "
impl Polyline3 {
    /// Added by the oracle: the private `locate`, as it is.
    pub fn oracle_locate(&self, station: f64) -> Option<(usize, f64)> {
        self.locate(station)
    }
}
";

/// With the feature `planted`: how many slips there are, and the comparisons that they turn, of a
/// text in its place the right comparison into the wrong one. A split tests its own lane's position
/// twice, so the first two slips turn both tests.
const SLIPS: usize = 11;
const TURNED: [(&str, &str, &str, &str, &str); 11] = [
    (
        "0",
        "edit/split.rs",
        "!(station > MIN_PIECE_LENGTH",
        "station > MIN_PIECE_LENGTH",
        "station >= MIN_PIECE_LENGTH",
    ),
    (
        "1",
        "edit/split.rs",
        "&& station < len - MIN_PIECE_LENGTH",
        "station < len - MIN_PIECE_LENGTH",
        "station <= len - MIN_PIECE_LENGTH",
    ),
    (
        "0, 2",
        "edit/split.rs",
        "!(s > MIN_PIECE_LENGTH",
        "s > MIN_PIECE_LENGTH",
        "s >= MIN_PIECE_LENGTH",
    ),
    (
        "1, 3",
        "edit/split.rs",
        "&& s < c.length() - MIN_PIECE_LENGTH",
        "s < c.length() - MIN_PIECE_LENGTH",
        "s <= c.length() - MIN_PIECE_LENGTH",
    ),
    (
        "4",
        "edit/split.rs",
        "!(n.station > 1e-6",
        "n.station > 1e-6",
        "n.station >= 1e-6",
    ),
    (
        "5",
        "edit/split.rs",
        "&& n.station < geom.length() - 1e-6",
        "n.station < geom.length() - 1e-6",
        "n.station <= geom.length() - 1e-6",
    ),
    (
        "6",
        "edit/mod.rs",
        "&& gap > GAP_TOLERANCE",
        "gap > GAP_TOLERANCE",
        "gap >= GAP_TOLERANCE",
    ),
    (
        "7",
        "geometry/mod.rs",
        "if len2 < EPSILON * EPSILON {",
        "len2 < EPSILON * EPSILON",
        "len2 <= EPSILON * EPSILON",
    ),
    (
        "8",
        "geometry/polyline.rs",
        "d < bst.distance - EPSILON",
        "d < bst.distance - EPSILON",
        "d <= bst.distance - EPSILON",
    ),
    (
        "9",
        "geometry/polyline.rs",
        "&& *s < to - EPSILON",
        "*s < to - EPSILON",
        "*s <= to - EPSILON",
    ),
    (
        "10",
        "geometry/polyline.rs",
        "if a.distance(b) < 1e-6 =>",
        "a.distance(b) < 1e-6",
        "a.distance(b) <= 1e-6",
    ),
];

/// The text with every comparison of this file that can be turned.
fn with_slips(file: &str, mut text: String) -> String {
    for (slips, at, place, right, wrong) in TURNED {
        if at == file {
            let found = text.matches(place).count();
            assert_eq!(found, 1, "{file}: {place} is there {found} times");
            let call = format!("crate::planted(&[{slips}], {right}, {wrong})");
            text = text.replacen(place, &place.replacen(right, &call, 1), 1);
        }
    }
    text
}

fn read(path: &Path) -> String {
    println!("cargo:rerun-if-changed={}", path.display());
    fs::read_to_string(path).unwrap_or_else(|e| {
        panic!(
            "{}: {e}\nVOLDREKKA_SRC names the folder docs/src (relative to oracle/)",
            path.display()
        )
    })
}

fn write(path: &Path, text: &str) {
    fs::create_dir_all(path.parent().expect("a folder")).expect("a folder");
    fs::write(path, text).unwrap_or_else(|e| panic!("{}: {e}", path.display()));
}

fn main() {
    println!("cargo:rerun-if-env-changed=VOLDREKKA_SRC");
    let here = PathBuf::from(env::var("CARGO_MANIFEST_DIR").expect("cargo"));
    let out = PathBuf::from(env::var("OUT_DIR").expect("cargo")).join("core");
    let docs = env::var("VOLDREKKA_SRC").unwrap_or_else(|_| "../../shared/docs/src".into());
    let source = here.join("..").join(docs).join("crates/vectormap-core/src");

    for file in FILES {
        let text = read(&source.join(file));
        let copy = match file {
            CHANGED => {
                let found = text.matches(OLD).count();
                assert_eq!(
                    found, 1,
                    "{file}: the line to be changed is there {found} times"
                );
                text.replacen(OLD, NEW, 1)
            }
            LOCATED => format!("{text}{LOCATE}"),
            _ => text.clone(),
        };
        write(&out.join(file), &copy);

        // What was written, with the recorded change undone, is the file of docs/src byte for byte.
        let back = fs::read(out.join(file)).expect("just written");
        let back = String::from_utf8(back).expect("text");
        let undone = match file {
            CHANGED => {
                assert_eq!(back.matches(NEW).count(), 1, "{file}: one changed line");
                back.replacen(NEW, OLD, 1)
            }
            LOCATED => back.strip_suffix(LOCATE).expect("the added lines").into(),
            _ => back,
        };
        assert!(
            undone.as_bytes() == text.as_bytes(),
            "{file} differs from docs/src"
        );
        if env::var("CARGO_FEATURE_PLANTED").is_ok() {
            write(&out.join(file), &with_slips(file, copy));
        }
    }
    let slips =
        format!("/// How many comparisons can be turned.\npub const SLIPS: usize = {SLIPS};\n");
    write(&out.join("slips.rs"), &slips);
    for file in STAND_INS {
        write(&out.join(file), &read(&here.join("stand-ins").join(file)));
    }
}
