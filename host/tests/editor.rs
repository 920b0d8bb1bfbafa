//! The editor as a program: answers, exit statuses, and files that change only when all went well.

use std::fs;
use std::path::{Path, PathBuf};
use std::process::{Command, Output};

/// A folder of its own for a test, with copies of the samples.
struct Folder(PathBuf);

impl Folder {
    fn new(name: &str) -> Self {
        let folder = PathBuf::from(env!("CARGO_TARGET_TMPDIR")).join(name);
        let _ = fs::remove_dir_all(&folder);
        fs::create_dir_all(&folder).expect("a folder for the test");
        for sample in ["gate", "crane", "terminal"] {
            let from = format!("{}/../samples/{sample}.yard", env!("CARGO_MANIFEST_DIR"));
            fs::copy(&from, folder.join(format!("{sample}.yard"))).expect("the sample is there");
        }
        Self(folder)
    }

    fn run(&self, words: &str) -> Output {
        let program = env!("CARGO_BIN_EXE_voldrekka");
        Command::new(program).args(words.split_whitespace()).current_dir(&self.0).output().expect("the editor runs")
    }

    /// Runs the editor and gives what it said, if it ended with a status.
    fn told(&self, words: &str, status: i32) -> String {
        let output = self.run(words);
        let text = String::from_utf8_lossy(&[output.stdout, output.stderr].concat()).into_owned();
        assert_eq!(output.status.code(), Some(status), "{words}: {text}");
        match voldrekka::sys::PROVED {
            true => text,
            false => text.replace("voldrekka: this editor is built with a library that nothing has proved\n", ""),
        }
    }

    fn text(&self, file: &str) -> String {
        fs::read_to_string(self.0.join(file)).unwrap_or_else(|e| panic!("{file}: {e}"))
    }

    fn files(&self) -> Vec<String> {
        let mut names: Vec<String> =
            fs::read_dir(&self.0).unwrap().map(|f| f.unwrap().file_name().into_string().unwrap()).collect();
        names.sort();
        names
    }
}

#[test]
fn edits_change_the_file_and_tell_what_changed() {
    let folder = Folder::new("edits");
    let told = folder.told("split gate.yard 1 --station 15 --alone", 0);
    assert_eq!(
        told,
        "split lane:1 at 15 m, alone: accepted, the second half is lane:207
  created   lane:207 boundary:204 boundary:205 boundary:206
  modified  lane:1 lane:3 boundary:101 road:200 regulatory_element:202
  deleted   -
  warning   boundary_unshared boundary:102: boundary:102 is also used by lanes outside the split group; the split lanes now use copies (boundary:205, boundary:206)
  warning   neighbor_dropped lane:207: lane:2 was not split, so it stays the Right neighbor of lane:1 only; lane:207 has no Right neighbor
"
    );
    let text = folder.text("gate.yard");
    assert!(text.contains("lane 207 left=204 right=206 speed=20 successors=3\n"), "{text}");
    assert!(text.contains("\nnext 208\n") && text.contains("# The apron."), "{text}");
    folder.told("merge gate.yard 1 207", 0);
    folder.told("disconnect gate.yard 1 3", 0);
    folder.told("connect gate.yard 1 3", 0);
    assert!(folder.told("connect gate.yard 1 3", 0).contains("nothing changed"));
    folder.told("neighbor gate.yard 1 right none", 0);
    folder.told("neighbor gate.yard 1 right 2:same", 0);
    folder.told("remove gate.yard 2", 0);
    assert_eq!(folder.told("check gate.yard", 0), "gate.yard: sound\n");
    assert_eq!(folder.files(), ["crane.yard", "gate.yard", "terminal.yard"]);
}

#[test]
fn refusals_are_the_exit_status_and_change_nothing() {
    let folder = Folder::new("refusals");
    let before = folder.text("gate.yard");
    for (words, status, told) in [
        ("remove gate.yard 9", 1, "lane:9 does not exist"),
        ("split gate.yard 1 --fraction 1", 2, "fraction must be in (0, 1)"),
        ("split gate.yard 1 --fraction nan", 2, "fraction must be in (0, 1)"),
        ("split gate.yard 1 --station 0.05", 3, "split position 0.050 m must be inside (0, 30.000)"),
        ("connect gate.yard 1 1", 4, "a lane cannot be its own successor"),
        ("merge gate.yard 1 2", 5, "lane:2 must be the only successor of lane:1 (successors: [lane:3])"),
    ] {
        let text = folder.told(words, status);
        assert!(text.contains(told) && text.contains("refused"), "{words}: {text}");
        assert_eq!(folder.text("gate.yard"), before, "{words}");
    }
}

#[test]
fn refusals_name_the_line() {
    let folder = Folder::new("lines");
    let text = "voldrekka 1\nboundary 10 line=0,0;9,0\nlane 1 left=10 right=11 centerline=0,0;9,0\nboundary 12 line=0,1;1,1\nlane 2 left=10 right=12 centerline=0,0;9,0\n";
    fs::write(folder.0.join("drawn.yard"), text).unwrap();
    assert!(folder.told("split drawn.yard 1 --fraction 0.5", 6).contains("boundary:11 does not exist"));
    let told = folder.told("split drawn.yard 2 --fraction 0.5", 8);
    assert!(told.contains("boundary:12 does not extend across the split position (line 4)"), "{told}");
}

#[test]
fn unsound_maps_are_told() {
    let folder = Folder::new("unsound");
    let text = "voldrekka 1\nnext 50\nlane 1 left=10 right=11 successors=7\n";
    fs::write(folder.0.join("bad.yard"), text).unwrap();
    assert!(folder.told("check bad.yard", 9).contains("not sound"));
    assert!(folder.told("remove bad.yard 1", 9).contains("not sound"));
    assert!(folder.told("check bad.yard --json", 9).contains("\"sound\":false"));
    assert_eq!(folder.text("bad.yard"), text);
}

#[test]
fn the_clause_that_fails_is_told_with_its_line() {
    let folder = Folder::new("clauses");
    let damaged = |from: &str, to: &str| {
        let text = folder.text("gate.yard");
        assert_eq!(text.matches(from).count(), 1, "{from}");
        fs::write(folder.0.join("damaged.yard"), text.replacen(from, to, 1)).expect("a file");
        folder.told("check damaged.yard", 9)
    };
    assert_eq!(
        damaged("left-neighbor=3:same", "left-neighbor=2:same"),
        "damaged.yard: not sound: a neighbour is absent or does not name the lane back, at lane:3 on line 8\n"
    );
    assert_eq!(
        damaged("next 204", "next 105"),
        "damaged.yard: not sound: an id is not below the next id to be given, at lane:3 on line 8\n"
    );
    assert_eq!(
        damaged("signals=1 stop-line=201 lanes=1,2", "signals=1 stop-line=201 lanes=2,1,2"),
        "damaged.yard: not sound: a lane stands twice in a road, a junction, or one list of a rule, at regulatory_element:202 on line 26\n"
    );
    assert_eq!(
        folder.told("connect damaged.yard 1 4", 9),
        "connect lane:1 to lane:4: refused, 9 map not sound\n  a lane stands twice in a road, a junction, or one list of a rule, at regulatory_element:202 on line 26\n"
    );
}

#[test]
fn bad_input_is_told_with_its_line_and_changes_nothing() {
    let folder = Folder::new("input");
    let text = "voldrekka 1\nlane 1 left=10 wright=11\n";
    fs::write(folder.0.join("bad.yard"), text).unwrap();
    let told = folder.told("remove bad.yard 1", 65);
    assert!(told.contains("bad.yard: line 2: lane 1: `wright` is no field here; expected one of"), "{told}");
    assert_eq!(folder.text("bad.yard"), text);
    assert!(folder.told("show nowhere.yard", 66).contains("nowhere.yard cannot be read"));
    fs::write(folder.0.join("bytes.yard"), [0xff, 0xfe]).unwrap();
    assert!(folder.told("show bytes.yard", 66).contains("cannot be read"));
    assert!(folder.told("draw gate.yard --output nowhere/x.svg", 66).contains("cannot be written"));
    assert!(folder.told("remove gate.yard 1 --output nowhere/x.yard", 66).contains("cannot be written"));
    assert_eq!(folder.files(), ["bad.yard", "bytes.yard", "crane.yard", "gate.yard", "terminal.yard"]);
}

#[test]
fn the_command_line_is_told() {
    let folder = Folder::new("usage");
    for (words, told) in [
        ("", "expected a command and a file"),
        ("show", "expected one file"),
        ("show a b", "expected one file"),
        ("drive gate.yard", "expected show, check, split"),
        ("split gate.yard 1", "expected --fraction or --station"),
        ("split gate.yard 1 --fraction 0.5 --station 3", "expected --fraction or --station"),
        ("split gate.yard 1 --fraction", "expected a value behind --fraction"),
        ("split gate.yard one --fraction 0.5", "expected the id of a lane, found one"),
        ("split gate.yard 1 --fraction half", "expected a number, found half"),
        ("merge gate.yard 1", "expected two lanes behind merge"),
        ("neighbor gate.yard 1 up 2:same", "expected left or right, found up"),
        ("neighbor gate.yard 1 left 2:beside", "expected same or opposite, found beside"),
        ("neighbor gate.yard 1 left 2", "expected none, ID:same or ID:opposite, found 2"),
        (
            "remove gate.yard 1 --force",
            "--force is no option here; expected one of --json, --output, --dry-run, --draw",
        ),
        ("merge gate.yard 1 2 --alone", "--alone is no option here"),
        ("job gate.yard", "expected the file of a job's edits"),
        ("job gate.yard a b", "expected the file of a job's edits"),
        ("job gate.yard closing.job --alone", "--alone is no option here"),
        ("show gate.yard --dry-run", "--dry-run is no option here; expected one of --json"),
        ("draw gate.yard remove 1 --fraction 0.5", "--fraction is no option here"),
        ("split gate.yard 1 --station 3 --station 4", "--station is given twice"),
    ] {
        let text = folder.told(words, 64);
        assert!(text.contains(told), "{words}: {text}");
    }
    assert!(folder.told("--help", 0).contains("voldrekka split FILE LANE --fraction F"));
}

#[test]
fn other_places_to_write() {
    let folder = Folder::new("places");
    let before = folder.text("gate.yard");
    folder.told("split gate.yard 1 --fraction 0.5 --dry-run", 0);
    assert_eq!(folder.text("gate.yard"), before);
    folder.told("split gate.yard 1 --fraction 0.5 --output other.yard --draw edit.svg", 0);
    assert_eq!(folder.text("gate.yard"), before);
    assert!(folder.text("other.yard").contains("lane 207"));
    assert!(folder.text("edit.svg").contains(">207</text>"));
}

/// A text that cannot be written leaves the others alone.
#[test]
fn all_files_or_none() {
    let folder = Folder::new("all");
    let before = folder.text("gate.yard");
    folder.told("split gate.yard 1 --fraction 0.5 --draw nowhere/edit.svg", 66);
    folder.told("split gate.yard 1 --fraction 0.5 --output nowhere/x.yard --draw edit.svg", 66);
    assert_eq!(folder.text("gate.yard"), before);
    assert_eq!(folder.files(), ["crane.yard", "gate.yard", "terminal.yard"]);
}

/// Edits as a file, one a line.
fn job(folder: &Folder, text: &str) {
    fs::write(folder.0.join("edits.job"), text).expect("a file");
}

#[test]
fn jobs_make_all_edits_or_none() {
    let folder = Folder::new("jobs");
    let before = folder.text("gate.yard");
    let sample = format!("{}/../samples/gate-closing.job", env!("CARGO_MANIFEST_DIR"));
    fs::copy(&sample, folder.0.join("closing.job")).expect("the sample is there");
    let told = folder.told("job gate.yard closing.job --output closed.yard --draw closing.svg", 0);
    assert_eq!(
        told,
        "job of 6 edits: made
  created   lane:208 boundary:205 boundary:206
  modified  lane:1 lane:2 lane:3 lane:4 boundary:101 boundary:102 boundary:103 road:200 regulatory_element:202
  deleted   -
  warning   geometric_gap lane:1: lane:208 starts 4.000 m away from the end of lane:1; formats with implicit topology (Lanelet2) will not preserve this link
  warning   geometric_gap lane:208: lane:3 starts 4.000 m away from the end of lane:208; formats with implicit topology (Lanelet2) will not preserve this link
"
    );
    assert_eq!(folder.text("gate.yard"), before);
    assert_eq!(folder.told("check closed.yard", 0), "closed.yard: sound\n");
    assert!(folder.text("closing.svg").contains("job of 6 edits"));

    // The same edits, one by one.
    for line in folder.text("closing.job").lines().map(|l| l.split('#').next().unwrap_or("").trim()) {
        if let Some((edit, rest)) = line.split_once(' ') {
            folder.told(&format!("{edit} gate.yard {rest}"), 0);
        }
    }
    assert_eq!(folder.text("gate.yard"), folder.text("closed.yard"));
}

#[test]
fn refused_jobs_tell_the_line_and_change_nothing() {
    let folder = Folder::new("refused-jobs");
    let before = folder.text("gate.yard");
    job(&folder, "split 1 --station 15 # 207\n\n  # not yet\nmerge 1 2\nremove 3\n");
    assert_eq!(
        folder.told("job gate.yard edits.job", 12),
        "job of 3 edits: refused, 12 edit refused
  edit 2, edits.job line 4: merge lane:1 and lane:2: refused, 5 not mergeable
  cannot merge lane:1 and lane:2: lane:2 must be the only successor of lane:1 (successors: [lane:207]) (line 6)
"
    );
    let told = folder.told("job gate.yard edits.job --json", 12);
    assert!(told.starts_with("{\"op\":\"job\",\"number\":12,\"refusal\":\"edit refused\",\"place\":2,\"edits_line\":4,\"edit\":{\"op\":\"merge_lanes\",\"number\":5,"), "{told}");
    job(&folder, &"connect 1 3\n".repeat(65));
    assert!(
        folder.told("job gate.yard edits.job", 13).contains("refused, 13 too many edits\n  a job has at most 64 edits")
    );
    for (text, told) in [
        (
            "remove 1\nshow\n",
            "edits.job: line 2: expected split, merge, connect, disconnect, neighbor, remove, found show",
        ),
        ("job x.job\n", "edits.job: line 1: expected split"),
        ("merge 1\n", "edits.job: line 1: expected two lanes behind merge"),
        ("merge 1 2 --alone\n", "edits.job: line 1: --alone is no option here; expected none"),
        ("split 1 --fraction 0.5 --output x\n", "line 1: --output is no option here"),
        ("--alone\n", "edits.job: line 1: expected an edit"),
    ] {
        job(&folder, text);
        assert!(folder.told("job gate.yard edits.job", 65).contains(told), "{text}");
    }
    assert!(folder.told("job gate.yard nowhere.job", 66).contains("nowhere.job cannot be read"));
    assert_eq!(folder.text("gate.yard"), before);
}

#[test]
fn programs_read_jobs() {
    let folder = Folder::new("json-jobs");
    job(&folder, "disconnect 1 3\nconnect 1 3\n");
    assert_eq!(
        folder.told("job gate.yard edits.job --json", 0),
        "{\"op\":\"job\",\"number\":0,\"edits\":2,\"created\":[],\"modified\":[{\"kind\":\"lane\",\"id\":1},{\"kind\":\"lane\",\"id\":3}],\"deleted\":[],\"warnings\":[],\"next\":204}\n"
    );
    job(&folder, "");
    assert!(folder.told("job gate.yard edits.job", 0).starts_with("job of 0 edits: made, nothing changed\n"));
}

#[test]
fn links_stay_links() {
    let folder = Folder::new("links");
    std::os::unix::fs::symlink("gate.yard", folder.0.join("link.yard")).unwrap();
    folder.told("remove link.yard 2", 0);
    assert!(fs::symlink_metadata(folder.0.join("link.yard")).unwrap().is_symlink());
    assert!(!folder.text("gate.yard").contains("lane 2 "));
}

#[test]
fn programs_read_json() {
    let folder = Folder::new("json");
    let told = folder.told("split gate.yard 1 --station 15 --alone --dry-run --json", 0);
    assert!(
        told.starts_with(
            "{\"op\":\"split_lane\",\"number\":0,\"second\":207,\"created\":[{\"kind\":\"lane\",\"id\":207},"
        ),
        "{told}"
    );
    assert!(told.ends_with("\"next\":208}\n"), "{told}");
    let told = folder.told("split gate.yard 1 --station 0 --json", 3);
    assert!(told.starts_with("{\"op\":\"split_lane\",\"number\":3,\"refusal\":\"position outside the lane\",\"entity\":{\"kind\":\"lane\",\"id\":1},\"line\":6,"), "{told}");
    assert_eq!(
        folder.told("check gate.yard --json", 0),
        "{\"sound\":true,\"clause\":null,\"entity\":null,\"line\":null}\n"
    );
    let told = folder.told("show nowhere.yard --json", 66);
    assert!(told.starts_with("{\"status\":66,\"message\":\"nowhere.yard cannot be read"), "{told}");
    let shown = folder.told("show crane.yard --json", 0);
    assert!(shown.contains("\"left_neighbor\":{\"lane\":3,\"direction\":\"opposite\"}"), "{shown}");
}

#[test]
fn pictures_show_everything() {
    let folder = Folder::new("pictures");
    folder.told("draw terminal.yard", 0);
    let svg = folder.text("terminal.svg");
    for lane in [1, 288, 500, 521] {
        assert!(svg.contains(&format!(">{lane}</text>")), "lane {lane}");
    }
    folder.told("draw gate.yard remove 2 --output removed.svg", 0);
    assert!(folder.text("removed.svg").contains("deleted 2"));
    assert!(Path::new(&folder.0.join("gate.yard")).exists());
}
