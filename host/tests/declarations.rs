//! The header, the library's exports and this crate's declarations say the same: functions with names, order and types, structs with their
//! fields, and every number with the definitions that the proofs cite. A planted difference is found.

use std::collections::BTreeMap;
use std::fs;

use voldrekka::*;

/// A file of the repository.
fn file(path: &str) -> String {
    let path = format!("{}/../{path}", env!("CARGO_MANIFEST_DIR"));
    fs::read_to_string(&path).unwrap_or_else(|e| panic!("{path}: {e}"))
}

// ---- text

/// Without comments: from `//` to the line's end, and between `/*` and `*/`.
fn bare(text: &str) -> String {
    let mut out = String::new();
    for (i, part) in text.split("/*").enumerate() {
        let code = if i == 0 { part } else { part.split_once("*/").map_or("", |(_, code)| code) };
        out.push_str(code);
    }
    out.lines().map(|l| l.split("//").next().unwrap_or("")).collect::<Vec<_>>().join("\n")
}

/// What stands between two marks, the first of each, and what follows.
fn between<'a>(text: &'a str, start: &str, end: &str) -> Option<(&'a str, &'a str)> {
    text.split_once(start)?.1.split_once(end)
}

/// `laneLeftReversed` and `SolidThin` as LANE_LEFT_REVERSED and SOLID_THIN.
fn upper(camel: &str) -> String {
    let mut out = String::new();
    for c in camel.chars() {
        if c.is_uppercase() && !out.is_empty() {
            out.push('_');
        }
        out.push(c.to_ascii_uppercase());
    }
    out
}

// ---- functions and structs: a name and its parts, with the types of Rust

type Parts = Vec<(String, String)>;
type Declared = BTreeMap<String, Parts>;

/// The structs that go by value or behind a pointer: the file that declares it, and its names in Rattle, C and Rust.
const STRUCTS: [(&str, &str, &str, &str); 4] = [
    ("crates/words/src/lib.rt", "Told", "voldrekka_answer", "Answer"),
    ("crates/job_words/src/lib.rt", "ToldJob", "voldrekka_job_answer", "JobAnswer"),
    ("crates/entities/src/lib.rt", "Counter", "voldrekka_counter", "Counter"),
    ("crates/faults/src/lib.rt", "Fault", "voldrekka_flaw", "Flaw"),
];

/// A parameter of Rattle: a slice is a pointer and a length.
fn rattle_part(name: &str, ty: &str) -> Parts {
    let one = |ty: &str| vec![(name.to_string(), ty.to_string())];
    let slice = |pointer: &str, of: &str| {
        let len = (format!("{name}_len"), "usize".to_string());
        vec![(name.to_string(), format!("{pointer} {of}")), len]
    };
    match ty.strip_prefix('&') {
        None => one(&renamed(ty, |s| s.1)),
        Some(rest) => {
            let (pointer, inner) = rest.strip_prefix("mut ").map_or(("*const", rest), |inner| ("*mut", inner));
            match inner.strip_prefix('[').and_then(|i| i.strip_suffix(']')) {
                Some(of) => slice(pointer, of),
                None => one(&format!("{pointer} {}", renamed(inner, |s| s.1))),
            }
        }
    }
}

/// The Rust name of a struct that has another name.
fn renamed(ty: &str, name: fn(&(&str, &'static str, &'static str, &'static str)) -> &'static str) -> String {
    STRUCTS.iter().find(|s| name(s) == ty).map_or(ty, |s| s.3).to_string()
}

fn c_part(declaration: &str) -> (String, String) {
    let (ty, name) = declaration.rsplit_once([' ', '*']).expect("a type and a name");
    let pointer = declaration.contains('*');
    let base = ty.trim().trim_start_matches("const ").trim_end_matches('*').trim();
    let base = match base {
        "uint64_t" => "u64".to_string(),
        "size_t" => "usize".to_string(),
        "double" => "f64".to_string(),
        other => renamed(other, |s| s.2),
    };
    let kind = match (pointer, ty.contains("const ")) {
        (false, _) => "",
        (true, true) => "*const ",
        (true, false) => "*mut ",
    };
    (name.to_string(), format!("{kind}{base}"))
}

fn listed(text: &str) -> impl Iterator<Item = String> + '_ {
    let words = |part: &str| part.split_whitespace().collect::<Vec<_>>().join(" ");
    text.split(',').map(words).filter(|p| !p.is_empty() && p != "void")
}

fn named(part: &str) -> (&str, &str) {
    let (name, ty) = part.split_once(": ").expect("a name and a type");
    (name.trim_start_matches("pub ").trim(), ty.trim())
}

/// `pub extern "C" fn` of Rattle.
fn rattle_functions(text: &str) -> Declared {
    let text = bare(text);
    let mut found = Declared::new();
    for part in text.split("pub extern \"C\" fn ").skip(1) {
        let (name, rest) = part.split_once('(').expect("parameters");
        let (parameters, rest) = rest.split_once(')').expect("their end");
        let result = between(rest, "->", "\n").map_or("()", |(ty, _)| ty.trim());
        let mut parts: Parts = listed(parameters).flat_map(|p| rattle_part(named(&p).0, named(&p).1)).collect();
        parts.push(("->".into(), renamed(result, |s| s.1)));
        found.insert(name.to_string(), parts);
    }
    found
}

/// Prototypes of the header; those with a body are wrappers.
fn c_functions(text: &str) -> Declared {
    let text = bare(text);
    let mut found = Declared::new();
    for (start, _) in text.match_indices("\n").filter(|(i, _)| !text[i + 1..].starts_with([' ', '}', '#', '\n'])) {
        let Some((head, rest)) = text[start + 1..].split_once('(') else { continue };
        let Some((result, name)) = head.split_once(" voldrekka_") else { continue };
        let Some((parameters, rest)) = rest.split_once(')') else { continue };
        if head.contains(['\n', '{']) || !rest.starts_with(';') {
            continue;
        }
        let mut parts: Parts = listed(parameters).map(|p| c_part(&p)).collect();
        parts.push(("->".into(), c_part(&format!("{result} x")).1));
        found.insert(format!("voldrekka_{name}"), parts);
    }
    found
}

/// The `extern` block of `sys`.
fn rust_functions(text: &str) -> Declared {
    let text = bare(text);
    let (block, _) = between(&text, "unsafe extern \"C\" {", "\n}").expect("the extern block");
    let mut found = Declared::new();
    for part in block.split("fn ").skip(1) {
        let (name, rest) = part.split_once('(').expect("parameters");
        let (parameters, rest) = rest.split_once(')').expect("their end");
        let result = between(rest, "->", ";").map_or("()", |(ty, _)| ty.trim());
        let mut parts: Parts = listed(parameters).map(|p| (named(&p).0.into(), named(&p).1.into())).collect();
        parts.push(("->".into(), result.into()));
        found.insert(name.to_string(), parts);
    }
    found
}

/// The fields of a struct of Rattle or Rust.
fn fields(text: &str, name: &str) -> Parts {
    let text = bare(text);
    let (body, _) =
        between(&text, &format!("pub struct {name} {{"), "}").unwrap_or_else(|| panic!("the struct {name}"));
    listed(body).map(|p| (named(&p).0.into(), named(&p).1.into())).collect()
}

fn c_fields(text: &str, name: &str) -> Parts {
    let text = bare(text);
    let (body, _) =
        between(&text, &format!("typedef struct {name} {{"), "}").unwrap_or_else(|| panic!("the struct {name}"));
    body.split(';').map(str::trim).filter(|f| !f.is_empty()).map(c_part).collect()
}

// ---- numbers

type Numbers = BTreeMap<String, u64>;

/// Whole numbers, names, +, *, / and ^, with the usual precedence; casts and parentheses around single words are dropped.
fn value(expression: &str, known: &Numbers) -> Option<u64> {
    let expression = expression.replace("(int)", "").replace('_', "\u{1}");
    let word = |w: &str| {
        let w = w.trim().replace('\u{1}', "_");
        w.replace('_', "").parse().ok().or_else(|| known.get(w.trim_start_matches("VOLDREKKA_")).copied())
    };
    let power = |t: &str| match t.split_once('^') {
        Some((base, exponent)) => Some(word(base)?.pow(word(exponent)? as u32)),
        None => word(t),
    };
    let product = |t: &str| {
        let quotient = |t: &str| {
            let mut terms = t.split('/');
            let first = power(terms.next()?)?;
            terms.try_fold(first, |n, d| Some(n / power(d)?))
        };
        t.split('*').try_fold(1, |n, factor| Some(n * quotient(factor)?))
    };
    expression.split('+').try_fold(0, |n, term| Some(n + product(term)?))
}

/// The enumerators of the header, without their prefix.
fn c_numbers(text: &str) -> Numbers {
    let text = bare(text);
    let mut numbers = Numbers::new();
    for part in text.split("enum").skip(1) {
        let Some((body, _)) = between(part, "{", "}") else { continue };
        for item in body.split(',') {
            let Some((name, expression)) = item.split_once('=') else { continue };
            let Some(name) = name.trim().strip_prefix("VOLDREKKA_") else { continue };
            let number = value(expression, &numbers).unwrap_or_else(|| panic!("{name} = {expression}"));
            numbers.insert(name.to_string(), number);
        }
    }
    numbers
}

/// `pub const NAME: TYPE = number;` of Rattle and Rust.
fn constants(text: &str) -> Numbers {
    let mut numbers = Numbers::new();
    for part in bare(text).split("pub const ").skip(1) {
        let Some((name, rest)) = part.split_once(':') else { continue };
        let number = between(rest, "=", ";").and_then(|(expression, _)| value(expression, &numbers));
        if let Some(number) = number {
            numbers.insert(name.trim().to_string(), number);
        }
    }
    numbers
}

/// `abbrev pub name : ℕ`, and its equation on the next line.
fn definitions(text: &str) -> Numbers {
    let mut numbers = Numbers::new();
    let lines: Vec<&str> = text.lines().collect();
    for pair in lines.windows(2) {
        let name = pair[0].strip_prefix("abbrev pub ").and_then(|l| l.strip_suffix(" : ℕ"));
        let equation = name.and_then(|n| pair[1].strip_prefix(&format!("{n} = ")));
        if let (Some(name), Some(number)) = (name, equation.and_then(|e| value(e, &numbers))) {
            numbers.insert(upper(name), number);
        }
    }
    numbers
}

/// The numbers that a function of `Types.antt` gives to cases: `code_number NoOp = 1`, `refusal_number (LaneAbsent l) = 1`; of a result, `job_number
/// (Err NoRoom) = 10`, the refusal, and `Made` for what is made.
fn cases(text: &str, function: &str, prefix: &str) -> Numbers {
    let lines = text.lines().filter_map(|l| l.strip_prefix(function)?.split_once('='));
    let numbers = lines.filter_map(|(case, number)| {
        let case = case.trim();
        let case = if case.starts_with("(Ok ") { "Made" } else { case.strip_prefix("(Err ").unwrap_or(case) };
        let case = case.trim_matches(['(', ')']).split(' ').next()?;
        let case = case.strip_suffix("Kind").filter(|_| function == "kind_number").unwrap_or(case);
        Some((format!("{prefix}{}", upper(case)), number.trim().parse().ok()?))
    });
    numbers.collect()
}

/// Constants of crates/tables and crates/words under the header's names.
fn in_header(name: &str) -> String {
    let exact = |to: &str| to.to_string();
    match name {
        "LANES" | "BOUNDARIES" | "ROADS" | "JUNCTIONS" | "RULES" | "STOP_LINES" | "CROSSWALKS" => format!("MAX_{name}"),
        "LANE" | "BOUNDARY" | "ROAD" | "JUNCTION" | "RULE" | "STOP_LINE" | "CROSSWALK" | "COMMAND" => {
            format!("{name}_WORDS")
        }
        "PREDECESSORS" | "SUCCESSORS" | "ROAD_LANES" | "JUNCTION_LANES" | "RULE_LANES" | "RULE_CONTROLLED"
        | "RULE_STOP_LINES" | "RULE_PRIORITY" | "RULE_YIELDING" => format!("{name}_AT"),
        "NONE" | "SAME" | "OPPOSITE" => format!("NEIGHBOR_{name}"),
        "LEFT_LANE" | "RIGHT_LANE" => name.replace("_LANE", "_SLOT_LANE"),
        "POINT" => exact("POINT_FLOATS"),
        "OTHER" => exact("OTHER_RULE"),
        _ if name.ends_with("_ID") => exact("ROW_ID"),
        _ => exact(name),
    }
}

/// What this crate's kinds give their variants.
fn kinds<K: Kind + std::fmt::Debug>(prefix: &str) -> Numbers {
    K::NAMES.iter().map(|(kind, _)| (format!("{prefix}_{}", upper(&format!("{kind:?}"))), kind.number())).collect()
}

fn entity_kinds() -> Numbers {
    let name = |kind: &EntityKind| match kind {
        EntityKind::TrafficSignal => "SIGNAL".into(),
        EntityKind::RegulatoryElement => "RULE".into(),
        other => upper(&format!("{other:?}")),
    };
    EntityKind::ALL.iter().zip(0..).map(|(kind, n)| (format!("ENTITY_{}", name(kind)), n)).collect()
}

/// What is in `wanted` and not so in `found`.
fn missing<V: PartialEq + std::fmt::Debug>(wanted: &BTreeMap<String, V>, found: &BTreeMap<String, V>) -> Vec<String> {
    let differs = wanted.iter().filter(|(name, v)| found.get(*name) != Some(v));
    differs.map(|(name, v)| format!("{name}: {v:?}, found {:?}", found.get(name))).collect()
}

// ---- the comparison, on texts, so that it can be tried on wrong ones

struct Texts {
    header: String,
    exports: String,
    sys: String,
    layout: String,
}

impl Texts {
    fn now() -> Self {
        Self {
            header: file("include/voldrekka.h"),
            exports: file("crates/voldrekka/src/lib.rt"),
            sys: file("host/src/sys.rs"),
            layout: file("host/src/layout.rs"),
        }
    }

    fn differences(&self) -> Vec<String> {
        let mut all = self.functions();
        all.extend(self.structs());
        all.extend(self.numbers());
        all
    }

    fn functions(&self) -> Vec<String> {
        let exports = rattle_functions(&self.exports);
        let (header, rust) = (c_functions(&self.header), rust_functions(&self.sys));
        let pairs = [(&exports, &header), (&header, &exports), (&exports, &rust), (&rust, &exports)];
        pairs.iter().flat_map(|(a, b)| missing(a, b)).collect()
    }

    fn structs(&self) -> Vec<String> {
        let mut all = Vec::new();
        for (path, rattle, c, rust) in STRUCTS {
            let exported = fields(&file(path), rattle);
            for found in [c_fields(&self.header, c), fields(&self.sys, rust)] {
                if found != exported {
                    all.push(format!("{rattle}: {exported:?}, found {found:?}"));
                }
            }
        }
        all
    }

    fn numbers(&self) -> Vec<String> {
        let header = c_numbers(&self.header);
        let layout = constants(&self.layout);
        let mut all = missing(&layout, &header);
        let types = file("crates/entities/specs/Types.antt");
        let defined = [
            definitions(&file("crates/tables/specs/Columns.antt")),
            definitions(&file("crates/rules/specs/Limits.antt")),
        ];
        for numbers in &defined {
            assert!(numbers.len() > 20, "the definitions are read");
            all.extend(missing(numbers, &header));
            all.extend(missing(numbers, &layout));
        }
        let answers = file("crates/jobs/specs/Answers.antt");
        let jobs = [definitions(&file("crates/jobs/specs/Job.antt")), cases(&answers, "job_number", "")];
        for numbers in &jobs {
            assert!(!numbers.is_empty(), "the definitions of jobs are read");
            all.extend(missing(numbers, &header));
            all.extend(missing(numbers, &layout));
        }
        for (function, prefix) in
            [("kind_number", "ENTITY_"), ("severity_number", "SEVERITY_"), ("code_number", "CODE_"), ("refusal_number", "")]
        {
            let numbers = cases(&types, function, prefix);
            assert!(numbers.len() > 2, "{function} is read");
            all.extend(missing(&numbers, &header));
        }
        for path in ["crates/tables/src/lib.rt", "crates/words/src/lib.rt"] {
            let used = constants(&file(path)).into_iter().map(|(name, n)| (in_header(&name), n)).collect();
            all.extend(missing(&used, &header));
        }
        for numbers in
            [kinds::<LaneKind>("LANE"), kinds::<Turn>("TURN"), kinds::<BoundaryKind>("BOUNDARY"), entity_kinds()]
        {
            all.extend(missing(&numbers, &header));
        }
        all
    }
}

#[test]
fn all_say_the_same() {
    assert_eq!(Texts::now().differences(), Vec::<String>::new());
}

#[test]
fn everything_is_read() {
    let texts = Texts::now();
    let exports = rattle_functions(&texts.exports);
    assert_eq!(exports.len(), texts.exports.matches("#[unsafe(no_mangle)]").count());
    assert_eq!(exports["voldrekka_sqrt"], [("x".into(), "f64".into()), ("->".into(), "f64".to_string())]);
    assert!(exports["voldrekka_apply"].len() > 25);
    assert!(exports["voldrekka_job"].len() > 40);
    assert!(c_numbers(&texts.header).len() > 150);
}

/// A difference planted in one of the texts is found.
fn found(plant: impl Fn(&mut Texts)) {
    let mut texts = Texts::now();
    plant(&mut texts);
    assert_ne!(texts.differences(), Vec::<String>::new());
}

fn swap(text: &mut String, old: &str, new: &str) {
    assert!(text.contains(old), "{old} is there to be changed");
    *text = text.replacen(old, new, 1);
}

#[test]
fn planted_functions_are_found() {
    found(|t| swap(&mut t.header, "double voldrekka_sqrt(double x)", "double voldrekka_root(double x)"));
    found(|t| swap(&mut t.header, "const uint64_t *roads, size_t roads_len", "uint64_t *roads, size_t roads_len"));
    found(|t| swap(&mut t.header, "double x, double y, double *out", "double y, double x, double *out"));
    found(|t| {
        swap(&mut t.exports, "    roads: &[u64],\n    junctions: &[u64],", "    junctions: &[u64],\n    roads: &[u64],")
    });
    found(|t| swap(&mut t.exports, "    station: f64,\n", "    station: u64,\n"));
    found(|t| swap(&mut t.sys, "second: *mut usize,", "second: *mut u64,"));
    found(|t| swap(&mut t.sys, "    ) -> bool;", "    ) -> u64;"));
    found(|t| {
        swap(
            &mut t.header,
            "uint64_t *old_roads, size_t old_roads_len",
            "const uint64_t *old_roads, size_t old_roads_len",
        )
    });
    found(|t| swap(&mut t.header, "const uint64_t *commands,", "uint64_t *commands,"));
    found(|t| swap(&mut t.sys, "        old_rules: *mut u64,", "        rules_old: *mut u64,"));
}

#[test]
fn planted_fields_and_numbers_are_found() {
    found(|t| {
        swap(
            &mut t.header,
            "    uint64_t modified;\n    uint64_t deleted;",
            "    uint64_t deleted;\n    uint64_t modified;",
        )
    });
    found(|t| swap(&mut t.sys, "    pub second: u64,", "    pub second: u32,"));
    found(|t| swap(&mut t.sys, "    pub place: u64,\n", ""));
    found(|t| swap(&mut t.header, "    uint64_t own; ", "    uint64_t self; "));
    found(|t| swap(&mut t.header, "VOLDREKKA_MAX_EDITS = 64", "VOLDREKKA_MAX_EDITS = 63"));
    found(|t| swap(&mut t.header, "VOLDREKKA_TOO_MANY_EDITS = 13", "VOLDREKKA_TOO_MANY_EDITS = 14"));
    found(|t| swap(&mut t.header, "VOLDREKKA_LANE_TURN = 12", "VOLDREKKA_LANE_TURN = 11"));
    found(|t| swap(&mut t.header, "VOLDREKKA_MAX_IDS = 64", "VOLDREKKA_MAX_IDS = 65"));
    found(|t| swap(&mut t.header, "VOLDREKKA_NOT_CROSSING = 8", "VOLDREKKA_NOT_CROSSING = 9"));
    found(|t| swap(&mut t.header, "VOLDREKKA_BOUNDARY_CURB = 11", "VOLDREKKA_BOUNDARY_CURB = 12"));
    found(|t| swap(&mut t.header, "VOLDREKKA_CODE_ORPHAN_RULE = 5", "VOLDREKKA_CODE_ORPHAN_RULE = 6"));
    found(|t| swap(&mut t.header, "VOLDREKKA_MERGE = 1", "VOLDREKKA_MERGE = 2"));
    found(|t| {
        swap(&mut t.layout, "pub const RULE_PRIORITY_AT: usize = 200", "pub const RULE_PRIORITY_AT: usize = 201")
    });
    found(|t| swap(&mut t.layout, "pub const MAX_DELETED: usize = 5", "pub const MAX_DELETED: usize = 4"));
}

/// The room that the header promises is what this crate grows to.
#[test]
fn lengths_are_products() {
    let header = c_numbers(&Texts::now().header);
    assert_eq!(header["LANES_LEN"], 1 + header["MAX_LANES"] * header["LANE_WORDS"]);
    assert_eq!(header["COORDINATES_LEN"], header["MAX_POINTS"] * header["POINT_FLOATS"]);
    assert_eq!(header["WARNINGS_LEN"], header["MAX_WARNINGS"] * header["WARNING_WORDS"]);
    assert_eq!(header["JOB_WARNINGS_LEN"], header["MAX_EDITS"] * header["WARNINGS_LEN"]);
    assert_eq!(header["STACK"], sys::STACK as u64);
}
