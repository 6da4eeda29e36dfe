//! The declarations of the library in C and in Rust, held to the Rattle source: the same functions, and each with the same parameters in the
//! same order and by the same names, and with the same type of answer.
use std::collections::BTreeMap;
use std::fs;
use std::path::{Path, PathBuf};

/// By function: each parameter, or the two that a slice passes as, as `name: type` in Rust's terms; and the answer's type.
type Declared = BTreeMap<String, Vec<String>>;

fn top() -> PathBuf {
    Path::new(env!("CARGO_MANIFEST_DIR")).join("..")
}

fn text(path: PathBuf) -> String {
    fs::read_to_string(&path).unwrap_or_else(|e| panic!("{}: {e}", path.display()))
}

/// Each function whose declaration begins so, with its parameters as they are written. Its answer stands behind them, as `-> u8`, or is told.
fn functions(
    source: &str,
    begin: &str,
    answer: Option<&str>,
    parameter: impl Fn(&str) -> Vec<String>,
) -> Declared {
    let declared = source.split(begin).skip(1).filter(|rest| rest.starts_with("wokujani_"));
    let parts = declared.filter_map(|rest| {
        let ((name, list), tail) = rest.split_once(')').and_then(|(h, t)| Some((h.split_once('(')?, t)))?;
        let behind = tail.strip_prefix(" -> ").and_then(|t| t.split(|c: char| !c.is_alphanumeric()).next());
        Some((name, list, answer.or(behind)?))
    });
    parts
        .map(|(name, list, answer)| {
            let list = list.split(',').map(str::trim).filter(|p| !p.is_empty());
            (name.to_string(), list.flat_map(&parameter).chain([format!("-> {answer}")]).collect())
        })
        .collect()
}

/// `bytes: &mut [u8]` passes as a pointer and a length, `taken: &mut u64` as a pointer, a number as itself.
fn passed(parameter: &str) -> Vec<String> {
    let (name, kind) = parameter.split_once(": ").expect("a name and a type");
    let (pointer, what) = match (kind.strip_prefix("&mut "), kind.strip_prefix('&')) {
        (Some(what), _) => ("*mut ", what),
        (None, Some(what)) => ("*const ", what),
        (None, None) => ("", kind),
    };
    match what.strip_prefix('[').and_then(|w| w.strip_suffix(']')) {
        Some(element) => vec![format!("{name}: {pointer}{element}"), format!("{name}_len: usize")],
        None => vec![format!("{name}: {pointer}{what}")],
    }
}

/// `const uint8_t *bytes` is `bytes: *const u8`.
fn in_c(parameter: &str) -> Vec<String> {
    let (kind, name) = parameter.rsplit_once(' ').expect("a type and a name");
    let (pointer, name) = match (name.strip_prefix('*'), kind.starts_with("const ")) {
        (Some(name), true) => ("*const ", name),
        (Some(name), false) => ("*mut ", name),
        (None, _) => ("", name),
    };
    let element = match kind.trim_start_matches("const ") {
        "uint8_t" => "u8",
        "uint16_t" => "u16",
        "uint64_t" => "u64",
        "size_t" => "usize",
        other => other,
    };
    vec![format!("{name}: {pointer}{element}")]
}

fn in_rattle() -> Declared {
    let files = fs::read_dir(top().join("crates/linked/src")).expect("crate linked");
    let sources = files.map(|f| text(f.expect("a file").path()));
    sources.flat_map(|s| functions(&s, "extern \"C\" fn ", None, passed)).collect()
}

#[test]
fn header_declares_the_library() {
    let ours = in_rattle();
    assert!(ours.len() >= 21, "{ours:?}");
    let header = text(top().join("include/wokujani.h"));
    let answers = [("\nuint8_t ", "u8"), ("\nuint64_t ", "u64")];
    let declared = answers.iter().flat_map(|(begin, answer)| functions(&header, begin, Some(answer), in_c));
    assert_eq!(declared.collect::<Declared>(), ours);
}

#[test]
fn bench_declares_the_library() {
    let ours = in_rattle();
    let plain = |p: &str| vec![p.to_string()];
    let declared = functions(&text(top().join("bench/src/linked.rs")), "    fn ", None, plain);
    assert!(!declared.is_empty());
    for (name, parameters) in declared {
        assert_eq!(Some(&parameters), ours.get(&name), "{name}");
    }
}
