//! Paths on Unix, taken apart, joined, compared and normalized, beside std's `Path`.
use crate::inputs::{self, Short};
use crate::table::{Bench, Contestant};
use crate::through_c::through_c;
use crate::{ours, theirs};
use std::hint::black_box;
use std::path::Path;

/// A call on a path, with a number of its result.
type Call = fn(&[u8]) -> u64;

/// A call on a path and another one.
type Call2 = fn(&[u8], &str) -> usize;

pub fn time(bench: &mut Bench) {
    bench.table("Paths", "a call");
    for paths in inputs::paths_of_lengths() {
        parts(bench, &paths);
        joined(bench, &paths);
        compared(bench, &paths);
        normalized(bench, &paths);
    }
}

fn path(bytes: &[u8]) -> &Path {
    Path::new(theirs::unix(bytes))
}

fn sum_of<'a>(components: impl Iterator<Item = std::path::Component<'a>>) -> u64 {
    components.fold(0, |sum: u64, part| sum.wrapping_mul(31).wrapping_add(part.as_os_str().len() as u64))
}

fn or_max(len: Option<usize>) -> u64 {
    len.unwrap_or(usize::MAX) as u64
}

const COMPONENTS: [Call; 2] =
    [|raw| ours::components(raw) as u64, through_c!(std_components, |raw| sum_of(path(raw).components()))];
const COMPONENTS_BACK: [Call; 2] = [
    |raw| ours::components_back(raw) as u64,
    through_c!(std_components_back, |raw| sum_of(path(raw).components().rev())),
];
const PARENT: [Call; 2] = [
    |raw| ours::parent(raw) as u64,
    through_c!(std_parent, |raw| or_max(path(raw).parent().map(|parent| parent.as_os_str().len()))),
];
const FILE_NAME: [Call; 2] = [
    |raw| ours::file_name(raw) as u64,
    through_c!(std_file_name, |raw| or_max(path(raw).file_name().map(|name| name.len()))),
];
const EXTENSION: [Call; 2] = [
    |raw| ours::extension(raw) as u64,
    through_c!(std_extension, |raw| or_max(path(raw).extension().map(|extension| extension.len()))),
];
const NORMALIZE: [Call; 2] = [
    |raw| ours::normalize(raw) as u64,
    through_c!(std_normalize, |raw| or_max(
        path(raw).normalize_lexically().ok().map(|normal| normal.as_os_str().len())
    )),
];
const STARTS_WITH: [Call2; 2] = [
    |raw, base| usize::from(ours::path_starts_with(raw, base)),
    through_c!(std_path_starts_with, |raw, base| usize::from(path(raw).starts_with(base))),
];
const JOIN: [Call2; 2] = [ours::join, through_c!(std_join, |base, more| path(base).join(more).as_os_str().len())];
const PUSH: [Call2; 2] = [
    ours::push_path,
    through_c!(std_push_path, |base, more| {
        let mut all = path(base).to_path_buf();
        all.push(more);
        all.as_os_str().len()
    }),
];
const EQ: [Call2; 2] =
    [|a, b| usize::from(ours::path_eq(a, b)), through_c!(std_path_eq, |a, b| usize::from(path(a) == Path::new(b)))];
const IS_LESS: [Call2; 2] = [
    |a, b| usize::from(ours::path_is_less(a, b)),
    through_c!(std_path_is_less, |a, b| usize::from(path(a) < Path::new(b))),
];

fn parts(bench: &mut Bench, paths: &Short) {
    for (call, contestants) in [
        ("components", COMPONENTS),
        ("components, from the end", COMPONENTS_BACK),
        ("parent", PARENT),
        ("file_name", FILE_NAME),
        ("extension", EXTENSION),
    ] {
        one(bench, call, paths.name, paths, contestants);
    }
}

fn joined(bench: &mut Bench, paths: &Short) {
    // the path itself, and its parent
    let same: Vec<String> = paths.strings().map(owned).collect();
    let parents: Vec<String> =
        same.iter().map(|path| Path::new(path).parent().map_or(String::new(), |it| it.display().to_string())).collect();
    let short: Vec<String> = same.iter().map(|_| String::from("lib/main.rs")).collect();
    let input = |kind: &str| format!("{}, {kind}", paths.name);
    two(bench, "starts_with", &input("its parent"), paths, &parents, STARTS_WITH);
    two(bench, "join", &input("`lib/main.rs`"), paths, &short, JOIN);
    two(bench, "push onto a copy", &input("`lib/main.rs`"), paths, &short, PUSH);
}

fn compared(bench: &mut Bench, paths: &Short) {
    let kinds: [(&str, fn(&str) -> String); 4] = [
        ("the same bytes", |path| path.to_owned()),
        ("another last byte", |path| format!("{}~", &path[..path.len() - 1])),
        ("another first name", |path| path.replacen('/', "/~", 1)[..path.len()].to_owned()),
        ("`/` doubled", |path| path.replacen('/', "//", 1)),
    ];
    for (kind, change) in kinds {
        let others: Vec<String> = paths.strings().map(|path| change(theirs::text(path))).collect();
        let input = format!("{}, {kind}", paths.name);
        two(bench, "==", &input, paths, &others, EQ);
        two(bench, "<", &input, paths, &others, IS_LESS);
    }
}

fn normalized(bench: &mut Bench, paths: &Short) {
    one(bench, "normalize", paths.name, paths, NORMALIZE);
    let dotted = paths.changed(|path| {
        // each third component is `..`, as long as the path
        let mut parts: Vec<&str> = theirs::text(path).split('/').collect();
        let count = parts.len();
        parts.iter_mut().skip(2).step_by(3).filter(|part| part.len() > 1).for_each(|part| *part = "..");
        if count > 2 { parts.join("/").into_bytes() } else { path.to_vec() }
    });
    one(bench, "normalize", &format!("{}, with `..`", paths.name), &dotted, NORMALIZE);
}

fn owned(path: &[u8]) -> String {
    theirs::text(path).to_owned()
}

/// One call for each path.
fn one(bench: &mut Bench, call: &str, input: &str, paths: &Short, [ours, std]: [Call; 2]) {
    let all = |call: Call| {
        let call = black_box(call);
        paths.strings().fold(0, |sum: u64, path| sum.wrapping_add(call(path)))
    };
    line(bench, call, input, paths.count(), [&mut || all(ours), &mut || all(std)]);
}

/// One call for each path and its other one.
fn two(bench: &mut Bench, call: &str, input: &str, paths: &Short, others: &[String], [ours, std]: [Call2; 2]) {
    let all = |call: Call2| {
        let call = black_box(call);
        paths.strings().zip(others).fold(0, |sum: u64, (path, other)| sum.wrapping_add(call(path, other) as u64))
    };
    line(bench, call, input, paths.count(), [&mut || all(ours), &mut || all(std)]);
}

fn line(bench: &mut Bench, call: &str, input: &str, count: usize, [ours, std]: [&mut dyn FnMut() -> u64; 2]) {
    let contestants: [Contestant; 3] = [Some(ours), None, Some(std)];
    bench.line(call, input, count, contestants);
}
