//! Path patterns over this machine's own paths, beside three crates of Rust and fnmatch(3).
use crate::ours;
use crate::table::Bench;
use std::ffi::{CString, c_char, c_int};
use std::fs;
use std::hint::black_box;
use std::path::Path;
use std::sync::LazyLock;

/// Without separators.
const PLAIN: [&str; 5] = ["*", "*.gz", "/usr/*/man?/*", "*x*x*x*y", "**/[a-m]*.so"];

/// With `/` as separator, over whole paths.
const OF_PATHS: [&str; 18] = [
    "**/target/**",
    "**/.git/**",
    "**/doc/**",
    "**/*test*",
    "**/[A-Z]*",
    "**/*.py[co]",
    "**/*.[ch]",
    "**/*.rs",
    "/*/*/*/*/*",
    "/usr/**/lib/**",
    "/usr/share/**",
    "/usr/share/**/src/*",
    "/usr/share/doc/*/copyright",
    "/usr/*/*/*",
    "/usr/*/*",
    "/usr/lib/*.so",
    "*/*",
    "*.[ch]",
];

/// The same over last names.
const OF_NAMES: [&str; 3] = ["[A-Z]*", "*e*e*e*", "*.tar.??"];

/// So many paths of the file system are matched, at most.
const MOST: usize = 290_000;

/// So many where `/` separates.
const FEWER: usize = 20_000;

/// A pattern that was read once, where `/` separates or nothing does; `None` where they have no such
/// pattern.
type Compile = fn(&str, bool) -> Option<Matcher>;

type Matcher = Box<dyn Fn(&str) -> bool>;

/// How many paths each pattern matches: each contestant reads the pattern once.
pub fn time(bench: &mut Bench) {
    let crates: [(&str, Compile); 3] = [("glob", glob), ("globset", globset), ("wildmatch", wildmatch)];
    for (name, compile) in crates {
        bench.table_beside(&format!("Patterns beside {name}"), "a path", &[name]);
        for pattern in PLAIN {
            line(bench, pattern, false, &ALL, compile);
        }
    }
    let others: [(&str, Compile); 3] = [("globset", globset), ("glob", glob), ("fnmatch", fnmatch)];
    for (name, compile) in others {
        bench.table_beside(&format!("Patterns with separators beside {name}"), "a path", &[name]);
        for pattern in OF_PATHS {
            line(bench, pattern, true, &PATHS, compile);
        }
        for pattern in OF_NAMES {
            line(bench, pattern, true, &NAMES, compile);
        }
    }
}

fn line(bench: &mut Bench, pattern: &str, slash: bool, paths: &LazyLock<Paths>, compile: Compile) {
    let Some(theirs) = compile(pattern, slash) else { return };
    if !bench.wants("is_match", pattern) {
        return;
    }
    let Paths { kind, all, ended, lens } = &**paths;
    let ours = black_box(ours::matches as fn(&str, bool, &str, &[usize]) -> usize);
    bench.line(
        "is_match",
        &format!("`{pattern}`, {} {kind}", lens.len()),
        lens.len(),
        [
            Some(&mut || ours(black_box(pattern), slash, all, lens) as u64),
            Some(&mut || cut(ended, lens).filter(|path| theirs(path)).count() as u64),
        ],
    );
}

/// Those of this machine's files that are texts.
pub static MACHINE: LazyLock<Vec<String>> = LazyLock::new(|| {
    let mut found = Vec::new();
    paths_below(Path::new("/"), &mut found);
    found
});

static ALL: LazyLock<Paths> = LazyLock::new(|| Paths::of("paths", some_of(&MACHINE, MOST)));
pub static PATHS: LazyLock<Paths> = LazyLock::new(|| Paths::of("paths", some_of(&MACHINE, FEWER)));
static NAMES: LazyLock<Paths> = LazyLock::new(|| {
    let paths = some_of(&MACHINE, FEWER);
    Paths::of("names", paths.map(|path| path.rsplit_once('/').map_or(path, |(_, name)| name)))
});

/// At most so many of them, evenly chosen.
pub fn some_of(all: &[String], most: usize) -> impl Iterator<Item = &str> {
    let count = all.len().min(most);
    (0..count).map(move |index| all[index * all.len() / count].as_str())
}

/// Paths, one after the other, the same with a NUL after each, and the length of each.
pub struct Paths {
    kind: &'static str,
    pub all: String,
    pub ended: String,
    pub lens: Vec<usize>,
}

impl Paths {
    pub fn of<'a>(kind: &'static str, paths: impl Iterator<Item = &'a str>) -> Self {
        let paths: Vec<_> = paths.collect();
        let ended = paths.iter().flat_map(|path| [path, "\0"]).collect();
        Self { kind, all: paths.concat(), ended, lens: paths.iter().map(|path| path.len()).collect() }
    }
}

/// The texts of these lengths, each of which has a NUL after it.
pub fn cut<'a>(mut ended: &'a str, lens: &'a [usize]) -> impl Iterator<Item = &'a str> {
    lens.iter().map(move |&len| {
        let (path, rest) = ended.split_at(len);
        ended = &rest[1..];
        path
    })
}

fn glob(pattern: &str, slash: bool) -> Option<Matcher> {
    let pattern = glob::Pattern::new(pattern).expect("a pattern of glob");
    let options = glob::MatchOptions { require_literal_separator: slash, ..glob::MatchOptions::new() };
    Some(Box::new(move |path| pattern.matches_with(path, options)))
}

fn globset(pattern: &str, slash: bool) -> Option<Matcher> {
    let glob = globset::GlobBuilder::new(pattern).literal_separator(slash).build().expect("a pattern of globset");
    let matcher = glob.compile_matcher();
    Some(Box::new(move |path| matcher.is_match(path)))
}

/// It has no classes, and with a `?` it misses paths that the other two find.
fn wildmatch(pattern: &str, _: bool) -> Option<Matcher> {
    let matcher = wildmatch::WildMatch::new(pattern);
    (!pattern.contains(['[', '?'])).then(|| -> Matcher { Box::new(move |path| matcher.matches(path)) })
}

unsafe extern "C" {
    #[link_name = "fnmatch"]
    fn c_fnmatch(pattern: *const c_char, text: *const c_char, flags: c_int) -> c_int;
}

/// A wildcard matches no `/`.
const FNM_PATHNAME: c_int = 1;

/// It has no `**`.
fn fnmatch(pattern: &str, slash: bool) -> Option<Matcher> {
    if pattern.contains("**") {
        return None;
    }
    let pattern = CString::new(pattern).expect("no NUL");
    let flags = if slash { FNM_PATHNAME } else { 0 };
    // each path that `cut` gives has a NUL after it
    Some(Box::new(move |path| (unsafe { c_fnmatch(pattern.as_ptr(), path.as_ptr().cast(), flags) }) == 0))
}

/// The paths of the files below a folder that are texts, in order of their names, without those that
/// only the running system has.
fn paths_below(folder: &Path, paths: &mut Vec<String>) {
    let Ok(entries) = fs::read_dir(folder) else { return };
    let mut entries: Vec<_> = entries.flatten().collect();
    entries.sort_by_key(|entry| entry.file_name());
    for entry in entries {
        let path = entry.path();
        if ["/proc", "/sys", "/dev"].iter().any(|system| path == Path::new(system)) {
            continue;
        }
        if let Some(text) = path.to_str() {
            paths.push(text.to_owned());
        }
        if entry.file_type().is_ok_and(|kind| kind.is_dir()) {
            paths_below(&path, paths);
        }
    }
}
