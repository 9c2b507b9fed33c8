//! Sets of path patterns over this machine's own paths, and how the cost of patterns grows, beside
//! globset.
use crate::globs::{MACHINE, PATHS, Paths, cut};
use crate::inputs::Random;
use crate::ours;
use crate::ours::Patterns as Ours;
use crate::table::Bench;
use globset::{GlobBuilder, GlobSet, GlobSetBuilder};
use std::collections::HashSet;
use std::hint::black_box;
use std::slice;
use std::sync::{LazyLock, OnceLock};

const COUNTS: [usize; 4] = [1, 10, 100, 1000];
/// Without case globset takes 14 milliseconds for a path and 1,000 patterns, so a run would take minutes.
const FEWER: [usize; 4] = [1, 10, 100, 300];

/// Makes so many patterns.
type Patterns = fn(usize) -> Vec<String>;

/// With whether they match without regard to case, and with how often all paths are matched in a run of 1,000 of
/// them, and of fewer by their number, so that it weighs little that ours compiles them in each run.
const KINDS: [(&str, Patterns, bool, usize); 5] = [
    ("`**/*.ext`", extensions, false, 100),
    ("literal paths", literals, false, 100),
    ("a mix", mix, false, 1),
    ("`**/*.EXT` without case", upper_extensions, true, 10),
    ("a mix without case", mix, true, 1),
];

/// The sets of globset that are timed, of each kind and count. Each is made once, since its automaton grows while
/// it matches.
static ASKED: [[OnceLock<GlobSet>; COUNTS.len()]; KINDS.len()] =
    [const { [const { OnceLock::new() }; COUNTS.len()] }; KINDS.len()];

pub fn time(bench: &mut Bench) {
    bench.table_beside("Patterns in sets beside globset", "a path", &["globset"]);
    for ((kind, patterns, folds, most), asked) in KINDS.into_iter().zip(&ASKED) {
        let counts = if folds { FEWER } else { COUNTS };
        for (count, asked) in counts.into_iter().zip(asked) {
            let input = format!("{kind}, {count}");
            if bench.wants("matches", &input) || bench.wants("is_match", &input) {
                let patterns = patterns(count);
                let theirs = asked.get_or_init(|| compiled(&patterns, folds));
                set(bench, &input, (&patterns, folds), theirs, (most * count / 1000).max(1));
            }
        }
    }
    bench.table_beside("Patterns into sets beside globset", "a pattern", &["globset"]);
    for (kind, patterns, folds, _) in KINDS {
        let counts = if kind.starts_with("a mix") { FEWER } else { COUNTS };
        for count in counts {
            let input = format!("{kind}, {count}");
            if bench.wants("new", &input) {
                made(bench, &input, &patterns(count), folds);
            }
        }
    }
    grown(bench);
    hostile(bench);
}

/// The longest path of a line, and how many bytes all its paths have, which are the same.
const LONGEST: usize = 1 << 16;
const TOTAL: usize = 1 << 16;

/// Patterns that grow, paths that grow, and both, at once, twice and four times the length.
fn grown(bench: &mut Bench) {
    bench.table_beside("Hard patterns beside globset", "a byte", &["globset"]);
    for times in [1, 2, 4] {
        let len = LONGEST / 4 * times;
        let path = "a".repeat(len);
        for pattern in ["*a*a*a*b", "*[!b][!b][!b]b*", "*a?a?b*"] {
            one(bench, &format!("`{pattern}` on a^{len}"), pattern, &path);
        }
        let names = "a/".repeat(len / 2);
        one(bench, &format!("`**/a/**/a/**/b` on (a/)^{}", len / 2), "**/a/**/a/**/b", &names);
    }
    let path = "a".repeat(LONGEST);
    for count in [16, 32, 64] {
        one(bench, &format!("`*a^{count}b*` on a^{LONGEST}"), &format!("*{}b*", "a".repeat(count)), &path);
        one(bench, &format!("`(*a)^{count}*b*` on a^{LONGEST}"), &format!("{}*b*", "*a".repeat(count)), &path);
    }
    for count in [100, 200, 400] {
        let ranges: String = (0..count).filter_map(|index| char::from_u32(0x4E00 + 2 * index)).collect();
        one(bench, &format!("`*[..]b*` of {count} letters on a^{LONGEST}"), &format!("*[{ranges}]b*"), &path);
    }
    for count in [2, 40, 160] {
        // each has half of a hundred letters, and the path's letter is in the last
        let ranges: String =
            (0..count).map(|index| format!("{}-{}", han(100 * index), han(100 * index + 50))).collect();
        let pattern = format!("*[{ranges}]b*");
        let letter = han(100 * (count - 1) + 10);
        let times = LONGEST / letter.len_utf8();
        let path = letter.to_string().repeat(times);
        one(bench, &format!("`*[..]b*` of {count} ranges on {letter}^{times}"), &pattern, &path);
        let mut random = Random(u64::from(count));
        let path: String = (0..times).map(|_| random.char(0x4E00, 100 * count as usize)).collect();
        one(bench, &format!("`*[..]b*` of {count} ranges on {times} random letters"), &pattern, &path);
    }
}

/// Sets of few patterns that stand for many, of many patterns that share their names, and of patterns that
/// all match: at once, twice and four times the size.
fn hostile(bench: &mut Bench) {
    bench.table_beside("Hard sets beside globset, made", "a set", &["globset"]);
    for times in [1, 2, 4] {
        let classes = "[aceg\u{10FFFF}]".repeat(10 * times);
        let pattern = format!("{}{classes}", "{a,b}".repeat(10));
        new(bench, &format!("`{{a,b}}^10[..]^{}`", 10 * times), &pattern);
    }
    for times in [1, 2, 4] {
        let letters = "x".repeat(12 * times);
        new(bench, &format!("`{{a,b}}^10x^{}`", 12 * times), &format!("{}{letters}", "{a,b}".repeat(10)));
    }
    for times in [1, 2, 4] {
        let names = "[:".repeat(20_000 * times);
        new(bench, &format!("`[[:^{}x]`", 20_000 * times), &format!("[{names}x]"));
    }
    bench.table_beside("Hard sets beside globset", "a path", &["globset"]);
    for count in [6, 7, 8] {
        let pattern = format!("**/x/**/{}?/**", "{a,b}".repeat(count));
        let input = format!("`**/x/**/{{a,b}}^{count}?/**` on (x/)^");
        matched(bench, &format!("{input}100"), slice::from_ref(&pattern), &"x/".repeat(100));
        matched(bench, &format!("{input}99abababab"), &[pattern], &("x/".repeat(99) + "abababab"));
    }
    for times in [200, 400, 800] {
        let patterns: Vec<_> = (0..100).map(|index| format!("**/x/**/y{index}?/**")).collect();
        let input = "100 of `**/x/**/yN?/**` on (x/)^";
        matched(bench, &format!("{input}{times}"), &patterns, &"x/".repeat(times));
        let less = times - 1;
        matched(bench, &format!("{input}{less}y1z"), &patterns, &("x/".repeat(less) + "y1z"));
    }
    for times in [50, 100] {
        let patterns: Vec<_> = (0..100).map(|index| format!("**/x/**/y{index}?/**")).collect();
        let path: String = (0..times).map(|index| format!("y{index}z/")).collect();
        matched(bench, &format!("100 of `**/x/**/yN?/**` on y0z/ to y{}z/", times - 1), &patterns, &path);
    }
    for count in [1000, 2000, 4000] {
        let patterns: Vec<_> =
            (0..count).map(|index| if index % 2 == 0 { "a".to_owned() } else { "**".to_owned() }).collect();
        matched(bench, &format!("{count} that all match a name of one letter"), &patterns, "a");
    }
}

/// The letter of an index among those of CJK.
fn han(index: u32) -> char {
    char::from_u32(0x4E00 + index).expect("a letter of CJK")
}

/// A pattern over a path, which is repeated as often as `TOTAL` states.
fn one(bench: &mut Bench, input: &str, pattern: &str, path: &str) {
    if !bench.wants("is_match", input) {
        return;
    }
    let lens = vec![path.len(); TOTAL / path.len()];
    let all = path.repeat(lens.len());
    let glob = GlobBuilder::new(pattern).literal_separator(true).build().expect("a pattern of globset");
    let theirs = glob.compile_matcher();
    let ours = black_box(ours::matches as fn(&str, bool, &str, &[usize]) -> usize);
    bench.line(
        "is_match",
        input,
        all.len(),
        [
            Some(&mut || ours(black_box(pattern), true, &all, &lens) as u64),
            Some(&mut || lens.iter().filter(|_| theirs.is_match(black_box(path))).count() as u64),
        ],
    );
}

fn set(bench: &mut Bench, input: &str, (patterns, folds): (&[String], bool), theirs: &GlobSet, times: usize) {
    let (all, lens) = (patterns.concat(), patterns.iter().map(String::len).collect::<Vec<_>>());
    let asked = Ours { text: &all, lens: &lens, folds };
    let Paths { all: paths, lens: path_lens, ended, .. } = &*PATHS;
    let ours = black_box(ours::set_matches as fn(Ours, &str, &[usize], usize) -> usize);
    let mut found = Vec::new();
    bench.line(
        "matches",
        input,
        path_lens.len() * times,
        [
            Some(&mut || ours(black_box(asked), paths, path_lens, times) as u64),
            Some(&mut || {
                (0..times).flat_map(|_| cut(ended, path_lens)).fold(0, |sum, path| {
                    theirs.matches_into(path, &mut found);
                    sum + found.len() as u64
                })
            }),
        ],
    );
    let ours = black_box(ours::set_is_match as fn(Ours, &str, &[usize], usize) -> usize);
    bench.line(
        "is_match",
        input,
        path_lens.len() * times,
        [
            Some(&mut || ours(black_box(asked), paths, path_lens, times) as u64),
            Some(&mut || {
                (0..times).flat_map(|_| cut(ended, path_lens)).filter(|path| theirs.is_match(path)).count() as u64
            }),
        ],
    );
}

/// A set of one pattern, which is compiled and dropped.
fn new(bench: &mut Bench, input: &str, pattern: &str) {
    let ours = black_box(ours::set_new as fn(Ours) -> bool);
    bench.line(
        "new",
        input,
        1,
        [
            Some(&mut || u64::from(ours(black_box(Ours { text: pattern, lens: &[pattern.len()], folds: false })))),
            Some(&mut || u64::from(!black_box(compiled(&[black_box(pattern).to_owned()], false)).is_empty())),
        ],
    );
}

/// The patterns of a set that match a path, which is repeated so often that making ours weighs little.
fn matched(bench: &mut Bench, input: &str, patterns: &[String], path: &str) {
    if !bench.wants("matches", input) {
        return;
    }
    let (all, lens) = (patterns.concat(), patterns.iter().map(String::len).collect::<Vec<_>>());
    let paths = vec![path.len(); ((1 << 18) / path.len() / patterns.len()).max(20)];
    let texts = path.repeat(paths.len());
    let theirs = compiled(patterns, false);
    let asked = Ours { text: &all, lens: &lens, folds: false };
    let mut found = Vec::new();
    let ours = black_box(ours::set_matches as fn(Ours, &str, &[usize], usize) -> usize);
    bench.line(
        "matches",
        input,
        paths.len(),
        [
            Some(&mut || ours(black_box(asked), &texts, &paths, 1) as u64),
            Some(&mut || {
                paths.iter().fold(0, |sum, _| {
                    theirs.matches_into(black_box(path), &mut found);
                    sum + found.len() as u64
                })
            }),
        ],
    );
}

/// Sets that are compiled of texts, and dropped.
fn made(bench: &mut Bench, input: &str, patterns: &[String], folds: bool) {
    let (all, lens) = (patterns.concat(), patterns.iter().map(String::len).collect::<Vec<_>>());
    let asked = Ours { text: &all, lens: &lens, folds };
    let ours = black_box(ours::set_new as fn(Ours) -> bool);
    bench.line(
        "new",
        input,
        patterns.len(),
        [
            Some(&mut || u64::from(ours(black_box(asked)))),
            Some(&mut || u64::from(!black_box(compiled(black_box(patterns), folds)).is_empty())),
        ],
    );
}

fn compiled(patterns: &[String], folds: bool) -> GlobSet {
    let mut builder = GlobSetBuilder::new();
    for pattern in patterns {
        let glob = GlobBuilder::new(pattern).literal_separator(true).case_insensitive(folds).build();
        builder.add(glob.expect("a pattern of globset"));
    }
    builder.build().expect("a set of globset")
}

/// Whether nothing in the text means anything in a pattern.
fn is_plain(text: &str) -> bool {
    text.bytes().all(|byte| byte.is_ascii_alphanumeric() || b"/._-+".contains(&byte))
}

/// The extensions of this machine's paths, each once, and the same of whole paths and of folders.
static EXTENSIONS: LazyLock<Vec<&str>> = LazyLock::new(|| {
    let names = MACHINE.iter().filter_map(|path| Some(path.rsplit_once('/')?.1));
    distinct(names.filter_map(|name| Some(name.rsplit_once('.')?.1)))
});
static LITERALS: LazyLock<Vec<&str>> = LazyLock::new(|| distinct(MACHINE.iter().map(String::as_str)));
static FOLDERS: LazyLock<Vec<&str>> =
    LazyLock::new(|| distinct(MACHINE.iter().filter_map(|path| path.split('/').nth(3))));

/// Parts of paths in which nothing means anything in a pattern, each once.
fn distinct(parts: impl Iterator<Item = &'static str>) -> Vec<&'static str> {
    let mut seen = HashSet::new();
    parts.filter(|part| !part.is_empty() && is_plain(part) && seen.insert(*part)).collect()
}

/// So many of the parts, evenly chosen.
fn chosen(parts: &[&'static str], count: usize) -> Vec<&'static str> {
    (0..count).map(|index| parts[index * parts.len() / count]).collect()
}

/// Extensions in capital letters.
fn upper_extensions(count: usize) -> Vec<String> {
    extensions(count).iter().map(|pattern| pattern.to_ascii_uppercase()).collect()
}

fn extensions(count: usize) -> Vec<String> {
    chosen(&EXTENSIONS, count).iter().map(|extension| format!("**/*.{extension}")).collect()
}

fn literals(count: usize) -> Vec<String> {
    chosen(&LITERALS, count).iter().map(|path| (*path).to_owned()).collect()
}

/// As in files of patterns to be ignored: an extension, a folder anywhere, a folder within another, and
/// an ending of names.
fn mix(count: usize) -> Vec<String> {
    let folders = chosen(&FOLDERS, 2 * count);
    let extensions = extensions(count);
    (0..count)
        .map(|index| {
            let (folder, other) = (folders[2 * index], folders[2 * index + 1]);
            match index % 4 {
                0 => extensions[index].clone(),
                1 => format!("**/{folder}/**"),
                2 => format!("/usr/{folder}/**/{other}/*"),
                _ => format!("**/*{}{}", &folder[..folder.len().min(2)], &extensions[index][4..]),
            }
        })
        .collect()
}
