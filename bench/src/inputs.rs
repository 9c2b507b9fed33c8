//! What the calls are timed on, the same in each run.
use crate::table::Contestant;
use crate_windows::windows_strings::OsString;
use crate_windows::windows_strings::os::ffi::OsStringExt;

const WORDS: [&str; 20] = [
    "usr",
    "share",
    "doc",
    "lib",
    "local",
    "src",
    "main",
    "target",
    "release",
    "build",
    "x86_64",
    "libfoo",
    "readme",
    "index",
    "home",
    "user",
    "Projects",
    "a",
    "test-data",
    "v1",
];
const OPTIONS: [&str; 8] = ["verbose", "output", "config-file", "color", "jobs", "target-dir", "name", "feature"];
const ENDINGS: [&str; 4] = [".txt", ".pdf", "-2024", ""];

/// Numbers that look random: splitmix64.
pub struct Random(pub u64);

impl Random {
    fn next(&mut self) -> u64 {
        self.0 = self.0.wrapping_add(0x9E37_79B9_7F4A_7C15);
        let mut mixed = self.0;
        mixed = (mixed ^ (mixed >> 30)).wrapping_mul(0xBF58_476D_1CE4_E5B9);
        mixed = (mixed ^ (mixed >> 27)).wrapping_mul(0x94D0_49BB_1331_11EB);
        mixed ^ (mixed >> 31)
    }

    fn below(&mut self, bound: usize) -> usize {
        (self.next() % bound as u64) as usize
    }

    /// True once in `times` calls.
    fn once_in(&mut self, times: usize) -> bool {
        self.below(times) == 0
    }

    fn pick<T: Copy>(&mut self, items: &[T]) -> T {
        items[self.below(items.len())]
    }

    pub fn char(&mut self, first: u32, count: usize) -> char {
        char::from_u32(first + self.below(count) as u32).expect("the range has no surrogate")
    }
}

/// A long string with a name.
pub struct Long {
    pub name: String,
    pub bytes: Vec<u8>,
}

impl Long {
    /// The input as a `str`, if the bytes are UTF-8.
    pub fn if_text<'a>(&self, run: &'a mut dyn FnMut() -> u64) -> Contestant<'a> {
        str::from_utf8(&self.bytes).is_ok().then_some(run)
    }
}

fn named(name: &str, mib: usize, bytes: Vec<u8>) -> Long {
    Long { name: format!("{name}, {mib} MiB"), bytes }
}

/// The text cut to `len` bytes, or to fewer and filled up.
fn cut(mut text: String, len: usize) -> Vec<u8> {
    text.truncate(text.floor_char_boundary(len));
    let mut bytes = text.into_bytes();
    bytes.resize(len, b'x');
    bytes
}

/// Paths of ASCII names, one after the other.
fn ascii(random: &mut Random, len: usize) -> Vec<u8> {
    let mut text = String::new();
    while text.len() < len {
        text.push('/');
        text.push_str(random.pick(&WORDS));
        if random.once_in(9) {
            text.push_str(".txt");
        }
    }
    cut(text, len)
}

/// Paths whose names have `least` letters or up to `more - 1` further ones, out of `count` from
/// `first` on.
fn letters(random: &mut Random, len: usize, (first, count): (u32, usize), least: usize, more: usize) -> Vec<u8> {
    let mut text = String::new();
    while text.len() < len {
        text.push('/');
        for _ in 0..least + random.below(more) {
            text.push(random.char(first, count));
        }
        text.push_str(random.pick(&ENDINGS));
    }
    cut(text, len)
}

fn cyrillic(random: &mut Random, len: usize) -> Vec<u8> {
    letters(random, len, (0x430, 32), 3, 9)
}

fn cjk(random: &mut Random, len: usize) -> Vec<u8> {
    letters(random, len, (0x4E00, 0x5000), 2, 6)
}

fn emoji(random: &mut Random, len: usize) -> Vec<u8> {
    letters(random, len, (0x1F600, 0x50), 1, 3)
}

fn arabic(random: &mut Random, len: usize) -> Vec<u8> {
    letters(random, len, (0x627, 36), 3, 9)
}

/// Paths of ASCII names in which one letter in eight is one of two bytes of Latin-1.
fn latin(random: &mut Random, len: usize) -> Vec<u8> {
    let mut text = String::new();
    while text.len() < len {
        text.push('/');
        for letter in random.pick(&WORDS).chars() {
            text.push(if random.once_in(8) { random.char(0xE0, 0x17) } else { letter });
        }
    }
    cut(text, len)
}

/// Paths of ASCII names, some with a dash, quotation marks or an apostrophe of general punctuation.
fn quoted(random: &mut Random, len: usize) -> Vec<u8> {
    let mut text = String::new();
    while text.len() < len {
        text.push('/');
        text.push_str(random.pick(&WORDS));
        let word = random.pick(&WORDS);
        match random.below(8) {
            0 => text.push_str(&format!(" \u{2013} {word}")),
            1 => text.push_str(&format!(" \u{201C}{word}\u{201D}")),
            2 => text.push_str("\u{2019}s"),
            _ => {}
        }
    }
    cut(text, len)
}

/// One of one to four bytes: half of them ASCII, a quarter of two bytes.
fn any_char(random: &mut Random) -> char {
    match random.below(20) {
        0..10 => random.char(0x61, 26),
        10..15 => random.char(0xC0, 0x180),
        15..18 => random.char(0x4E00, 0x5000),
        _ => random.char(0x1F600, 0x50),
    }
}

/// Random characters of one to four bytes and slashes.
fn mixed(random: &mut Random, len: usize) -> Vec<u8> {
    let mut text = String::new();
    while text.len() < len {
        text.push(if random.once_in(8) { '/' } else { any_char(random) });
    }
    cut(text, len)
}

/// The same with a lone surrogate in twenty, as WTF-8.
fn lone_surrogates(random: &mut Random, len: usize) -> Vec<u8> {
    let mut units = Vec::new();
    let mut filled = 0;
    while filled + 4 <= len {
        if random.once_in(8) {
            units.push(u16::from(b'/'));
            filled += 1;
        } else if random.once_in(20) {
            // a low one after a high one would make a pair
            let after_high = units.last().is_some_and(|unit| (0xD800..0xDC00).contains(unit));
            let first = if after_high || random.once_in(2) { 0xD800 } else { 0xDC00 };
            units.push(first + random.below(0x400) as u16);
            filled += 3;
        } else {
            let any = any_char(random);
            units.extend_from_slice(any.encode_utf16(&mut [0; 2]));
            filled += any.len_utf8();
        }
    }
    let mut bytes = OsString::from_wide(&units).into_encoded_bytes();
    bytes.resize(len, b'x');
    bytes
}

/// Strings of any platform: one of each kind of 1 MiB, and of three kinds of 16 MiB.
pub fn strings() -> Vec<Long> {
    let kinds: [(&str, fn(&mut Random, usize) -> Vec<u8>); 6] = [
        ("ASCII", ascii),
        ("mixed", mixed),
        ("lone surrogates", lone_surrogates),
        ("Cyrillic", cyrillic),
        ("CJK", cjk),
        ("emoji", emoji),
    ];
    let mut random = Random(42);
    let mut all = Vec::new();
    for (mib, kinds) in [(1, &kinds[..]), (16, &kinds[..3])] {
        all.extend(kinds.iter().map(|(name, make)| named(name, mib, make(&mut random, mib << 20))));
    }
    all
}

/// Texts of 1 MiB without anything to escape.
pub fn texts() -> Vec<Long> {
    let kinds: [(&str, fn(&mut Random, usize) -> Vec<u8>); 7] = [
        ("ASCII", ascii),
        ("mixed", mixed),
        ("Cyrillic", cyrillic),
        ("CJK", cjk),
        ("emoji", emoji),
        ("Arabic", arabic),
        ("quotation marks", quoted),
    ];
    let mut random = Random(11);
    kinds.map(|(name, make)| named(name, 1, make(&mut random, 1 << 20))).into()
}

/// Paths of Korean syllables, of which one in six begins with ED, as a surrogate does.
pub fn hangul() -> Long {
    named("Hangul", 1, letters(&mut Random(12), 1 << 20, (0xAC00, 11172), 2, 6))
}

/// Strings that only Unix has: ASCII paths with an FF once in so many bytes, and random bytes.
pub fn faulty() -> Vec<Long> {
    let mut random = Random(3);
    let mut all = Vec::new();
    for times in [1000, 100, 30, 8, 2] {
        let mut bytes = ascii(&mut random, 1 << 20);
        for byte in &mut bytes {
            if random.once_in(times) {
                *byte = 0xFF;
            }
        }
        all.push(named(&format!("a fault in {times} bytes"), 1, bytes));
    }
    for mib in [1, 16] {
        all.push(named("random bytes", mib, (0..mib << 20).map(|_| random.next() as u8).collect()));
    }
    all
}

/// Texts and bytes of 1 KiB and of 1 MiB of which most is escaped.
pub fn mostly_escaped() -> Vec<Long> {
    let mut random = Random(13);
    let mut all = Vec::new();
    for (len, size) in [(1 << 10, "1 KiB"), (1 << 20, "1 MiB")] {
        let mut push = |name: &str, bytes| all.push(Long { name: format!("{name}, {size}"), bytes });
        push("a backslash in ten bytes", (0..len).map(|_| if random.once_in(10) { b'\\' } else { b'x' }).collect());
        push("backslashes", vec![b'\\'; len]);
        push("control characters", vec![1; len]);
        push("random bytes", (0..len).map(|_| random.next() as u8).collect());
    }
    all
}

/// Strings that only Unix has, one piece again and again, so that a processor foresees every
/// branch: a path with a lone surrogate, a name in Latin-1, and so many characters before an FF.
pub fn periodic() -> Vec<Long> {
    let before_ff = |character: &str, count: usize| [character.repeat(count).as_bytes(), b"\xFF"].concat();
    let pieces: [(&str, &[u8]); 8] = [
        ("a path with a surrogate", b"/usr/share/d\xC3\xA9\xF0\x9F\x98\x80\xED\xA0\x80.txt"),
        ("a name in Latin-1", b"/Stra\xDFe/caf\xE9"),
        ("two ideographs and FF", &before_ff("\u{4E2D}", 2)),
        ("four Cyrillic letters and FF", &before_ff("\u{44F}", 4)),
        ("four ideographs and FF", &before_ff("\u{4E2D}", 4)),
        ("four emoji and FF", &before_ff("\u{1F600}", 4)),
        ("eight ideographs and FF", &before_ff("\u{4E2D}", 8)),
        ("sixteen ideographs and FF", &before_ff("\u{4E2D}", 16)),
    ];
    pieces.map(|(name, piece)| named(name, 1, piece.repeat((1 << 20) / piece.len()))).into()
}

/// 10,000 short strings of a kind.
pub struct Short {
    pub name: &'static str,
    strings: Vec<Vec<u8>>,
}

impl Short {
    fn of(name: &'static str, string: impl FnMut(usize) -> Vec<u8>) -> Self {
        Self { name, strings: (0..10_000).map(string).collect() }
    }

    /// As many of these lengths as fill 1 MiB, at most 10,000.
    fn filling(name: &'static str, len: usize, string: impl FnMut(usize) -> Vec<u8>) -> Self {
        Self { name, strings: (0..(1 << 20) / len).take(10_000).map(string).collect() }
    }

    pub fn strings(&self) -> impl Iterator<Item = &[u8]> {
        self.strings.iter().map(Vec::as_slice)
    }

    pub fn count(&self) -> usize {
        self.strings.len()
    }

    /// The strings, each changed.
    pub fn changed(&self, change: impl Fn(&[u8]) -> Vec<u8>) -> Self {
        Self { name: self.name, strings: self.strings().map(change).collect() }
    }

    pub fn named(self, name: &'static str) -> Self {
        Self { name, ..self }
    }

    /// Each string as a `str`, if all of them are UTF-8.
    pub fn if_texts<'a>(&self, run: &'a mut dyn FnMut() -> u64) -> Contestant<'a> {
        self.are_texts().then_some(run)
    }

    pub fn are_texts(&self) -> bool {
        self.strings().all(|string| str::from_utf8(string).is_ok())
    }
}

fn path(random: &mut Random, least: usize, most: usize) -> String {
    let len = least + random.below(most - least + 1);
    let mut text = String::new();
    while text.len() < len {
        text.push('/');
        text.push_str(random.pick(&WORDS));
    }
    text.truncate(len);
    text
}

fn argument(random: &mut Random) -> String {
    let option = random.pick(&OPTIONS);
    match random.below(10) {
        0..7 => format!("--{option}={}", path(random, 3, 14).replace('/', "-")),
        7 => format!("--{option}"),
        8 => format!("-{}{}", &option[..1], path(random, 3, 14)),
        _ => path(random, 5, 30),
    }
}

/// Paths of 10 to 80 bytes.
pub fn paths() -> Short {
    let mut random = Random(7);
    Short::of("paths", |_| path(&mut random, 10, 80).into_bytes())
}

/// Arguments of up to 30 bytes.
pub fn arguments() -> Short {
    let mut random = Random(8);
    Short::of("arguments", |_| argument(&mut random).into_bytes())
}

/// Short texts of each kind: those of ASCII, paths of 10 to 80 bytes whose names are letters of
/// two, three and four bytes, such of one to four, and names of ASCII with some letters of two.
pub fn short_texts() -> Vec<Short> {
    let beyond_ascii: [(&str, fn(&mut Random, usize) -> Vec<u8>); 5] = [
        ("Cyrillic paths", cyrillic),
        ("CJK paths", cjk),
        ("emoji paths", emoji),
        ("mixed paths", mixed),
        ("Latin paths", latin),
    ];
    let mut random = Random(9);
    let mut all = vec![paths(), arguments()];
    for (name, make) in beyond_ascii {
        all.push(Short::of(name, |_| {
            let len = 10 + random.below(71);
            make(&mut random, len)
        }));
    }
    all
}

/// Paths of 10 to 80 bytes with a lone surrogate each, as WTF-8.
pub fn paths_with_a_surrogate() -> Short {
    paths_with("paths with a surrogate", b"\xED\xA0\x80")
}

/// Paths of 10 to 80 bytes with a byte FF each, which only Unix has.
pub fn paths_with_a_fault() -> Short {
    paths_with("paths with FF", b"\xFF")
}

/// The paths, each with these bytes at some index.
fn paths_with(name: &'static str, bytes: &[u8]) -> Short {
    let mut random = Random(10);
    Short::of(name, |_| {
        let mut path = path(&mut random, 10, 80 - bytes.len()).into_bytes();
        let at = random.below(path.len() + 1);
        path.splice(at..at, bytes.iter().copied());
        path
    })
}

/// ASCII strings of 129 to 4,096 bytes, which end with `needle`.
pub fn middling(needle: &str) -> Vec<Short> {
    let kinds = [
        ("129 bytes", 129),
        ("160 bytes", 160),
        ("256 bytes", 256),
        ("512 bytes", 512),
        ("1,024 bytes", 1024),
        ("4,096 bytes", 4096),
    ];
    let mut random = Random(16);
    kinds
        .map(|(name, len)| {
            Short::filling(name, len, |_| {
                let mut bytes = ascii(&mut random, len - needle.len());
                bytes.extend_from_slice(needle.as_bytes());
                bytes
            })
        })
        .into()
}

/// ASCII paths of 16 bytes to 4 KiB, whose last names mostly have an extension.
pub fn paths_of_lengths() -> Vec<Short> {
    let kinds = [("16 bytes", 16), ("80 bytes", 80), ("1 KiB", 1 << 10), ("4 KiB", 4 << 10)];
    let mut random = Random(17);
    kinds
        .map(|(name, len)| {
            Short::filling(name, len, |_| {
                let last = format!("/{}{}", random.pick(&["a", "lib", "main", "index"]), random.pick(&ENDINGS));
                let mut bytes = ascii(&mut random, len - last.len());
                bytes.extend_from_slice(last.as_bytes());
                bytes
            })
        })
        .into()
}

/// ASCII strings of 1 KiB and of 64 KiB.
pub fn long_names() -> [Short; 2] {
    let mut random = Random(18);
    [("1 KiB", 1 << 10), ("64 KiB", 64 << 10)].map(|(name, len)| Short::filling(name, len, |_| ascii(&mut random, len)))
}
