//! Times the calls of this repository beside the Rust crate and the standard library, and prints a
//! table for each family of calls. README.md describes what is timed.
#![feature(normalize_lexically)]
mod arguments;
mod chunks;
mod clock;
mod command_lines;
mod conversions;
mod escapes;
mod glob_sets;
mod globs;
mod inputs;
mod joins;
mod ours;
mod paths;
mod searches;
mod shell_words;
mod short;
mod splits;
mod symbols;
mod table;
mod theirs;
mod through_c;

fn main() {
    let mut bench = table::Bench::from_arguments();
    while bench.begin_round() {
        conversions::time(&mut bench);
        short::time(&mut bench);
        searches::time(&mut bench);
        splits::time(&mut bench);
        chunks::time(&mut bench);
        symbols::time(&mut bench);
        joins::time(&mut bench);
        escapes::time(&mut bench);
        globs::time(&mut bench);
        glob_sets::time(&mut bench);
        paths::time(&mut bench);
        arguments::time(&mut bench);
        shell_words::time(&mut bench);
        command_lines::time(&mut bench);
    }
}
