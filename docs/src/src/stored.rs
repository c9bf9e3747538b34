//! Every stored file that comes from this reference: the expectations, what
//! the programs of the gate read and must write, and the samples' listings.

use crate::cases::{admissions, library, pages, runs, values, words, Entry};
use crate::listing::printed;
use crate::map::MAP_BYTES;

fn text(lines: impl IntoIterator<Item = String>) -> String {
    lines.into_iter().map(|line| line + "\n").collect()
}

fn expectations(header: Vec<String>, entries: &[Entry]) -> String {
    text(header.into_iter().chain(entries.iter().map(Entry::line)))
}

fn inputs(entries: &[Entry]) -> String {
    text(entries.iter().map(Entry::input))
}

fn outputs(entries: &[Entry]) -> String {
    text(entries.iter().map(Entry::output))
}

/// Where the listing of each sample is, and the sample: a map, then an image.
const SAMPLES: [(&str, &[u8]); 6] = [
    ("samples/carry.lst", include_bytes!("../../../samples/carry.bin")),
    ("samples/chooser.lst", include_bytes!("../../../samples/chooser.bin")),
    ("samples/indicator.lst", include_bytes!("../../../samples/indicator.bin")),
    ("samples/levels.lst", include_bytes!("../../../samples/levels.bin")),
    ("samples/odometer.lst", include_bytes!("../../../samples/odometer.bin")),
    ("samples/routine.lst", include_bytes!("../../../samples/routine.bin")),
];

/// The paths, from the repository's root, and the contents of the files.
pub fn files() -> Vec<(&'static str, Vec<u8>)> {
    let (runs, admissions) = (runs::entries(), admissions::entries());
    let (bench, library) = (admissions::bench_entries(), library::entries());
    let texts = [
        ("docs/src/expect/words.txt", text(words::lines())),
        ("docs/src/expect/runs.txt", expectations(runs::header(), &runs)),
        ("docs/src/expect/admissions.txt", expectations(admissions::header(), &admissions)),
        ("docs/src/expect/bench.txt", expectations(admissions::bench_header(), &bench)),
        ("crates/check_words/stdout", text(words::read_and_written())),
        ("crates/check_values/stdout", text(values::lines())),
        ("crates/check_runs/stdin", inputs(&runs)),
        ("crates/check_runs/stdout", outputs(&runs)),
        ("crates/check_admissions/stdin", inputs(&admissions)),
        ("crates/check_admissions/stdout", outputs(&admissions)),
        ("crates/check_bench/stdin", inputs(&bench)),
        ("crates/check_bench/stdout", outputs(&bench)),
        ("crates/check_library/stdin", inputs(&library)),
        ("crates/check_library/stdout", outputs(&library)),
    ];
    let image = pages::printed_image();
    let page = printed(&image);
    let listings = SAMPLES.map(|(path, sample)| (path, printed(&sample[MAP_BYTES..])));
    let texts = texts.into_iter().map(|(path, text)| (path, text.into_bytes()));
    let pages = [("crates/list/stdin", image), ("crates/list/stdout", page)];
    texts.chain(pages).chain(listings).collect()
}
