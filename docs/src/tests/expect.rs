//! The stored files: they are what is generated, and the direct emulator and
//! the rounds agree with the expectations when the lines are read back.

use riptide_reference::cases::{hex, runs, Bytes, FILLER};
use riptide_reference::digest::Digest;
use riptide_reference::{bench, direct, naive, stored, table};
use std::collections::HashMap;
use std::path::Path;

fn file(name: &str) -> Vec<String> {
    let path = format!("{}/expect/{name}", env!("CARGO_MANIFEST_DIR"));
    let text = std::fs::read_to_string(&path).unwrap_or_else(|e| panic!("{path}: {e}"));
    text.lines().map(str::to_string).collect()
}

/// The fields of a line by their keys; `line=` takes all that follows.
fn fields(line: &str) -> HashMap<String, String> {
    let (front, last) = line.split_once(" line=").unwrap_or((line, ""));
    let pairs = front.split(' ').filter_map(|part| part.split_once('='));
    let mut found: HashMap<_, _> = pairs.map(|(k, v)| (k.to_string(), v.to_string())).collect();
    found.insert("line".to_string(), last.to_string());
    found
}

fn cases(name: &str) -> Vec<HashMap<String, String>> {
    file(name).iter().filter(|line| !line.starts_with('#')).map(|line| fields(line)).collect()
}

fn bytes(case: &HashMap<String, String>, key: &str) -> Vec<u8> {
    let spec = Bytes::parse(&case[key]).unwrap_or_else(|| panic!("{key}={}", case[key]));
    assert_eq!(spec.text(), case[key]);
    spec.expand()
}

/// Byte for byte, the programs of the gate have no other, and no sample is without
/// its listing.
#[test]
fn files_are_as_generated() {
    let root = Path::new(concat!(env!("CARGO_MANIFEST_DIR"), "/../.."));
    let files = stored::files();
    for (path, contents) in &files {
        let found = std::fs::read(root.join(path)).unwrap_or_else(|e| panic!("{path}: {e}"));
        assert!(found == *contents, "{path} is not what regenerate.sh writes");
    }
    for entry in std::fs::read_dir(root.join("crates")).unwrap() {
        let name = entry.unwrap().file_name().into_string().unwrap();
        for path in ["stdin", "stdout"].map(|file| format!("crates/{name}/{file}")) {
            let known = files.iter().any(|(known, _)| *known == path);
            let checks = name.starts_with("check_") && root.join(&path).exists();
            assert!(known || !checks, "stored::files does not give {path}");
        }
    }
    for entry in std::fs::read_dir(root.join("samples")).unwrap() {
        let name = entry.unwrap().file_name().into_string().unwrap();
        let Some((sample, "bin" | "lst")) = name.split_once('.') else { continue };
        let path = format!("samples/{sample}.lst");
        assert!(
            files.iter().any(|(known, _)| *known == path),
            "stored::files does not give {path}"
        );
    }
}

#[test]
fn direct_emulator_meets_the_runs() {
    let mut steps = 0;
    for case in cases("runs.txt") {
        let (image, map) = (bytes(&case, "image"), bytes(&case, "map"));
        let mut state = bytes(&case, "state");
        let mut trace = vec![FILLER; case["trace"].parse().unwrap()];
        let answer = direct::run(&image, &map, &mut state, &bytes(&case, "recording"), &mut trace);
        assert_eq!(runs::answer_text(answer), case["answer"]);
        assert_eq!(hex(&state), case["state_after"]);
        assert_eq!(format!("{:016x}", Digest::of(&state)), case["state_digest"]);
        assert_eq!(format!("{:016x}", Digest::of(&trace)), case["trace_digest"]);
        steps += case["answer"].split(':').nth(1).unwrap().parse::<usize>().unwrap();
    }
    assert!(steps >= 200_000, "{steps}");
}

#[test]
fn rounds_meet_the_small_admissions() {
    let mut compared = 0;
    for case in cases("admissions.txt") {
        let (image, map) = (bytes(&case, "image"), bytes(&case, "map"));
        if image.len() > 400 || case["answer"].starts_with("refused") {
            continue;
        }
        let words: Vec<u16> = image.chunks(2).map(|b| u16::from_be_bytes([b[0], b[1]])).collect();
        let mut filled = vec![FILLER; 72 * image.len()];
        table::admit(&image, &map, &mut filled);
        assert_eq!(format!("{:016x}", Digest::of(&filled)), case["table_digest"]);
        assert!(filled == naive::table_bytes(&words, &map));
        compared += 1;
    }
    assert!(compared > 70, "{compared}");
}

#[test]
fn bench_lines_are_met() {
    for case in cases("bench.txt") {
        let input = [bytes(&case, "map"), bytes(&case, "image")].concat();
        assert_eq!(bench::line(&input), case["line"].clone() + "\n");
    }
}
