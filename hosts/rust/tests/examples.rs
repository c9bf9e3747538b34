//! The examples in C and for the shell, compiled and run: what they print is what the guide and the samples say. Those in
//! Rust are run as documentation of the crate. And the header: as C and as C++, with the numbers and texts of the crate.

use riptide::{admit, list, page_length, records, table_length, text, AdmitAnswer};
use riptide::{LINE_BYTES, MAP_BYTES, STATE_BYTES, TRACE_RECORD_BYTES};
use riptide_reference::programs::{bytes_of, map_of};
use std::fs;
use std::path::{Path, PathBuf};
use std::process::{Command, Stdio};

fn root() -> &'static Path {
    Path::new(concat!(env!("CARGO_MANIFEST_DIR"), "/../.."))
}

fn read(name: &str) -> String {
    let path = root().join(name);
    fs::read_to_string(&path).unwrap_or_else(|e| panic!("{}: {e}", path.display()))
}

/// A program's output, from an input of the repository; it runs in the root.
fn output(program: &mut Command, input: Stdio) -> String {
    let run = program.current_dir(root()).stdin(input).stderr(Stdio::inherit()).output();
    String::from_utf8(run.expect("it runs").stdout).expect("text")
}

/// The program of a source, compiled without a warning.
fn compiled(compiler: [&str; 2], source: &Path) -> PathBuf {
    let name = source.file_name().expect("a file").to_str().expect("text");
    let program = Path::new(env!("CARGO_TARGET_TMPDIR")).join(format!("{name}.out"));
    let status = Command::new(compiler[0])
        .args([compiler[1], "-Wall", "-Wextra", "-Werror", "-pedantic", "-Iinclude"])
        .arg(source)
        .args([env!("RIPTIDE_ARCHIVE"), "-o"])
        .arg(&program)
        .current_dir(root())
        .status();
    assert!(status.expect(compiler[0]).success(), "{}", source.display());
    program
}

const C: [&str; 2] = ["cc", "-std=c99"];
const CPP: [&str; 2] = ["c++", "-std=c++11"];

/// A source of its own, with this text.
fn source(name: &str, text: &str) -> PathBuf {
    let path = Path::new(env!("CARGO_TARGET_TMPDIR")).join(name);
    fs::write(&path, text).expect("written");
    path
}

/// The fenced parts of a text: their language and what is in them.
fn fences(text: &str) -> Vec<(String, String)> {
    let mut parts = Vec::new();
    let mut lines = text.lines();
    while let Some(line) = lines.next() {
        let Some(language) = line.strip_prefix("```") else { continue };
        let inside = lines.by_ref().take_while(|line| *line != "```");
        parts.push((language.to_string(), inside.map(|line| format!("{line}\n")).collect()));
    }
    parts
}

/// The parts of the guide in a language, each with the text behind it, which is what it prints.
fn examples(language: &str) -> Vec<(String, String)> {
    let parts = fences(&read("docs/USING.md"));
    let behind = parts.iter().skip(1).map(Some).chain([None]);
    let mut found = Vec::new();
    for (part, prints) in parts.iter().zip(behind).filter(|(part, _)| part.0 == language) {
        match prints {
            Some((kind, prints)) if kind == "text" => found.push((part.1.clone(), prints.clone())),
            _ => panic!("the guide does not say what this prints: {}", part.1),
        }
    }
    assert!(!found.is_empty(), "{language}");
    found
}

#[test]
fn the_guide_in_c() {
    for (number, (text, prints)) in examples("c").iter().enumerate() {
        let program = compiled(C, &source(&format!("using{number}.c"), text));
        assert_eq!(output(&mut Command::new(program), Stdio::null()), *prints);
    }
}

#[test]
fn the_guide_in_a_shell() {
    if !["bench", "list"].iter().all(|name| root().join("target/bin").join(name).exists()) {
        println!("skipped: target/bin/bench or list is not there, which `tools/program bench` and `tools/program list` write");
        return;
    }
    for (text, prints) in examples("sh") {
        assert_eq!(output(Command::new("sh").args(["-euc", &text]), Stdio::null()), prints);
    }
    let refused = "target/bin/bench < samples/odometer.bin; echo $?";
    let printed = output(Command::new("sh").args(["-uc", refused]), Stdio::null());
    assert_eq!(printed, "refused 28 depth 0 address 3\n0\n");
    let listed = |bytes: usize| {
        let zeros = format!("head -c {bytes} /dev/zero | target/bin/list");
        output(Command::new("sh").args(["-euc", &zeros]), Stdio::null())
    };
    for bytes in [0, 3, 16_386, 100_000] {
        assert_eq!(listed(bytes), "refused 11\n", "{bytes} bytes");
    }
    let page = listed(16_384);
    assert_eq!((page.len(), page.lines().last()), (262_144, Some("17777 000000 MOVE 00 0 00      ")));
}

#[test]
fn the_station_in_c() {
    let program = compiled(C, Path::new("hosts/c/station.c"));
    let station = |name: &str| {
        let input = fs::File::open(root().join(name)).expect(name);
        output(&mut Command::new(&program), input.into())
    };
    for (name, sweeps) in [("indicator", 1), ("routine", 1), ("chooser", 1), ("carry", 1)] {
        let admitted = station(&format!("samples/{name}.bin"));
        let page = read(&format!("samples/{name}.lst"));
        let bound = 108 * page.lines().count();
        let told = format!("sweeps {sweeps} of at most {bound}\nadmitted, left 1 0 right 0 1\n");
        assert_eq!(admitted, format!("{told}{page}ran 1000 steps, stop 0\n"), "{name}");
    }
    assert_eq!(
        station("samples/odometer.bin"),
        "sweeps 2 of at most 864\nrefused 28 depth 0 address 3: an address or a CALL's page is not known\n"
    );
    assert_eq!(
        station("samples/levels.bin"),
        "sweeps 3 of at most 864\nrefused 25 depth 0 address 6: chooses an address that is not listed\n"
    );
    let short = source("short.bin", &"\0".repeat(131));
    assert_eq!(
        station(short.to_str().expect("text")),
        "refused 11: the image is not 2 to 16,384 bytes, or of odd length\n"
    );
}

/// Prints the header's version, lengths and numbers, and the text of every number.
const HEADER: &str = r#"
#include <stdio.h>
#include "riptide.h"

int main(void)
{
    const unsigned lengths[] = {RIPTIDE_VERSION, RIPTIDE_MAP_BYTES, 4 * RIPTIDE_SET_BYTES, RIPTIDE_STATE_BYTES,
        RIPTIDE_MOST_IMAGE_BYTES, RIPTIDE_WORD_BYTES * RIPTIDE_MOST_WORDS, RIPTIDE_TABLE_WORD_BYTES,
        9 * RIPTIDE_TABLE_RECORD_BYTES, RIPTIDE_WORD_SWEEPS, RIPTIDE_PAIR_BYTES, RIPTIDE_TRACE_RECORD_BYTES,
        RIPTIDE_LINE_BYTES,
        RIPTIDE_REFUSED_IMAGE, RIPTIDE_REFUSED_MAP, RIPTIDE_REFUSED_TABLE, RIPTIDE_REFUSED_STATE,
        RIPTIDE_REFUSED_RECORDING, RIPTIDE_REFUSED_TRACE, RIPTIDE_REFUSED_INPUT, RIPTIDE_OUTSIDE_CODE,
        RIPTIDE_INVALID_WORD, RIPTIDE_NOT_READABLE, RIPTIDE_NOT_WRITABLE, RIPTIDE_NOT_LISTED, RIPTIDE_STACK_FULL,
        RIPTIDE_STACK_EMPTY, RIPTIDE_NOT_KNOWN, RIPTIDE_XEC_OF_XEC, RIPTIDE_REFUSED_PAGE, RIPTIDE_RECORD_LAYOUT,
        RIPTIDE_FACTS_NOT_HELD};
    const uint8_t record[RIPTIDE_TRACE_RECORD_BYTES] = {0, 0, 0, 0, 0x34, 0x12, 0xff, 0xfe};
    const uint64_t answer = 0xfedcba98175308ff, told = 0xfedcba9887654300;
    size_t i;
    unsigned number;
    puts(RIPTIDE_VERSION_TEXT);
    for (i = 0; i < sizeof lengths / sizeof lengths[0]; i++)
        printf("%u ", lengths[i]);
    printf("%lu %lu\n", (unsigned long)RIPTIDE_TABLE_BYTES(7), (unsigned long)RIPTIDE_PAGE_BYTES(7));
    printf("%u %u\n", RIPTIDE_TRACE_PC(record), RIPTIDE_TRACE_FETCH(record));
    printf("%u %u %u %u\n", RIPTIDE_NUMBER(answer), RIPTIDE_DEPTH(answer), RIPTIDE_ADDRESS(answer),
           RIPTIDE_SWEEPS(answer));
    printf("%lu %u\n", (unsigned long)RIPTIDE_TABLE_LENGTH(told), RIPTIDE_SWEEP_BOUND(told));
    for (number = 0; number < 256; number++)
        printf("%u %d %s\n", number, riptide_is_refusal(number), riptide_text(number));
    return (int)RIPTIDE_NUMBER(riptide_read_word(0));
}
"#;

#[test]
fn the_header_in_c_and_cpp() {
    let mut expected = format!("{}\n30100 ", env!("CARGO_PKG_VERSION"));
    expected +=
        &format!("{MAP_BYTES} {MAP_BYTES} {STATE_BYTES} 16384 16384 144 144 108 2 {TRACE_RECORD_BYTES} {LINE_BYTES} ");
    expected += "11 12 13 14 15 16 18 21 22 23 24 25 26 27 28 29 41 42 43 ";
    expected += &format!("{} {}\n", table_length(&[0; 7]), page_length(&[0; 7]));
    let record = records(&[0, 0, 0, 0, 0x34, 0x12, 0xff, 0xfe]).next().expect("a record");
    expected += &format!("{} {}\n", record.pc, record.fetch);
    expected += &format!("255 8 {} {}\n{} {}\n", 0x1753, 0xfedcba98u32, 0x876543, 0xfedcba98u32);
    for number in 0..=255 {
        let refusal = u8::from((11..=18).contains(&number) || number == 41);
        expected += &format!("{number} {refusal} {}\n", text(number));
    }
    for (compiler, name) in [(C, "header.c"), (CPP, "header.cpp")] {
        let program = compiled(compiler, &source(name, HEADER));
        assert_eq!(output(&mut Command::new(program), Stdio::null()), expected);
    }
}

#[test]
fn records_in_words() {
    let left = [3, 5, 0xab, 0, 7, 0, 7, 0];
    let stop = [5, 0, 0, 21, 0xff, 0xff, 0xff, 0xff];
    let unwritten = [9, 0, 0, 0, 1, 0, 2, 0];
    let trace = [left, stop, unwritten].concat();
    let told: Vec<String> = records(&trace).map(|record| record.to_string()).collect();
    assert_eq!(told[0], "PC 7: AB written at left 5");
    assert_eq!(told[1], format!("PC 65535: stop 21, {}", text(21)));
    assert_eq!(told[2], "PC 1, word at 2: no kind 9");
    assert_eq!((told.len(), records(&trace[1..]).len()), (3, 2));
}

/// The example that the guide has for each finding: words, the map's sets if not all ones, and the cell.
#[test]
fn findings_of_the_guide() {
    let guide = read("docs/USING.md");
    let all: Vec<u8> = (0..=255).collect();
    let all: [&[u8]; 4] = [&all; 4];
    let none: &[u8] = &[];
    let findings: [(u8, &str, [&[u8]; 4], (u8, u16)); 10] = [
        (21, "0000", all, (0, 0)),
        (22, "0008 E000", all, (0, 0)),
        (23, "C705 1700 E001", [none, &[5], all[2], all[3]], (0, 1)),
        (24, "C705 B723 E001 D721 E001", [&[5], none, all[2], all[3]], (0, 3)),
        (25, "CF0A E000", [all[0], all[1], &[9], &[9]], (0, 0)),
        (26, "A700 E001", all, (8, 0)),
        (27, "AF00 E000", all, (0, 0)),
        (28, "1707 E001", all, (0, 0)),
        (29, "8000 E000", all, (0, 0)),
        (25, "9722 E000 0000 CF0A", [&[0], none, &[9], none], (0, 0)),
    ];
    let answer = |text: &str, sets| {
        assert!(guide.contains(&format!("`{text}`")), "{text}");
        let words: Vec<u16> = text.split(' ').map(|word| u16::from_str_radix(word, 16).expect(word)).collect();
        let image = bytes_of(&words);
        admit(&image, &map_of(sets), &mut vec![0; table_length(&image)]).answer
    };
    for (number, words, sets, (depth, address)) in findings {
        assert_eq!(answer(words, sets), AdmitAnswer::Found { number, depth, address }, "{words}");
    }
    for admitted in ["0000 E000", "A702 E000 AF81"] {
        assert_eq!(answer(admitted, all), AdmitAnswer::Admitted, "{admitted}");
    }
}

/// Each sample's stored listing is the library's page.
#[test]
fn listings_of_the_samples() {
    let mut samples = 0;
    for entry in fs::read_dir(root().join("samples")).expect("samples") {
        let path = entry.expect("a file").path();
        if path.extension().is_some_and(|extension| extension == "bin") {
            let image = &fs::read(&path).expect("a sample")[MAP_BYTES..];
            let mut page = vec![0; page_length(image)];
            list(image, &mut page).expect("an image");
            assert!(page == fs::read(path.with_extension("lst")).expect("its listing"), "{}", path.display());
            samples += 1;
        }
    }
    assert_eq!(samples, 6);
}

/// Bytes in hexadecimal, where `00*9` is nine bytes 00.
fn bytes_in(text: &str) -> Vec<u8> {
    let byte = |digits: &str| u8::from_str_radix(digits, 16).expect(digits);
    let repeated = |item: &str| match item.split_once('*') {
        Some((digits, times)) => vec![byte(digits); times.parse().expect(times)],
        None => vec![byte(item)],
    };
    text.split_whitespace().flat_map(repeated).collect()
}

/// Puts the image, map and recording of the formats through the library, and prints what comes out.
const FORMATS: &str = r#"
int main(void)
{
    static uint8_t table[RIPTIDE_TABLE_BYTES(sizeof image)], table2[RIPTIDE_TABLE_BYTES(sizeof image2)];
    uint8_t state[RIPTIDE_STATE_BYTES], trace[sizeof recording / RIPTIDE_PAIR_BYTES * RIPTIDE_TRACE_RECORD_BYTES];
    uint8_t page[RIPTIDE_PAGE_BYTES(sizeof image)];
    uint64_t numbers[10];
    int i;
    riptide_reset(state, sizeof state);
    numbers[0] = riptide_read_word(0x173f);
    numbers[1] = riptide_read_word(0xaf81);
    numbers[2] = riptide_count_sets(map, sizeof map);
    numbers[3] = riptide_admit(image, sizeof image, map, sizeof map, table, sizeof table);
    numbers[4] = riptide_run(image, sizeof image, map, sizeof map, state, sizeof state, recording, sizeof recording,
                             trace, sizeof trace);
    numbers[5] = riptide_admit(image2, sizeof image2, map2, sizeof map2, table2, sizeof table2);
    numbers[6] = riptide_list(image, sizeof image, page, sizeof page - 1);
    numbers[7] = riptide_foretell(image, sizeof image);
    numbers[8] = riptide_check(image, sizeof image, map, sizeof map, table, sizeof table);
    numbers[9] = riptide_check(image2, sizeof image2, map2, sizeof map2, table2, sizeof table2);
    riptide_list(image, sizeof image, page, sizeof page);
    fwrite(trace, 1, sizeof trace, stdout);
    fwrite(state, 1, sizeof state, stdout);
    fwrite(table + RIPTIDE_TABLE_RECORD_BYTES * 2, 1, RIPTIDE_TABLE_RECORD_BYTES, stdout);
    fwrite(table2 + RIPTIDE_TABLE_RECORD_BYTES * 3, 1, RIPTIDE_TABLE_RECORD_BYTES, stdout);
    fwrite(page, 1, sizeof page, stdout);
    for (i = 0; i < 10; i++)
        printf("%016llX\n", (unsigned long long)numbers[i]);
    return 0;
}
"#;

#[test]
fn the_formats_in_c() {
    let parts = fences(&read("docs/FORMATS.md"));
    let part = |name: &str| &parts.iter().find(|part| part.0 == name).expect(name).1;
    let odometer = fs::read(root().join("samples/odometer.bin")).expect("sample");
    let (map2, image2) = odometer.split_at(MAP_BYTES);
    let mut text = String::from("#include <stdio.h>\n#include \"riptide.h\"\n");
    let given = ["image", "map", "recording"].map(|name| (name, bytes_in(part(name))));
    for (name, bytes) in given.into_iter().chain([("map2", map2.to_vec()), ("image2", image2.to_vec())]) {
        text += &format!("static const uint8_t {name}[] = {{{}}};\n", format!("{bytes:?}").trim_matches(['[', ']']));
    }
    let program = compiled(C, &source("formats.c", &(text + FORMATS)));
    let printed = Command::new(program).output().expect("it runs").stdout;
    let mut expected = ["trace", "state", "record", "odometer"].map(|name| bytes_in(part(name))).concat();
    expected.extend(part("page").lines().flat_map(|line| format!("{line:<31}\n").into_bytes()));
    expected.extend(part("numbers").bytes());
    assert_eq!(printed, expected);
}
