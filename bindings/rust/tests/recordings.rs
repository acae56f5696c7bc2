//! The bundled recordings, compared with what `perf` printed of them.

use std::collections::BTreeMap;
use std::fs;
use std::io::BufReader;

use perf_event_data::endian::Little;
use perf_event_data::parse::{ParseConfig, Parser};
use perf_event_data::sys::perf_event_attr;

mod text;

const EXAMPLES: &str = concat!(env!("CARGO_MANIFEST_DIR"), "/../../examples/");

fn file(name: &str) -> Vec<u8> {
    fs::read(format!("{EXAMPLES}{name}")).expect("a bundled recording")
}

fn lines_of(name: &str) -> Vec<String> {
    let text = String::from_utf8(file(name)).unwrap();
    text.lines().map(str::to_owned).collect()
}

/// How many events of each type `perf` counted. Its own types are counted together, as `Unknown`.
fn counted(name: &str) -> BTreeMap<String, u64> {
    let mut counts = BTreeMap::new();
    for line in lines_of(name) {
        if line.starts_with(|c: char| c.is_ascii_lowercase()) {
            // the same samples follow, by their event
            break;
        }
        let Some((event, rest)) = line.split_once(" events:") else {
            continue;
        };
        let event = match event.trim() {
            "TOTAL" => continue,
            "FINISHED_ROUND" | "ID_INDEX" | "THREAD_MAP" | "CPU_MAP" | "FINISHED_INIT" => "UNKNOWN",
            event => event,
        };
        let count = rest.split_whitespace().next().unwrap();
        *counts.entry(event.to_owned()).or_default() += count.parse::<u64>().unwrap();
    }
    counts
}

/// The lines of a stream that begins with an attribute, without the last line.
fn frames(name: &str) -> Vec<String> {
    let (mut lines, _) = text::run("little 1000000 attr", &file(name));
    assert_eq!(lines.pop().as_deref(), Some("end done"));
    lines
}

/// How many lines there are with each name.
fn named(lines: &[String]) -> BTreeMap<String, u64> {
    let mut counts = BTreeMap::new();
    for line in lines {
        let name = line.split(' ').nth(4).unwrap();
        *counts.entry(name.to_uppercase()).or_default() += 1;
    }
    counts
}

#[test]
fn each_type_is_as_often_as_perf_counted() {
    for name in ["recording", "samples"] {
        let lines = frames(&format!("{name}.stream"));
        assert_eq!(
            named(&lines),
            counted(&format!("{name}.stats.txt")),
            "{name}"
        );
    }
}

#[test]
fn samples_have_the_fields_that_perf_printed() {
    // perf does not print these
    let others = ["id", "raw", "stack_user", "cgroup"];
    let is_printed = |word: &&str| !others.contains(&word.split('=').next().unwrap());
    let samples: Vec<String> = frames("samples.stream")
        .iter()
        .filter_map(|line| line.find("Sample ").map(|at| &line[at..]))
        .map(|words| {
            words
                .split(' ')
                .filter(is_printed)
                .collect::<Vec<_>>()
                .join(" ")
        })
        .collect();
    assert_eq!(samples, lines_of("samples.fields"));
}

#[test]
fn a_reader_gives_the_same_lines() {
    for name in ["recording.stream", "samples.stream"] {
        let stream = file(name);
        for size in [1, 100, 8192] {
            let reader = BufReader::with_capacity(size, &stream[..]);
            let mut parser = Parser::new(reader, ParseConfig::<Little>::default());
            let attr: perf_event_attr = parser.parse().unwrap();
            let mut left = &stream[attr.size as usize..];
            // the rest of the same reader under the attribute's configuration
            let rest = parser.parse_rest().unwrap().into_owned();
            assert_eq!(rest, left);
            let reader = BufReader::with_capacity(size, left);
            let mut parser = Parser::new(reader, ParseConfig::<Little>::from(attr));
            let mut lines = Vec::new();
            let end = text::each_frame(&mut parser, &mut left, u64::MAX, |index, header, found| {
                lines.push(text::line(index, header, &found));
            });
            assert_eq!(end, text::End::Done);
            assert_eq!(lines, frames(name), "{name} in pieces of {size} bytes");
        }
    }
}

#[test]
fn the_bundled_stream_of_perfrec_has_its_text() {
    let folder = concat!(env!("CARGO_MANIFEST_DIR"), "/../../crates/perfrec/");
    let args = fs::read_to_string(format!("{folder}args")).unwrap();
    let stream = fs::read(format!("{folder}stdin")).unwrap();
    let (lines, status) = text::run(&args, &stream);
    assert_eq!(
        lines.join("\n") + "\n",
        fs::read_to_string(format!("{folder}stdout")).unwrap()
    );
    assert_eq!(status, 0);
}
