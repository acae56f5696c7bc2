//! Files of `perf record`: the bundled ones, compared with what `perf` printed of them, and damaged ones.

use std::collections::{BTreeMap, BTreeSet};
use std::fs;
use std::io::BufReader;

use perf_event_data::endian::{Dynamic, Little};
use perf_event_data::file::{BadFeature, Entry, FileFrame, OpenError, Owner, Recording};
use perf_event_data::parse::{ErrorKind, ParseConfig, Parser};
use perf_event_data::sys::perf_event_header;
use perf_event_data::*;

mod text;

const TOP: &str = concat!(env!("CARGO_MANIFEST_DIR"), "/../../");

fn file(name: &str) -> Vec<u8> {
    fs::read(format!("{TOP}{name}")).expect("a file of the repository")
}

fn lines_of(name: &str) -> Vec<String> {
    let text = String::from_utf8(file(name)).unwrap();
    text.lines().map(str::to_owned).collect()
}

fn header_of(frame: &FileFrame<'_, '_>) -> perf_event_header {
    match frame.frame {
        Ok(frame) => frame.header(),
        Err(bad) => bad.header(),
    }
}

/// The line of `perf_data dump`.
fn line(index: usize, frame: &FileFrame<'_, '_>) -> String {
    let owner = match frame.entry.owner() {
        Owner::Event(event) => event.to_string(),
        Owner::Perf => "-".to_owned(),
        Owner::Unknown(id) => format!("?{id}"),
        Owner::Short => "?".to_owned(),
    };
    let answer = match (frame.frame, frame.entry.owner()) {
        (Ok(_), Owner::Unknown(_)) => "refused UnknownId".to_owned(),
        (Ok(_), Owner::Short) => "refused NoId".to_owned(),
        _ if !frame.has_payload() => "refused Eof".to_owned(),
        _ => text::answer(&frame.record()),
    };
    let perf_event_header { type_, misc, size } = header_of(frame);
    let at = frame.entry.at();
    format!("{index} {at} {owner} {type_} {misc} {size} {answer}")
}

fn dump(bytes: &[u8]) -> Vec<String> {
    let recording = Recording::open(bytes).unwrap();
    let frames = recording.frames().enumerate();
    frames.map(|(index, frame)| line(index, &frame)).collect()
}

/// The bundled files, each with the name of its texts.
const FILES: [(&str, &str); 6] = [
    ("events", "events"),
    ("pipe", "pipe"),
    ("big-endian", "events"),
    ("machine", "machine"),
    ("group", "group"),
    ("killed", "killed"),
];

#[test]
fn frames_are_those_that_perf_printed() {
    for (name, texts) in FILES {
        let bytes = file(&format!("examples/{name}.data"));
        let recording = Recording::open(&bytes).unwrap();
        let expected = lines_of(&format!("examples/{texts}.dump"));
        assert_eq!(dump(&bytes), expected, "{name}");
        let entries = recording.in_order();
        let frames = entries
            .iter()
            .map(|entry| recording.frame_at(entry).unwrap());
        let lines: Vec<_> = frames
            .enumerate()
            .map(|(index, frame)| line(index, &frame))
            .collect();
        assert_eq!(lines, lines_of(&format!("examples/{texts}.time")), "{name}");
        let mut frames = recording.frames();
        assert_eq!(frames.end(), None);
        assert_eq!(frames.by_ref().count(), expected.len());
        assert_eq!(frames.end(), Some(FramesEnd::Done));
    }
}

#[test]
fn events_are_those_that_perf_printed() {
    for (name, texts) in FILES {
        let bytes = file(&format!("examples/{name}.data"));
        let recording = Recording::open(&bytes).unwrap();
        assert_eq!(recording.is_closed(), name != "killed");
        let is_big = recording.order() == Dynamic::Big;
        assert_eq!(is_big, name == "big-endian");
        let expected = lines_of(&format!("examples/{texts}.events"));
        assert_eq!(recording.events().len(), expected.len());
        for (event, expected) in recording.events().iter().zip(expected) {
            let sample_type = event.config().sample_type().bits();
            let (name, ty, number) = (event.name(), event.ty(), event.event());
            let ids = event.ids().len();
            let found = format!(
                "{name} type={ty} config={number:#x} sample_type={sample_type:#x} ids={ids}"
            );
            let (_, expected) = expected.split_once(' ').unwrap();
            assert_eq!(found, expected);
        }
    }
}

#[test]
fn events_have_their_ids_and_configurations() {
    for name in ["events", "big-endian"] {
        let bytes = file(&format!("examples/{name}.data"));
        let recording = Recording::open(&bytes).unwrap();
        assert_eq!(recording.events()[0].ids(), [691, 692, 693, 694]);
    }
    let bytes = file("examples/events.data");
    let recording = Recording::open(&bytes).unwrap();
    assert!(recording.config(Owner::Event(2)).is_some());
    assert!(recording.config(Owner::Event(3)).is_none());
    assert!(recording.config(Owner::Perf).is_none());
}

#[test]
fn an_entry_of_another_file_has_no_frame() {
    let bytes = file("examples/events.data");
    let recording = Recording::open(&bytes).unwrap();
    let last = recording.in_order().pop().unwrap();
    let mut killed = bytes[..last.at() + 4].to_vec();
    killed[48..56].fill(0);
    let other = Recording::open(&killed).unwrap();
    assert!(other.frame_at(&last).is_none());
    assert!(!other.is_closed());
    let mut frames = other.frames();
    frames.by_ref().for_each(drop);
    assert_eq!(frames.end(), Some(FramesEnd::CutHeader));
}

#[test]
fn damaged_frames_are_refused_alone() {
    let bytes = file("examples/events.data");
    let lines = lines_of("examples/events.dump");
    let words = |line: &str| line.split(' ').map(str::to_owned).collect::<Vec<_>>();
    let last = words(&lines[89]);
    let before = words(&lines[88]);
    let (at, place): (usize, usize) = (last[1].parse().unwrap(), before[1].parse().unwrap());

    // as a SWITCH it is too short for an id
    let mut short = bytes.clone();
    short[at] = 14;
    let mut expected = lines.clone();
    expected[89] = format!("89 {at} ? 14 0 8 refused NoId");
    assert_eq!(dump(&short), expected);

    // an id that no event has
    let mut other = bytes.clone();
    other[at - 8..at].copy_from_slice(&(u64::MAX >> 1).to_le_bytes());
    let mut expected = lines.clone();
    let size = &before[5];
    expected[88] = format!("88 {place} ?9223372036854775807 4 0 {size} refused UnknownId");
    assert_eq!(dump(&other), expected);

    // as AUXTRACE, which announces the bytes after it, it announces more than there are
    let mut announcing = bytes.clone();
    announcing[place] = 71;
    let found = dump(&announcing);
    assert_eq!(found[..88], lines[..88]);
    assert_eq!(
        found[88..],
        [format!("88 {place} - 71 0 {size} refused Eof")]
    );

    // and so many that the frame after it is a part of them
    announcing[place + 8..place + 16].copy_from_slice(&8u64.to_le_bytes());
    let recording = Recording::open(&announcing).unwrap();
    let last = recording.frames().last().unwrap();
    assert_eq!(
        (last.payload, last.has_payload()),
        (&bytes[at..at + 8], true)
    );

    // perf was killed, and the file ends inside the EXIT
    let mut killed = bytes[..place + 20].to_vec();
    killed[48..56].fill(0);
    let found = dump(&killed);
    assert_eq!(found[..88], lines[..88]);
    assert_eq!(
        found[88..],
        [format!("88 {place} ? 4 0 {size} refused Eof")]
    );
}

/// The names of refusals with their texts, as the C header has them.
fn refusals() -> BTreeMap<String, String> {
    let header = lines_of("bindings/c/perf_event_data.h").join("\n");
    let (_, cases) = header.split_once("*ped_file_message(").unwrap();
    let (cases, _) = cases.split_once("default:").unwrap();
    let cases = cases.split("case PED_FILE_").skip(1);
    cases
        .map(|case| {
            let (name, text) = case.split_once(':').unwrap();
            let title = |word: &str| word[..1].to_owned() + &word[1..].to_lowercase();
            let texts = text.split('"').skip(1).step_by(2);
            (name.split('_').map(title).collect(), texts.collect())
        })
        .collect()
}

#[test]
fn refusals_have_the_texts_of_the_header() {
    let texts = refusals();
    let bytes = file("examples/events.data");
    let mut found = BTreeSet::new();
    for (index, value) in (0..2048).flat_map(|index| [(index, 0), (index, 255)]) {
        let mut changed = bytes.clone();
        changed[index] = value;
        if let Err(error) = Recording::open(&changed) {
            let name = format!("{error:?}");
            assert_eq!(Some(&error.to_string()), texts.get(&name), "{name}");
            found.insert(name);
        }
    }
    assert!(found.len() > 8, "{found:?}");
    assert_eq!(Recording::open(&[]).unwrap_err(), OpenError::NotPerfData);
    assert_eq!(
        Recording::open(&bytes[..4000]).unwrap_err(),
        OpenError::CutFrames
    );
    let mut packed = bytes.clone();
    packed[75] |= 8;
    assert_eq!(Recording::open(&packed).unwrap_err(), OpenError::Compressed);
    let pipe = file("examples/pipe.data");
    let mut packed = pipe.clone();
    packed[16] = 81;
    assert_eq!(Recording::open(&packed).unwrap_err(), OpenError::Compressed);
    assert_eq!(
        Recording::open(&pipe[..16]).unwrap_err(),
        OpenError::NoEvent
    );
}

/// The machine, the release of its kernel and the words of the command, as examples/README.md has them.
#[test]
fn a_file_and_a_pipe_state_the_machine_and_the_command() {
    for (name, output) in [("events", "events.data"), ("pipe", "-")] {
        let bytes = file(&format!("examples/{name}.data"));
        let recording = Recording::open(&bytes).unwrap();
        let release = recording.os_release().unwrap();
        assert_eq!(recording.hostname().unwrap(), Some(&b"vm"[..]));
        assert_eq!(release, Some(&b"6.18.44-fc-v595"[..]));
        let words = recording.command_line().unwrap().unwrap();
        let words: Vec<_> = words
            .into_iter()
            .map(|word| String::from_utf8_lossy(word))
            .collect();
        let start = ["/usr/bin/perf", "record", "-q", "-B", "-o", output, "-e"];
        assert_eq!(words[..7], start);
        assert_eq!(words.len(), 17);
        assert_eq!(recording.feature(255), Ok(None));
    }
    let killed = file("examples/killed.data");
    assert_eq!(Recording::open(&killed).unwrap().hostname(), Ok(None));
}

#[test]
fn a_damaged_feature_is_refused_alone() {
    let bytes = file("examples/events.data");
    let number = |at: usize| u64::from_le_bytes(bytes[at..at + 8].try_into().unwrap()) as usize;
    // the first feature is the name of the machine
    let table = number(40) + number(48);
    let mut changed = bytes.clone();
    changed[table + 7] = 1;
    let recording = Recording::open(&changed).unwrap();
    assert_eq!(recording.hostname(), Err(BadFeature::PastEnd));
    let mut changed = bytes.clone();
    changed[number(table) + 1] = 1;
    let recording = Recording::open(&changed).unwrap();
    assert_eq!(recording.hostname(), Err(BadFeature::Short));
    assert!(recording.os_release().unwrap().is_some());
}

/// Reads all of a file in all ways.
fn read_all(bytes: &[u8]) {
    let Ok(recording) = Recording::open(bytes) else {
        return;
    };
    for feature in 0..=255 {
        let _ = recording.feature(feature);
    }
    let _ = recording.command_line();
    let mut list = recording.frames();
    let frames: Vec<_> = list.by_ref().collect();
    assert!(list.end().is_some());
    let entries = recording.in_order();
    assert_eq!(entries.len(), frames.len());
    let key = |entry: &Entry| (entry.time(), entry.at());
    assert!(entries.windows(2).all(|pair| key(&pair[0]) < key(&pair[1])));
    for entry in &entries {
        let frame = recording.frame_at(entry).unwrap();
        assert_eq!(frame.entry.owner(), entry.owner());
        frame.has_payload();
        if let Ok(Record::Sample(sample)) = frame.record() {
            assert_eq!(sample.time().unwrap_or(0), entry.time());
        }
    }
}

#[test]
fn hostile_files_are_read_or_refused() {
    let bytes = file("examples/events.data");
    (0..4096)
        .chain((4096..bytes.len()).step_by(97))
        .for_each(|len| read_all(&bytes[..len]));
    for (index, value) in (0..2048).flat_map(|index| [(index, 0), (index, 255)]) {
        let mut changed = bytes.clone();
        changed[index] = value;
        read_all(&changed);
    }
    let killed = file("examples/killed.data");
    (0..killed.len())
        .step_by(97)
        .for_each(|len| read_all(&killed[..len]));
    let pipe = file("examples/pipe.data");
    (0..4096)
        .chain((4096..pipe.len()).step_by(97))
        .for_each(|len| read_all(&pipe[..len]));
    for (index, value) in (0..2048).flat_map(|index| [(index, 0), (index, 255)]) {
        let mut changed = pipe.clone();
        changed[index] = value;
        read_all(&changed);
    }
    let places: Vec<_> = Recording::open(&bytes).unwrap().in_order();
    for (entry, ty) in places.iter().flat_map(|entry| [(entry, 66), (entry, 71)]) {
        let mut changed = bytes.clone();
        changed[entry.at()] = ty;
        read_all(&changed);
    }
}

#[test]
fn a_file_in_place_of_a_stream_is_refused() {
    let bytes = file("examples/events.data");
    let parser = Parser::new(&bytes[..], ParseConfig::<Little>::default());
    let error = parser.after_attribute().err().unwrap();
    assert_eq!(error.kind(), ErrorKind::Eof);
    assert!(error.to_string().contains("file::Recording"));
    assert!(error.to_string().contains("perf_data"));
}

#[test]
fn frames_and_lists_are_those_of_a_loop_by_hand() {
    for name in ["recording", "samples"] {
        let stream = file(&format!("examples/{name}.stream"));
        let (mut expected, _) = text::run("little 1000000 attr", &stream);
        assert_eq!(expected.pop().as_deref(), Some("end done"));
        let parser = Parser::new(&stream[..], ParseConfig::<Little>::default());
        let mut parser = parser.after_attribute().unwrap();
        let config = parser.config().clone();

        let run = read_records(&mut parser, usize::MAX);
        let lines = (0..).zip(&run.frames);
        let lines: Vec<_> = lines
            .map(|(i, (header, it))| text::line(i, *header, it))
            .collect();
        assert_eq!(lines, expected);
        assert!(matches!(run.end, RunEnd::Done));

        let left = &stream[u32::from_le_bytes(stream[4..8].try_into().unwrap()) as usize..];
        let mut list = frames(left, Little);
        let lines = (0..).zip(list.by_ref()).map(|(i, frame)| {
            let frame = frame.unwrap();
            text::line(i, frame.header(), &frame.record(&config))
        });
        assert_eq!(lines.collect::<Vec<_>>(), expected);
        assert_eq!((list.left(), list.end()), (&[][..], Some(FramesEnd::Done)));
    }
}

/// Two LOST_SAMPLES records, of which the first has no body, and a part of a header.
const FRAMES: [u8; 27] = [
    13, 0, 0, 0, 0, 0, 8, 0, 13, 0, 0, 0, 0, 0, 16, 0, 8, 0, 0, 0, 0, 0, 0, 0, 1, 2, 3,
];

#[test]
fn a_list_goes_on_after_a_refused_record() {
    for size in [1, 5, 100] {
        let reader = BufReader::with_capacity(size, &FRAMES[..]);
        let mut parser = Parser::new(reader, ParseConfig::<Little>::default());
        let run = read_records(&mut parser, 1);
        assert!(matches!(
            (&run.frames[0].1, run.end),
            (Err(_), RunEnd::Limit)
        ));
        let run = read_records(&mut parser, 5);
        assert!(matches!(&run.frames[0].1, Ok(Record::LostSamples(it)) if it.lost == 8));
        assert!(matches!(
            (run.frames.len(), run.end),
            (1, RunEnd::CutHeader)
        ));
    }
    // a size below 8, and a frame that is cut short
    let mut bad = FRAMES;
    (bad[6], bad[14]) = (3, 200);
    let found: Vec<_> = frames(&bad, Little)
        .map(|frame| frame.unwrap_err().kind())
        .collect();
    assert_eq!(found, [ErrorKind::InvalidRecord, ErrorKind::Eof]);
}

#[test]
fn the_event_of_a_frame_is_known_before_its_configuration() {
    let bytes = file("examples/events.data");
    let recording = Recording::open(&bytes).unwrap();
    for frame in recording.frames() {
        let id = frame.frame.unwrap().identifier(&Little);
        match frame.entry.owner() {
            Owner::Event(event) => {
                let id = id.unwrap();
                assert!(id == 0 || recording.events()[event].ids().contains(&id));
            }
            owner => assert_eq!((owner, id), (Owner::Perf, None)),
        }
    }
}
