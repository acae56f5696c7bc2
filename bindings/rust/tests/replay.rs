//! The cases of `crates/perf_replay/stdin`, whose head and `src/main.rt` explain the lines: what
//! the parser returns for bytes that are written by hand, over a slice and over buffered readers.

use std::fmt::{Debug, Write};
use std::io::BufReader;

use perf_event_data::endian::{Big, Endian, Little};
use perf_event_data::parse::{Parse, ParseBuf, ParseConfig, ParseResult, Parser};
use perf_event_data::sys::{perf_event_attr, perf_event_header};
use perf_event_data::{
    BranchEntry, Comm, DataSource, Exit, GroupEntry, Lost, LostSamples, Mmap, Namespaces, Read,
    ReadGroup, ReadValue, Record, RecordMetadata, Registers, Sample, SampleId, SampleRegsAbi,
    SwitchCpuWide, Throttle, Txn,
};

mod text;

/// The text of a value or of its error.
fn told<T>(answer: ParseResult<T>, tell: impl FnOnce(T) -> String) -> String {
    match answer {
        Ok(value) => tell(value),
        Err(error) => error.to_string(),
    }
}

fn debug<T: Debug>(answer: ParseResult<T>) -> String {
    told(answer, |value| format!("{value:?}"))
}

/// The words of a record, and what they leave out.
fn answer(found: &ParseResult<Record<'_>>) -> String {
    let mut words = text::answer(found);
    match found {
        Ok(Record::Unknown { ty, .. }) => write!(words, " ty={ty}").unwrap(),
        Ok(Record::Sample(sample)) => {
            if let Some(group) = sample.values() {
                write!(words, " counters={}", group.len()).unwrap();
            }
            if let Some(registers) = sample.regs_user() {
                write!(words, " user_mask={:#x}", registers.mask).unwrap();
            }
            if let Some(registers) = sample.regs_intr() {
                write!(words, " intr_mask={:#x}", registers.mask).unwrap();
            }
        }
        _ => (),
    }
    words
}

/// Runs of the same parser, each with a limit.
fn runs<'p, B: ParseBuf<'p>, E: Endian>(
    mut parser: Parser<B, E>,
    bytes: &[u8],
    limits: &str,
) -> String {
    let mut left = bytes;
    let run = |limit: &str| {
        let mut items = Vec::new();
        let limit = limit.parse().unwrap();
        let end = text::each_frame(&mut parser, &mut left, limit, |index, header, found| {
            let perf_event_header { type_, misc, size } = header;
            items.push(format!("{index} {type_} {misc} {size} {}", answer(&found)));
        });
        items.push(end.word().to_owned());
        items.join("; ")
    };
    limits.split(' ').map(run).collect::<Vec<_>>().join(" | ")
}

fn sample_id(id: &SampleId) -> String {
    format!(
        "SampleId {{ pid: {:?}, tid: {:?}, time: {:?}, id: {:?}, stream_id: {:?}, cpu: {:?} }}",
        id.pid(),
        id.tid(),
        id.time(),
        id.id(),
        id.stream_id(),
        id.cpu()
    )
}

fn metadata(metadata: &RecordMetadata) -> String {
    let (ty, misc) = (metadata.ty(), metadata.misc());
    let id = sample_id(metadata.sample_id());
    format!("RecordMetadata {{ ty: {ty}, misc: {misc}, sample_id: {id} }}")
}

fn read_value(read: &ReadValue) -> String {
    format!(
        "ReadValue {{ value: {}, time_enabled: {:?}, time_running: {:?}, id: {:?}, lost: {:?} }}",
        read.value(),
        read.time_enabled(),
        read.time_running(),
        read.id(),
        read.lost()
    )
}

fn entries(all: impl IntoIterator<Item = Option<GroupEntry>>) -> String {
    let item = |entry: Option<GroupEntry>| match entry {
        None => "None".to_owned(),
        Some(entry) => {
            let (value, id, lost) = (entry.value(), entry.id(), entry.lost());
            format!("Some(GroupEntry {{ value: {value}, id: {id:?}, lost: {lost:?} }})")
        }
    };
    let items: Vec<_> = all.into_iter().map(item).collect();
    format!("[{}]", items.join(", "))
}

fn group(group: &ReadGroup<'_>) -> String {
    let mut all = group.entries();
    let first = entries([all.next(), all.next(), all.next()]);
    let by_places = entries([0, 1, 2, 3, usize::MAX].map(|place| group.get(place)));
    let by_ids = entries([0, 1, 2, 3, 0xBD, 0xBE].map(|id| group.get_by_id(id)));
    let times = [group.time_enabled(), group.time_running()];
    let is_one = match ReadValue::try_from(group.clone()) {
        Ok(_) => "true".to_owned(),
        Err(error) => error.to_string(),
    };
    let (len, is_empty) = (group.len(), group.is_empty());
    format!("{len} {is_empty} {times:?} {first} {by_places} {by_ids} {is_one}")
}

fn both_ends(group: &ReadGroup<'_>) -> String {
    let mut all = group.entries();
    let taken = entries([all.nth(1), all.next_back(), all.nth_back(1)]);
    let times = [group.time_enabled(), group.time_running()];
    let left = all.len();
    let next = entries([all.next(), all.next_back()]);
    let (count, last) = (group.entries().count(), entries([group.entries().last()]));
    let last = last.trim_start_matches('[').trim_end_matches(']');
    let len = group.len();
    format!("{len} {times:?} {taken} {left} {next} {count} {last}")
}

fn registers(registers: &Registers<'_>) -> String {
    let (abi, mask, regs) = (registers.abi.0, registers.mask, &*registers.regs);
    format!("Registers {{ abi: SampleRegsAbi({abi}), mask: {mask}, regs: Owned({regs:?}) }}")
}

fn branch(branch: BranchEntry) -> String {
    let addresses = [branch.from(), branch.to()];
    let predictions = [branch.mispred(), branch.predicted()];
    let transactions = [branch.in_tx(), branch.abort()];
    let (cycles, ty) = (branch.cycles(), branch.ty().0);
    format!("{addresses:?} {predictions:?} {transactions:?} {cycles} BranchType({ty})")
}

fn namespaces(spaces: &Namespaces<'_>) -> String {
    let named = [
        spaces.network(),
        spaces.uts(),
        spaces.ipc(),
        spaces.pid(),
        spaces.user(),
        spaces.cgroup(),
    ];
    format!("{named:?}")
}

fn config<E: Endian>(config: &ParseConfig<E>) -> String {
    let sets = [config.sample_type().bits(), config.read_format().bits()];
    let are_there = [config.sample_id_all(), config.branch_hw_index()];
    let masks = [config.regs_user(), config.regs_intr()];
    format!("{:?}", (sets, are_there, masks, config.misc()))
}

fn numbers<'p, B: ParseBuf<'p>, E: Endian, P: Parse<'p> + Debug>(
    parser: &mut Parser<B, E>,
    name: &str,
    count: usize,
) -> String {
    if name.starts_with("parse_if") {
        debug(parser.parse_if::<P>(count != 0))
    } else if name.starts_with("parse_repeated") {
        debug(parser.parse_repeated::<P>(count))
    } else {
        debug(parser.parse::<P>())
    }
}

/// What a parser returns for a word.
fn asked<'p, B: ParseBuf<'p>, E: Endian>(parser: &mut Parser<B, E>, word: &str) -> String {
    let (name, count) = word.split_once(':').unwrap_or((word, "0"));
    let count: usize = count.parse().unwrap();
    match name {
        "parse_u8" => debug(parser.parse_u8()),
        "parse_u16" => debug(parser.parse_u16()),
        "parse_u32" => debug(parser.parse_u32()),
        "parse_u64" => debug(parser.parse_u64()),
        "u8" | "parse_if_u8" | "parse_repeated_u8" => numbers::<B, E, u8>(parser, name, count),
        "u16" | "parse_if_u16" | "parse_repeated_u16" => numbers::<B, E, u16>(parser, name, count),
        "u32" | "parse_if_u32" | "parse_repeated_u32" => numbers::<B, E, u32>(parser, name, count),
        "u64" | "parse_if_u64" | "parse_repeated_u64" => numbers::<B, E, u64>(parser, name, count),
        "parse_slice_u64" => {
            // SAFETY: any eight bytes are a number.
            let slice = unsafe { parser.parse_slice::<u64>(count) };
            told(slice, |list| format!("Owned({list:?})"))
        }
        "parse_bytes" => debug(parser.parse_bytes(count)),
        "parse_rest" => debug(parser.parse_rest()),
        "parse_rest_trim_nul" => debug(parser.parse_rest_trim_nul()),
        "left" => told(parser.parse_rest(), |rest| rest.len().to_string()),
        "[u8;0]" => debug(parser.parse::<[u8; 0]>()),
        "[u8;1]" => debug(parser.parse::<[u8; 1]>()),
        "[u8;2]" => debug(parser.parse::<[u8; 2]>()),
        "[u8;4]" => debug(parser.parse::<[u8; 4]>()),
        "Comm" => told(parser.parse::<Comm>(), |r| {
            format!(
                "{:?} {:?} {:?}",
                [r.pid, r.tid],
                r.comm,
                r.comm_os().to_str()
            )
        }),
        "Mmap" => told(parser.parse::<Mmap>(), |r| {
            let place = [r.addr, r.len, r.pgoff];
            let name = r.filename_os().to_str();
            format!("{:?} {place:?} {:?} {name:?}", [r.pid, r.tid], r.filename)
        }),
        "Exit" => debug(parser.parse::<Exit>()),
        "Lost" => debug(parser.parse::<Lost>()),
        "LostSamples" => debug(parser.parse::<LostSamples>()),
        "SwitchCpuWide" => debug(parser.parse::<SwitchCpuWide>()),
        "Throttle" => debug(parser.parse::<Throttle>()),
        "perf_event_attr" => debug(parser.parse::<perf_event_attr>()),
        "Read" => told(parser.parse::<Read>(), |r| {
            let values = read_value(&r.values);
            format!(
                "Read {{ pid: {}, tid: {}, values: {values} }}",
                r.pid, r.tid
            )
        }),
        "ReadValue" => told(parser.parse::<ReadValue>(), |r| read_value(&r)),
        "ReadGroup" => told(parser.parse::<ReadGroup>(), |r| group(&r)),
        "both_ends" => told(parser.parse::<ReadGroup>(), |r| both_ends(&r)),
        "values" => told(parser.parse::<Sample>(), |r| {
            r.values().map_or("no group".to_owned(), group)
        }),
        "SampleId" => told(parser.parse::<SampleId>(), |id| sample_id(&id)),
        "config" => config(parser.config()),
        "Record" => told(parser.parse::<Record>(), |found| answer(&Ok(found))),
        "namespaces" => told(parser.parse::<Record>(), |found| match &found {
            Record::Namespaces(spaces) => {
                format!("{} {}", text::record(&found), namespaces(spaces))
            }
            _ => text::record(&found),
        }),
        "Sample" => answer(&parser.parse::<Sample>().map(Record::from)),
        "parse_with_header" => told(parser.parse::<perf_event_header>(), |header| {
            let found = Record::parse_with_header(parser, header);
            let perf_event_header { type_, misc, size } = header;
            format!("0 {type_} {misc} {size} {}", answer(&found))
        }),
        "parse_user" => told(Registers::parse_user(parser), |r| registers(&r)),
        "parse_intr" => told(Registers::parse_intr(parser), |r| registers(&r)),
        "BranchEntry" => told(parser.parse::<BranchEntry>(), branch),
        "DataSource" => told(parser.parse::<DataSource>(), |r| format!("{:#x}", r.bits())),
        "Txn" => told(parser.parse::<Txn>(), |r| format!("Txn({})", r.bits())),
        "SampleRegsAbi" => told(parser.parse::<SampleRegsAbi>(), |r| {
            format!("SampleRegsAbi({})", r.0)
        }),
        _ => panic!("what is {name}?"),
    }
}

/// What a parser returns for words, one after another.
fn all_asked<'p, B: ParseBuf<'p>, E: Endian>(
    parser: &mut Parser<B, E>,
    words: &str,
    answers: &mut Vec<String>,
) {
    for word in words.split(' ').filter(|word| !word.is_empty()) {
        answers.push(asked(parser, word));
    }
}

/// What a parser returns for parts: each is for the parser itself, or for that of the body of the
/// next frame.
fn parts<'p, B: ParseBuf<'p>, E: Endian>(mut parser: Parser<B, E>, parts: &str) -> String {
    let mut answers = Vec::new();
    for part in parts.split(" | ") {
        let (first, words) = part.split_once(' ').unwrap_or((part, ""));
        match first {
            "parse_metadata" => match parser.parse_metadata() {
                Ok((mut body, found)) => {
                    answers.push(metadata(&found));
                    all_asked(&mut body, words, &mut answers);
                }
                Err(error) => answers.push(error.to_string()),
            },
            "parse_metadata_with_header" => match parser.parse::<perf_event_header>() {
                Ok(header) => {
                    answers.push(format!("{header:?}"));
                    match parser.parse_metadata_with_header(header) {
                        Ok((mut body, found)) => {
                            answers.push(metadata(&found));
                            all_asked(&mut body, words, &mut answers);
                        }
                        Err(error) => answers.push(error.to_string()),
                    }
                }
                Err(error) => answers.push(error.to_string()),
            },
            _ => all_asked(&mut parser, part, &mut answers),
        }
    }
    answers.join("; ")
}

/// The size of the attribute at the front, its configuration, and runs after it.
fn after_attribute(bytes: &[u8], limits: &str) -> String {
    let mut parser = Parser::new(bytes, ParseConfig::<Little>::default());
    told(parser.parse::<perf_event_attr>(), |attr| {
        let rest = &bytes[attr.size as usize..];
        let parser = Parser::new(rest, ParseConfig::<Little>::from(attr));
        let under = config(parser.config());
        format!("{} {under} | {}", attr.size, runs(parser, rest, limits))
    })
}

/// Calls a function for a parser over each kind of buffer; all results must be the same.
macro_rules! everywhere {
    ($order:expr, $attr:expr, $bytes:expr, |$parser:ident| $call:expr) => {{
        let bytes: &[u8] = $bytes;
        let config = ParseConfig::<Little>::from(*$attr).with_endian($order);
        let $parser = Parser::new(bytes, config.clone());
        let first: String = $call;
        for size in [1, 7, 8192] {
            let $parser = Parser::new(BufReader::with_capacity(size, bytes), config.clone());
            assert_eq!(first, $call, "in pieces of {size} bytes");
        }
        // at an odd address
        let mut moved = vec![0; bytes.len() + 1];
        moved[1..].copy_from_slice(bytes);
        let $parser = Parser::new(&moved[1..], config.clone());
        assert_eq!(first, $call, "at another address");
        first
    }};
}

#[derive(Default)]
struct Case<'a> {
    name: &'a str,
    attr: perf_event_attr,
    little: Vec<u8>,
    big: Vec<u8>,
    is_told: bool,
    is_big: bool,
    how: &'a str,
    words: &'a str,
    lines: String,
}

fn number(word: &str) -> u64 {
    match word.strip_prefix("0x") {
        Some(digits) => u64::from_str_radix(digits, 16).unwrap(),
        None => word.parse().unwrap(),
    }
}

impl<'a> Case<'a> {
    fn set(&mut self, word: &'a str, rest: &'a str) {
        match word {
            "under" => {
                self.attr = perf_event_attr::default();
                for field in rest.split(' ') {
                    let (name, value) = field.split_once('=').unwrap();
                    let value = number(value);
                    match name {
                        "sample_type" => self.attr.sample_type = value,
                        "read_format" => self.attr.read_format = value,
                        "flags" => self.attr.flags = value,
                        "branch_sample_type" => self.attr.branch_sample_type = value,
                        "sample_regs_user" => self.attr.sample_regs_user = value,
                        "sample_regs_intr" => self.attr.sample_regs_intr = value,
                        _ => panic!("what is {name}?"),
                    }
                }
            }
            "big" => self.is_big = true,
            "little" => self.is_big = false,
            "run" | "after" | "ask" | "shown" | "sample" | "perfrec" | "refused" => {
                self.how = word;
                self.words = rest;
            }
            ">" | "~" => write!(self.lines, "{rest}; ").unwrap(),
            _ => self.append(word, rest),
        }
    }

    fn append(&mut self, word: &str, rest: &str) {
        if self.is_told {
            self.little.clear();
            self.big.clear();
            self.is_told = false;
        }
        for item in rest.split(' ') {
            let mut part = match word {
                "bytes" => {
                    let digits = item.as_bytes().chunks(2).map(|pair| {
                        u8::from_str_radix(std::str::from_utf8(pair).unwrap(), 16).unwrap()
                    });
                    let bytes: Vec<u8> = digits.collect();
                    self.little.extend(&bytes);
                    self.big.extend(&bytes);
                    continue;
                }
                "zeros" => vec![0; number(item) as usize],
                "u16" => (number(item) as u16).to_le_bytes().to_vec(),
                "u32" => (number(item) as u32).to_le_bytes().to_vec(),
                "u64" => number(item).to_le_bytes().to_vec(),
                _ => panic!("what is {word}?"),
            };
            self.little.extend(&part);
            part.reverse();
            self.big.extend(&part);
        }
    }

    /// The actual result, if this test knows the case.
    fn told(&mut self) -> Option<String> {
        self.is_told = true;
        let attr = &self.attr;
        match self.how {
            "ask" if self.is_big => {
                Some(everywhere!(Big, attr, &self.big, |p| parts(p, self.words)))
            }
            "ask" => Some(everywhere!(Little, attr, &self.little, |p| parts(
                p, self.words
            ))),
            "run" => Some(everywhere!(Little, attr, &self.little, |p| runs(
                p,
                &self.little,
                self.words
            ))),
            "after" => Some(after_attribute(&self.little, self.words)),
            "sample" => Some(self.told_sample()),
            "perfrec" => {
                let (lines, status) = text::run(self.words, &self.little);
                Some(format!("{}; status {status}", lines.join("; ")))
            }
            _ => None,
        }
    }

    /// The result of a sample's body in one order, and that in the other one if it differs.
    fn told_sample(&self) -> String {
        let mut text = self.told_body(Little, &self.little);
        let other = self.told_body(Big, &self.big);
        if other != text {
            write!(text, " but {other}").unwrap();
        }
        text
    }

    fn told_body<E: Endian + Copy>(&self, order: E, body: &[u8]) -> String {
        let attr = &self.attr;
        // how many bytes a refused body takes is not stated
        let all = everywhere!(order, attr, body, |p| {
            let all = parts(p, "Sample left");
            match all.split_once("; ") {
                Some((refused, _)) if refused.starts_with("refused") => format!("{refused}; "),
                _ => all,
            }
        });
        let (sample, left) = all.split_once("; ").unwrap();
        let size = body.len() + 8;
        let mut frame = Vec::new();
        let is_big = order.convert_u16([0, 1]) == 1;
        let header = |type_: u32, misc: u16, size: u16| {
            if is_big {
                [
                    &type_.to_be_bytes()[..],
                    &misc.to_be_bytes(),
                    &size.to_be_bytes(),
                ]
                .concat()
            } else {
                [
                    &type_.to_le_bytes()[..],
                    &misc.to_le_bytes(),
                    &size.to_le_bytes(),
                ]
                .concat()
            }
        };
        frame.extend(header(9, 2, u16::try_from(size).unwrap_or(u16::MAX)));
        frame.extend(body);
        frame.extend(header(13, 0, 16));
        frame.extend(if is_big {
            5u64.to_be_bytes()
        } else {
            5u64.to_le_bytes()
        });
        let expected = format!("0 9 2 {size} {sample}; 1 13 0 16 LostSamples lost=5; done");
        let found = everywhere!(order, attr, &frame, |p| runs(p, &frame, "10"));
        let mut text = sample.to_owned();
        if sample.starts_with("Sample") && left != self.words {
            write!(text, ", {left} left").unwrap();
        }
        if found != expected {
            write!(text, " but {found}").unwrap();
        }
        text
    }
}

#[test]
fn cases_have_their_results() {
    let path = concat!(
        env!("CARGO_MANIFEST_DIR"),
        "/../../crates/perf_replay/stdin"
    );
    assert!(replay(path) > 1000);
}

/// Those of another list, if there is one: `PERF_EVENT_DATA_CASES` is its path.
#[test]
fn other_cases_have_their_results() {
    if let Ok(path) = std::env::var("PERF_EVENT_DATA_CASES") {
        assert!(replay(&path) > 0);
    }
}

/// Compares all results of a list, and returns how many are the same.
fn replay(path: &str) -> usize {
    let list = std::fs::read_to_string(path).expect("the list of cases");
    let mut case = Case::default();
    let (mut same, mut skipped, mut differing) = (0, 0, 0);
    for line in list.lines() {
        let (word, rest) = line.split_once(' ').unwrap_or((line, ""));
        match word {
            "" | "#" => (),
            "case" => {
                case = Case {
                    name: rest,
                    ..Case::default()
                }
            }
            "=" => {
                let expected = std::mem::take(&mut case.lines) + rest;
                match case.told() {
                    None => skipped += 1,
                    Some(found) if found == expected => same += 1,
                    Some(found) => {
                        differing += 1;
                        println!("{}\nexpected {expected}\nfound    {found}\n", case.name);
                    }
                }
            }
            _ => case.set(word, rest),
        }
    }
    println!("{same} results are the same, {skipped} were skipped, {differing} differ");
    assert_eq!(differing, 0);
    same
}
