//! Bytes that no kernel writes: nothing panics, and every buffer gives the same.

use std::io::BufReader;

use perf_event_data::endian::{Big, Endian, Little};
use perf_event_data::parse::{Parse, ParseConfig, Parser};
use perf_event_data::sys::perf_event_attr;
use perf_event_data::*;

mod text;

/// Numbers that look random, and are the same in each run.
struct Numbers(u64);

impl Numbers {
    fn next(&mut self) -> u64 {
        self.0 ^= self.0 << 13;
        self.0 ^= self.0 >> 7;
        self.0 ^= self.0 << 17;
        self.0
    }

    fn below(&mut self, end: u64) -> u64 {
        self.next() % end
    }

    /// A number that is small most of the time, so that counts and lengths fit.
    fn word(&mut self) -> u64 {
        match self.below(8) {
            0 => self.next(),
            1 => self.below(64),
            2 => 0,
            _ => self.below(4),
        }
    }

    fn attr(&mut self) -> perf_event_attr {
        // few fields most of the time, so that all of them fit
        let sample_type = self.next() & self.next() & self.next();
        perf_event_attr {
            sample_type: sample_type & ((1 << 25) - 1),
            read_format: self.below(40),
            flags: self.below(2) << 18,
            branch_sample_type: self.below(2) << 17,
            sample_regs_user: self.below(8),
            sample_regs_intr: self.below(8),
            ..Default::default()
        }
    }

    fn frames(&mut self, is_big: bool) -> Vec<u8> {
        let mut bytes = Vec::new();
        for _ in 0..1 + self.below(4) {
            let body: Vec<u64> = (0..self.below(24)).map(|_| self.word()).collect();
            let cut = self.below(8) as usize % (8 * body.len() + 1);
            let size = match self.below(16) {
                0 => self.below(70),
                _ => 8 + 8 * body.len() as u64 - cut as u64,
            };
            let type_ = if self.below(3) == 0 {
                9
            } else {
                self.below(24)
            };
            // numbers of eight bytes, whose halves the orders have in other places
            let mut put = |number: u64, len: usize| {
                let mut part = number.to_le_bytes()[..len].to_vec();
                if is_big {
                    part.reverse();
                }
                bytes.extend(part);
            };
            put(type_, 4);
            put([0, 0x2000, 0x4000][self.below(3) as usize], 2);
            put(size, 2);
            body.iter().for_each(|number| put(*number, 8));
            bytes.truncate(bytes.len() - cut);
        }
        bytes
    }
}

fn lines<'p, B: parse::ParseBuf<'p>, E: Endian>(
    mut parser: Parser<B, E>,
    mut left: &[u8],
) -> Vec<String> {
    let mut lines = Vec::new();
    text::each_frame(&mut parser, &mut left, u64::MAX, |index, header, found| {
        // texts and copies of it can be made
        let _ = format!("{found:?} {:?}", found.as_ref().ok().cloned());
        lines.push(text::line(index, header, &found));
    });
    lines
}

/// Parses a body as a type, over a slice and over a reader.
fn as_body<T: for<'p> Parse<'p> + std::fmt::Debug, E: Endian>(
    bytes: &[u8],
    config: &ParseConfig<E>,
) {
    let found = Parser::new(bytes, config.clone()).parse::<T>();
    let reader = BufReader::with_capacity(5, bytes);
    let other = Parser::new(reader, config.clone()).parse::<T>();
    assert_eq!(format!("{found:?}"), format!("{other:?}"));
}

macro_rules! as_borrowed_body {
    ($type_:ident, $bytes:expr, $config:expr) => {{
        let mut parser = Parser::new($bytes, $config.clone());
        let found = parser.parse::<$type_>();
        let left = parser.parse_rest().unwrap().len();
        let reader = BufReader::with_capacity(5, $bytes);
        let mut parser = Parser::new(reader, $config.clone());
        let other = parser.parse::<$type_>();
        assert_eq!(format!("{found:?}"), format!("{other:?}"));
        if found.is_ok() {
            assert_eq!(left, parser.parse_rest().unwrap().len());
        }
    }};
}

/// How many samples are accepted is returned.
fn check<E: Endian>(bytes: &[u8], config: ParseConfig<E>) -> usize {
    let expected = lines(Parser::new(bytes, config.clone()), bytes);
    for size in [1, 13, 4096] {
        let reader = BufReader::with_capacity(size, bytes);
        assert_eq!(lines(Parser::new(reader, config.clone()), bytes), expected);
    }
    // by the header first
    let mut parser = Parser::new(bytes, config.clone());
    for (index, line) in expected.iter().enumerate() {
        let header = parser.parse().unwrap();
        let found = Record::parse_with_header(&mut parser, header);
        assert_eq!(&text::line(index as u64, header, &found), line);
    }
    // by the metadata first, and the body under its `misc`
    let mut parser = Parser::new(bytes, config.clone());
    if let Ok((mut body, metadata)) = parser.parse_metadata() {
        let body = body.parse_rest().unwrap();
        let config = config.clone().with_misc(metadata.misc());
        let mut parser = Parser::new(&*body, config);
        let found = match metadata.ty() {
            9 => Some(parser.parse::<Sample>().map(Record::from)),
            10 => Some(parser.parse::<Mmap2>().map(Record::from)),
            16 => Some(parser.parse::<Namespaces>().map(Record::from)),
            20 => Some(parser.parse::<TextPoke>().map(Record::from)),
            _ => None,
        };
        if let Some(found) = found {
            let first = expected[0].splitn(5, ' ').last().unwrap();
            assert_eq!(text::answer(&found), first);
        }
    }
    as_body::<Lost, E>(bytes, &config);
    as_body::<Exit, E>(bytes, &config);
    as_body::<Read, E>(bytes, &config);
    as_body::<ReadValue, E>(bytes, &config);
    as_body::<SampleId, E>(bytes, &config);
    as_body::<BpfEvent, E>(bytes, &config);
    as_body::<perf_event_attr, E>(bytes, &config);
    as_borrowed_body!(Sample, bytes, config);
    as_borrowed_body!(ReadGroup, bytes, config);
    as_borrowed_body!(Namespaces, bytes, config);
    as_borrowed_body!(TextPoke, bytes, config);
    as_borrowed_body!(KSymbol, bytes, config);
    let is_sample = |line: &&String| line.contains(" Sample ");
    expected.iter().filter(is_sample).count()
}

#[test]
fn any_bytes_give_the_same_over_every_buffer() {
    let mut numbers = Numbers(0x9e37_79b9_7f4a_7c15);
    let mut samples = 0;
    for _ in 0..2000 {
        let config = ParseConfig::<Little>::from(numbers.attr());
        samples += check(&numbers.frames(false), config);
        let config = ParseConfig::<Big>::from(numbers.attr());
        samples += check(&numbers.frames(true), config);
    }
    println!("{samples} samples were accepted");
    assert!(samples > 1000);
}
