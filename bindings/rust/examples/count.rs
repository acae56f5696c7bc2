//! `count little|big [attr] [visit|header] < STREAM` prints how many frames there are, how many of
//! them were refused, and a checksum of the others, as the program `perf_count` does. With `visit`
//! no `Record` is made, and with `header` the header of each is parsed before it.
//!
//! It prints nothing else, so its time is that of the reading.

use std::io::{self, Read};

use perf_event_data::endian::{Big, Endian, Little};
use perf_event_data::parse::{ParseConfig, ParseResult, Parser};
use perf_event_data::sys::{perf_event_attr, perf_event_header};
use perf_event_data::{
    Comm, Exit, Fork, Lost, LostSamples, Mmap, Mmap2, Record, RecordMetadata, Sample, Visitor,
};

/// The sum of these numbers, modulo 2^64.
fn sum<const N: usize>(numbers: [u64; N]) -> u64 {
    numbers.into_iter().fold(0, u64::wrapping_add)
}

fn mmap_sum(r: &Mmap) -> u64 {
    let len = r.filename.len() as u64;
    sum([r.pid.into(), r.tid.into(), r.addr, r.len, r.pgoff, len])
}

fn mmap2_sum(r: &Mmap2) -> u64 {
    let len = r.filename.len() as u64;
    sum([r.pid.into(), r.tid.into(), r.addr, r.len, r.pgoff, len])
}

fn comm_sum(r: &Comm) -> u64 {
    sum([r.pid.into(), r.tid.into(), r.comm.len() as u64])
}

fn task_sum(r: &Exit) -> u64 {
    let tasks = [r.pid, r.ppid, r.tid, r.ptid].map(u64::from);
    sum([sum(tasks), r.time])
}

fn sample_sum(r: &Sample) -> u64 {
    let task = [r.pid(), r.tid()].map(|id| id.unwrap_or(0).into());
    let numbers = [r.ip(), r.time(), r.period()].map(|number| number.unwrap_or(0));
    let chain = r.callchain().unwrap_or(&[]);
    let chain = chain.iter().copied().fold(0, u64::wrapping_add);
    let raw = r.raw().unwrap_or(&[]).len() as u64;
    sum([sum(task), sum(numbers), chain, raw])
}

/// What a record adds to the checksum besides its type and its size.
fn record_sum(record: &Record) -> u64 {
    match record {
        Record::Mmap(r) => mmap_sum(r),
        Record::Mmap2(r) => mmap2_sum(r),
        Record::Comm(r) => comm_sum(r),
        Record::Exit(r) | Record::Fork(r) => task_sum(r),
        Record::Lost(r) => sum([r.id, r.lost]),
        Record::LostSamples(r) => r.lost,
        Record::Sample(r) => sample_sum(r),
        _ => 0,
    }
}

/// The same without a `Record`.
#[derive(Copy, Clone)]
struct Sum;

impl<'a> Visitor<'a> for Sum {
    type Output = u64;

    fn visit_unimplemented(self, _: RecordMetadata) -> u64 {
        0
    }

    fn visit_mmap(self, r: Mmap<'a>, _: RecordMetadata) -> u64 {
        mmap_sum(&r)
    }

    fn visit_mmap2(self, r: Mmap2<'a>, _: RecordMetadata) -> u64 {
        mmap2_sum(&r)
    }

    fn visit_comm(self, r: Comm<'a>, _: RecordMetadata) -> u64 {
        comm_sum(&r)
    }

    fn visit_exit(self, r: Exit, _: RecordMetadata) -> u64 {
        task_sum(&r)
    }

    fn visit_fork(self, r: Fork, _: RecordMetadata) -> u64 {
        task_sum(&r)
    }

    fn visit_lost(self, r: Lost, _: RecordMetadata) -> u64 {
        sum([r.id, r.lost])
    }

    fn visit_lost_samples(self, r: LostSamples, _: RecordMetadata) -> u64 {
        r.lost
    }

    fn visit_sample(self, r: Sample<'a>, _: RecordMetadata) -> u64 {
        sample_sum(&r)
    }
}

/// How a record is read.
#[derive(Copy, Clone)]
enum How {
    Record,
    Visit,
    AfterHeader,
}

/// What the next record adds, unless it is refused.
#[inline]
fn next_sum<E: Endian>(parser: &mut Parser<&[u8], E>, how: How) -> Option<u64> {
    match how {
        How::Record => parser.parse().as_ref().map(record_sum).ok(),
        How::Visit => parser.parse_record(Sum).ok(),
        How::AfterHeader => {
            let header: perf_event_header = parser.parse().ok()?;
            let record = Record::parse_with_header(parser, header);
            record.as_ref().map(record_sum).ok()
        }
    }
}

fn count<E: Endian + Default>(stream: &[u8], with_attr: bool, how: How) -> ParseResult<()> {
    let mut parser = Parser::new(stream, ParseConfig::<E>::default());
    let mut left = stream;
    if with_attr {
        let attr: perf_event_attr = parser.parse()?;
        left = &stream[attr.size as usize..];
        parser = Parser::new(left, ParseConfig::from(attr));
    }
    let (mut frames, mut refused, mut checksum) = (0u64, 0u64, 0u64);
    while let [a, b, c, d, _, _, e, f, ..] = *left {
        let type_ = parser.endian().convert_u32([a, b, c, d]);
        let size = parser.endian().convert_u16([e, f]);
        frames += 1;
        match next_sum(&mut parser, how) {
            Some(numbers) => checksum = sum([checksum, type_.into(), size.into(), numbers]),
            None => refused += 1,
        }
        left = &left[usize::from(size).max(8).min(left.len())..];
    }
    println!("{frames} {refused} {checksum}");
    Ok(())
}

fn main() -> Result<(), Box<dyn std::error::Error>> {
    let words: Vec<String> = std::env::args().skip(1).collect();
    let has = |word: &str| words.iter().any(|found| found == word);
    let how = match (has("visit"), has("header")) {
        (true, _) => How::Visit,
        (false, true) => How::AfterHeader,
        (false, false) => How::Record,
    };
    let mut stream = Vec::new();
    io::stdin().lock().read_to_end(&mut stream)?;
    if has("big") {
        count::<Big>(&stream, has("attr"), how)?;
    } else {
        count::<Little>(&stream, has("attr"), how)?;
    }
    Ok(())
}
