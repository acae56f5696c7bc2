//! How much memory is requested for a record: that of a sample's `Box`, and of lists that must be
//! copied. A visitor needs the latter alone, and an error none.

use std::alloc::{GlobalAlloc, Layout, System};
use std::cell::Cell;

use perf_event_data::endian::{Big, Little};
use perf_event_data::parse::{ParseConfig, Parser};
use perf_event_data::sys::perf_event_attr;
use perf_event_data::{Namespaces, Record, RecordMetadata, Sample, SampleFlags, Visitor};

/// The allocator of the system, which counts the requests of each thread.
struct Counting;

thread_local! {
    static REQUESTS: Cell<usize> = const { Cell::new(0) };
}

// SAFETY: each call is passed on.
unsafe impl GlobalAlloc for Counting {
    unsafe fn alloc(&self, layout: Layout) -> *mut u8 {
        REQUESTS.with(|count| count.set(count.get() + 1));
        unsafe { System.alloc(layout) }
    }

    unsafe fn dealloc(&self, place: *mut u8, layout: Layout) {
        unsafe { System.dealloc(place, layout) }
    }
}

#[global_allocator]
static COUNTING: Counting = Counting;

/// What a function returns, and how often it requests memory.
fn requests<T>(make: impl FnOnce() -> T) -> (T, usize) {
    let before = REQUESTS.with(Cell::get);
    let value = make();
    (value, REQUESTS.with(Cell::get) - before)
}

/// How many lists a record has that are not empty.
struct Lists;

impl<'a> Visitor<'a> for Lists {
    type Output = usize;

    fn visit_unimplemented(self, _: RecordMetadata) -> usize {
        0
    }

    fn visit_sample(self, sample: Sample<'a>, _: RecordMetadata) -> usize {
        let registers = [sample.regs_user(), sample.regs_intr()];
        let [user, interrupt] = registers.map(|found| found.map_or(0, |found| found.regs.len()));
        let branches = sample.lbr().map_or(0, |list| list.len());
        let chain = sample.callchain().map_or(0, |list| list.len());
        let lengths = [user, interrupt, branches, chain];
        lengths.into_iter().filter(|&length| length != 0).count()
    }

    fn visit_namespaces(self, record: Namespaces<'a>, _: RecordMetadata) -> usize {
        usize::from(!record.namespaces.is_empty())
    }
}

/// The bytes of a recording, `shift` bytes after an address that is a multiple of eight.
fn recording(name: &str, shift: usize) -> (Vec<u8>, usize) {
    let path = format!("{}/../../examples/{name}", env!("CARGO_MANIFEST_DIR"));
    let stream = std::fs::read(path).expect("a recording");
    let mut bytes = vec![0; stream.len() + 16];
    let start = bytes.as_ptr().align_offset(8) + shift;
    bytes[start..start + stream.len()].copy_from_slice(&stream);
    bytes.truncate(start + stream.len());
    (bytes, start)
}

/// Reads a recording both ways; each frame needs memory for its copied lists, and for its `Box`.
fn read(name: &str, shift: usize) -> usize {
    let (bytes, start) = recording(name, shift);
    let mut parser = Parser::new(&bytes[start..], ParseConfig::<Little>::default());
    let attr: perf_event_attr = parser.parse().unwrap();
    let first = &bytes[start + attr.size as usize..];
    let mut visits = Parser::new(first, ParseConfig::<Little>::from(attr));
    let mut records = Parser::new(first, ParseConfig::<Little>::from(attr));
    let mut samples = 0;
    loop {
        let (lists, copied) = requests(|| visits.parse_record(Lists));
        let (record, needed) = requests(|| records.parse::<Record>());
        let (Ok(lists), Ok(record)) = (lists, record) else {
            return samples;
        };
        let is_sample = matches!(record, Record::Sample(_));
        assert_eq!(copied, if shift == 0 { 0 } else { lists }, "a visitor");
        assert_eq!(needed, copied + usize::from(is_sample), "{record:?}");
        samples += usize::from(is_sample);
    }
}

#[test]
fn records_need_a_box_and_copied_lists() {
    for shift in [0, 1, 4] {
        assert_eq!(read("recording.stream", shift), 39);
        assert_eq!(read("samples.stream", shift), 59);
    }
}

#[test]
fn one_counter_needs_no_list() {
    let mut bytes = vec![0, 0, 0, 9, 0, 0, 0, 16];
    bytes.extend(7u64.to_be_bytes());
    let config = ParseConfig::<Big>::default().with_sample_type(SampleFlags::READ);
    let (record, needed) = requests(|| Parser::new(&bytes[..], config).parse::<Record>());
    let Ok(Record::Sample(sample)) = record else {
        panic!("another record: {record:?}");
    };
    let values: Vec<u64> = sample
        .values()
        .unwrap()
        .entries()
        .map(|entry| entry.value())
        .collect();
    assert_eq!((values, needed), (vec![7], 1));
}

#[test]
fn errors_need_no_memory() {
    // a header whose size is too small, and one without the rest of its frame
    for bytes in [[13, 0, 0, 0, 0, 0, 7, 0], [13, 0, 0, 0, 0, 0, 16, 0]] {
        let config = ParseConfig::<Little>::default();
        let (record, _) = requests(|| Parser::new(&bytes[..], config.clone()).parse::<Record>());
        let (visit, needed) = requests(|| Parser::new(&bytes[..], config).parse_record(Lists));
        assert!(record.is_err() && visit.is_err());
        assert_eq!(needed, 0);
    }
}
