//! Bytes that are worked out by hand, and what this crate adds to reading: what is borrowed,
//! visitors, buffers and types of a user's own, and errors.

use std::borrow::Cow;
use std::error::Error;
use std::io::{self, BufReader, Read};

use perf_event_data::endian::{Big, Dynamic, Endian, Little, Native};
use perf_event_data::parse::{
    ErrorKind, Parse, ParseBuf, ParseBufChunk, ParseConfig, ParseError, ParseResult, Parser,
};
use perf_event_data::sys::{self, perf_event_attr};
use perf_event_data::*;

mod text;

/// Frames in little endian: of each its type, its `misc` and its body.
fn frames(all: &[(u32, u16, &[u8])]) -> Vec<u8> {
    let mut bytes = Vec::new();
    for (type_, misc, body) in all {
        bytes.extend(type_.to_le_bytes());
        bytes.extend(misc.to_le_bytes());
        bytes.extend((body.len() as u16 + 8).to_le_bytes());
        bytes.extend(*body);
    }
    bytes
}

/// Numbers of eight bytes in little endian.
fn words(numbers: &[u64]) -> Vec<u8> {
    numbers.iter().flat_map(|n| n.to_le_bytes()).collect()
}

/// A parser of bytes in little endian, without an attribute.
fn parser(bytes: &[u8]) -> Parser<&[u8], Little> {
    Parser::new(bytes, ParseConfig::default())
}

/// A configuration in little endian.
fn config(attr: perf_event_attr) -> ParseConfig<Little> {
    ParseConfig::from(attr)
}

/// Bytes that begin at a multiple of eight.
#[repr(C, align(8))]
struct Aligned([u8; 64]);

impl Aligned {
    fn new(bytes: &[u8]) -> Self {
        let mut all = Self([0; 64]);
        all.0[..bytes.len()].copy_from_slice(bytes);
        all
    }
}

// ---- the lines of docs/FORMATS.md

#[test]
fn the_frames_of_the_formats_have_their_lines() {
    let mut stream = Vec::new();
    stream.extend([4, 0, 0, 0, 0, 0, 32, 0, 0x59, 0x1b, 0, 0, 1, 0, 0, 0]);
    stream.extend([
        0x59, 0x1b, 0, 0, 1, 0, 0, 0, 0x40, 0x4b, 0x4c, 0, 0, 0, 0, 0,
    ]);
    stream.extend([2, 0, 0, 0, 0, 0, 7, 0]);
    let (lines, status) = text::run("little 10", &stream);
    let expected = [
        "0 4 0 32 Exit pid=7001 ppid=1 tid=7001 ptid=1 time=5000000",
        "1 2 0 7 refused InvalidRecord",
        "end done",
    ];
    assert_eq!(lines, expected);
    assert_eq!(status, 1);
}

#[test]
fn the_samples_of_the_formats_have_their_lines() {
    let attr = perf_event_attr::default;
    let cases = [
        (
            perf_event_attr {
                sample_type: SampleFlags::READ.bits(),
                read_format: (ReadFormat::ID | ReadFormat::GROUP).bits(),
                ..attr()
            },
            &[2, 10, 1, 20, 2][..],
            "Sample values=10:1,20:2",
        ),
        (
            perf_event_attr {
                sample_type: SampleFlags::RAW.bits(),
                ..attr()
            },
            &[0x0000_BBAA_0000_0002],
            "Sample raw=aabb",
        ),
        (
            perf_event_attr {
                sample_type: SampleFlags::BRANCH_STACK.bits(),
                ..attr()
            },
            &[1, 1, 2, 0x60_0051],
            "Sample lbr=1:2:1:0:0:0:5:6",
        ),
        (
            perf_event_attr {
                sample_type: SampleFlags::REGS_USER.bits(),
                sample_regs_user: 3,
                ..attr()
            },
            &[0],
            "Sample regs_user_abi=0 regs_user=",
        ),
    ];
    for (attr, body, expected) in cases {
        let bytes = frames(&[(9, 0, &words(body))]);
        let record: Record = Parser::new(&bytes[..], config(attr)).parse().unwrap();
        assert_eq!(text::record(&record), expected);
        // and without a header
        let bytes = words(body);
        let mut parser = Parser::new(&bytes[..], config(attr));
        let sample: Sample = parser.parse().unwrap();
        assert_eq!(text::record(&sample.into()), expected);
        assert_eq!(parser.parse_rest().unwrap().len(), 0);
    }
}

// ---- what is borrowed

#[test]
fn names_are_borrowed_from_a_slice() {
    let bytes = frames(&[(3, 0, b"\x10\x10\0\0\0\x05\0\0test\0\0\0\0")]);
    match parser(&bytes).parse().unwrap() {
        Record::Comm(comm) => {
            assert!(matches!(comm.comm, Cow::Borrowed(b"test")));
            assert_eq!(
                (comm.pid, comm.tid, comm.comm_os().to_str()),
                (0x1010, 0x500, Some("test"))
            );
            let owned: Comm<'static> = comm.into_owned();
            assert!(matches!(owned.comm, Cow::Owned(_)));
        }
        other => panic!("{other:?}"),
    }
    // and if the body is parsed alone
    let (mut body, _) = parser(&bytes).parse_metadata().unwrap();
    let comm: Comm = body.parse().unwrap();
    assert!(matches!(comm.comm, Cow::Borrowed(b"test")));
    let reader = BufReader::new(&bytes[..]);
    match Parser::new(reader, ParseConfig::<Little>::default())
        .parse()
        .unwrap()
    {
        Record::Comm(comm) => assert!(matches!(&comm.comm, Cow::Owned(name) if name == b"test")),
        other => panic!("{other:?}"),
    };
}

#[test]
fn a_list_is_borrowed_if_it_is_aligned_and_in_native_order() {
    let body = [1, 0, 0, 0, 2, 0, 0, 0];
    let little = [&body[..], &words(&[2, 3, 4, 5, 6])].concat();
    let little = frames(&[(16, 0, &little)]);
    let expected = [
        NamespaceEntry { dev: 3, inode: 4 },
        NamespaceEntry { dev: 5, inode: 6 },
    ];
    for (at, is_borrowed) in [(0, true), (1, false), (4, false), (8, true)] {
        let mut all = Aligned([0; 64]);
        let end = (at + little.len()).min(64);
        all.0[at..end].copy_from_slice(&little[..end - at]);
        let mut parser = Parser::new(&all.0[at..end], ParseConfig::<Little>::default());
        match parser.parse().unwrap() {
            Record::Namespaces(found) => {
                assert_eq!(&*found.namespaces, expected);
                let found = matches!(found.namespaces, Cow::Borrowed(_));
                assert_eq!(
                    found,
                    is_borrowed && cfg!(target_endian = "little"),
                    "at {at}"
                );
            }
            other => panic!("{other:?}"),
        }
    }
    let mut big = vec![0, 0, 0, 16, 0, 0, 0, 56, 0, 0, 0, 1, 0, 0, 0, 2];
    big.extend([2u64, 3, 4, 5, 6].iter().flat_map(|n| n.to_be_bytes()));
    let big = Aligned::new(&big);
    let mut parser = Parser::new(&big.0[..56], ParseConfig::<Big>::default());
    match parser.parse().unwrap() {
        Record::Namespaces(found) => {
            assert_eq!((found.pid, found.tid), (1, 2));
            assert_eq!(&*found.namespaces, expected);
            let found = matches!(found.namespaces, Cow::Borrowed(_));
            assert_eq!(found, cfg!(target_endian = "big"));
        }
        other => panic!("{other:?}"),
    }
}

#[test]
fn a_slice_of_values_is_parsed_in_place_or_not_at_all() {
    let bytes = Aligned::new(&words(&[1, 2, 3]));
    for (at, expected) in [(0, Some(&[1u64, 2][..])), (1, None)] {
        let mut parser = Parser::new(&bytes.0[at..], ParseConfig::<Native>::default());
        // SAFETY: any eight bytes are a number.
        let found = unsafe { parser.parse_slice_direct::<u64>(2) }.unwrap();
        let expected = expected.filter(|_| cfg!(target_endian = "little"));
        assert_eq!(found, expected);
        let left = parser.parse_rest().unwrap().len();
        assert_eq!(left, 64 - at - if expected.is_some() { 16 } else { 0 });
    }
    let mut parser = parser(&bytes.0[1..]);
    // SAFETY: any eight bytes are a number.
    let found = unsafe { parser.parse_slice::<u64>(usize::MAX) };
    assert_eq!(found.unwrap_err().kind(), ErrorKind::Eof);
}

// ---- visitors and metadata

struct Calls;

impl<'a> Visitor<'a> for Calls {
    type Output = String;

    fn visit_unimplemented(self, metadata: RecordMetadata) -> String {
        format!("{} of {}", metadata.misc(), metadata.ty())
    }

    fn visit_mmap(self, record: Mmap<'a>, metadata: RecordMetadata) -> String {
        let name = String::from_utf8_lossy(&record.filename).into_owned();
        format!("mapped {name} by {}", metadata.ty())
    }

    fn visit_switch(self, metadata: RecordMetadata) -> String {
        format!("switch {:?}", metadata.sample_id().time())
    }

    fn visit_unknown(self, data: Cow<'a, [u8]>, metadata: RecordMetadata) -> String {
        format!("{} bytes of {}", data.len(), metadata.ty())
    }
}

#[test]
fn a_visitor_may_leave_methods_out() {
    let name = [&[0; 32][..], b"//anon\0\0"].concat();
    let named = [&[0; 64][..], b"/x\0\0\0\0\0\0"].concat();
    let stream = frames(&[
        (1, 0, &name),
        (10, 0, &named),
        (13, 5, &[0; 8]),
        (14, 0x2000, &[]),
        (99, 0, b"abc"),
        (0, 0, &[]),
    ]);
    let mut parser = parser(&stream);
    let mut next = || parser.parse_record(Calls).unwrap();
    assert_eq!(next(), "mapped //anon by 1");
    assert_eq!(next(), "mapped /x by 10");
    assert_eq!(next(), "5 of 13");
    assert_eq!(next(), "switch None");
    assert_eq!(next(), "3 bytes of 99");
    assert_eq!(next(), "0 bytes of 0");
    assert_eq!(
        parser.parse_record(Calls).unwrap_err().kind(),
        ErrorKind::Eof
    );
}

#[test]
fn records_have_their_sample_id() {
    let attr = perf_event_attr {
        sample_type: (SampleFlags::TID | SampleFlags::TIME | SampleFlags::CPU).bits(),
        flags: 1 << 18,
        ..Default::default()
    };
    let body = [
        &words(&[7, 5])[..],
        &[3, 0, 0, 0, 4, 0, 0, 0],
        &words(&[6, 2]),
    ]
    .concat();
    let stream = frames(&[(2, 9, &body)]);
    assert_eq!(SampleId::estimate_len(&config(attr)), 24);

    let mut parser = Parser::new(&stream[..], config(attr));
    let (mut inner, metadata) = parser.parse_metadata().unwrap();
    let id = metadata.sample_id();
    assert_eq!((metadata.ty(), metadata.misc()), (2, 9));
    assert_eq!(
        (id.pid(), id.tid(), id.time(), id.cpu()),
        (Some(3), Some(4), Some(6), Some(2))
    );
    assert_eq!((id.id(), id.stream_id()), (None, None));
    let lost: Lost = inner.parse().unwrap();
    assert_eq!((lost.id, lost.lost), (7, 5));
    assert!(inner.parse_rest().unwrap().is_empty());
    let made = SampleId::from_parts(Some(3), Some(4), Some(6), None, None, Some(2));
    assert_eq!(format!("{made:?}"), format!("{id:?}"));

    let mut short = Parser::new(&stream[..], config(attr));
    let header = sys::perf_event_header {
        type_: 2,
        misc: 0,
        size: 31,
    };
    let error = short.parse_metadata_with_header(header).err().unwrap();
    assert_eq!(error.kind(), ErrorKind::InvalidRecord);
}

#[test]
fn the_misc_of_a_header_selects_a_variant() {
    let body = [1, 0, 0, 0, 2, 0, 0, 0];
    let stream = frames(&[(15, 0, &body), (15, 0x2000, &body)]);
    let mut all = parser(&stream);
    let first = all.parse().unwrap();
    assert!(matches!(
        first,
        Record::SwitchCpuWide(SwitchCpuWide::In { pid: 1, tid: 2 })
    ));
    let second = all.parse().unwrap();
    assert!(matches!(
        second,
        Record::SwitchCpuWide(SwitchCpuWide::Out { pid: 1, tid: 2 })
    ));
    // a body alone is read under the configuration's
    let out: SwitchCpuWide = Parser::new(
        &body[..],
        ParseConfig::<Little>::default().with_misc(0x2000),
    )
    .parse()
    .unwrap();
    assert!(matches!(out, SwitchCpuWide::Out { .. }));
}

#[test]
fn a_mapping_has_an_inode_or_a_build_id() {
    let mut body = vec![0; 64];
    body[32..36].copy_from_slice(&[8, 0, 0, 0]);
    body.extend(b"/x\0\0\0\0\0\0");
    let stream = frames(&[(10, 0, &body), (10, 0x4000, &body)]);
    let mut all = parser(&stream);
    for expected in [None, Some(&[0; 8][..])] {
        match all.parse().unwrap() {
            Record::Mmap2(record) => {
                assert_eq!(record.build_id(), expected);
                assert_eq!(record.maj(), expected.is_none().then_some(8));
                assert_eq!(record.ino().is_some(), expected.is_none());
                assert_eq!(record.to_mmap().filename, Cow::Borrowed(b"/x"));
            }
            other => panic!("{other:?}"),
        }
    }
}

// ---- buffers, orders and types of a user's own

/// Hands bytes out one at a time.
struct Ones<'a>(&'a [u8]);

// SAFETY: the trait has no requirement.
unsafe impl<'a> ParseBuf<'a> for Ones<'a> {
    fn chunk(&mut self) -> ParseResult<ParseBufChunk<'_, 'a>> {
        match self.0.get(..1) {
            Some(one) => Ok(ParseBufChunk::External(one)),
            None => Err(ParseError::eof()),
        }
    }

    fn advance(&mut self, count: usize) {
        self.0 = &self.0[count..];
    }
}

/// The other order of this machine, and none of the two.
#[derive(Clone, Copy, Default)]
struct Swapped;

// SAFETY: the trait has no requirement.
unsafe impl Endian for Swapped {
    fn convert_u16(&self, bytes: [u8; 2]) -> u16 {
        u16::from_ne_bytes(bytes).swap_bytes()
    }

    fn convert_u32(&self, bytes: [u8; 4]) -> u32 {
        u32::from_ne_bytes(bytes).swap_bytes()
    }

    fn convert_u64(&self, bytes: [u8; 8]) -> u64 {
        u64::from_ne_bytes(bytes).swap_bytes()
    }
}

#[derive(Clone, Copy, Default)]
struct Middle;

// SAFETY: the trait has no requirement.
unsafe impl Endian for Middle {
    fn convert_u16(&self, bytes: [u8; 2]) -> u16 {
        Little.convert_u16(bytes)
    }

    fn convert_u32(&self, bytes: [u8; 4]) -> u32 {
        Little.convert_u32(bytes).rotate_left(16)
    }

    fn convert_u64(&self, bytes: [u8; 8]) -> u64 {
        Little.convert_u64(bytes)
    }
}

#[test]
fn a_buffer_may_hand_out_any_pieces() {
    let body = [&[0; 32][..], b"//anon\0\0"].concat();
    let stream = frames(&[(1, 0, &body), (13, 0, &[5, 0, 0, 0, 0, 0, 0, 0])]);
    let mut parser = Parser::new(Ones(&stream), ParseConfig::<Little>::default());
    let first: Record = parser.parse().unwrap();
    assert_eq!(
        text::record(&first),
        "Mmap pid=0 tid=0 addr=0 len=0 pgoff=0 filename=2f2f616e6f6e"
    );
    let (mut inner, _) = parser.parse_metadata().unwrap();
    assert_eq!(inner.parse::<LostSamples>().unwrap().lost, 5);
    assert_eq!(parser.parse::<Record>().unwrap_err().kind(), ErrorKind::Eof);

    let mut parser = Parser::new(Ones(b"\x01\x02\x03\0\0"), ParseConfig::<Big>::default());
    assert_eq!(parser.parse_u16().unwrap(), 0x102);
    assert_eq!(
        parser.parse_rest_trim_nul().unwrap(),
        Cow::<[u8]>::Owned(vec![3])
    );
}

#[test]
fn an_order_is_one_of_the_two() {
    let little = frames(&[(13, 0, &words(&[5]))]);
    let big = [&[0, 0, 0, 13, 0, 0, 0, 16][..], &5u64.to_be_bytes()].concat();
    fn lost<E: Endian>(bytes: &[u8], endian: E) -> ParseResult<u64> {
        let config = ParseConfig::<Little>::default().with_endian(endian);
        match Parser::new(bytes, config).parse()? {
            Record::LostSamples(record) => Ok(record.lost),
            other => panic!("{other:?}"),
        }
    }
    assert_eq!(lost(&little, Little).unwrap(), 5);
    assert_eq!(lost(&big, Big).unwrap(), 5);
    assert_eq!(lost(&little, Dynamic::Little).unwrap(), 5);
    assert_eq!(lost(&big, Dynamic::Big).unwrap(), 5);
    let (native, swapped) = if cfg!(target_endian = "little") {
        (&little, &big)
    } else {
        (&big, &little)
    };
    assert_eq!(lost(native, Native).unwrap(), 5);
    assert_eq!(lost(swapped, Swapped).unwrap(), 5);
    // no record is read in another order, but numbers are
    let error = lost(&little, Middle).unwrap_err();
    assert_eq!(error.kind(), ErrorKind::UnsupportedConfig);
    let mut parser = Parser::new(&little[..], ParseConfig::<Middle>::default());
    assert_eq!(parser.parse_u32().unwrap(), 13 << 16);
}

#[derive(Debug, PartialEq)]
struct Own {
    ip: u64,
    chain: Vec<u64>,
}

impl<'p> Parse<'p> for Own {
    fn parse<B, E>(p: &mut Parser<B, E>) -> ParseResult<Self>
    where
        B: ParseBuf<'p>,
        E: Endian,
    {
        let ip = p.parse()?;
        let len: u64 = p.parse()?;
        if len > 100 {
            return Err(ParseError::new("too long"));
        }
        Ok(Own {
            ip,
            chain: p.parse_repeated(len as usize)?,
        })
    }
}

#[test]
fn a_type_of_ones_own_is_parsed() {
    let stream = frames(&[(9, 0, &words(&[1, 2, 3, 4])), (9, 0, &words(&[1, 101]))]);
    let mut parser = parser(&stream);
    let own: Own = parser.parse_metadata().unwrap().0.parse().unwrap();
    assert_eq!(
        own,
        Own {
            ip: 1,
            chain: vec![3, 4]
        }
    );
    let error = parser
        .parse_metadata()
        .unwrap()
        .0
        .parse::<Own>()
        .unwrap_err();
    assert_eq!(error.to_string(), "user-provided error: too long");
}

// ---- errors

#[test]
fn errors_have_the_texts_of_the_original() {
    let text = |bytes: &[u8]| parser(bytes).parse::<Record>().unwrap_err().to_string();
    assert_eq!(text(&[]), "unexpected EOF during parsing");
    assert_eq!(text(&[1, 2, 3]), "unexpected EOF during parsing");
    assert_eq!(
        text(&[2, 0, 0, 0, 0, 0, 7, 0]),
        "invalid record: header size was too small to be valid"
    );
    let mut long = vec![0; 64];
    long[32] = 21;
    assert_eq!(
        text(&frames(&[(10, 0x4000, &long)])),
        "invalid record: build_id had invalid length"
    );
    let group = ParseConfig::<Little>::default().with_read_format(ReadFormat::GROUP);
    let read = frames(&[(8, 0, &[0; 16])]);
    let error = Parser::new(&read[..], group).parse::<Record>().unwrap_err();
    assert_eq!(error.kind(), ErrorKind::UnsupportedConfig);
    assert_eq!(
        error.source().unwrap().to_string(),
        "attempted to parse a SingleRead with a config that has GROUP set in read_format"
    );
    let attr = [&[0, 0, 0, 0, 65, 0, 0, 0][..], &[0; 57]].concat();
    assert_eq!(
        parser(&attr)
            .parse::<perf_event_attr>()
            .unwrap_err()
            .to_string(),
        "invalid record: not a valid size for a perf_event_attr struct"
    );
}

struct Failing;

impl Read for Failing {
    fn read(&mut self, _: &mut [u8]) -> io::Result<usize> {
        Err(io::Error::new(io::ErrorKind::UnexpectedEof, "the cable"))
    }
}

#[test]
fn an_error_of_a_reader_is_external() {
    let mut parser = Parser::new(BufReader::new(Failing), ParseConfig::<Little>::default());
    let error = parser.parse::<Record>().unwrap_err();
    assert_eq!(error.kind(), ErrorKind::External);
    assert_eq!(error.to_string(), "user-provided error: the cable");
    assert!(error.source().is_some());
    assert_eq!(parser.parse_rest().unwrap_err().kind(), ErrorKind::External);
}

#[test]
fn a_body_is_no_longer_than_a_frame() {
    let mut long = vec![b'x'; 65_528];
    let error = parser(&long).parse::<Comm>().unwrap_err();
    assert_eq!(error.kind(), ErrorKind::UnsupportedData);
    long.pop();
    assert_eq!(parser(&long).parse::<Comm>().unwrap().comm.len(), 65_519);
    // numbers of a fixed length may be followed by anything
    long.resize(100_000, 0);
    let mut all = parser(&long);
    all.parse::<Lost>().unwrap();
    assert_eq!(all.parse_rest().unwrap().len(), 100_000 - 16);
}

#[test]
fn a_refused_record_affects_no_other() {
    let stream = frames(&[(13, 0, &[1, 2]), (13, 0, &words(&[5]))]);
    let mut all = parser(&stream);
    assert_eq!(all.parse::<Record>().unwrap_err().kind(), ErrorKind::Eof);
    assert!(matches!(
        all.parse().unwrap(),
        Record::LostSamples(LostSamples { lost: 5 })
    ));
}

// ---- values

#[test]
fn flags_have_names() {
    let flags = SampleFlags::IP | SampleFlags::TID;
    assert_eq!(format!("{flags:?}"), "SampleFlags(IP | TID)");
    assert_eq!(format!("{:?}", SampleFlags::empty()), "SampleFlags(0x0)");
    assert_eq!(
        format!("{:?}", ReadFormat::from_bits_retain(0x41)),
        "ReadFormat(TOTAL_TIME_ENABLED | 0x40)"
    );
    assert_eq!(ReadFormat::from_bits(0x20), None);
    assert_eq!(
        ReadFormat::from_bits_truncate(0x21),
        ReadFormat::TOTAL_TIME_ENABLED
    );
    assert_eq!(ReadFormat::all().bits(), 31);
    assert_eq!(SampleFlags::all().bits(), (1 << 25) - 1);
    assert!(flags.contains(SampleFlags::IP) && !flags.is_all());
    assert_eq!(
        (flags - SampleFlags::IP).iter().collect::<Vec<_>>(),
        [SampleFlags::TID]
    );
    assert_eq!(
        [SampleFlags::IP, SampleFlags::TID]
            .into_iter()
            .collect::<SampleFlags>(),
        flags
    );
    let unknown = ReadFormat::from_bits_retain(0xC5);
    let all = [1, 4, 0xC0].map(ReadFormat::from_bits_retain);
    assert_eq!(unknown.into_iter().collect::<Vec<_>>(), all);
    let names: Vec<_> = unknown.iter_names().map(|(name, _)| name).collect();
    assert_eq!(names, ["TOTAL_TIME_ENABLED", "ID"]);
    assert_eq!(!unknown, ReadFormat::all() - unknown);
    assert_eq!(ReadFormat::from_name("LOST"), Some(ReadFormat::LOST));
    let aux = AuxFlags::from_bits_retain(0x0103);
    assert_eq!(aux.pmu_format_type(), AuxPmuFormatType::CORESIGHT_RAW);
    assert_eq!(format!("{:?}", KSymbolType::OOL), "OOL");
    assert_eq!(format!("{:?}", KSymbolType::new(7)), "KSymbolType(7)");
    assert_eq!(Txn::from_bits_retain(7 << 32 | 1).abort(), 7);
}

#[test]
fn a_data_source_has_its_fields() {
    let word = 2
        | (2 | 8) << 5
        | 4 << 19
        | 2 << 24
        | (2 | 8) << 26
        | 11 << 33
        | 1 << 37
        | 1 << 38
        | 4 << 40
        | 5 << 43;
    let source = DataSource::from_word(word);
    assert_eq!(source.mem_op(), MemOp::LOAD);
    assert_eq!(source.mem_lvl(), MemLevel::HIT | MemLevel::L1);
    assert_eq!(source.mem_snoop(), MemSnoop::HIT | MemSnoop::FWD);
    assert_eq!(source.mem_lock(), MemLock::LOCKED);
    assert_eq!(source.mem_dtlb(), MemDtlb::HIT | MemDtlb::L1);
    assert_eq!(source.mem_lvl_num(), MemLevelNum::ANY_CACHE);
    assert!(source.mem_remote());
    assert_eq!(source.mem_blk(), MemBlk::ADDR);
    assert_eq!(source.mem_hops(), 5);
    assert_eq!(source.bits(), word);
}

#[test]
fn each_kind_of_namespace_has_its_place() {
    let entry = |inode| NamespaceEntry { dev: 4, inode };
    let mut spaces = Namespaces {
        pid: 1,
        tid: 2,
        namespaces: (0..7).map(entry).collect::<Vec<_>>().into(),
    };
    let inode = |entry: Option<&NamespaceEntry>| entry.map(|entry| entry.inode);
    assert_eq!(inode(spaces.network()), Some(0));
    assert_eq!(inode(spaces.uts()), Some(1));
    assert_eq!(inode(spaces.ipc()), Some(2));
    assert_eq!(inode(spaces.pid()), Some(3));
    assert_eq!(inode(spaces.user()), Some(4));
    assert_eq!(inode(spaces.cgroup()), Some(6));
    spaces.namespaces.to_mut().truncate(6);
    assert_eq!(inode(spaces.cgroup()), None);
}

#[test]
fn reads_are_made_of_their_parts() {
    let format = ReadFormat::ID | ReadFormat::LOST | ReadFormat::GROUP;
    let group = ReadGroup::from_parts(format, 0, 0, Cow::Borrowed(&[1, 2, 3, 4, 5, 6]));
    assert_eq!(
        (group.len(), group.is_empty(), group.time_enabled()),
        (2, false, None)
    );
    let entry = group.get_by_id(5).unwrap();
    assert_eq!(
        (entry.value(), entry.id(), entry.lost()),
        (4, Some(5), Some(6))
    );
    let read = ReadValue::from_group_and_entry(&group, &entry);
    assert_eq!(
        (read.value(), read.id(), read.lost()),
        (4, Some(5), Some(6))
    );
    let one = ReadGroup::from(read);
    assert_eq!(ReadValue::try_from(one).unwrap().lost(), Some(6));
    let error = ReadValue::try_from(group.into_owned()).unwrap_err();
    assert_eq!(
        error.to_string(),
        "can only convert groups with a single element to ReadValues"
    );
}

#[test]
fn values_may_go_to_another_thread() {
    fn is_shared<T: Send + Sync>() {}
    is_shared::<Record<'static>>();
    is_shared::<ParseError>();
    is_shared::<ParseConfig<Dynamic>>();
    is_shared::<Parser<&[u8], Little>>();
}

/// An attribute of another crate, with a call for a single bit.
struct OtherAttribute {
    sample_type: u64,
    read_format: u64,
    branch_sample_type: u64,
    sample_regs_user: u64,
    sample_regs_intr: u64,
}

impl OtherAttribute {
    fn sample_id_all(&self) -> u64 {
        1
    }
}

#[test]
fn an_attribute_of_another_crate_gives_a_configuration() {
    let attr = OtherAttribute {
        sample_type: 0b111,
        read_format: 4,
        branch_sample_type: 1 << 17,
        sample_regs_user: 3,
        sample_regs_intr: 5,
    };
    let config: ParseConfig<Native> = ParseConfig::from(sys::perf_event_attr {
        sample_type: attr.sample_type,
        read_format: attr.read_format,
        flags: attr.sample_id_all() << 18,
        branch_sample_type: attr.branch_sample_type,
        sample_regs_user: attr.sample_regs_user,
        sample_regs_intr: attr.sample_regs_intr,
        ..Default::default()
    });
    let (format, kept) = (config.read_format(), config.sample_type());
    assert_eq!((kept.bits(), format.bits()), (0b111, 4));
    assert_eq!((config.regs_user(), config.regs_intr()), (3, 5));
    assert!(config.sample_id_all() && config.branch_hw_index());
}
