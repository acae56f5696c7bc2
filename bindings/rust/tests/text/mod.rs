//! The text of a run, as the program `perfrec` prints it (docs/FORMATS.md).

// each test needs a part of it
#![allow(dead_code)]

use std::borrow::Cow;
use std::fmt::Write;

use perf_event_data::endian::{Big, Endian, Little, Native};
use perf_event_data::parse::{ParseBuf, ParseConfig, ParseResult, Parser};
use perf_event_data::sys::{perf_event_attr, perf_event_header};
use perf_event_data::*;

include!("../../src/fields.rs");

/// Bytes as hexadecimal digits.
pub fn hex(bytes: &[u8]) -> String {
    bytes.iter().fold(String::new(), |mut text, byte| {
        write!(text, "{byte:02x}").unwrap();
        text
    })
}

/// Items with commas between them.
fn list<T>(items: impl IntoIterator<Item = T>, item: impl Fn(T) -> String) -> String {
    items.into_iter().map(item).collect::<Vec<_>>().join(",")
}

fn entry(entry: GroupEntry) -> String {
    let mut text = entry.value().to_string();
    for number in [entry.id(), entry.lost()].into_iter().flatten() {
        write!(text, ":{number}").unwrap();
    }
    text
}

fn branch(branch: &BranchEntry) -> String {
    let flags = [
        branch.mispred(),
        branch.predicted(),
        branch.in_tx(),
        branch.abort(),
    ];
    let [a, b, c, d] = flags.map(u8::from);
    let (from, to, cycles) = (branch.from(), branch.to(), branch.cycles());
    format!("{from}:{to}:{a}:{b}:{c}:{d}:{cycles}:{}", branch.ty().0)
}

/// A value with words in a line: a field of that name, or the fields of a record.
trait Words {
    fn put(&self, text: &mut String, name: &str);
}

macro_rules! words {
    ($( $type:ty: $it:ident => $value:expr; )*) => {
        $(
            impl Words for $type {
                fn put(&self, text: &mut String, name: &str) {
                    let $it = self;
                    write!(text, " {name}={}", $value).unwrap();
                }
            }
        )*
    };
}

words! {
    u16: it => it;
    u32: it => it;
    u64: it => it;
    AuxFlags: it => it.bits();
    BpfEventType: it => it.0;
    DataSource: it => it.bits();
    KSymbolFlags: it => it.bits();
    KSymbolType: it => it.0;
    SampleRegsAbi: it => it.0;
    Txn: it => it.bits();
    [u8; 8]: it => hex(it);
    &[u8]: it => hex(it);
    Cow<'_, [u8]>: it => hex(it);
    &[u64]: it => list(*it, u64::to_string);
    &[BranchEntry]: it => list(*it, branch);
    Cow<'_, [NamespaceEntry]>: it => list(&**it, |space| format!("{}:{}", space.dev, space.inode));
}

impl<T: Words> Words for Option<T> {
    fn put(&self, text: &mut String, name: &str) {
        self.iter().for_each(|value| value.put(text, name));
    }
}

impl Words for &Registers<'_> {
    fn put(&self, text: &mut String, name: &str) {
        self.abi.put(text, &format!("{name}_abi"));
        (&*self.regs).put(text, name);
    }
}

impl Words for &ReadGroup<'_> {
    fn put(&self, text: &mut String, name: &str) {
        self.time_enabled().put(text, "time_enabled");
        self.time_running().put(text, "time_running");
        write!(text, " {name}={}", list(self.entries(), entry)).unwrap();
    }
}

macro_rules! record_words {
    ($kind:ident $record:ident $( <$life:lifetime> )? {
        $( $name:ident: $at:tt $( as $text:ident )?, )*
    }) => {
        impl<'a> Words for $record $( <$life> )? {
            fn put(&self, text: &mut String, _: &str) {
                $( value!(self.$name: $at).put(text, stringify!($name)); )*
            }
        }
    };
}

macro_rules! value {
    ($record:ident.$name:ident: ()) => {
        $record.$name()
    };
    ($record:ident.$name:ident: $at:literal) => {
        $record.$name
    };
}

each_record!(record_words);

impl Words for Read {
    fn put(&self, text: &mut String, _: &str) {
        self.pid.put(text, "pid");
        self.tid.put(text, "tid");
        self.values.value().put(text, "value");
        self.values.time_enabled().put(text, "time_enabled");
        self.values.time_running().put(text, "time_running");
        self.values.id().put(text, "id");
        self.values.lost().put(text, "lost");
    }
}

impl Words for SwitchCpuWide {
    fn put(&self, text: &mut String, _: &str) {
        self.pid().put(text, "pid");
        self.tid().put(text, "tid");
        u16::from(matches!(self, Self::Out { .. })).put(text, "out");
    }
}

/// The name and the fields of a record.
pub fn record(record: &Record<'_>) -> String {
    let mut text = String::new();
    macro_rules! put_record {
        ($( $variant:ident($type:ident $( <$life:lifetime> )?) $method:ident $number:ident = $value:literal; )*) => {
            match record {
                $( Record::$variant(fields) => {
                    text.push_str(stringify!($variant));
                    fields.put(&mut text, "");
                } )*
                Record::Switch => text.push_str("Switch"),
                Record::Unknown { data, .. } => {
                    text.push_str("Unknown");
                    data.put(&mut text, "data");
                }
                other => panic!("a record without words: {other:?}"),
            }
        };
    }
    each_type!(put_record);
    text
}

/// The name and the fields of a record, or the kind of its refusal.
pub fn answer(answer: &ParseResult<Record<'_>>) -> String {
    match answer {
        Ok(found) => record(found),
        Err(error) => format!("refused {:?}", error.kind()),
    }
}

/// How a run ended.
#[derive(Copy, Clone, Debug, PartialEq, Eq)]
pub enum End {
    Done,
    Cut,
    Limit,
}

impl End {
    pub fn word(self) -> &'static str {
        match self {
            End::Done => "done",
            End::Cut => "cut",
            End::Limit => "limit",
        }
    }
}

/// Hands the answers of the next frames to a function, each with its index and its header. `left`
/// are the bytes that the parser has before it.
pub fn each_frame<'p, B, E>(
    parser: &mut Parser<B, E>,
    left: &mut &[u8],
    limit: u64,
    mut take: impl FnMut(u64, perf_event_header, ParseResult<Record<'p>>),
) -> End
where
    B: ParseBuf<'p>,
    E: Endian,
{
    for index in 0.. {
        if index == limit {
            return End::Limit;
        }
        if left.len() < 8 {
            let is_cut = !left.is_empty();
            // a cut header is taken
            *left = &[];
            parser.parse_rest().unwrap();
            return if is_cut { End::Cut } else { End::Done };
        }
        let header = Parser::new(&left[..8], parser.config().clone())
            .parse::<perf_event_header>()
            .unwrap();
        take(index, header, parser.parse());
        *left = &left[usize::from(header.size).max(8).min(left.len())..];
    }
    unreachable!()
}

/// The line of a frame.
pub fn line(index: u64, header: perf_event_header, found: &ParseResult<Record<'_>>) -> String {
    let perf_event_header { type_, misc, size } = header;
    format!("{index} {type_} {misc} {size} {}", answer(found))
}

/// A byte order that a word names.
#[derive(Copy, Clone, Debug, PartialEq, Eq)]
pub enum OrderName {
    Little,
    Big,
    Native,
}

/// What the words after the program's name ask for.
#[derive(Copy, Clone, Debug, PartialEq, Eq)]
pub struct Command {
    pub order: OrderName,
    /// The maximum number of frames to print.
    pub limit: u64,
    /// Whether the stream begins with an attribute.
    pub with_attr: bool,
}

fn order_named(word: &str) -> Option<OrderName> {
    match word {
        "little" => Some(OrderName::Little),
        "big" => Some(OrderName::Big),
        "native" => Some(OrderName::Native),
        _ => None,
    }
}

/// `parse` alone would also accept a sign.
fn limit_named(word: &str) -> Option<u64> {
    if !word.bytes().all(|byte| byte.is_ascii_digit()) {
        return None;
    }
    word.parse().ok()
}

/// What these words ask for: the name of a byte order, a limit in decimal digits alone, and then
/// `attr` if the stream begins with an attribute. `None` for any other words.
pub fn command(words: &[impl AsRef<str>]) -> Option<Command> {
    let words: Vec<&str> = words.iter().map(AsRef::as_ref).collect();
    let (order, limit, with_attr) = match words[..] {
        [order, limit] => (order, limit, false),
        [order, limit, "attr"] => (order, limit, true),
        _ => return None,
    };
    Some(Command {
        order: order_named(order)?,
        limit: limit_named(limit)?,
        with_attr,
    })
}

/// What `perfrec` prints for these words, which are a command, over a stream, in lines, and its
/// status.
pub fn run(words: &str, stream: &[u8]) -> (Vec<String>, u8) {
    let words: Vec<&str> = words.split_whitespace().collect();
    run_command(command(&words).expect("a command"), stream)
}

/// What `perfrec` prints for a command over a stream, in lines, and its status.
pub fn run_command(command: Command, stream: &[u8]) -> (Vec<String>, u8) {
    let Command {
        order,
        limit,
        with_attr,
    } = command;
    match order {
        OrderName::Little => run_in(Little, limit, with_attr, stream),
        OrderName::Big => run_in(Big, limit, with_attr, stream),
        OrderName::Native => run_in(Native, limit, with_attr, stream),
    }
}

fn run_in<E: Endian + Default>(
    order: E,
    limit: u64,
    with_attr: bool,
    stream: &[u8],
) -> (Vec<String>, u8) {
    let mut config = ParseConfig::<E>::default();
    let mut left = stream;
    if with_attr {
        match Parser::new(stream, config).parse::<perf_event_attr>() {
            Ok(attr) => {
                config = ParseConfig::from(attr);
                left = &stream[attr.size as usize..];
            }
            Err(error) => return (vec![format!("attr refused {:?}", error.kind())], 2),
        }
    }
    let mut parser = Parser::new(left, config.with_endian(order));
    let mut lines = Vec::new();
    let mut refused = false;
    let end = each_frame(&mut parser, &mut left, limit, |index, header, found| {
        refused |= found.is_err();
        lines.push(line(index, header, &found));
    });
    lines.push(format!("end {}", end.word()));
    let status = u8::from(refused || end == End::Cut);
    (lines, status)
}
