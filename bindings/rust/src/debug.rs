//! Texts of values for `{:?}`.

use std::fmt::{self, UpperHex, Write};

use crate::records::*;
use crate::sample::Sample;

/// Bytes as a text: those that are not UTF-8, and control characters, are escaped.
pub(crate) struct ByteStr<'a>(pub(crate) &'a [u8]);

impl fmt::Debug for ByteStr<'_> {
    fn fmt(&self, f: &mut fmt::Formatter<'_>) -> fmt::Result {
        f.write_char('"')?;
        let mut left = self.0;
        while !left.is_empty() {
            let (valid, bad) = match std::str::from_utf8(left) {
                Ok(_) => (left.len(), 0),
                Err(error) => {
                    let valid = error.valid_up_to();
                    (valid, error.error_len().unwrap_or(left.len() - valid))
                }
            };
            let (text, rest) = left.split_at(valid);
            let (bytes, rest) = rest.split_at(bad);
            write!(f, "{}", String::from_utf8_lossy(text).escape_debug())?;
            write!(f, "{}", bytes.escape_ascii())?;
            left = rest;
        }
        f.write_char('"')
    }
}

/// Bytes as hexadecimal digits.
pub(crate) struct HexStr<'a>(pub(crate) &'a [u8]);

impl fmt::Debug for HexStr<'_> {
    fn fmt(&self, f: &mut fmt::Formatter<'_>) -> fmt::Result {
        self.0.iter().try_for_each(|byte| write!(f, "{byte:02x}"))
    }
}

/// An address.
pub(crate) struct HexAddr<T>(pub(crate) T);

impl<T: UpperHex> fmt::Debug for HexAddr<T> {
    fn fmt(&self, f: &mut fmt::Formatter<'_>) -> fmt::Result {
        write!(f, "{:#016X}", self.0)
    }
}

/// Adds a field if it is present.
pub(crate) fn present<T: fmt::Debug>(
    all: &mut fmt::DebugStruct<'_, '_>,
    name: &str,
    value: Option<T>,
) {
    if let Some(value) = value {
        all.field(name, &value);
    }
}

/// Adds a field or what a call returns.
macro_rules! value {
    ($all:ident, $record:ident.$name:ident: ()) => {
        present(&mut $all, stringify!($name), $record.$name())
    };
    ($all:ident, $record:ident.$name:ident: () as $text:ident) => {
        present(&mut $all, stringify!($name), $record.$name().map($text))
    };
    ($all:ident, $record:ident.$name:ident: $at:literal) => {
        $all.field(stringify!($name), &$record.$name)
    };
    ($all:ident, $record:ident.$name:ident: $at:literal as $text:ident) => {
        $all.field(stringify!($name), &$text(&$record.$name))
    };
}

/// Implements `Debug` for a record: one that has nothing but calls may have more.
macro_rules! debug {
    (calls $( $row:tt )*) => { debug! { @finish_non_exhaustive $( $row )* } };
    (fields $( $row:tt )*) => { debug! { @finish $( $row )* } };
    (some $( $row:tt )*) => { debug! { @finish $( $row )* } };
    (@$finish:ident $record:ident $( <$life:lifetime> )? {
        $( $name:ident: $at:tt $( as $text:ident )?, )*
    }) => {
        impl<'a> fmt::Debug for $record $( <$life> )? {
            fn fmt(&self, f: &mut fmt::Formatter<'_>) -> fmt::Result {
                let record = self;
                let mut all = f.debug_struct(stringify!($record));
                $( value!(all, record.$name: $at $( as $text )?); )*
                all.$finish()
            }
        }
    };
}

each_record!(debug);
