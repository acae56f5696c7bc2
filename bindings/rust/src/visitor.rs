//! Visitors of records.

use std::borrow::Cow;

use crate::flat::Flat;
use crate::read::Read;
use crate::records::*;
use crate::sample::Sample;
use crate::sys;

/// What a record has besides its body: the type and the `misc` of its header, and its sample id.
#[derive(Clone, Debug)]
pub struct RecordMetadata {
    ty: u32,
    misc: u16,
    sample_id: SampleId,
}

impl RecordMetadata {
    /// Returns the metadata with that type, `misc` and sample id.
    #[inline]
    pub fn from_parts(ty: u32, misc: u16, sample_id: SampleId) -> Self {
        Self {
            ty,
            misc,
            sample_id,
        }
    }

    /// Returns the type in the record's header, one of the `PERF_RECORD_*` numbers.
    #[inline]
    pub fn ty(&self) -> u32 {
        self.ty
    }

    /// Returns the `misc` of the record's header, bits whose meaning depends on the type.
    #[inline]
    pub fn misc(&self) -> u16 {
        self.misc
    }

    /// Returns the sample id. It has no numbers for a SAMPLE, for a type from 64 on, and without
    /// `sample_id_all`.
    #[inline]
    pub fn sample_id(&self) -> &SampleId {
        &self.sample_id
    }
}

/// Passes a record on, of a type that a visitor has no method for.
macro_rules! by_default {
    (visit_mmap2, $visitor:ident, $record:ident, $metadata:ident) => {
        $visitor.visit_mmap($record.into_mmap(), $metadata)
    };
    ($method:ident, $visitor:ident, $record:ident, $metadata:ident) => {
        $visitor.visit_unimplemented($metadata)
    };
}

macro_rules! methods {
    ($( $variant:ident($type:ident $( <$life:lifetime> )?) $method:ident $number:ident = $value:literal; )*) => {
        $(
            #[doc = concat!("Takes a `", stringify!($number), "`.")]
            fn $method(self, record: $type $( <$life> )?, metadata: RecordMetadata) -> Self::Output {
                by_default!($method, self, record, metadata)
            }
        )*
    };
}

macro_rules! make_record {
    ($( $variant:ident($type:ident $( <$life:lifetime> )?) $method:ident $number:ident = $value:literal; )*) => {
        $(
            #[inline]
            fn $method(self, record: $type $( <$life> )?, _: RecordMetadata) -> Record<'a> {
                Record::$variant(record.into())
            }
        )*
    };
}

/// Takes one record, and makes an output from it
/// ([`Parser::parse_record`](crate::parse::Parser::parse_record)).
///
/// Each type of record has a method. Those that are left out call
/// [`visit_unimplemented`](Self::visit_unimplemented), and [`visit_mmap2`](Self::visit_mmap2) calls
/// [`visit_mmap`](Self::visit_mmap).
///
/// ```
/// use perf_event_data::{Comm, RecordMetadata, Visitor};
///
/// struct Names;
///
/// impl Visitor<'_> for Names {
///     type Output = Option<Vec<u8>>;
///
///     fn visit_unimplemented(self, _: RecordMetadata) -> Self::Output {
///         None
///     }
///
///     fn visit_comm(self, record: Comm<'_>, _: RecordMetadata) -> Self::Output {
///         Some(record.comm.into_owned())
///     }
/// }
/// ```
#[allow(unused_variables)]
pub trait Visitor<'a>: Sized {
    /// What the visitor makes.
    type Output;

    /// Takes a record whose method is left out.
    fn visit_unimplemented(self, metadata: RecordMetadata) -> Self::Output;

    each_type!(methods);

    /// Takes a `PERF_RECORD_SWITCH`.
    fn visit_switch(self, metadata: RecordMetadata) -> Self::Output {
        self.visit_unimplemented(metadata)
    }

    /// Takes a record of a type that the kernel does not have: the bytes between its header and its
    /// sample id.
    fn visit_unknown(self, data: Cow<'a, [u8]>, metadata: RecordMetadata) -> Self::Output {
        self.visit_unimplemented(metadata)
    }
}

/// What a visitor makes of a frame.
#[inline]
pub(crate) fn visit<'a, V: Visitor<'a>>(flat: &Flat<'_, 'a>, visitor: V) -> V::Output {
    let frame = flat.frame;
    let sample_id = if frame.read == sys::PERF_RECORD_SAMPLE {
        SampleId::default()
    } else {
        SampleId::of(frame)
    };
    let metadata = RecordMetadata::from_parts(frame.type_, frame.misc, sample_id);
    macro_rules! visit_record {
        ($( $variant:ident($type:ident $( <$life:lifetime> )?) $method:ident $number:ident = $value:literal; )*) => {
            match frame.read {
                $( sys::$number => visitor.$method($type::of(flat), metadata), )*
                sys::PERF_RECORD_SWITCH => visitor.visit_switch(metadata),
                _ => visitor.visit_unknown(flat.part(0), metadata),
            }
        };
    }
    each_type!(visit_record)
}

/// Makes the record itself.
pub(crate) struct RecordVisitor;

impl<'a> Visitor<'a> for RecordVisitor {
    type Output = Record<'a>;

    #[inline]
    fn visit_unimplemented(self, metadata: RecordMetadata) -> Record<'a> {
        // no method is left out
        Record::Unknown {
            ty: metadata.ty(),
            data: Cow::Borrowed(&[]),
        }
    }

    each_type!(make_record);

    #[inline]
    fn visit_switch(self, _: RecordMetadata) -> Record<'a> {
        Record::Switch
    }

    #[inline]
    fn visit_unknown(self, data: Cow<'a, [u8]>, metadata: RecordMetadata) -> Record<'a> {
        Record::Unknown {
            ty: metadata.ty(),
            data,
        }
    }
}
