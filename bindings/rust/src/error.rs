//! Why a call has no answer.
use crate::ffi::{avrogate_status_text, Report};
use std::fmt;

/// An enum whose variants have the numbers of the header, from 1 on.
macro_rules! kinds {
    ($(#[$about:meta])* $name:ident { $($kind:ident = $number:literal),* $(,)? }) => {
        $(#[$about])*
        #[derive(Clone, Copy, Debug, PartialEq, Eq, Hash)]
        #[non_exhaustive]
        pub enum $name { $($kind = $number),* }

        impl $name {
            fn of(number: u32) -> $name {
                match number {
                    $($number => $name::$kind,)*
                    _ => unreachable!("the library has no {} {number}", stringify!($name)),
                }
            }
        }
    };
}

kinds! {
    /// Why the reader has no place for a datum of the writer's.
    MismatchKind { NoMatch = 1, NoBranch = 2, NoSymbol = 3, NoDefault = 4, BytesNotText = 5 }
}

kinds! {
    /// What is wrong with a payload that is no datum of the writer's schema.
    MalformedKind {
        BadNumber = 1, BadBoolean = 2, BadLength = 3, BadText = 4, BadEnum = 5, BadBranch = 6, BadBlock = 7,
        TooDeep = 8, TooMany = 9, Truncated = 10, Trailing = 11,
    }
}

kinds! {
    /// Why bytes are no message.
    EnvelopeError { ShortEnvelope = 1, BadMagic = 2 }
}

kinds! {
    /// The first fault of a text that is no schema.
    Fault {
        TooLarge = 1, NotJson = 2, BadNumber = 3, Unknown = 4, OutOfProfile = 5, BadName = 6, Redefined = 7,
        BadUnion = 8, BadSymbols = 9, BadDefault = 10, NotUtf8 = 12,
    }
}

/// Why a call has no answer.
#[derive(Clone, Copy, Debug, PartialEq, Eq)]
#[non_exhaustive]
pub enum Error {
    /// The types of the schemas are numbered in the order in which they appear, from 0.
    Mismatch {
        kind: MismatchKind,
        writer_node: usize,
        reader_node: usize,
    },
    /// The first fault, and its offset in the payload.
    Malformed {
        kind: MalformedKind,
        offset: usize,
    },
    OutputTooLarge,
    PayloadTooLarge,
    NoMemory,
    BadWriter(Fault),
    BadReader(Fault),
    ProgramTooLarge,
    BadEnvelope(EnvelopeError),
    /// The message has this id.
    OtherWriter {
        id: u32,
    },
}

impl Error {
    /// The error of a report that has no output.
    pub(crate) fn of(report: &Report) -> Error {
        let Report {
            status,
            kind,
            offset,
            writer_node,
            reader_node,
            writer_id,
            ..
        } = *report;
        match status {
            2 => Error::Mismatch {
                kind: MismatchKind::of(kind),
                writer_node,
                reader_node,
            },
            3 => Error::Malformed {
                kind: MalformedKind::of(kind),
                offset,
            },
            12 => Error::BadEnvelope(EnvelopeError::of(kind)),
            13 => Error::OtherWriter { id: writer_id },
            _ => Error::of_status(status, 0),
        }
    }

    /// The error of a status, with the fault of a text.
    pub(crate) fn of_status(status: u32, fault: u32) -> Error {
        match status {
            4 => Error::OutputTooLarge,
            5 => Error::PayloadTooLarge,
            6 => Error::NoMemory,
            8 => Error::BadWriter(Fault::of(fault)),
            9 => Error::BadReader(Fault::of(fault)),
            10 => Error::ProgramTooLarge,
            _ => unreachable!("status {status} of a transcoder that is open"),
        }
    }

    fn status(&self) -> u32 {
        match self {
            Error::Mismatch { .. } => 2,
            Error::Malformed { .. } => 3,
            Error::OutputTooLarge => 4,
            Error::PayloadTooLarge => 5,
            Error::NoMemory => 6,
            Error::BadWriter(_) => 8,
            Error::BadReader(_) => 9,
            Error::ProgramTooLarge => 10,
            Error::BadEnvelope(_) => 12,
            Error::OtherWriter { .. } => 13,
        }
    }
}

impl fmt::Display for Error {
    fn fmt(&self, f: &mut fmt::Formatter<'_>) -> fmt::Result {
        let mut words = [0u8; 64];
        // SAFETY: the room is so long.
        let length =
            unsafe { avrogate_status_text(self.status(), words.as_mut_ptr().cast(), words.len()) };
        f.write_str(&String::from_utf8_lossy(&words[..length]))?;
        match self {
            Error::Mismatch {
                kind,
                writer_node,
                reader_node,
            } => {
                write!(f, ": {kind:?}, types {writer_node} and {reader_node}")
            }
            Error::Malformed { kind, offset } => write!(f, ": {kind:?} at {offset}"),
            Error::BadWriter(fault) | Error::BadReader(fault) => write!(f, ": {fault:?}"),
            Error::BadEnvelope(error) => write!(f, ": {error:?}"),
            Error::OtherWriter { id } => write!(f, ": {id}"),
            _ => Ok(()),
        }
    }
}

impl std::error::Error for Error {}
