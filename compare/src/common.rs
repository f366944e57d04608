//! The Rust, taken in at build time, under the names by which its files call one another, and the shims that it leans on.
//! Each shim is listed in README.md.

pub(crate) use codec::{Faults, IeFault, IeName, NasError, Reader, Reading, Result, too_short};
pub(crate) use message_macros::{
    IeiIndex, IeiTable, decode_mandatory_ie, decode_optional_ies, encode_optional_ies, iei_index, nas_message,
    optional_ie_order_findings, place,
};
pub(crate) use unknown_ie::{IeOrder, IgnoredIeReason, Placed, UnknownIe, UnknownIes, generic_ie_length};

pub(crate) use validate::{Bounded, ValidationError};

#[allow(dead_code, clippy::box_collection)]
mod codec {
    include!(concat!(env!("OUT_DIR"), "/codec.rs"));
}

#[allow(dead_code)]
mod unknown_ie {
    include!(concat!(env!("OUT_DIR"), "/unknown_ie.rs"));

    impl UnknownIes {
        pub(crate) fn from_octets(octets: Vec<u8>) -> Self {
            Self { octets }
        }

        pub(crate) fn octets(&self) -> &[u8] {
            &self.octets
        }
    }

    impl IeOrder {
        pub(crate) fn from_octets(octets: Vec<u8>) -> Self {
            Self(octets)
        }

        pub(crate) fn octets(&self) -> &[u8] {
            &self.0
        }

        pub(crate) fn clear(&mut self) {
            self.0.clear();
        }
    }
}

mod message_macros {
    use crate::common::{
        IeFault, IeOrder, IgnoredIeReason, NasError, Placed, Reader, Result, UnknownIes, ValidationError,
        generic_ie_length,
    };

    include!(concat!(env!("OUT_DIR"), "/message_macros.rs"));

    pub(crate) use nas_message;

    pub(crate) fn place(index: &IeiIndex, iei: u8) -> Option<usize> {
        place_of(index, iei)
    }
}

mod validate {
    /// A finding: its text.
    pub(crate) struct ValidationError {
        pub(crate) message: String,
    }

    /// The list of findings, here without a bound.
    pub(crate) struct Bounded(Vec<ValidationError>);

    impl Bounded {
        pub(crate) fn new() -> Self {
            Self(Vec::new())
        }

        pub(crate) fn error(&mut self, _field: &'static str, message: impl FnOnce() -> String) {
            self.0.push(ValidationError { message: message() });
        }

        pub(crate) fn into_findings(self) -> Vec<ValidationError> {
            self.0
        }
    }
}
