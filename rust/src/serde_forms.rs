//! How types with an invariant are serialized. A value that breaks it is refused.

use crate::filter::TextFilter;
use crate::{IpAuthHeader, IpFragOffset, IpNumber, Ipv6RawExtHeader};
use alloc::string::String;
use alloc::vec::Vec;
use serde::de::Error;
use serde::{Deserialize, Deserializer, Serialize, Serializer};

impl Serialize for IpFragOffset {
    fn serialize<S: Serializer>(&self, serializer: S) -> Result<S::Ok, S::Error> {
        self.value().serialize(serializer)
    }
}

impl<'de> Deserialize<'de> for IpFragOffset {
    fn deserialize<D: Deserializer<'de>>(deserializer: D) -> Result<IpFragOffset, D::Error> {
        IpFragOffset::try_new(u16::deserialize(deserializer)?).map_err(D::Error::custom)
    }
}

/// The fields of an authentication header.
#[derive(Serialize, Deserialize)]
#[serde(rename = "IpAuthHeader")]
struct Auth<T> {
    next_header: IpNumber,
    spi: u32,
    sequence_number: u32,
    raw_icv: T,
}

impl Serialize for IpAuthHeader {
    fn serialize<S: Serializer>(&self, serializer: S) -> Result<S::Ok, S::Error> {
        let fields = Auth {
            next_header: self.next_header,
            spi: self.spi,
            sequence_number: self.sequence_number,
            raw_icv: self.raw_icv(),
        };
        fields.serialize(serializer)
    }
}

impl<'de> Deserialize<'de> for IpAuthHeader {
    fn deserialize<D: Deserializer<'de>>(deserializer: D) -> Result<IpAuthHeader, D::Error> {
        let of = Auth::<Vec<u8>>::deserialize(deserializer)?;
        IpAuthHeader::new(of.next_header, of.spi, of.sequence_number, &of.raw_icv)
            .map_err(D::Error::custom)
    }
}

/// The fields of a header in the generic format.
#[derive(Serialize, Deserialize)]
#[serde(rename = "Ipv6RawExtHeader")]
struct Raw<T> {
    next_header: IpNumber,
    payload: T,
}

impl Serialize for Ipv6RawExtHeader {
    fn serialize<S: Serializer>(&self, serializer: S) -> Result<S::Ok, S::Error> {
        let fields = Raw {
            next_header: self.next_header,
            payload: self.payload(),
        };
        fields.serialize(serializer)
    }
}

impl<'de> Deserialize<'de> for Ipv6RawExtHeader {
    fn deserialize<D: Deserializer<'de>>(deserializer: D) -> Result<Ipv6RawExtHeader, D::Error> {
        let of = Raw::<Vec<u8>>::deserialize(deserializer)?;
        Ipv6RawExtHeader::new_raw(of.next_header, &of.payload).map_err(D::Error::custom)
    }
}

impl Serialize for TextFilter {
    fn serialize<S: Serializer>(&self, serializer: S) -> Result<S::Ok, S::Error> {
        self.text().serialize(serializer)
    }
}

impl<'de> Deserialize<'de> for TextFilter {
    fn deserialize<D: Deserializer<'de>>(deserializer: D) -> Result<TextFilter, D::Error> {
        TextFilter::parse(String::deserialize(deserializer)?).map_err(D::Error::custom)
    }
}

/// Counts in an array of any length, as a sequence.
pub(crate) mod counts {
    use super::{Deserialize, Deserializer, Error, Serialize, Serializer, Vec};

    pub(crate) fn serialize<S: Serializer, const N: usize>(
        counts: &[u64; N],
        serializer: S,
    ) -> Result<S::Ok, S::Error> {
        counts.as_slice().serialize(serializer)
    }

    pub(crate) fn deserialize<'de, D: Deserializer<'de>, const N: usize>(
        deserializer: D,
    ) -> Result<[u64; N], D::Error> {
        let counts = Vec::deserialize(deserializer)?;
        let expected = |counts: Vec<u64>| {
            let found = counts.len();
            D::Error::custom(format_args!("expected {N} counts, found {found}"))
        };
        counts.try_into().map_err(expected)
    }
}
