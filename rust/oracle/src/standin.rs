//! Stand-ins for what the supplied files import from ufotofu, ufotofu_codec, ufotofu_codec_endian and compact_u64.
//!
//! Only encodings use them, and encodings are not compared: the shapes are there so that the files build.

use either::Either;

/// ufotofu: a source of items.
pub trait BulkProducer {
    /// What it gives.
    type Item;
    /// What it gives last.
    type Final;
    /// What can go wrong.
    type Error;
    /// Some of the next items, or the last one.
    async fn expose_items(&mut self) -> Result<Either<&[Self::Item], Self::Final>, Self::Error>;
    /// So many of them were used.
    async fn consider_produced(&mut self, amount: usize) -> Result<(), Self::Error>;
}

/// ufotofu: a sink of items.
pub trait BulkConsumer {
    /// What it takes.
    type Item;
    /// What can go wrong.
    type Error;
    /// Takes one.
    async fn consume(&mut self, item: Self::Item) -> Result<(), Self::Error>;
}

/// ufotofu_codec: whose fault it was.
#[derive(Debug, Clone, Copy, PartialEq, Eq)]
pub enum Blame {
    /// Ours.
    OurFault,
    /// Theirs.
    TheirFault,
}

/// ufotofu_codec: why decoding failed.
#[derive(Debug)]
pub enum DecodeError<F, E, O> {
    /// The producer failed.
    Producer(E),
    /// The input ended.
    UnexpectedEndOfInput(F),
    /// Another reason.
    Other(O),
}

impl<F, E, O> DecodeError<F, E, O> {
    /// The same with another type of reason.
    pub fn map_other_from<P: From<O>>(self) -> DecodeError<F, E, P> {
        match self {
            DecodeError::Producer(e) => DecodeError::Producer(e),
            DecodeError::UnexpectedEndOfInput(f) => DecodeError::UnexpectedEndOfInput(f),
            DecodeError::Other(o) => DecodeError::Other(o.into()),
        }
    }
}

impl<F, E, O> From<E> for DecodeError<F, E, O> {
    fn from(error: E) -> Self {
        DecodeError::Producer(error)
    }
}

/// ufotofu_codec: can be encoded.
pub trait Encodable {
    /// Encodes.
    async fn encode<C: BulkConsumer<Item = u8>>(&self, consumer: &mut C) -> Result<(), C::Error>;
}

/// ufotofu_codec: can be decoded.
pub trait Decodable: Sized {
    /// Why not.
    type ErrorReason;
    /// Decodes.
    async fn decode<P: BulkProducer<Item = u8>>(
        producer: &mut P,
    ) -> Result<Self, DecodeError<P::Final, P::Error, Self::ErrorReason>>;
}

/// ufotofu_codec: can be decoded from its one canonic encoding.
pub trait DecodableCanonic: Decodable {
    /// Why not.
    type ErrorCanonic;
    /// Decodes.
    async fn decode_canonic<P: BulkProducer<Item = u8>>(
        producer: &mut P,
    ) -> Result<Self, DecodeError<P::Final, P::Error, Self::ErrorCanonic>>;
}

/// ufotofu_codec: the length of the encoding is known.
pub trait EncodableKnownSize: Encodable {
    /// That length.
    fn len_of_encoding(&self) -> usize;
}

/// ufotofu_codec: encodes without waiting.
pub trait EncodableSync: Encodable {}

/// ufotofu_codec: decodes without waiting.
pub trait DecodableSync: Decodable {}

macro_rules! number {
    ($name:ident) => {
        /// A number with an encoding of its own.
        pub struct $name(pub u64);

        impl Encodable for $name {
            async fn encode<C: BulkConsumer<Item = u8>>(&self, _: &mut C) -> Result<(), C::Error> {
                unimplemented!()
            }
        }

        impl Decodable for $name {
            type ErrorReason = Blame;

            async fn decode<P: BulkProducer<Item = u8>>(
                _: &mut P,
            ) -> Result<Self, DecodeError<P::Final, P::Error, Blame>> {
                unimplemented!()
            }
        }

        impl DecodableCanonic for $name {
            type ErrorCanonic = Blame;

            async fn decode_canonic<P: BulkProducer<Item = u8>>(
                _: &mut P,
            ) -> Result<Self, DecodeError<P::Final, P::Error, Blame>> {
                unimplemented!()
            }
        }

        impl EncodableKnownSize for $name {
            fn len_of_encoding(&self) -> usize {
                unimplemented!()
            }
        }
    };
}

// ufotofu_codec_endian and compact_u64.
number!(U64BE);
number!(CompactU64);
