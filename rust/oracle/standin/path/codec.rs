// Stand-in for path/codec.rs, which is not supplied. Encodings are no part of what is compared: these have the shapes that
// path/mod.rs and entry.rs ask for, and none of them is ever called.

use crate::path::Path;
use crate::standin::{
    Blame, BulkConsumer, BulkProducer, Decodable, DecodableCanonic, DecodableSync, DecodeError,
    Encodable, EncodableKnownSize, EncodableSync,
};

pub fn encode_path_extends_path() {}
pub fn decode_path_extends_path() {}
pub fn decode_path_extends_path_canonic() {}
pub fn path_extends_path_encoding_len() {}

impl<const MCL: usize, const MCC: usize, const MPL: usize> Encodable for Path<MCL, MCC, MPL> {
    async fn encode<C: BulkConsumer<Item = u8>>(&self, _consumer: &mut C) -> Result<(), C::Error> {
        unimplemented!()
    }
}

impl<const MCL: usize, const MCC: usize, const MPL: usize> Decodable for Path<MCL, MCC, MPL> {
    type ErrorReason = Blame;

    async fn decode<P: BulkProducer<Item = u8>>(
        _producer: &mut P,
    ) -> Result<Self, DecodeError<P::Final, P::Error, Blame>> {
        unimplemented!()
    }
}

impl<const MCL: usize, const MCC: usize, const MPL: usize> DecodableCanonic
    for Path<MCL, MCC, MPL>
{
    type ErrorCanonic = Blame;

    async fn decode_canonic<P: BulkProducer<Item = u8>>(
        _producer: &mut P,
    ) -> Result<Self, DecodeError<P::Final, P::Error, Blame>> {
        unimplemented!()
    }
}

impl<const MCL: usize, const MCC: usize, const MPL: usize> EncodableKnownSize
    for Path<MCL, MCC, MPL>
{
    fn len_of_encoding(&self) -> usize {
        unimplemented!()
    }
}

impl<const MCL: usize, const MCC: usize, const MPL: usize> EncodableSync for Path<MCL, MCC, MPL> {}
impl<const MCL: usize, const MCC: usize, const MPL: usize> DecodableSync for Path<MCL, MCC, MPL> {}
