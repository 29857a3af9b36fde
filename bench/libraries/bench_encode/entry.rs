//! A tuple struct.
ghost use Rattle.std.specs.Prelude.{◌<◌, ◌^◌, ◌∷◌, [], Some, pos, IsUtf8, string_bytes, false};
ghost use Rattle.rmp_encode.specs.Data.{text, whole};
ghost use Rattle.rmp_encode.specs.Trees.{sequence_of};

use rmp_encode::{Error, Serialize, Serializer};
use rmp_wire::Sink;
use rmp_wire::config::SerializerConfig;

/// A text and a number.
#[derive(Drop)]
pub struct Entry(pub String, pub u16);

impl Serialize for Entry {
    ghost data_of = { λ v _. sequence_of (Some (text (string_bytes v.0)) ∷ (Some (whole (pos v.1)) ∷ [])) };

    ghost is_value = { λ v. IsUtf8 (string_bytes v.0) × (v.1 < 2 ^ 16) };

    ghost takes_memory = { λ _. false };

    fn serialize<W: Sink, C: SerializerConfig>(
        &self,
        se: &mut Serializer<W, C>,
    ) -> Result<(), Error> {
        let mut parts = se.serialize_tuple_struct("Entry", 2)?;
        parts.serialize_element(&self.0)?;
        parts.serialize_element(&self.1)?;
        parts.end()
    }

    #[tactic(auto, using(rmp_encode::proofs::Lists::sequence_no_byte))]
    fn as_u8(&self, _human: bool) -> Option<u8> {
        None
    }
}
