//! A message that is passed over.
ghost use Rattle.std.specs.Prelude.{false, None, Some, ⊤};
ghost use Rattle.rmp_decode.specs.Skip.{any_tree};
ghost use Rattle.rmp_encode.specs.Data.{unit};

use rmp_serde::config::SerializerConfig;
use rmp_serde::decode::{self, Deserialize, Deserializer};
use rmp_serde::encode::{self, Serialize, Serializer};
use rmp_serde::wire::{ReadSlice, Sink};

/// A message of any kind, of which nothing is kept. It is written as nil.
#[derive(Clone, Copy, Drop)]
pub struct Ignored;

impl<'de, R: ReadSlice<'de>> Deserialize<'de, R> for Ignored {
    ghost reads = { λ human lends m v. any_tree m tt };

    ghost absent = { None };

    fn deserialize<C: SerializerConfig>(
        de: &mut Deserializer<R, C>,
    ) -> Result<Ignored, decode::Error> {
        match de.deserialize_ignored_any() {
            Ok(()) => Ok(Ignored),
            Err(e) => Err(e),
        }
    }

    fn missing() -> Option<Ignored> {
        None
    }
}

impl Serialize for Ignored {
    ghost data_of = { λ v _. Some unit };

    ghost is_value = { λ v. ⊤ };

    ghost takes_memory = { λ _. false };

    fn serialize<W: Sink, C: SerializerConfig>(
        &self,
        se: &mut Serializer<W, C>,
    ) -> Result<(), encode::Error> {
        se.serialize_unit()
    }

    fn as_u8(&self, _human: bool) -> Option<u8> {
        None
    }
}
