//! The types of the samples that aren't derived, since they have a shape without fields that isn't written as one without brackets.
ghost use Rattle.std.specs.Prelude.{[], ◌∷◌, ◌≡◌, ◌<◌, ◌^◌, IfSome, None, Some, codes, ⊤};
ghost use Rattle.rmp_decode.specs.Fields.{OfFields, NoField};
ghost use Rattle.rmp_decode.specs.Rows.{NoMore};
ghost use Rattle.rmp_decode.specs.Seq.{OfRow};
ghost use Rattle.rmp_decode.specs.Variants.{OfVariant, Case, NoCase, Content};
ghost use Rattle.rmp_encode.specs.Trees.{newtype_variant_of, structure_of, tuple_variant_of};
ghost use Rattle.samples.specs.declared.by_hand.VOpt.TheVariants as v_opt;

use rmp_serde::config::SerializerConfig;
use rmp_serde::decode::{self, Deserialize, Deserializer};
use rmp_serde::encode::{self, Serialize, Serializer};
use rmp_serde::wire::{ByteBuf, ReadSlice, Sink};

/// A struct that has no fields.
#[derive(Clone, Copy, Drop)]
pub struct Empty {}

/// Variants of which one is a tuple of nothing.
#[derive(Drop)]
pub enum VOpt {
    N(Option<u8>),
    B(ByteBuf),
    T0(),
    U(()),
    W(u8),
}

impl Serialize for Empty {
    ghost data_of = { λ _ _. structure_of [] };

    ghost is_value = { λ _. ⊤ };

    fn serialize<W: Sink, C: SerializerConfig>(
        &self,
        se: &mut Serializer<W, C>,
    ) -> Result<(), encode::Error> {
        se.serialize_struct("Empty", 0)?.end()
    }

    fn as_u8(&self, _human: bool) -> Option<u8> {
        None
    }
}

impl<'de, R: ReadSlice<'de>> Deserialize<'de, R> for Empty {
    ghost reads = { λ _ _ m _. OfFields [] NoField m };

    ghost absent = { None };

    fn deserialize<C: SerializerConfig>(
        de: &mut Deserializer<R, C>,
    ) -> Result<Empty, decode::Error> {
        let read: Result<(), decode::Error> = de.deserialize_fields(&[]);
        match read {
            Ok(()) => Ok(Empty {}),
            Err(e) => Err(e),
        }
    }

    fn missing() -> Option<Empty> {
        None
    }
}

impl Serialize for VOpt {
    ghost data_of = { λ v human. elim v [
      | v_opt.N n ↦ newtype_variant_of (codes "N") (⟦<Option<u8> as Serialize>⟧.data_of n human)
      | v_opt.B b ↦ newtype_variant_of (codes "B") (⟦<ByteBuf as Serialize>⟧.data_of b human)
      | v_opt.T0 ↦ tuple_variant_of (codes "T0") []
      | v_opt.U u ↦ newtype_variant_of (codes "U") (⟦<() as Serialize>⟧.data_of u human)
      | v_opt.W n ↦ newtype_variant_of (codes "W") (⟦<u8 as Serialize>⟧.data_of n human)
    ] };

    ghost is_value = { λ v. elim v [ v_opt.N n ↦ IfSome n (λ x. x < 2 ^ 8) | v_opt.B _ ↦ ⊤ | v_opt.T0 ↦ ⊤ | v_opt.U _ ↦ ⊤ | v_opt.W n ↦ n < 2 ^ 8 ] };

    fn serialize<W: Sink, C: SerializerConfig>(
        &self,
        se: &mut Serializer<W, C>,
    ) -> Result<(), encode::Error> {
        match self {
            VOpt::N(number) => se.serialize_newtype_variant("VOpt", 0, "N", number),
            VOpt::B(bytes) => se.serialize_newtype_variant("VOpt", 1, "B", bytes),
            VOpt::T0() => se.serialize_tuple_variant("VOpt", 2, "T0", 0)?.end(),
            VOpt::U(unit) => se.serialize_newtype_variant("VOpt", 3, "U", unit),
            VOpt::W(number) => se.serialize_newtype_variant("VOpt", 4, "W", number),
        }
    }

    fn as_u8(&self, _human: bool) -> Option<u8> {
        None
    }
}

impl<'de, R: ReadSlice<'de>> Deserialize<'de, R> for VOpt {
    ghost reads = { λ human lends m v. OfVariant (codes "N" ∷ (codes "B" ∷ (codes "T0" ∷ (codes "U" ∷ (codes "W" ∷ [])))))
        (Case (λ c. (n : _) × (v ≡ v_opt.N n) × Content (λ k. ⟦<Option<u8> as Deserialize<'de, R>>⟧.reads human lends k n) c)
        (Case (λ c. (b : _) × (v ≡ v_opt.B b) × Content (λ k. ⟦<ByteBuf as Deserialize<'de, R>>⟧.reads human lends k b) c)
        (Case (λ c. (v ≡ v_opt.T0) × Content (λ k. OfRow NoMore k) c)
        (Case (λ c. (u : _) × (v ≡ v_opt.U u) × Content (λ k. ⟦<() as Deserialize<'de, R>>⟧.reads human lends k u) c)
        (Case (λ c. (n : _) × (v ≡ v_opt.W n) × Content (λ k. ⟦<u8 as Deserialize<'de, R>>⟧.reads human lends k n) c) NoCase))))) m };

    ghost absent = { None };

    fn deserialize<C: SerializerConfig>(
        de: &mut Deserializer<R, C>,
    ) -> Result<VOpt, decode::Error> {
        match de.deserialize_enum(&["N", "B", "T0", "U", "W"])? {
            (0, variant) => Ok(VOpt::N(variant.newtype_variant()?)),
            (1, variant) => Ok(VOpt::B(variant.newtype_variant()?)),
            (2, variant) => {
                variant.tuple_variant(0)?.end()?;
                Ok(VOpt::T0())
            }
            (3, variant) => Ok(VOpt::U(variant.newtype_variant()?)),
            (_, variant) => Ok(VOpt::W(variant.newtype_variant()?)),
        }
    }

    fn missing() -> Option<VOpt> {
        None
    }
}
