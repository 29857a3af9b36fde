//! What a serializer is wrapped in.
use rmp_serde::config::{
    DefaultConfig, HumanReadableConfig, SerializerConfig, StructMapConfig, StructTupleConfig,
};
use rmp_serde::encode::Serializer;
use rmp_serde::wire::Sink;

/// What a serializer is wrapped in, as a type, so that a value is compiled for those alone in which it is written.
pub trait Form {
    type Config: SerializerConfig;

    fn of<W: Sink>(se: Serializer<W>) -> Serializer<W, Self::Config>;
}

pub struct Plain;

pub struct Named;

/// Named, and then unnamed again.
pub struct NamedTuple;

/// Unnamed, and then named.
pub struct TupleNamed;

pub struct Human;

impl Form for Plain {
    type Config = DefaultConfig;

    fn of<W: Sink>(se: Serializer<W>) -> Serializer<W> {
        se
    }
}

impl Form for Named {
    type Config = StructMapConfig<DefaultConfig>;

    fn of<W: Sink>(se: Serializer<W>) -> Serializer<W, StructMapConfig<DefaultConfig>> {
        se.with_struct_map()
    }
}

impl Form for NamedTuple {
    type Config = StructTupleConfig<StructMapConfig<DefaultConfig>>;

    fn of<W: Sink>(
        se: Serializer<W>,
    ) -> Serializer<W, StructTupleConfig<StructMapConfig<DefaultConfig>>> {
        se.with_struct_map().with_struct_tuple()
    }
}

impl Form for TupleNamed {
    type Config = StructMapConfig<StructTupleConfig<DefaultConfig>>;

    fn of<W: Sink>(
        se: Serializer<W>,
    ) -> Serializer<W, StructMapConfig<StructTupleConfig<DefaultConfig>>> {
        se.with_struct_tuple().with_struct_map()
    }
}

impl Form for Human {
    type Config = HumanReadableConfig<DefaultConfig>;

    fn of<W: Sink>(se: Serializer<W>) -> Serializer<W, HumanReadableConfig<DefaultConfig>> {
        se.with_human_readable()
    }
}
