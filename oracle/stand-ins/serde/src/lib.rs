//! Stand-in for serde: just enough for `mod serde_discrim_size` of types.rs to compile. Never run.
pub trait Serialize {
    fn serialize<S: Serializer>(&self, serializer: S) -> Result<S::Ok, S::Error>;
}

pub trait Serializer {
    type Ok;
    type Error;
    fn serialize_u32(self, value: u32) -> Result<Self::Ok, Self::Error>;
}

pub trait Deserialize<'de>: Sized {
    fn deserialize<D: Deserializer<'de>>(deserializer: D) -> Result<Self, D::Error>;
}

pub trait Deserializer<'de> {
    type Error: de::Error;
    fn deserialize_u32(self) -> Result<u32, Self::Error>;
}

impl Serialize for u32 {
    fn serialize<S: Serializer>(&self, serializer: S) -> Result<S::Ok, S::Error> {
        serializer.serialize_u32(*self)
    }
}

impl<'de> Deserialize<'de> for u32 {
    fn deserialize<D: Deserializer<'de>>(deserializer: D) -> Result<Self, D::Error> {
        deserializer.deserialize_u32()
    }
}

pub mod de {
    pub trait Error {
        fn custom<T: core::fmt::Display>(message: T) -> Self;
    }
}
