//! Stands in for the crate `bincode_next`, as far as the Rust uses it: integers of fixed width in either order of bytes,
//! one after the other without gaps; a Vec's length comes first, as 8 bytes.
pub use bincode_next_derive::{Decode, Encode};
use std::io::{Read, Write};

pub mod config {
    use std::marker::PhantomData;
    #[derive(Clone, Copy)]
    pub struct LittleEndian;
    #[derive(Clone, Copy)]
    pub struct BigEndian;
    #[derive(Clone, Copy)]
    pub struct Fixint;
    #[derive(Clone, Copy)]
    pub struct NoLimit;
    #[derive(Clone, Copy)]
    pub struct SkipBitPacking;
    #[derive(Clone, Copy)]
    pub struct LsbFirst;
    #[derive(Clone, Copy)]
    pub struct MsbFirst;
    #[derive(Clone, Copy)]
    pub struct Configuration<E = LittleEndian, I = Fixint, L = NoLimit, P = SkipBitPacking, O = LsbFirst>(PhantomData<(E, I, L, P, O)>);

    pub const fn standard() -> Configuration {
        Configuration(PhantomData)
    }
    impl Configuration {
        pub const fn with_fixed_int_encoding(self) -> Configuration {
            self
        }
        pub const fn with_little_endian(self) -> Configuration {
            self
        }
        pub const fn with_big_endian(self) -> Configuration<BigEndian, Fixint, NoLimit, SkipBitPacking, MsbFirst> {
            Configuration(PhantomData)
        }
    }
    pub trait Config {
        const BIG: bool;
    }
    impl<I, L, P, O> Config for Configuration<LittleEndian, I, L, P, O> {
        const BIG: bool = false;
    }
    impl<I, L, P, O> Config for Configuration<BigEndian, I, L, P, O> {
        const BIG: bool = true;
    }
}

pub mod error {
    #[derive(Debug)]
    pub struct DecodeError;
    #[derive(Debug)]
    pub struct EncodeError;
}

pub mod de {
    pub trait Decoder {
        type Context;
        /// The next bytes, as a little-endian number has them.
        fn take(&mut self, bytes: &mut [u8]) -> Result<(), crate::error::DecodeError>;
    }
}

pub mod enc {
    pub trait Encoder {
        /// A little-endian number's bytes.
        fn put(&mut self, bytes: &mut [u8]);
    }
}

use de::Decoder;
use enc::Encoder;
use error::{DecodeError, EncodeError};

pub trait Decode<C>: Sized {
    fn decode<D: Decoder<Context = C>>(d: &mut D) -> Result<Self, DecodeError>;
}
pub trait Encode {
    fn encode<E: Encoder>(&self, e: &mut E) -> Result<(), EncodeError>;
}

macro_rules! integers {
    ($($t:ty)*) => { $(
        impl<C> Decode<C> for $t {
            fn decode<D: Decoder<Context = C>>(d: &mut D) -> Result<Self, DecodeError> {
                let mut bytes = [0; size_of::<$t>()];
                d.take(&mut bytes)?;
                Ok(<$t>::from_le_bytes(bytes))
            }
        }
        impl Encode for $t {
            fn encode<E: Encoder>(&self, e: &mut E) -> Result<(), EncodeError> {
                e.put(&mut self.to_le_bytes());
                Ok(())
            }
        }
    )* };
}
integers!(u8 i8 u16 i16 u32 i32 u64 i64 usize);

impl<C, T: Decode<C>, const N: usize> Decode<C> for [T; N] {
    fn decode<D: Decoder<Context = C>>(d: &mut D) -> Result<Self, DecodeError> {
        let all: Result<Vec<T>, _> = (0..N).map(|_| T::decode(d)).collect();
        all?.try_into().map_err(|_| DecodeError)
    }
}
impl<T: Encode, const N: usize> Encode for [T; N] {
    fn encode<E: Encoder>(&self, e: &mut E) -> Result<(), EncodeError> {
        self.iter().try_for_each(|x| x.encode(e))
    }
}
impl<T: Encode> Encode for Vec<T> {
    fn encode<E: Encoder>(&self, e: &mut E) -> Result<(), EncodeError> {
        (self.len() as u64).encode(e)?;
        self.iter().try_for_each(|x| x.encode(e))
    }
}
impl<T: Encode> Encode for &T {
    fn encode<E: Encoder>(&self, e: &mut E) -> Result<(), EncodeError> {
        (*self).encode(e)
    }
}

struct Source<'a, R> {
    from: &'a mut R,
    big: bool,
}
impl<R: Read> Decoder for Source<'_, R> {
    type Context = ();
    fn take(&mut self, bytes: &mut [u8]) -> Result<(), DecodeError> {
        self.from.read_exact(bytes).map_err(|_| DecodeError)?;
        if self.big {
            bytes.reverse();
        }
        Ok(())
    }
}

struct Gathered {
    bytes: Vec<u8>,
    big: bool,
}
impl Encoder for Gathered {
    fn put(&mut self, bytes: &mut [u8]) {
        if self.big {
            bytes.reverse();
        }
        self.bytes.extend_from_slice(bytes);
    }
}

pub fn decode_from_std_read<T: Decode<()>, C: config::Config, R: Read>(from: &mut R, _: C) -> Result<T, DecodeError> {
    T::decode(&mut Source { from, big: C::BIG })
}

pub fn encode_into_std_write<T: Encode, C: config::Config, W: Write>(x: T, to: &mut W, _: C) -> Result<usize, EncodeError> {
    let mut all = Gathered { bytes: Vec::with_capacity(2048), big: C::BIG };
    x.encode(&mut all)?;
    to.write_all(&all.bytes).map_err(|_| EncodeError)?;
    Ok(all.bytes.len())
}
