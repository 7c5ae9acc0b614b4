//! Views, sequences and arrays by `serde`, in the form of `bitvec` 1: either reads what the other wrote.

use crate::index::MAX_BITS;
use crate::prelude::*;
use alloc::{format, string::String, vec::Vec};
use core::fmt;
use core::marker::PhantomData;
use serde::de::{Deserialize, Deserializer, Error, IgnoredAny, MapAccess, SeqAccess, Visitor};
use serde::ser::{Serialize, SerializeStruct, Serializer};

/// A struct that is written with its fields' names, and read by these or in their order: what serde's derive writes.
macro_rules! record {
    ($name:ident [$($element:ident)?] $text:literal, $count:literal { $($field:ident: $type:ty),* }) => {
        struct $name$(<$element>)? {
            $($field: $type),*
        }

        impl$(<$element: Serialize>)? Serialize for $name$(<$element>)? {
            fn serialize<S: Serializer>(&self, serializer: S) -> Result<S::Ok, S::Error> {
                let mut written = serializer.serialize_struct($text, $count)?;
                $(written.serialize_field(stringify!($field), &self.$field)?;)*
                written.end()
            }
        }

        impl<'de $(, $element: Deserialize<'de>)?> Deserialize<'de> for $name$(<$element>)? {
            fn deserialize<D: Deserializer<'de>>(deserializer: D) -> Result<Self, D::Error> {
                deserializer.deserialize_struct($text, &[$(stringify!($field)),*], Reader::<Self>(PhantomData))
            }
        }

        impl<'de $(, $element: Deserialize<'de>)?> Visitor<'de> for Reader<$name$(<$element>)?> {
            type Value = $name$(<$element>)?;

            fn expecting(&self, f: &mut fmt::Formatter<'_>) -> fmt::Result {
                f.write_str(concat!("a struct ", $text))
            }

            fn visit_seq<A: SeqAccess<'de>>(self, mut fields: A) -> Result<Self::Value, A::Error> {
                Ok($name { $($field: fields.next_element()?.ok_or_else(|| A::Error::missing_field(stringify!($field)))?),* })
            }

            fn visit_map<A: MapAccess<'de>>(self, mut fields: A) -> Result<Self::Value, A::Error> {
                $(let mut $field = None;)*
                while let Some(name) = fields.next_key::<String>()? {
                    match &*name {
                        $(stringify!($field) if $field.is_some() => return Err(A::Error::duplicate_field(stringify!($field))),
                        stringify!($field) => $field = Some(fields.next_value()?),)*
                        _ => drop(fields.next_value::<IgnoredAny>()?),
                    }
                }
                Ok($name { $($field: $field.ok_or_else(|| A::Error::missing_field(stringify!($field)))?),* })
            }
        }
    };
}

struct Reader<R>(PhantomData<R>);

record!(Head [] "BitIdx", 2 { width: u8, index: u8 });
record!(Seq [T] "BitSeq", 4 { order: String, head: Head, bits: u64, data: Vec<T> });

/// The path of an order, which is `bitvec`'s where that has one of its name.
fn path_of<O: BitOrder>() -> String {
    let path = core::any::type_name::<O>();
    match path.rsplit_once("::") {
        Some((home, name)) if home.starts_with("fehimbary::") => format!("bitvec::order::{name}"),
        _ => path.into(),
    }
}

impl<T: BitStore> Seq<T> {
    fn new<O: BitOrder>(bits: BitSlice<'_, T, O>) -> Self {
        let head = Head { width: T::BITS as u8, index: bits.window().start as u8 };
        Seq { order: path_of::<O>(), head, bits: bits.len() as u64, data: bits.domain().values().collect() }
    }

    /// The elements, and where the bits begin in them and how many there are. It is an error unless these are the elements that the
    /// bits touch.
    fn read<O: BitOrder, E: Error>(self) -> Result<(Vec<T>, usize, usize), E> {
        let (width, index) = (T::BITS as usize, usize::from(self.head.index));
        if self.order != path_of::<O>() {
            return Err(E::custom(format_args!("the order is {}, and not {}", self.order, path_of::<O>())));
        }
        if usize::from(self.head.width) != width {
            return Err(E::custom(format_args!("an element has {} bits, and not {width}", self.head.width)));
        }
        let end = if self.bits == 0 { 0 } else { index as u128 + u128::from(self.bits) };
        let held = width as u128 * self.data.len() as u128;
        if index >= width || held > MAX_BITS as u128 || end > held || held - end >= width as u128 {
            return Err(E::custom(format_args!("{} elements aren't those of {} bits from {index} on", self.data.len(), self.bits)));
        }
        Ok((self.data, if end == 0 { 0 } else { index }, self.bits as usize))
    }
}

macro_rules! serialized {
    ($([$($generic:tt)*] $kind:ty;)*) => {$(
        impl<$($generic)*> Serialize for $kind {
            fn serialize<S: Serializer>(&self, serializer: S) -> Result<S::Ok, S::Error> {
                Seq::new(crate::bits::Bits::bits(self)).serialize(serializer)
            }
        }
    )*};
}

serialized! {
    [T: BitStore + Serialize, O: BitOrder] BitSlice<'_, T, O>;
    [T: BitStore + Serialize, O: BitOrder] BitSliceMut<'_, T, O>;
    [T: BitStore + Serialize, O: BitOrder, A: crate::memory::Allocator] BitVec<T, O, A>;
    [T: BitStore + Serialize, O: BitOrder, const N: usize] BitArray<T, O, N>;
}

impl<'de, T: BitStore + Deserialize<'de>, O: BitOrder> Deserialize<'de> for BitVec<T, O> {
    fn deserialize<D: Deserializer<'de>>(deserializer: D) -> Result<Self, D::Error> {
        let (elements, head, len) = Seq::<T>::deserialize(deserializer)?.read::<O, D::Error>()?;
        Ok(BitVec::from_elements(elements.into(), head, len))
    }
}

impl<'de, T: BitStore + Deserialize<'de>, O: BitOrder, const N: usize> Deserialize<'de> for BitArray<T, O, N> {
    fn deserialize<D: Deserializer<'de>>(deserializer: D) -> Result<Self, D::Error> {
        let (elements, _, len) = Seq::<T>::deserialize(deserializer)?.read::<O, D::Error>()?;
        match <[T; N]>::try_from(elements) {
            Ok(elements) if len == N * T::BITS as usize => Ok(BitArray::new(elements)),
            _ => Err(D::Error::custom(format_args!("{len} bits aren't those of an array of {N} elements"))),
        }
    }
}
