//! Fields to and from bytes: numbers little-endian, one after another, without padding.

/// A field, or several in their order.
pub(crate) trait Field: Sized {
    /// Adds its bytes.
    fn write(&self, bytes: &mut Vec<u8>);

    /// Takes it from the front of the bytes; none where they are too few.
    fn read(bytes: &mut &[u8]) -> Option<Self>;
}

/// The values that a field can have, and its bytes.
#[derive(Clone, Copy)]
pub(crate) struct Width {
    pub low: i64,
    pub high: i64,
    pub bytes: usize,
}

/// A field that is one number.
pub(crate) trait Number: Field {
    const WIDTH: Width;
}

macro_rules! numbers {
    ($($number:ident)+) => {$(
        impl Field for $number {
            fn write(&self, bytes: &mut Vec<u8>) {
                bytes.extend_from_slice(&self.to_le_bytes());
            }

            fn read(bytes: &mut &[u8]) -> Option<Self> {
                let (first, rest) = bytes.split_first_chunk()?;
                *bytes = rest;
                Some($number::from_le_bytes(*first))
            }
        }

        impl Number for $number {
            const WIDTH: Width = Width {
                low: $number::MIN as i64,
                high: $number::MAX as i64,
                bytes: size_of::<$number>(),
            };
        }
    )+};
}

numbers! { u8 u16 u32 i32 }

impl<F: Field> Field for [F; 2] {
    fn write(&self, bytes: &mut Vec<u8>) {
        self.iter().for_each(|field| field.write(bytes));
    }

    fn read(bytes: &mut &[u8]) -> Option<Self> {
        Some([F::read(bytes)?, F::read(bytes)?])
    }
}

/// A last field that may be left out.
impl<F: Field> Field for Option<F> {
    fn write(&self, bytes: &mut Vec<u8>) {
        self.iter().for_each(|field| field.write(bytes));
    }

    fn read(bytes: &mut &[u8]) -> Option<Self> {
        match bytes.is_empty() {
            true => Some(None),
            false => F::read(bytes).map(Some),
        }
    }
}

/// A struct whose bytes are those of its fields in their order.
macro_rules! fields {
    ($(
        $(#[$doc:meta])*
        $name:ident { $($(#[$field_doc:meta])* $field:ident: $type:ty,)+ }
    )+) => {$(
        $(#[$doc])*
        #[derive(Clone, Copy, Debug, PartialEq, Eq)]
        pub struct $name {
            $($(#[$field_doc])* pub $field: $type,)+
        }

        impl $crate::fields::Field for $name {
            fn write(&self, bytes: &mut Vec<u8>) {
                $($crate::fields::Field::write(&self.$field, bytes);)+
            }

            fn read(bytes: &mut &[u8]) -> Option<Self> {
                Some($name { $($field: $crate::fields::Field::read(bytes)?,)+ })
            }
        }
    )+};
}

/// Adds a message or record: its length, its kind, its fields.
pub(crate) fn frame(kind: u16, fields: &impl Field, bytes: &mut Vec<u8>) {
    let from = bytes.len();
    bytes.extend_from_slice(&[0; 2]);
    kind.write(bytes);
    fields.write(bytes);
    let length = (bytes.len() - from) as u16;
    bytes[from..from + 2].copy_from_slice(&length.to_le_bytes());
}
