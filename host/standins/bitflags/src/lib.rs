//! Stand-in for bitflags 2: the operations that registers.rs and its users name.
//! Bits without a name are kept by every operation, as bitflags 2 keeps them: sr is any word.

#[macro_export]
macro_rules! bitflags {
    (
        $(#[$attribute:meta])*
        $vis:vis struct $Name:ident: $Bits:ty {
            $(const $Flag:ident = $value:expr;)*
        }
    ) => {
        $(#[$attribute])*
        $vis struct $Name($Bits);

        impl $Name {
            $(pub const $Flag: Self = Self($value);)*

            pub const fn bits(&self) -> $Bits {
                self.0
            }

            pub const fn from_bits_retain(bits: $Bits) -> Self {
                Self(bits)
            }

            pub const fn contains(&self, other: Self) -> bool {
                self.0 & other.0 == other.0
            }

            pub fn set(&mut self, other: Self, value: bool) {
                if value {
                    self.0 |= other.0;
                } else {
                    self.0 &= !other.0;
                }
            }
        }
    };
}
