//! Stand-in of `bitflags` 2: the same form of declaration, and of the operations those that are called.

#[macro_export]
macro_rules! bitflags {
    ($($(#[$outer:meta])* $vis:vis struct $Name:ident: $Bits:ty {
        $($(#[$inner:meta])* const $Flag:ident = $value:expr;)*
    })*) => { $(
        $(#[$outer])*
        $vis struct $Name($Bits);

        #[allow(non_upper_case_globals, dead_code)]
        impl $Name {
            $($(#[$inner])* pub const $Flag: Self = Self($value);)*

            #[inline]
            pub const fn empty() -> Self {
                Self(0)
            }

            #[inline]
            pub const fn bits(&self) -> $Bits {
                self.0
            }

            #[inline]
            pub const fn from_bits_retain(bits: $Bits) -> Self {
                Self(bits)
            }

            #[inline]
            pub const fn is_empty(&self) -> bool {
                self.0 == 0
            }

            #[inline]
            pub const fn contains(&self, other: Self) -> bool {
                self.0 & other.0 == other.0
            }

            #[inline]
            pub const fn intersects(&self, other: Self) -> bool {
                self.0 & other.0 != 0
            }

            #[inline]
            pub fn insert(&mut self, other: Self) {
                self.0 |= other.0;
            }

            #[inline]
            pub fn set(&mut self, other: Self, value: bool) {
                if value {
                    self.0 |= other.0;
                } else {
                    self.0 &= !other.0;
                }
            }
        }

        impl ::core::ops::BitOr for $Name {
            type Output = Self;

            #[inline]
            fn bitor(self, other: Self) -> Self {
                Self(self.0 | other.0)
            }
        }

        impl ::core::ops::BitOrAssign for $Name {
            #[inline]
            fn bitor_assign(&mut self, other: Self) {
                self.0 |= other.0;
            }
        }
    )* };
}
