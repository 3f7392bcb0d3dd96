//! What is used of bitflags 2.
#[macro_export]
macro_rules! bitflags {
    ($(
        $(#[$outer:meta])*
        $vis:vis struct $name:ident: $bits:ty {
            $($(#[$inner:meta])* const $flag:ident = $value:expr;)*
        }
    )*) => {$(
        $(#[$outer])*
        $vis struct $name($bits);

        #[allow(dead_code)]
        impl $name {
            $($(#[$inner])* pub const $flag: Self = Self($value);)*

            pub const fn bits(&self) -> $bits {
                self.0
            }

            pub const fn from_bits_retain(bits: $bits) -> Self {
                Self(bits)
            }

            pub const fn contains(&self, other: Self) -> bool {
                self.0 & other.0 == other.0
            }
        }

        impl ::std::ops::BitOr for $name {
            type Output = Self;
            fn bitor(self, other: Self) -> Self {
                Self(self.0 | other.0)
            }
        }

        impl ::std::ops::BitAnd for $name {
            type Output = Self;
            fn bitand(self, other: Self) -> Self {
                Self(self.0 & other.0)
            }
        }
    )*};
}
