//! The kinds of macroblocks and the prediction modes by name. A [`Record`](crate::Record) holds their numbers.

macro_rules! numbered {
    ($($(#[$doc:meta])* $name:ident { $($(#[$about:meta])* $case:ident = $number:literal,)* })*) => {$(
        $(#[$doc])*
        #[derive(Clone, Copy, Debug, PartialEq, Eq, PartialOrd, Ord, Hash)]
        #[repr(u8)]
        pub enum $name {
            $($(#[$about])* $case = $number,)*
        }

        impl $name {
            /// Every case, in the order of its number.
            pub const ALL: &'static [$name] = &[$($name::$case,)*];

            /// The number by which records and calls name it.
            pub const fn number(self) -> u8 {
                self as u8
            }

            /// The case that has this number, or `None` where the number is unknown.
            pub fn from_number(number: u8) -> Option<$name> {
                $name::ALL.get(number as usize).copied()
            }
        }

        impl From<$name> for u8 {
            fn from(case: $name) -> u8 {
                case.number()
            }
        }
    )*};
}

numbered! {
    /// How the luma of a macroblock is predicted.
    Kind {
        /// Sixteen 4x4 blocks, each with a mode of its own.
        Luma4x4 = 0,
        /// Four 8x8 blocks, each with a mode of its own.
        Luma8x8 = 1,
        /// One 16x16 block.
        Luma16x16 = 2,
    }

    /// The modes of 4x4 and 8x8 luma blocks (Tables 8-2 and 8-3).
    LumaMode {
        /// Needs above.
        Vertical = 0,
        /// Needs left.
        Horizontal = 1,
        /// Needs nothing.
        Dc = 2,
        /// Needs above.
        DiagonalDownLeft = 3,
        /// Needs above, left and corner.
        DiagonalDownRight = 4,
        /// Needs above, left and corner.
        VerticalRight = 5,
        /// Needs above, left and corner.
        HorizontalDown = 6,
        /// Needs above.
        VerticalLeft = 7,
        /// Needs left.
        HorizontalUp = 8,
    }

    /// The modes of 16x16 luma blocks (Table 8-4).
    Luma16x16Mode {
        /// Needs above.
        Vertical = 0,
        /// Needs left.
        Horizontal = 1,
        /// Needs nothing.
        Dc = 2,
        /// Needs above, left and corner.
        Plane = 3,
    }

    /// The modes of chroma blocks (Table 8-5). Their order is another one than that of luma.
    ChromaMode {
        /// Needs nothing.
        Dc = 0,
        /// Needs left.
        Horizontal = 1,
        /// Needs above.
        Vertical = 2,
        /// Needs above, left and corner.
        Plane = 3,
    }
}

impl LumaMode {
    /// The mode that predicts the transposed block where the block is [turned on its side](crate::turned), or `None`.
    pub const fn partner(self) -> Option<LumaMode> {
        match self {
            LumaMode::Vertical => Some(LumaMode::Horizontal),
            LumaMode::Horizontal => Some(LumaMode::Vertical),
            LumaMode::VerticalRight => Some(LumaMode::HorizontalDown),
            LumaMode::HorizontalDown => Some(LumaMode::VerticalRight),
            LumaMode::Dc | LumaMode::DiagonalDownRight => Some(self),
            LumaMode::DiagonalDownLeft | LumaMode::VerticalLeft | LumaMode::HorizontalUp => None,
        }
    }
}
