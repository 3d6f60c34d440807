//! Lists of named things, each with its words, for counting.

/// Declares an enum of named things: all of them in order, and their words.
#[macro_export]
macro_rules! named {
    ($(#[$about:meta])* $type:ident { $($name:ident $words:literal,)* }) => {
        $(#[$about])*
        #[derive(Clone, Copy, Debug, PartialEq, Eq)]
        #[allow(missing_docs)]
        pub enum $type { $($name,)* }

        impl $type {
            /// All of them, in the order in which they are declared.
            pub const ALL: &'static [$type] = &[$($type::$name,)*];

            /// What it is, in words.
            pub fn words(self) -> &'static str {
                match self { $($type::$name => $words,)* }
            }
        }
    };
}
