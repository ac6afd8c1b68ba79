//! Enums whose cases say in words what they are.

/// `described! { Name { Case: "words", } }`: the enum, every case in order, and
/// the words of each.
#[macro_export]
macro_rules! described {
    ($(#[$note:meta])* $name:ident { $($case:ident: $description:literal,)+ }) => {
        $(#[$note])*
        #[derive(Clone, Copy, Debug, PartialEq, Eq)]
        pub enum $name {
            $(#[doc = $description] $case,)+
        }

        impl $name {
            /// Every case, in their order.
            pub const EVERY: &'static [$name] = &[$($name::$case,)+];

            pub fn description(self) -> &'static str {
                match self {
                    $($name::$case => $description,)+
                }
            }
        }
    };
}
