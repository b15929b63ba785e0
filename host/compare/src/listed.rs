//! A list of names, each written once: an enum, and all of its values in order.

macro_rules! listed {
    ($(#[$about:meta])* $list:ident: $($name:ident),*) => {
        $(#[$about])*
        #[derive(Clone, Copy, Debug, PartialEq, Eq)]
        pub enum $list {
            $($name),*
        }

        impl $list {
            pub const ALL: &'static [$list] = &[$($list::$name),*];
        }
    };
}
