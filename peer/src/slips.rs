//! This file holds the declaration of a request's slips: each is named once, and the list of all of them follows.

macro_rules! slips {
    (pub enum $name:ident, all as $all:ident { $($(#[$meaning:meta])* $slip:ident,)* }) => {
        #[derive(Clone, Copy, PartialEq, Eq, Debug)]
        pub enum $name {
            $($(#[$meaning])* $slip,)*
        }

        pub const $all: [$name; [$($name::$slip),*].len()] = [$($name::$slip),*];
    };
}
