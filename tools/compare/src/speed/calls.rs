//! The calls that the archives and the hand-tuned version both have.

#[cfg(feature = "archives")]
use crate::archive;
use crate::call::Reply;
use crate::tuned;
use std::hint::black_box;

/// Those of the hand-tuned version are called by their address, as a function of
/// an archive is, and not copied into the loop.
macro_rules! calls {
    ($($name:ident($($argument:ident: $kind:ty),*);)*) => {
        // from_raw is the name of a call.
        #[allow(clippy::wrong_self_convention)]
        pub trait Calls: Copy {
            $(fn $name(&self, $($argument: $kind),*) -> Reply;)*
        }

        #[derive(Clone, Copy)]
        pub struct Tuned {
            $($name: fn($($kind),*) -> Reply,)*
        }

        impl Tuned {
            pub fn new() -> Tuned {
                Tuned { $($name: black_box(tuned::$name),)* }
            }
        }

        impl Calls for Tuned {
            $(#[inline(always)]
            fn $name(&self, $($argument: $kind),*) -> Reply {
                (self.$name)($($argument),*)
            })*
        }

        #[cfg(feature = "archives")]
        #[derive(Clone, Copy)]
        pub struct Archives;

        #[cfg(feature = "archives")]
        impl Calls for Archives {
            $(#[inline(always)]
            fn $name(&self, $($argument: $kind),*) -> Reply {
                archive::$name($($argument),*)
            })*
        }
    };
}

calls! {
    strip(text: &[u8], out: &mut [u8]);
    tone_letter(text: &[u8]);
    nfd(text: &[u8], out: &mut [u8]);
    nfc(text: &[u8], out: &mut [u8]);
    from_raw(keys: &[u8], out: &mut [u8]);
    compose(raw: &[u8], body: &[u8], tone: u64, khin: u64, out: &mut [u8]);
    candidate(text: &[u8], position: u64, out: &mut [u8]);
    keying(entry: &[u8], kind: u64, position: u64, out: &mut [u8]);
    telex(text: &[u8], key: u64, mode: u64, keys: &[u8; 7], out: &mut [u8]);
    align(keys: &[u8], target: &[u8], out: &mut [u8]);
    listing(entry: &[u8], from: u64, out: &mut [u8]);
}
