//! Prints what places.c prints, as the Rust compiler has it of ffi.rs; and builds only where each struct there has the header's fields and
//! no more, each of its type, each call takes and hands back what the header says, and each size is there. `rows.rs` is made of the header
//! by rows.awk.
#![allow(dead_code, non_camel_case_types)]

mod ffi;

use std::mem::{offset_of, size_of};

type uint8_t = u8;
type uint32_t = u32;
type uint64_t = u64;
type size_t = usize;
type _Bool = bool;

macro_rules! declared {
    (
        $(struct $name:ident = $of:ident { $($field:ident: $type:ty,)* })*
        $(fn $call:ident($($taken:ty,)*) -> $back:ty;)*
        $(size $named:ident = $number:ident;)*
    ) => {
        $(type $name = ffi::$of;)*
        $(const _: fn($name) = |$name { $($field),* }| { $(let _: $type = $field;)* };)*
        $(const _: unsafe extern "C" fn($($taken),*) -> $back = ffi::$call;)*

        fn main() {
            $(println!("{} = {}", stringify!($named), ffi::$number);)*
            $(
                let places = [$(format!("{} {}", stringify!($field), offset_of!($name, $field))),*];
                let size = size_of::<$name>();
                println!("| `{}` | {size} | {} |", stringify!($name), places.join(", "));
            )*
        }
    };
}

include!("rows.rs");
