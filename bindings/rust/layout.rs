//! Prints each struct of the binding and where its fields stand, as tests/layout.c prints those of the header.
#[allow(dead_code)]
#[path = "src/raw.rs"]
mod raw;

use raw::*;
use std::mem::{offset_of, size_of};

macro_rules! layout {
    ($name:literal, $type:ty: $($field:ident)*) => {
        println!("{} {}", $name, size_of::<$type>());
        $(println!("{}.{} {}", $name, stringify!($field), offset_of!($type, $field));)*
    };
}

fn main() {
    layout!("vp_fields", Fields: kind number lo hi p q mode words);
    layout!("vp_counted", Counted: refused place count);
    layout!("vp_found", Found: refused place fields);
    layout!("vp_worked", Worked: refused place word steps exact);
    layout!("vp_shown", Shown: refused place value steps exact);
    layout!("vp_ends", Ends: refused place low high);
    layout!("vp_written", Written: refused place length);
}
