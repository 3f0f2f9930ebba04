//! The sizes and the places of fields of the structs, which scripts/try-library compares with C's:
//! it runs this test with --nocapture.

use rtmfp::sys::*;
use std::mem::{offset_of, size_of};

macro_rules! print_places {
    ($($name:ident: $($field:ident)*;)*) => {$(
        println!("{} {}", stringify!($name), size_of::<$name>());
        $(println!("{}.{} {}", stringify!($name), stringify!($field), offset_of!($name, $field));)*
    )*};
}

#[test]
fn places() {
    println!();
    print_places! {
        rtmfp_end: live_ held_;
        rtmfp_config: max_peers max_sessions introduces;
        rtmfp_draws: nonce tag token word;
        rtmfp_address: family origin port host;
        rtmfp_entry: kind near far code flow seq number k data len to peer ni nr;
    }
}
