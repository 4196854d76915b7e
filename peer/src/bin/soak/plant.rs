//! Calls with a fault on purpose: they show that memcheck sees what the entries do with lent memory.

use peer::archive::c;
use std::alloc::{alloc, Layout};

/// A heap block that nothing was stored in.
fn block(len: usize) -> *mut u8 {
    // SAFETY: the length is not 0. It is never freed; the program ends.
    unsafe { alloc(Layout::array::<u8>(len).expect("a few bytes")) }
}

/// Only under valgrind: a length is a byte more than its block has, or the bytes are not set.
pub fn call(fault: &str) {
    let (values, packed) = (block(127), block(112));
    // SAFETY: it is wrong on purpose. An allocator leaves room for a byte more.
    let answer = unsafe {
        match fault {
            "unset" => c::gridprofile_unpack_values(packed, 112, values, 127),
            "overread" | "overwrite" => {
                values.write_bytes(7, 127);
                let (more, more_packed) = if fault == "overread" { (1, 0) } else { (0, 1) };
                c::gridprofile_shake128(values, 127 + more, packed, 112 + more_packed);
                0
            }
            _ => panic!("{fault}: no such fault"),
        }
    };
    println!("answer {answer}");
}
