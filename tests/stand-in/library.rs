//! Stand-in for the product's library, built from the second implementation: tries the hook by which it is linked.

/// # Safety
/// `records` and `out` are valid for `length` and `room` bytes.
#[no_mangle]
pub unsafe extern "C" fn gristpebble_listing(records: *const u8, length: usize, out: *mut u8, room: usize) -> u64 {
    let printed = reference::profiler(std::slice::from_raw_parts(records, length));
    if let Some(number) = printed.strip_prefix(b"X ") {
        return std::str::from_utf8(number).unwrap().trim().parse::<u64>().unwrap() << 32;
    }
    std::slice::from_raw_parts_mut(out, room)[..printed.len()].copy_from_slice(&printed);
    printed.len() as u64
}
