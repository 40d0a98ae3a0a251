//! The library's search: `fb_lookups` of the crate `lookups`, made by `rt lib` there.

extern "C" {
    fn fb_lookups(table: *const u8, table_len: usize, points: *const i32, count: usize, m: u8) -> u64;
}

/// How many of the points a, b, a, b, .. of depth m the table holds.
pub fn held(table: &[u8], points: &[i32], m: u8) -> u64 {
    unsafe { fb_lookups(table.as_ptr(), table.len(), points.as_ptr(), points.len(), m) }
}
