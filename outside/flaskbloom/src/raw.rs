//! The C interface, to the letter of include/flaskbloom.h. Use the safe calls of this crate instead, unless you compare bytes.

extern "C" {
    pub fn fb_normalise(a: i32, b: i32, m: u8, point: *mut i32) -> u8;
    pub fn fb_star(a: i32, b: i32, m: u8, d: u8, k: u8, n: u8, points: *mut i32) -> u8;
    pub fn fb_base(table: *mut u8, table_len: usize, centres: *const i32, count: usize, place: *mut u64) -> u8;
    pub fn fb_subdivide(table: *mut u8, table_len: usize, a: i32, b: i32, m: u8) -> u8;
    pub fn fb_subdivide_all(table: *mut u8, table_len: usize, points: *const i32, count: usize, done: *mut u64) -> u8;
    pub fn fb_bring_to_six(table: *mut u8, table_len: usize, scratch: *mut u8, scratch_len: usize, a: i32, b: i32, m: u8) -> u8;
    pub fn fb_refine_disc(
        table: *mut u8,
        table_len: usize,
        scratch: *mut u8,
        scratch_len: usize,
        x: f64,
        y: f64,
        radius: f64,
        passes: u8,
        level: u8,
        done: *mut u64,
    ) -> u8;
    pub fn fb_refine_line(
        table: *mut u8,
        table_len: usize,
        scratch: *mut u8,
        scratch_len: usize,
        p: f64,
        q: f64,
        s: f64,
        passes: u8,
        level: u8,
        done: *mut u64,
    ) -> u8;
    pub fn fb_neighbours(table: *const u8, table_len: usize, a: i32, b: i32, m: u8, points: *mut i32) -> u8;
    pub fn fb_faces(table: *const u8, table_len: usize, a: i32, b: i32, m: u8, points: *mut i32) -> u8;
    pub fn fb_neighbours_all(table: *const u8, table_len: usize, points: *const i32, count: usize, answers: *mut i32, room: usize) -> u8;
    pub fn fb_faces_all(table: *const u8, table_len: usize, points: *const i32, count: usize, answers: *mut i32, room: usize) -> u8;
    pub fn fb_vertex(
        centres: *const i32,
        count: usize,
        pairs: *const i32,
        pair_count: usize,
        a: i32,
        b: i32,
        m: u8,
        record: *mut i32,
    ) -> u8;
    pub fn fb_vertices(
        centres: *const i32,
        count: usize,
        pairs: *const i32,
        pair_count: usize,
        points: *const i32,
        point_count: usize,
        records: *mut i32,
        room: usize,
    ) -> u8;
    pub fn fb_write_full(table: *const u8, table_len: usize, out: *mut u8, out_len: usize, written: *mut u64) -> u8;
    pub fn fb_write_reduced(table: *const u8, table_len: usize, out: *mut u8, out_len: usize, written: *mut u64) -> u8;
    pub fn fb_read_full(
        table: *mut u8,
        table_len: usize,
        scratch: *mut u8,
        scratch_len: usize,
        file: *const u8,
        file_len: usize,
        line: *mut u64,
    ) -> u8;
    pub fn fb_read_reduced(
        table: *mut u8,
        table_len: usize,
        scratch: *mut u8,
        scratch_len: usize,
        file: *const u8,
        file_len: usize,
        line: *mut u64,
    ) -> u8;
    pub fn fb_census(
        input: *const u8,
        input_len: usize,
        table: *mut u8,
        table_len: usize,
        scratch: *mut u8,
        scratch_len: usize,
        out: *mut u8,
        out_len: usize,
        written: *mut u64,
    ) -> u8;
    pub fn fb_counts(table: *const u8, table_len: usize, numbers: *mut u32) -> u8;
    pub fn fb_findings(
        table: *const u8,
        table_len: usize,
        list: *const u8,
        list_len: usize,
        out: *mut u8,
        out_len: usize,
        line: *mut u64,
        written: *mut u64,
    ) -> u8;
    pub fn fb_write_off(table: *const u8, table_len: usize, out: *mut u8, out_len: usize, written: *mut u64) -> u8;
    pub fn fb_write_obj(table: *const u8, table_len: usize, out: *mut u8, out_len: usize, written: *mut u64) -> u8;
    pub fn fb_salvage(
        table: *mut u8,
        table_len: usize,
        scratch: *mut u8,
        scratch_len: usize,
        file: *const u8,
        file_len: usize,
        out: *mut u8,
        out_len: usize,
        changes: *mut u8,
        changes_len: usize,
        written: *mut u64,
        changed: *mut u64,
    ) -> u8;
}
