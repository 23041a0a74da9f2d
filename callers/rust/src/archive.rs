//! The functions of the archive, as `callers/include/blidrosk.h` declares them; a caller's
//! duties stand there.

/// Number, place, count of vertices, count of indexes, and 1 where the drawing is closed; of a call
/// that is lent a [`Record`], count of segments in its stead.
pub type Numbers = [u32; 5];

/// Number, place, 1 for a connector, source segment, reason, and the rules at a span's two ends.
pub type WhyNumbers = [u32; 7];

/// Number, place, and where a part starts and how many segments it has.
pub type PartNumbers = [u32; 4];

/// Number, place, count of the vertices that differ, count of those that only one output has, and 1
/// where one is closed and the other open.
pub type CompareNumbers = [u32; 5];

/// `struct blidrosk_drawing`. It is opaque, and any contents are a record.
#[repr(C)]
#[derive(Clone, Copy, Debug)]
pub struct Record {
    pub numbers: [f64; 40],
    pub words: [u32; 16],
}

const _: () = assert!(size_of::<Record>() == 384);

unsafe extern "C" {
    pub fn blidrosk_raw_offset(
        source: *const f64,
        source_len: usize,
        closed: bool,
        offset: f64,
        eps: f64,
        vertices: *mut f64,
        vertices_len: usize,
        flags: *mut u8,
        flags_len: usize,
        indexes: *mut u32,
        indexes_len: usize,
        origins: *mut u32,
        origins_len: usize,
        answer: *mut Numbers,
    ) -> u32;

    pub fn blidrosk_raw_offset_pointed(
        source: *const f64,
        source_len: usize,
        closed: bool,
        offset: f64,
        eps: f64,
        ratio: f64,
        vertices: *mut f64,
        vertices_len: usize,
        flags: *mut u8,
        flags_len: usize,
        indexes: *mut u32,
        indexes_len: usize,
        origins: *mut u32,
        origins_len: usize,
        answer: *mut Numbers,
    ) -> u32;

    pub fn blidrosk_raw_offset_columns(
        xs: *const f64,
        xs_len: usize,
        ys: *const f64,
        ys_len: usize,
        bulges: *const f64,
        bulges_len: usize,
        closed: bool,
        offset: f64,
        eps: f64,
        out_xs: *mut f64,
        out_xs_len: usize,
        out_ys: *mut f64,
        out_ys_len: usize,
        out_bulges: *mut f64,
        out_bulges_len: usize,
        flags: *mut u8,
        flags_len: usize,
        indexes: *mut u32,
        indexes_len: usize,
        origins: *mut u32,
        origins_len: usize,
        answer: *mut Numbers,
    ) -> u32;

    pub fn blidrosk_raw_offset_columns_pointed(
        xs: *const f64,
        xs_len: usize,
        ys: *const f64,
        ys_len: usize,
        bulges: *const f64,
        bulges_len: usize,
        closed: bool,
        offset: f64,
        eps: f64,
        ratio: f64,
        out_xs: *mut f64,
        out_xs_len: usize,
        out_ys: *mut f64,
        out_ys_len: usize,
        out_bulges: *mut f64,
        out_bulges_len: usize,
        flags: *mut u8,
        flags_len: usize,
        indexes: *mut u32,
        indexes_len: usize,
        origins: *mut u32,
        origins_len: usize,
        answer: *mut Numbers,
    ) -> u32;

    pub fn blidrosk_why(
        source: *const f64,
        source_len: usize,
        closed: bool,
        offset: f64,
        eps: f64,
        segment: u32,
        answer: *mut WhyNumbers,
        params: *mut [f64; 2],
    ) -> u32;

    pub fn blidrosk_why_pointed(
        source: *const f64,
        source_len: usize,
        closed: bool,
        offset: f64,
        eps: f64,
        ratio: f64,
        segment: u32,
        answer: *mut WhyNumbers,
        params: *mut [f64; 2],
    ) -> u32;

    pub fn blidrosk_draw_start(
        drawing: *mut Record,
        offset: f64,
        eps: f64,
        answer: *mut Numbers,
    ) -> u32;

    pub fn blidrosk_draw_start_pointed(
        drawing: *mut Record,
        offset: f64,
        eps: f64,
        ratio: f64,
        answer: *mut Numbers,
    ) -> u32;

    pub fn blidrosk_draw_vertices(
        drawing: *mut Record,
        source: *const f64,
        source_len: usize,
        vertices: *mut f64,
        vertices_len: usize,
        flags: *mut u8,
        flags_len: usize,
        indexes: *mut u32,
        indexes_len: usize,
        origins: *mut u32,
        origins_len: usize,
        answer: *mut Numbers,
    ) -> u32;

    pub fn blidrosk_draw_end(
        drawing: *mut Record,
        vertices: *mut f64,
        vertices_len: usize,
        flags: *mut u8,
        flags_len: usize,
        indexes: *mut u32,
        indexes_len: usize,
        origins: *mut u32,
        origins_len: usize,
        answer: *mut Numbers,
    ) -> u32;

    pub fn blidrosk_part(
        n: u32,
        flags: *const u8,
        flags_len: usize,
        origins: *const u32,
        origins_len: usize,
        source_segment: u32,
        answer: *mut PartNumbers,
    ) -> u32;

    pub fn blidrosk_compare(
        a: *const f64,
        a_len: usize,
        a_closed: bool,
        a_flags: *const u8,
        a_flags_len: usize,
        b: *const f64,
        b_len: usize,
        b_closed: bool,
        b_flags: *const u8,
        b_flags_len: usize,
        numbers: *mut u32,
        numbers_len: usize,
        fields: *mut u8,
        fields_len: usize,
        answer: *mut CompareNumbers,
    ) -> u32;
}
