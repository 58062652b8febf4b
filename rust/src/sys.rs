//! The library's C functions, as `include/jiwarbend.h` documents them. `scripts/signatures` holds the two side by side.
//!
//! # Safety
//!
//! Every function takes any numbers. A pointer with a length behind it is a slice's: it is not null, also where the length is 0, it is aligned,
//! and as many elements stand behind it. What a call writes overlaps nothing else that the same call is lent, and nobody else reads or writes
//! it during the call.

/// How far a picture has come: the number of accepted macroblocks and the address of the last one. The same memory as the header's
/// `struct jiwarbend_progress`.
#[repr(C)]
#[derive(Clone, Copy, Debug, Default, PartialEq, Eq)]
pub struct Progress {
    pub count: u32,
    pub last: u32,
}

extern "C" {
    pub fn jiwarbend_start(w: u32, h: u32, done: *mut u8, done_len: usize, progress: *mut Progress) -> u32;
    pub fn jiwarbend_rebuild(
        w: u32,
        h: u32,
        x: u32,
        y: u32,
        luma: *mut u8,
        luma_len: usize,
        luma_stride: usize,
        cb: *mut u8,
        cb_len: usize,
        cb_stride: usize,
        cr: *mut u8,
        cr_len: usize,
        cr_stride: usize,
        done: *mut u8,
        done_len: usize,
        slices: *const u16,
        slices_len: usize,
        progress: *mut Progress,
        kind: u8,
        modes: *const u8,
        modes_len: usize,
        chroma_mode: u8,
        numbers: *const i32,
        numbers_len: usize,
    ) -> u32;
    pub fn jiwarbend_compute(
        w: u32,
        h: u32,
        x: u32,
        y: u32,
        luma: *const u8,
        luma_len: usize,
        luma_stride: usize,
        cb: *const u8,
        cb_len: usize,
        cb_stride: usize,
        cr: *const u8,
        cr_len: usize,
        cr_stride: usize,
        done: *const u8,
        done_len: usize,
        slices: *const u16,
        slices_len: usize,
        progress: *const Progress,
        kind: u8,
        modes: *const u8,
        modes_len: usize,
        chroma_mode: u8,
        numbers: *const i32,
        numbers_len: usize,
        block: *mut u8,
        block_len: usize,
    ) -> u32;
    pub fn jiwarbend_commit(
        w: u32,
        h: u32,
        x: u32,
        y: u32,
        luma: *mut u8,
        luma_len: usize,
        luma_stride: usize,
        cb: *mut u8,
        cb_len: usize,
        cb_stride: usize,
        cr: *mut u8,
        cr_len: usize,
        cr_stride: usize,
        done: *mut u8,
        done_len: usize,
        slices: *const u16,
        slices_len: usize,
        progress: *mut Progress,
        block: *const u8,
        block_len: usize,
    ) -> u32;
    pub fn jiwarbend_count_rows(w: u32, h: u32, done: *const u8, done_len: usize, rows: *mut u32, rows_len: usize) -> u32;
    pub fn jiwarbend_turn(
        w: u32,
        h: u32,
        done: *const u8,
        done_len: usize,
        slices: *const u16,
        slices_len: usize,
        rows: *const u32,
        rows_len: usize,
        list: *mut u32,
        list_len: usize,
        how_many: *mut u32,
    ) -> u32;
    pub fn jiwarbend_turns(w: u32, h: u32, slices: *const u16, slices_len: usize, turns: *mut u32) -> u32;
    pub fn jiwarbend_check_order(
        w: u32,
        h: u32,
        slices: *const u16,
        slices_len: usize,
        order: *const u32,
        order_len: usize,
        verdict: *mut u32,
    ) -> u32;
    pub fn jiwarbend_out_of_place(
        w: u32,
        h: u32,
        slices: *const u16,
        slices_len: usize,
        order: *const u32,
        order_len: usize,
        place: *mut u32,
    ) -> u32;

    pub fn jiwarbend_clip_u8(v: i32) -> u8;
    pub fn jiwarbend_chroma_qp(qp: u8) -> u8;
    pub fn jiwarbend_nc_from_neighbors(has_a: bool, a: u8, has_b: bool, b: u8) -> i32;
    pub fn jiwarbend_nnz_raster_from_z(n: *const u8, n_len: usize, out: *mut u8, out_len: usize) -> u32;

    pub fn jiwarbend_permitted_4x4(avail_top: bool, avail_left: bool, avail_corner: bool) -> u16;
    pub fn jiwarbend_permitted_8x8(avail_top: bool, avail_left: bool, avail_corner: bool) -> u16;
    pub fn jiwarbend_permitted_16x16(avail_top: bool, avail_left: bool, avail_corner: bool) -> u16;
    pub fn jiwarbend_permitted_chroma(avail_top: bool, avail_left: bool, avail_corner: bool) -> u16;
    pub fn jiwarbend_reads_4x4(mode: u8, avail_top: bool, avail_left: bool, avail_corner: bool, avail_right: bool) -> u8;
    pub fn jiwarbend_reads_8x8(mode: u8, avail_top: bool, avail_left: bool, avail_corner: bool, avail_right: bool) -> u8;
    pub fn jiwarbend_reads_16x16(mode: u8, avail_top: bool, avail_left: bool, avail_corner: bool) -> u8;
    pub fn jiwarbend_reads_chroma(mode: u8, avail_top: bool, avail_left: bool, avail_corner: bool) -> u8;

    pub fn jiwarbend_intra4x4_pred(
        mode: u8,
        avail_top: bool,
        avail_left: bool,
        avail_corner: bool,
        top: *const u8,
        top_len: usize,
        left: *const u8,
        left_len: usize,
        corner: u8,
        out: *mut u8,
        out_len: usize,
    ) -> u32;
    pub fn jiwarbend_intra8x8_pred(
        mode: u8,
        avail_top: bool,
        avail_left: bool,
        avail_corner: bool,
        top: *const u8,
        top_len: usize,
        left: *const u8,
        left_len: usize,
        corner: u8,
        out: *mut u8,
        out_len: usize,
    ) -> u32;
    pub fn jiwarbend_luma16x16_pred(
        mode: u8,
        avail_top: bool,
        avail_left: bool,
        avail_corner: bool,
        top: *const u8,
        top_len: usize,
        left: *const u8,
        left_len: usize,
        corner: u8,
        out: *mut u8,
        out_len: usize,
    ) -> u32;
    pub fn jiwarbend_chroma8x8_pred(
        mode: u8,
        avail_top: bool,
        avail_left: bool,
        avail_corner: bool,
        top: *const u8,
        top_len: usize,
        left: *const u8,
        left_len: usize,
        corner: u8,
        out: *mut u8,
        out_len: usize,
    ) -> u32;
    pub fn jiwarbend_luma16x16_dc(
        avail_top: bool,
        avail_left: bool,
        top: *const u8,
        top_len: usize,
        left: *const u8,
        left_len: usize,
        out: *mut u8,
        out_len: usize,
    ) -> u32;
    pub fn jiwarbend_chroma8x8_dc(
        avail_top: bool,
        avail_left: bool,
        top: *const u8,
        top_len: usize,
        left: *const u8,
        left_len: usize,
        out: *mut u8,
        out_len: usize,
    ) -> u32;
    pub fn jiwarbend_i16x16_luma_pred(
        mode: u8,
        pred: *mut u8,
        pred_len: usize,
        rec: *const u8,
        rec_len: usize,
        base: usize,
        stride: usize,
    ) -> u32;
    pub fn jiwarbend_chroma8x8_plane_pred(
        mode: u8,
        pred: *mut u8,
        pred_len: usize,
        rec: *const u8,
        rec_len: usize,
        base: usize,
        stride: usize,
    ) -> u32;

    pub fn jiwarbend_inverse_4x4(deq: *const i32, deq_len: usize, out: *mut i32, out_len: usize) -> u32;
    pub fn jiwarbend_inverse_8x8(deq: *const i32, deq_len: usize, out: *mut i32, out_len: usize) -> u32;
    pub fn jiwarbend_reconstruct_4x4(
        deq: *const i32,
        deq_len: usize,
        pred: *const i32,
        pred_len: usize,
        out: *mut u8,
        out_len: usize,
    ) -> u32;
    pub fn jiwarbend_add_residual_4x4(
        res: *const i32,
        res_len: usize,
        pred: *const i32,
        pred_len: usize,
        out: *mut u8,
        out_len: usize,
    ) -> u32;
    pub fn jiwarbend_add_residual_8x8(
        res: *const i32,
        res_len: usize,
        pred: *const i32,
        pred_len: usize,
        out: *mut u8,
        out_len: usize,
    ) -> u32;
    pub fn jiwarbend_reconstruct_4x4_into(
        deq: *const i32,
        deq_len: usize,
        pred: *const u8,
        pred_len: usize,
        p_off: usize,
        p_stride: usize,
        rec: *mut u8,
        rec_len: usize,
        r_off: usize,
        r_stride: usize,
    ) -> u32;
    pub fn jiwarbend_reconstruct_4x4_dc_into(
        rval: i32,
        pred: *const u8,
        pred_len: usize,
        p_off: usize,
        p_stride: usize,
        rec: *mut u8,
        rec_len: usize,
        r_off: usize,
        r_stride: usize,
    ) -> u32;
    pub fn jiwarbend_add_residual_4x4_into(
        res: *const i32,
        res_len: usize,
        pred: *const u8,
        pred_len: usize,
        p_off: usize,
        p_stride: usize,
        rec: *mut u8,
        rec_len: usize,
        r_off: usize,
        r_stride: usize,
    ) -> u32;
}
