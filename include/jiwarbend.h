/* Jiwarbend: H.264 intra pictures (8-bit, 4:2:0, progressive), rebuilt macroblock by macroblock and in any order.

   Every function takes any numbers and lists of any length, and ends. One that can refuse answers 0, or the first number that applies in the order
   1, 2, 3, 4, 6, 7, 5, 8, 9, 13:

     1  the picture's width is not 1..120 macroblocks, or its height not 1..68
     2  a stride, plane, map, list or count breaks the rules below, or a block's rows leave its buffer
     3  the macroblock lies outside the picture
     4  the macroblock is done
     5  an available neighbour macroblock that holds samples which a used mode reads where it stands is not done: offer it again later
     6  the kind or a mode is unknown, or an unused mode is not 0
     7  a used mode needs samples that are not available where it stands
     8  a number lies outside -32768..32767, or the inverse transform of a block of coefficients leaves the range that the standard demands of 8-bit
        samples: a value that 8.5.12.2 or 8.5.13.2 names lies outside -32768..32767, or above 32735 after the columns
     9  the row counts or the turn list have another length than the picture has rows, or a row count disagrees with the done map: count anew
    13  the list of an order is not w * h long, or names an address outside the picture

   No call answers 10, 11 or 12. A refused call writes nothing. Later versions may give further numbers: take an unknown one as a refusal.

   Memory. A list is a pointer and the number of its elements; the pointer is not null, also where the number is 0, and has the alignment of its
   element. What a call writes overlaps nothing else that the same call is lent. The library keeps nothing between two calls and takes no memory
   of its own but the stack: on x86-64 some 17 KB in jiwarbend_check_order and jiwarbend_out_of_place, and less than 4 KB in
   the others.

   Threads. A call reads and writes what it is lent and nothing else, takes no lock, and expects that nobody else writes what it is lent or reads what it
   writes before it has returned. So different pictures go side by side, and one picture under a lock for readers and writers:

     as readers, side by side   jiwarbend_compute, jiwarbend_count_rows and jiwarbend_turn: maps, planes and progress are only read; each thread has a block,
                                and rows, list and how_many, of its own
     as a writer, alone         jiwarbend_start, jiwarbend_rebuild and jiwarbend_commit
     without a lock             jiwarbend_turns, jiwarbend_check_order and jiwarbend_out_of_place: they read the slice map and the list of an order, which no
                                call writes; each thread has a number of its own

   Two threads that write one picture at the same time can leave its count wrong. Where there is no lock, give each picture to one thread.

   Left out. Deblocking (a stream with the loop filter on gives other samples until it is applied), I_PCM macroblocks, entropy decoding,
   dequantisation, constrained intra prediction, field coding, prediction between pictures, other sample depths and chroma formats.

   Assumed. That pointers and lengths describe memory that is the caller's, as above; that the definitions which the library is proved against
   say what ITU-T H.264 says; the checker, and the compiler's back end. Nothing is assumed of the numbers or of the order of calls.

   Link with libjiwarbend.a, and with no other library: cc program.c $(pkg-config --cflags --libs jiwarbend). */
#ifndef JIWARBEND_H
#define JIWARBEND_H

#define JIWARBEND_VERSION_MAJOR 0
#define JIWARBEND_VERSION_MINOR 8
#define JIWARBEND_VERSION_PATCH 0

#include <stdbool.h>
#include <stddef.h>
#include <stdint.h>

#ifdef __cplusplus
extern "C" {
#endif

enum jiwarbend_answer {
    JIWARBEND_OK = 0,
    JIWARBEND_SIZE = 1,
    JIWARBEND_ROOM = 2,
    JIWARBEND_PLACE = 3,
    JIWARBEND_DONE = 4,
    JIWARBEND_NOT_READY = 5,
    JIWARBEND_UNKNOWN = 6,
    JIWARBEND_NOT_PERMITTED = 7,
    JIWARBEND_RANGE = 8,
    JIWARBEND_ROWS = 9,
    JIWARBEND_ORDER = 13
};

/* The kinds of macroblocks, and the modes of luma 4x4 and 8x8, luma 16x16 and chroma blocks. */
enum jiwarbend_kind { JIWARBEND_KIND_4X4 = 0, JIWARBEND_KIND_8X8 = 1, JIWARBEND_KIND_16X16 = 2 };

enum jiwarbend_luma_mode {
    JIWARBEND_LUMA_VERTICAL = 0,
    JIWARBEND_LUMA_HORIZONTAL = 1,
    JIWARBEND_LUMA_DC = 2,
    JIWARBEND_LUMA_DIAGONAL_DOWN_LEFT = 3,
    JIWARBEND_LUMA_DIAGONAL_DOWN_RIGHT = 4,
    JIWARBEND_LUMA_VERTICAL_RIGHT = 5,
    JIWARBEND_LUMA_HORIZONTAL_DOWN = 6,
    JIWARBEND_LUMA_VERTICAL_LEFT = 7,
    JIWARBEND_LUMA_HORIZONTAL_UP = 8
};

enum jiwarbend_16x16_mode {
    JIWARBEND_16X16_VERTICAL = 0,
    JIWARBEND_16X16_HORIZONTAL = 1,
    JIWARBEND_16X16_DC = 2,
    JIWARBEND_16X16_PLANE = 3
};

enum jiwarbend_chroma_mode {
    JIWARBEND_CHROMA_DC = 0,
    JIWARBEND_CHROMA_HORIZONTAL = 1,
    JIWARBEND_CHROMA_VERTICAL = 2,
    JIWARBEND_CHROMA_PLANE = 3
};

/* ---- pictures */

/* How far a picture has come: the number of accepted macroblocks and the address, y * w + x, of the last one. */
struct jiwarbend_progress {
    uint32_t count, last;
};

/* Starts a picture of w by h macroblocks: 0 over the done map, which has w * h bytes, and over the progress. Answers 0, 1, or 2 for the
   map's length. */
uint32_t jiwarbend_start(uint32_t w, uint32_t h, uint8_t *done, size_t done_len, struct jiwarbend_progress *progress);

/* Rebuilds the macroblock in column x and row y. Accepted, its samples stand in the three planes, its byte of the done map is 1, and the
   progress has its address and counts one more. When all have been accepted, each with its own record and in any order, the planes hold
   what decoding in raster order by ITU-T H.264 gives; bytes between and after the rows are never written.

   What comes for one slice, or stays away, changes no sample, no done byte and no answer of another one; the progress counts the macroblocks of all slices.

   It waits (5) for the available neighbours that hold what its record reads (jiwarbend_reads_4x4 and the three beside it): each used luma mode in the
   place of its block, and the chroma mode. Where luma 16x16 and chroma are both vertical, that is the neighbour above alone.

   luma, cb, cr   16w by 16h, 8w by 8h and 8w by 8h samples. A stride is at least the width and at most 4096; a plane has at least
                  (height - 1) * stride + width bytes.
   done           w * h bytes; 1 is done, anything else undone.
   slices         w * h slice numbers, any of them. A neighbour is available where it lies in the picture and has the same number.
   progress       its count is at most w * h.
   kind           0 for 4x4, 1 for 8x8, 2 for 16x16 luma prediction.
   modes          16 luma modes: kind 0 uses all, in scan order, kind 1 the first four, kind 2 the first; the others are 0.
   chroma_mode    0 DC, 1 horizontal, 2 vertical, 3 plane.
   numbers        384 dequantised coefficients: luma 256, Cb 64, Cr 64. Luma of kinds 0 and 2: sixteen blocks of 16 in scan order; of kind 1:
                  four blocks of 64 in raster order. Chroma: four blocks of 16 each, in raster order. Inside a block coefficients are in
                  raster order. docs/RECORDS.md draws the scan and works an example. No block's transform leaves its range (8), which no
                  conforming stream breaks. */
uint32_t jiwarbend_rebuild(uint32_t w, uint32_t h, uint32_t x, uint32_t y,
    uint8_t *luma, size_t luma_len, size_t luma_stride, uint8_t *cb, size_t cb_len, size_t cb_stride, uint8_t *cr, size_t cr_len, size_t cr_stride,
    uint8_t *done, size_t done_len, const uint16_t *slices, size_t slices_len, struct jiwarbend_progress *progress,
    uint8_t kind, const uint8_t *modes, size_t modes_len, uint8_t chroma_mode, const int32_t *numbers, size_t numbers_len);

/* The work of jiwarbend_rebuild in two calls, for several cores on one picture: jiwarbend_compute reads, jiwarbend_commit writes.

   jiwarbend_compute puts the macroblock's new samples into the block: luma 256, Cb 64, Cr 64, each in raster order. Planes, maps and progress are only read,
   so that several threads can compute macroblocks of one picture side by side. Answers what jiwarbend_rebuild would, and 2 for a block_len other than 384
   as well; refused, it leaves the block as it was.

   A result stays right while others are committed, as long as its macroblock is undone and the picture is not started anew: compute and forget, compute twice
   or commit late, nothing has to be taken back. */
uint32_t jiwarbend_compute(uint32_t w, uint32_t h, uint32_t x, uint32_t y,
    const uint8_t *luma, size_t luma_len, size_t luma_stride, const uint8_t *cb, size_t cb_len, size_t cb_stride,
    const uint8_t *cr, size_t cr_len, size_t cr_stride,
    const uint8_t *done, size_t done_len, const uint16_t *slices, size_t slices_len, const struct jiwarbend_progress *progress,
    uint8_t kind, const uint8_t *modes, size_t modes_len, uint8_t chroma_mode, const int32_t *numbers, size_t numbers_len,
    uint8_t *block, size_t block_len);

/* Copies a block that jiwarbend_compute has made for this macroblock since the start into the planes, marks the macroblock done and counts it, as
   jiwarbend_rebuild does. Answers 0, 1, 2, also for a block_len other than 384, 3, or 4 where somebody else was faster, and nothing else: what the macroblock
   waits for was done when it was computed. So a result of an undone macroblock is never refused.

   Compute and commit in the same state are jiwarbend_rebuild. Any mixture of computes, commits and whole calls, by any number of threads, ends as decoding in
   raster order does, and the count is that of the done map. The call trusts its block: other bytes than those of jiwarbend_compute for this macroblock, this
   picture and this start stand in the planes as they are, and what is predicted from them is wrong too. */
uint32_t jiwarbend_commit(uint32_t w, uint32_t h, uint32_t x, uint32_t y,
    uint8_t *luma, size_t luma_len, size_t luma_stride, uint8_t *cb, size_t cb_len, size_t cb_stride, uint8_t *cr, size_t cr_len, size_t cr_stride,
    uint8_t *done, size_t done_len, const uint16_t *slices, size_t slices_len, struct jiwarbend_progress *progress,
    const uint8_t *block, size_t block_len);

/* Brings the row counts of a picture into agreement with its done map: rows[y] becomes the number of macroblocks of row y that are done from the left
   without a gap, w where the whole row is done. The map is only read. rows has h numbers, which may hold anything before. Answers 0, 1, 2 for the
   map's length, or 9 for the length of rows. jiwarbend_rebuild neither takes nor reads the counts: count anew after calls, and before asking for a turn. */
uint32_t jiwarbend_count_rows(uint32_t w, uint32_t h, const uint8_t *done, size_t done_len, uint32_t *rows, size_t rows_len);

/* Lists the macroblocks that idle cores may take next, a turn: of each row, from the top down, the leftmost undone macroblock if all its available
   neighbours are done: A to the left, B above, C above and to the right, D above and to the left. Their addresses, y * w + x, stand in the list from the
   front on, and how_many is how many there are; the places beyond keep what they held. Maps and counts are only read. Answers 0, 1, 2 for the length of
   a map, or 9 for the length of rows or list, which have h numbers each, or for a count that disagrees with the done map.

   The macroblocks of a turn, offered with acceptable records and in any order, meet no refusal, and leave the same planes, done map and count and the
   same next turn. Two of them are in different rows, and neither reads what the other writes. While a macroblock is undone a turn is never empty, so no
   core stands still for good. After jiwarbend_count_rows the counts are never refused; a count one behind or one ahead always is.

   So several cores can compute the macroblocks of a turn side by side, and commit them one at a time. Nothing is
   claimed: a macroblock stands in every turn until it is done, and one that is abandoned needs nothing taken back. A turn waits for all four neighbours,
   since it sees no record; jiwarbend_rebuild may accept a macroblock earlier. It is shared by all slices: the later macroblocks of a row are not listed
   while an earlier one of the row is undone, also one of another slice. Where a slice is lost for good, the first undone macroblock of each other slice,
   by address, still never has to wait. */
uint32_t jiwarbend_turn(uint32_t w, uint32_t h, const uint8_t *done, size_t done_len, const uint16_t *slices, size_t slices_len,
    const uint32_t *rows, size_t rows_len, uint32_t *list, size_t list_len, uint32_t *how_many);

/* Counts the turns of a whole picture: how often jiwarbend_turn lists one, from a done map with nothing done until all is done, where all that is listed is
   accepted each time. Size and slice map tell it, so that it can be asked before there is a done map; the map is only read. Answers 0, 1, or 2 for the
   map's length. It takes some w * h steps at most.

   Proved: so many turns finish the picture and no fewer do, whoever takes their macroblocks and in whatever order. Whatever the slices are, there are at least
   w and at most w + 2 * (h - 1) turns, and so at most 254; in one slice exactly that many, or h where w is 1. 3 by 2 macroblocks in one slice take 5 turns.

   When is row y done? A macroblock is done in turn 1 + the latest among the turns of the macroblock to its left, of whatever slice that is, and of its
   available neighbours B, C and D; where it has none of these, in turn 1. A row is done with its last macroblock, and the picture with the latest row: in
   one slice of two columns or more, row y is done with turn w + 2 * y. This is proved too. So w * h / turns is how many cores have work on average. */
uint32_t jiwarbend_turns(uint32_t w, uint32_t h, const uint16_t *slices, size_t slices_len, uint32_t *turns);

/* Checks an order for a whole picture, such as a partner's scheduler sends it: a list of w * h addresses, y * w + x. The verdict becomes 1, yes, where the
   list names every macroblock once and each after all its available neighbours A, B, C and D; else it becomes 0, no. Size, slice map and list tell it, so
   that it can be asked before the start; map and list are only read. Answers 0, 1, 2 for the map's length, or 13 for a list of another length than w * h or
   with an address of w * h or more.

   Yes: replayed from a start through jiwarbend_rebuild, each macroblock with an acceptable record, the list meets no refusal and finishes the picture.

   No: a replay may still meet no refusal, since the check sees no modes and a macroblock waits only for the neighbours that its record reads. Where each
   record reads from every available neighbour the replay meets one, and where the list names a macroblock twice it always does.

   The verdict is about a whole picture from its start. Whatever the slices, raster order passes, and so do the macroblocks of one turn after the other, those
   of a turn in any order, and the diagonals x + y one after the other, each from its top right end down to the left. From the bottom left up they do not, in
   one slice of two columns and two rows or more: their second entry is (0, 1), and its neighbour C, (1, 0), is the third. */
uint32_t jiwarbend_check_order(uint32_t w, uint32_t h, const uint16_t *slices, size_t slices_len, const uint32_t *order, size_t order_len,
    uint32_t *verdict);

/* Tells where an order goes wrong: place becomes the index in the list, from 0, of the first entry that is out of place, and w * h where none is, which is
   where jiwarbend_check_order says yes. An entry is in place if its macroblock is not named by an entry before it and each of its available neighbours
   is. Answers as jiwarbend_check_order does. */
uint32_t jiwarbend_out_of_place(uint32_t w, uint32_t h, const uint16_t *slices, size_t slices_len, const uint32_t *order, size_t order_len,
    uint32_t *place);

/* ---- prediction of one block (clause 8.3)

   The marks say which samples beside the block are available; those of an absent side are not read. The answers are 0, 2 for a list of
   another length than the one given here, 6 and 7.

   For tests: a luma 4x4 or 8x8 case turned on its side gives another. Exchange left with the first 4 (8) samples of top, and avail_left with
   avail_top; the mode's partner then answers the same, and its block has rows and columns exchanged. Vertical and horizontal are partners,
   vertical-right and horizontal-down too, DC and diagonal down-right their own; the other three modes have none. The last 4 (8) samples of top
   may be any; but where top is available to an 8x8 case, before the exchange or after it, top[8] must equal top[7]. */

/* Luma 4x4, modes 0..8: top 8, left 4, out 16. top[4..7] are the samples above and to the right, or the last one above repeated. */
uint32_t jiwarbend_intra4x4_pred(uint8_t mode, bool avail_top, bool avail_left, bool avail_corner, const uint8_t *top, size_t top_len,
    const uint8_t *left, size_t left_len, uint8_t corner, uint8_t *out, size_t out_len);

/* Luma 8x8, modes 0..8, neighbours filtered first: top 16, left 8, out 64. top[8..15] as above. */
uint32_t jiwarbend_intra8x8_pred(uint8_t mode, bool avail_top, bool avail_left, bool avail_corner, const uint8_t *top, size_t top_len,
    const uint8_t *left, size_t left_len, uint8_t corner, uint8_t *out, size_t out_len);

/* Luma 16x16, modes 0..3 (vertical, horizontal, DC, plane): top 16, left 16, out 256. */
uint32_t jiwarbend_luma16x16_pred(uint8_t mode, bool avail_top, bool avail_left, bool avail_corner, const uint8_t *top, size_t top_len,
    const uint8_t *left, size_t left_len, uint8_t corner, uint8_t *out, size_t out_len);

/* Chroma 8x8, modes 0..3 (DC, horizontal, vertical, plane): top 8, left 8, out 64. */
uint32_t jiwarbend_chroma8x8_pred(uint8_t mode, bool avail_top, bool avail_left, bool avail_corner, const uint8_t *top, size_t top_len,
    const uint8_t *left, size_t left_len, uint8_t corner, uint8_t *out, size_t out_len);

/* DC alone, which no marks refuse. The one sample that fills a luma 16x16 block: top 16, left 16, out 1. */
uint32_t jiwarbend_luma16x16_dc(bool avail_top, bool avail_left, const uint8_t *top, size_t top_len, const uint8_t *left, size_t left_len,
    uint8_t *out, size_t out_len);

/* A chroma 8x8 block: top 8, left 8, out 64. */
uint32_t jiwarbend_chroma8x8_dc(bool avail_top, bool avail_left, const uint8_t *top, size_t top_len, const uint8_t *left, size_t left_len,
    uint8_t *out, size_t out_len);

/* Luma 16x16, modes 0..3, from the samples around place base of a plane, both neighbours there, into the first 256 bytes of pred; those
   beyond keep what they held. 2 unless the stride is 1..4096, corner, above row and left column lie in rec, and pred has 256 bytes. */
uint32_t jiwarbend_i16x16_luma_pred(uint8_t mode, uint8_t *pred, size_t pred_len, const uint8_t *rec, size_t rec_len, size_t base, size_t stride);

/* Chroma 8x8, modes 2 and 3, in the same way, into the first 64 bytes of pred. */
uint32_t jiwarbend_chroma8x8_plane_pred(uint8_t mode, uint8_t *pred, size_t pred_len, const uint8_t *rec, size_t rec_len, size_t base, size_t stride);

/* The modes that the marks permit: bit m for mode m, other bits 0. */
uint16_t jiwarbend_permitted_4x4(bool avail_top, bool avail_left, bool avail_corner);
uint16_t jiwarbend_permitted_8x8(bool avail_top, bool avail_left, bool avail_corner);
uint16_t jiwarbend_permitted_16x16(bool avail_top, bool avail_left, bool avail_corner);
uint16_t jiwarbend_permitted_chroma(bool avail_top, bool avail_left, bool avail_corner);

/* The groups of neighbour samples that a mode reads where the marks stand so: 1 above, 2 left, 4 corner and 8 above-right, added up; 0 for a mode
   that is unknown or not permitted. A permitted mode reads a group exactly when two neighbourhoods with these marks that differ in the samples of
   this group alone can give different predictions. The filter of an 8x8 block counts: mode 0 reads above-right there if it is available, mode 6
   never does. Where above is available and above-right is not, the last sample above is repeated, and counts as above. */
uint8_t jiwarbend_reads_4x4(uint8_t mode, bool avail_top, bool avail_left, bool avail_corner, bool avail_right);
uint8_t jiwarbend_reads_8x8(uint8_t mode, bool avail_top, bool avail_left, bool avail_corner, bool avail_right);
uint8_t jiwarbend_reads_16x16(uint8_t mode, bool avail_top, bool avail_left, bool avail_corner);
uint8_t jiwarbend_reads_chroma(uint8_t mode, bool avail_top, bool avail_left, bool avail_corner);

/* ---- the inverse transforms and clipped sums (clause 8.5)

   The answers are 0, 2 and 8. Lists have 16 elements, 64 in inverse_8x8 and add_residual_8x8. Predictions and residuals, also the one of
   reconstruct_4x4_dc_into, are asked for the range of each number alone; coefficients also for the range of their block's transform. */

/* The residual of dequantised coefficients, both in raster order. Alone at place 0, 32735 is taken and 32736 is not; -32768 is. */
uint32_t jiwarbend_inverse_4x4(const int32_t *deq, size_t deq_len, int32_t *out, size_t out_len);
uint32_t jiwarbend_inverse_8x8(const int32_t *deq, size_t deq_len, int32_t *out, size_t out_len);

/* A prediction with the residual of coefficients, or with a residual, added and clipped to 0..255. */
uint32_t jiwarbend_reconstruct_4x4(const int32_t *deq, size_t deq_len, const int32_t *pred, size_t pred_len, uint8_t *out, size_t out_len);
uint32_t jiwarbend_add_residual_4x4(const int32_t *res, size_t res_len, const int32_t *pred, size_t pred_len, uint8_t *out, size_t out_len);
uint32_t jiwarbend_add_residual_8x8(const int32_t *res, size_t res_len, const int32_t *pred, size_t pred_len, uint8_t *out, size_t out_len);

/* The same from four rows of four samples in pred into four rows in rec. 2 unless the prediction's stride is 0..4096, the written one
   4..4096, and all rows lie in their buffers. The second adds one residual to all sixteen samples. */
uint32_t jiwarbend_reconstruct_4x4_into(const int32_t *deq, size_t deq_len, const uint8_t *pred, size_t pred_len, size_t p_off, size_t p_stride,
    uint8_t *rec, size_t rec_len, size_t r_off, size_t r_stride);
uint32_t jiwarbend_reconstruct_4x4_dc_into(int32_t rval, const uint8_t *pred, size_t pred_len, size_t p_off, size_t p_stride,
    uint8_t *rec, size_t rec_len, size_t r_off, size_t r_stride);
uint32_t jiwarbend_add_residual_4x4_into(const int32_t *res, size_t res_len, const uint8_t *pred, size_t pred_len, size_t p_off, size_t p_stride,
    uint8_t *rec, size_t rec_len, size_t r_off, size_t r_stride);

/* ---- small tables; these never refuse a value */

/* v brought into 0..255. */
uint8_t jiwarbend_clip_u8(int32_t v);

/* The chroma QP of a luma QP, with an index offset of 0; above 51 as for 51. */
uint8_t jiwarbend_chroma_qp(uint8_t qp);

/* The context nC from the numbers of coefficients to the left (a) and above (b), where there are such blocks. */
int32_t jiwarbend_nc_from_neighbors(bool has_a, uint8_t a, bool has_b, uint8_t b);

/* The numbers of coefficients of a macroblock's 24 blocks, from scan order to raster order: 24 in, 24 out, else 2. */
uint32_t jiwarbend_nnz_raster_from_z(const uint8_t *n, size_t n_len, uint8_t *out, size_t out_len);

#ifdef __cplusplus
}
#endif

#endif
