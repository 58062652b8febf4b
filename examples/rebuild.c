/* Rebuilds a picture of 4 by 3 macroblocks whose macroblocks come in reverse order, and once more turn by turn, in C99. `make examples` compiles, links
   and runs it:

     cc -std=c99 -Iinclude examples/rebuild.c build/lib/libjiwarbend.a -o rebuild

   One call at a time for a picture: a program with several threads gives each picture to one of them, or has a lock for each picture. */
#include "jiwarbend.h"

#include <stdio.h>
#include <string.h>

enum { W = 4, H = 3, MANY = W * H };

/* All that a picture needs. The library keeps nothing between two calls. */
struct picture {
    uint8_t luma[16 * H][16 * W], cb[8 * H][8 * W], cr[8 * H][8 * W], done[MANY];
    uint16_t slices[MANY];
    struct jiwarbend_progress progress;
};

struct record {
    uint8_t kind, modes[16], chroma_mode;
    int32_t numbers[384];
};

static uint32_t rebuild(struct picture *p, uint32_t x, uint32_t y, const struct record *r)
{
    return jiwarbend_rebuild(W, H, x, y, p->luma[0], sizeof p->luma, sizeof p->luma[0], p->cb[0], sizeof p->cb, sizeof p->cb[0],
        p->cr[0], sizeof p->cr, sizeof p->cr[0], p->done, MANY, p->slices, MANY, &p->progress,
        r->kind, r->modes, 16, r->chroma_mode, r->numbers, 384);
}

/* A macroblock of 16x16 DC prediction whose sixteen 4x4 blocks of luma are each moved by `step`. */
static struct record flat(int step)
{
    struct record r;
    memset(&r, 0, sizeof r);
    r.kind = JIWARBEND_KIND_16X16;
    r.modes[0] = JIWARBEND_16X16_DC;
    r.chroma_mode = JIWARBEND_CHROMA_DC;
    for (int block = 0; block < 16; block++)
        r.numbers[16 * block] = 64 * step;
    return r;
}

/* Offers every macroblock until all are done. Returns the number of offers, or 0 where one is refused for good or none moves on. */
static unsigned offer_all(struct picture *p, const struct record *records)
{
    unsigned offers = 0;
    while (p->progress.count < MANY) {
        uint32_t before = p->progress.count;
        for (uint32_t a = MANY; a-- > 0;) {
            offers++;
            switch (rebuild(p, a % W, a / W, &records[a])) {
            case JIWARBEND_OK:
            case JIWARBEND_DONE:
            case JIWARBEND_NOT_READY: /* a neighbour comes first: it is offered again in the next round */
                break;
            default: /* a fault of the caller or of the stream; the picture has not changed */
                return 0;
            }
        }
        if (p->progress.count == before)
            return 0;
    }
    return offers;
}

/* Takes whole turns until all is done, and lists the macroblocks in their order. None is refused, in whatever order those of a turn come. Returns the
   number of turns, or 0. */
static unsigned take_turns(struct picture *p, const struct record *records, uint32_t *order)
{
    uint32_t rows[H], list[H], how_many;
    unsigned turns = 0;
    while (p->progress.count < MANY) {
        if (jiwarbend_count_rows(W, H, p->done, MANY, rows, H) != JIWARBEND_OK)
            return 0;
        if (jiwarbend_turn(W, H, p->done, MANY, p->slices, MANY, rows, H, list, H, &how_many) != JIWARBEND_OK)
            return 0;
        for (uint32_t k = how_many; k-- > 0;) {
            order[p->progress.count] = list[k];
            if (rebuild(p, list[k] % W, list[k] / W, &records[list[k]]) != JIWARBEND_OK)
                return 0;
        }
        turns++;
    }
    return turns;
}

int main(void)
{
    static struct picture p, q;
    static struct record records[MANY];
    for (int a = 0; a < MANY; a++)
        records[a] = flat(a == 0 ? -28 : 1);

    /* All in one slice; the planes and the done map may hold anything before the start. */
    memset(p.slices, 0, sizeof p.slices);
    if (jiwarbend_start(W, H, p.done, MANY, &p.progress) != JIWARBEND_OK)
        return 1;
    unsigned offers = offer_all(&p, records);
    if (offers == 0)
        return 1;

    printf("jiwarbend %d.%d.%d: %d macroblocks after %u offers; luma of their first samples:\n",
        JIWARBEND_VERSION_MAJOR, JIWARBEND_VERSION_MINOR, JIWARBEND_VERSION_PATCH, MANY, offers);
    for (int y = 0; y < H; y++) {
        for (int x = 0; x < W; x++)
            printf(" %4d", p.luma[16 * y][16 * x]);
        printf("\n");
    }

    /* The first is 128 - 28. Each other is one more than the mean of what stands above and to the left of it. */
    if (p.luma[0][0] != 100 || p.luma[0][16] != 101 || p.luma[16][16] != 102 || p.luma[47][63] != 105)
        return 1;

    /* The same picture turn by turn. The first macroblock of a row waits for the second of the row above: two turns more for each row. */
    uint32_t turns, order[MANY];
    memset(q.slices, 0, sizeof q.slices);
    if (jiwarbend_turns(W, H, q.slices, MANY, &turns) != JIWARBEND_OK || turns != W + 2 * (H - 1))
        return 1;
    if (jiwarbend_start(W, H, q.done, MANY, &q.progress) != JIWARBEND_OK || take_turns(&q, records, order) != turns)
        return 1;
    if (memcmp(p.luma, q.luma, sizeof p.luma) != 0 || memcmp(p.cb, q.cb, sizeof p.cb) != 0 || memcmp(p.cr, q.cr, sizeof p.cr) != 0)
        return 1;
    printf("the same turn by turn, in the %u turns that were counted before\n", (unsigned)turns);

    /* The list of the macroblocks in this order passes the check. With the first two exchanged it does not: the second reads from the first. */
    uint32_t verdict, place;
    if (jiwarbend_check_order(W, H, q.slices, MANY, order, MANY, &verdict) != JIWARBEND_OK || verdict != 1)
        return 1;
    order[0] = 1;
    order[1] = 0;
    if (jiwarbend_check_order(W, H, q.slices, MANY, order, MANY, &verdict) != JIWARBEND_OK || verdict != 0)
        return 1;
    if (jiwarbend_out_of_place(W, H, q.slices, MANY, order, MANY, &place) != JIWARBEND_OK || place != 0)
        return 1;
    printf("the order of these turns passes the check; with its first two entries exchanged, entry %u is out of place\n", (unsigned)place);

    /* A done macroblock is final. */
    return rebuild(&p, 0, 0, &records[0]) == JIWARBEND_DONE ? 0 : 1;
}
