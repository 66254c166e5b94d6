/* A load in three turns: a closed page stops it, as the access check says before, then an allowance of 3 pauses it; a load of segments in
 * two; and one that is not aligned. Then the other calls, what VS does, a load on the smaller board, and a sheet.
 * bindings/rust/examples/turns.rs prints the same. */
#include "prashunde.h"
#include <inttypes.h>
#include <stdio.h>
#include <string.h>

/* A board: the bytes of its registers, and its calls. */
struct board {
    size_t bytes;
    uint64_t (*turn)(uint32_t, uint32_t, uint8_t *, size_t, uint64_t *, size_t, uint8_t *, size_t, const uint8_t *, size_t, uint64_t[6],
                     uint64_t *, uint64_t *, uint64_t *, uint64_t *);
    uint64_t (*check)(uint32_t, const uint8_t *, size_t, const uint64_t *, size_t, const uint8_t *, size_t, const uint8_t *, size_t,
                      const uint64_t[6], uint64_t *, uint64_t *, uint64_t *, uint64_t *);
    uint64_t (*csr_read)(uint64_t, const uint64_t[6], uint64_t *);
    uint64_t (*csr_write)(uint64_t, uint64_t, uint64_t[6]);
    uint64_t (*view)(const uint8_t *, size_t, size_t, size_t, size_t *, size_t *);
};

static const struct board first = {512, prashunde_turn, prashunde_access_check, prashunde_csr_read, prashunde_csr_write, prashunde_view};
static const struct board small = {256, prashunde_small_turn, prashunde_small_access_check, prashunde_small_csr_read,
                                   prashunde_small_csr_write, prashunde_small_view};

static struct board board;
static uint8_t registers[512], memory[4096], rights[256];
static uint64_t scalars[32], control[6];

static void turn(const char *name, uint32_t word, uint32_t allowance)
{
    uint64_t passed, address, page, right;
    uint64_t answer = board.turn(word, allowance, registers, board.bytes, scalars, 32, memory, sizeof memory, rights, sizeof rights,
                                 control, &passed, &address, &page, &right);
    printf("%s: answer %" PRIu64 ", passed %" PRIu64 ", address %" PRIu64, name, answer, passed, address);
    printf(", page %" PRIu64 ", right %" PRIu64 ", control %" PRIx64, page, right, control[0]);
    for (size_t i = 1; i < 6; i++)
        printf(" %" PRIu64, control[i]);
    printf("\n");
}

static void check(const char *name, uint32_t word)
{
    uint64_t element, pages, page, right;
    uint64_t answer = board.check(word, registers, board.bytes, scalars, 32, memory, sizeof memory, rights, sizeof rights, control,
                                  &element, &pages, &page, &right);
    printf("check %s: answer %" PRIu64 ", element %" PRIu64 ", pages %" PRIu64, name, answer, element, pages);
    printf(", page %" PRIu64 ", right %" PRIu64 "\n", page, right);
}

static void view(size_t first, size_t count)
{
    size_t start, size;
    uint64_t answer = board.view(registers, board.bytes, first, count, &start, &size);
    printf("view v%zu, %zu: answer %" PRIu64 ", bytes", first, count, answer);
    for (size_t i = 0; i < size; i++)
        printf(" %u", registers[start + i]);
    printf("\n");
}

static void csr(uint64_t number, uint64_t written)
{
    uint64_t value;
    uint64_t answer = board.csr_write(number, written, control);
    uint64_t after = board.csr_read(number, control, &value);
    printf("csr %" PRIx64 ": write %" PRIu64 ", read %" PRIu64 ", value %" PRIu64 "\n", number, answer, after, value);
}

/* The length of what a sheet prints, from an empty buffer and from one that is a byte too short and stays as it was; then the text. */
static void sheet(const char *text)
{
    static uint8_t out[PRASHUNDE_SHEET_MAX];
    const uint8_t *lines = (const uint8_t *)text;
    size_t length = strlen(text);
    out[0] = 0;
    uint64_t needed = prashunde_sheet(lines, length, out, 0);
    uint64_t again = prashunde_sheet(lines, length, out, needed - 1);
    printf("sheet: length %" PRIu64 ", %" PRIu64 ", first byte %u\n", needed, again, out[0]);
    prashunde_sheet(lines, length, out, sizeof out);
    fwrite(out, 1, needed, stdout);
}

/* The smaller board has VLMAX 64 where the first one has 128; EEW 64 is illegal there. */
static void on_the_smaller_board(void)
{
    board = small;
    memset(registers, 0, sizeof registers);
    memset(rights, 0, sizeof rights);
    rights[0] = 2;
    scalars[10] = 100;
    prashunde_reset(control);
    turn("small: vsetvli x12, x10, e8, m8", 0x00357657, 1);
    check("small: vle8.v v8, (x11)", 0x02058407);
    turn("small: vle8.v v8, (x11)", 0x02058407, UINT32_MAX);
    rights[1] = 1;
    turn("small: page 1 open", 0x02058407, UINT32_MAX);
    turn("small: vle64.v v8, (x11)", 0x0205f407, UINT32_MAX);
    view(8, 1);
    view(14, 2);
    csr(0x008, 127); /* vstart keeps 6 bits */
    csr(0xc22, 1);
    control[2] = 64;
    turn("small: vstart above 63", 0x02058407, UINT32_MAX);
    board.bytes = 512;
    turn("small: 512 bytes of registers", 0x02058407, UINT32_MAX);
}

int main(void)
{
    board = first;
    for (size_t a = 0; a < sizeof memory; a++)
        memory[a] = a % 251;
    rights[0] = 2;
    scalars[10] = 20;
    scalars[11] = 0xf8;
    scalars[13] = 0xfe;
    scalars[14] = 0xff0;
    prashunde_reset(control);
    turn("load at reset", 0x02058407, UINT32_MAX);
    turn("vsetvli x12, x10, e8, m2", 0x00157657, 1);
    check("vle8.v v8, (x11)", 0x02058407);
    turn("vle8.v v8, (x11)", 0x02058407, UINT32_MAX);
    rights[1] = 1;
    check("page 1 open", 0x02058407); /* vstart is 8: what remains lies on page 1 */
    turn("page 1 open", 0x02058407, 3);
    turn("the rest", 0x02058407, UINT32_MAX);
    check("vse8.v v8, (x11)", 0x02058427); /* page 1 may be read, not written */
    rights[1] = 0;
    check("vlseg3e8.v v12, (x11)", 0x42058607); /* not for segments */
    turn("vlseg3e8.v v12, (x11)", 0x42058607, UINT32_MAX); /* the third field of segment 2 lies on page 1 */
    rights[1] = 1;
    turn("its other segments", 0x42058607, UINT32_MAX);
    check("vle32.v v16, (x13)", 0x0206e807);
    turn("vle32.v v16, (x13)", 0x0206e807, UINT32_MAX); /* an element across the end of page 0 is not aligned */
    rights[15] = 1;
    check("vle8.v v24, (x14)", 0x02070c07); /* element 16 lies past the end of memory: no page is asked */
    turn("vadd.vv v8, v0, v10, v0.t", 0x00050457, UINT32_MAX); /* v0 is data and mask: read at two EEWs */
    view(8, 2);
    view(14, 2);
    view(9, 2);
    csr(0x00f, 15);
    csr(0xc22, 1);
    csr(0x001, 1);
    control[5] = 1;
    turn("vle8.v v8, (x11), allowance 0", 0x02058407, 0); /* a pause sets VS Dirty too */
    control[5] = 0;
    turn("VS Off", 0x00157657, UINT32_MAX);
    check("VS Off", 0x02058407);
    csr(0xc22, 1);
    control[5] = 4;
    turn("VS above 3", 0x02058407, UINT32_MAX);
    control[5] = 1;
    control[1] = 33;
    turn("vl above VLMAX", 0x02058407, UINT32_MAX);
    on_the_smaller_board();
    sheet("rights=w---------------\nx10=0000000000000003\nx11=00000000000000f8\nx12=0000000000000000\nallow=1\n"
          "word=01057657\nword=0205e407\nend=1\n");
    sheet("rights=\n");
    return 0;
}
