/* The ten calls of windlassow.h, on cases of the papers. Compiles as C99 and as C++. From the repository's folder:
 *   tools/built windlassow
 *   cc -I include host/c/example.c target/staticlib/libwindlassow.a -o target/example
 */
#include <stdio.h>
#include <string.h>
#include "windlassow.h"

enum { KIND = WINDLASSOW_KIND_INTEGERS, MODE = WINDLASSOW_MODE_EXACT, PLANES = WINDLASSOW_MAX_PLANES, WIDTH = 48 };
enum { LOWEST = WINDLASSOW_MIN_LOWEST };

static void print(const char *call, struct windlassow_reply r) {
    printf("%s: answer %u, count %u, planes %u\n", call, (unsigned)r.answer, (unsigned)r.count, (unsigned)r.planes);
}

static void print_fpc(const char *call, struct windlassow_fpc_reply r) {
    printf("%s: answer %u, count %u\n", call, (unsigned)r.answer, (unsigned)r.count);
}

static void bytes(const uint8_t *from, size_t len) {
    for (size_t i = 0; i < len; i++) printf("%02x", from[i]);
    printf("\n");
}

static void slots(void) {
    uint8_t archive[13];
    const uint32_t ones[4] = {1, 1, 1, 1}, wide[4] = {0xaaaaaaab, 0x55555556, 0xaaaaaaac, 0x55555558};
    uint32_t back[4];
    memset(archive, 0xff, sizeof archive);
    print("slot_count", windlassow_slot_count(KIND, 1, MODE, PLANES, WIDTH, LOWEST, archive, sizeof archive));
    print("bit_count", windlassow_bit_count(KIND, 1, MODE, PLANES, WIDTH, LOWEST, wide, 4));
    print("store", windlassow_store(KIND, 1, MODE, PLANES, WIDTH, LOWEST, archive, sizeof archive, 1, ones, 4));
    print("store", windlassow_store(KIND, 1, MODE, PLANES, WIDTH, LOWEST, archive, sizeof archive, 0, wide, 4));
    bytes(archive, sizeof archive);
    print("read", windlassow_read(KIND, 1, MODE, PLANES, WIDTH, LOWEST, archive, sizeof archive, 1, back, 4));
    printf("%d %d %d %d\n", (int)back[0], (int)back[1], (int)back[2], (int)back[3]);
    struct windlassow_reply ones_only = windlassow_read(KIND, 1, MODE, PLANES, WIDTH, LOWEST, archive, sizeof archive, 0, back, 4);
    print("read", ones_only);
    if (ones_only.answer == WINDLASSOW_NOT_A_CODE) printf("no block has the code of slot 0\n");
    print("read", windlassow_read(KIND, 1, MODE, PLANES, WIDTH, LOWEST, archive, 0, 0, back, 4));
}

/* Four readings cut to a slot of 40 bits: the planes say how deep the record got. */
static void lossy(void) {
    enum { LOSSY = WINDLASSOW_MODE_LOSSY, NARROW = 40 };
    uint8_t archive[NARROW / 8];
    const uint32_t readings[4] = {2000, 2004, 2008, 2012};
    uint32_t back[4];
    struct windlassow_reply r = windlassow_store(KIND, 1, LOSSY, PLANES, NARROW, LOWEST, archive, sizeof archive, 0, readings, 4);
    print("store", r);
    printf("%u of %d planes are whole\n", (unsigned)r.planes, PLANES);
    print("read", windlassow_read(KIND, 1, LOSSY, PLANES, NARROW, LOWEST, archive, sizeof archive, 0, back, 4));
    printf("%d %d %d %d\n", (int)back[0], (int)back[1], (int)back[2], (int)back[3]);
}

/* Four readings in degrees, with a tolerance of 2^-1, half a degree, and an exponent that is refused. */
static void tolerance(void) {
    enum { FLOATS = WINDLASSOW_KIND_FLOATS, LOSSY = WINDLASSOW_MODE_LOSSY, W = WINDLASSOW_EXACT_FLOATS_WIDTH(4) };
    const float degrees[4] = {15.625f, 15.65625f, 15.6875f, 15.71875f};
    uint8_t archive[(W + 7) / 8];
    uint32_t words[4], back[4];
    float values[4];
    memcpy(words, degrees, sizeof words);
    print("store", windlassow_store(FLOATS, 1, LOSSY, PLANES, W, -1, archive, sizeof archive, 0, words, 4));
    print("read", windlassow_read(FLOATS, 1, LOSSY, PLANES, W, -1, archive, sizeof archive, 0, back, 4));
    memcpy(values, back, sizeof values);
    printf("%g %g %g %g\n", values[0], values[1], values[2], values[3]);
    print("bit_count", windlassow_bit_count(FLOATS, 1, LOSSY, PLANES, W, 301, words, 4));
}

/* Four cubes in sequence, all of one reading, in a slot that every such block fits. */
static void cubes(void) {
    enum { N = WINDLASSOW_BLOCK_LEN(4), W = WINDLASSOW_EXACT_INTEGERS_WIDTH(N) };
    static uint8_t archive[(W + 7) / 8];
    static uint32_t words[N], back[N];
    for (size_t place = 0; place < N; place++) words[place] = 215;
    print("store", windlassow_store(KIND, 4, MODE, PLANES, W, LOWEST, archive, sizeof archive, 0, words, N));
    print("read", windlassow_read(KIND, 4, MODE, PLANES, W, LOWEST, archive, sizeof archive, 0, back, N));
    printf("%d\n", memcmp(words, back, sizeof words) == 0);
    print("bit_count", windlassow_bit_count(KIND, 5, MODE, PLANES, W, LOWEST, words, N));
}

/* An archive of 8 bits a word, which 0 once stood for in exact mode, and its copy with full slots, which take every block. */
static void copy(void) {
    enum { N = WINDLASSOW_BLOCK_LEN(1), SLOTS = 3, OLD = 8 * N, FULL = WINDLASSOW_FULL_WIDTH(N) };
    const uint32_t readings[N] = {256, 256, 256, 256}, ones[N] = {1, 1, 1, 1};
    uint8_t old[SLOTS * OLD / 8] = {0}, full[(SLOTS * FULL + 7) / 8];
    uint32_t back[N];
    print("store", windlassow_store(KIND, 1, MODE, PLANES, OLD, LOWEST, old, sizeof old, 1, readings, N));
    print("store", windlassow_store(KIND, 1, MODE, PLANES, OLD, LOWEST, old, sizeof old, 2, ones, N));
    print("copy", windlassow_copy(KIND, 1, MODE, PLANES, OLD, LOWEST, old, sizeof old, full, sizeof full));
    print("read", windlassow_read(KIND, 1, MODE, PLANES, 0, LOWEST, full, sizeof full, 1, back, N));
    printf("%d %d %d %d\n", (int)back[0], (int)back[1], (int)back[2], (int)back[3]);
    print("store", windlassow_store(KIND, 1, MODE, PLANES, 0, LOWEST, full, sizeof full, 2, ones, N));
    memset(old + 8, 0xff, 4);
    print("copy", windlassow_copy(KIND, 1, MODE, PLANES, OLD, LOWEST, old, sizeof old, full, sizeof full));
    struct windlassow_reply shorter = windlassow_copy(KIND, 1, MODE, PLANES, OLD, LOWEST, old, sizeof old, full, sizeof full - 1);
    print("copy", shorter);
    if (shorter.answer == WINDLASSOW_TOO_FEW_SLOTS) printf("the new archive has fewer slots than the old one\n");
}

static void fpc(void) {
    uint64_t f[16], d[16], back[2];
    const uint64_t run[2] = {0x3ff0000000000000, 0x3ff0000000000000};
    const uint8_t bad[3] = {0x66, 0, 0};
    uint8_t out[WINDLASSOW_STREAM_ROOM(2)];
    memset(f, 0xff, sizeof f);
    memset(d, 0xff, sizeof d);
    struct windlassow_fpc_reply wrote = windlassow_fpc_write(f, 16, d, 16, run, 2, out, sizeof out);
    print_fpc("fpc_write", wrote);
    bytes(out, wrote.count);
    print_fpc("fpc_read", windlassow_fpc_read(f, 16, d, 16, out, wrote.count, back, 2));
    printf("%d\n", memcmp(run, back, sizeof run) == 0);
    print_fpc("fpc_read", windlassow_fpc_read(f, 16, d, 16, bad, sizeof bad, back, 2));
    print_fpc("fpc_write", windlassow_fpc_write(f, 16, d, 16, run, 2, out, 8));
    print_fpc("fpc_write", windlassow_fpc_write(f, 16, d, 8, run, 2, out, 8));
}

/* The stream of two 1.0 in two pieces, the second at first with too little room; then a damaged one. */
static void transfer(void) {
    enum { FIRST = 4, SECOND = 5 };
    const uint8_t stream[FIRST + SECOND] = {0x07, 0, 0, 0, 0, 0, 0, 0xf0, 0x3f}, damaged[4] = {0x77, 0x66, 0, 0x07};
    const uint64_t run[2] = {0x3ff0000000000000, 0x3ff0000000000000};
    uint64_t f[16], d[16], doubles[WINDLASSOW_PIECE_ROOM(SECOND)];
    struct windlassow_transfer t;
    memset(&t, 0xff, sizeof t);
    print_fpc("transfer_close", windlassow_transfer_close(&t));
    print_fpc("transfer_open", windlassow_transfer_open(&t, f, 16, d, 16));
    print_fpc("transfer_piece", windlassow_transfer_piece(&t, f, 16, d, 16, stream, FIRST, doubles, 8));
    print_fpc("transfer_piece", windlassow_transfer_piece(&t, f, 16, d, 16, stream + FIRST, SECOND, doubles, 9));
    print_fpc("transfer_piece", windlassow_transfer_piece(&t, f, 16, d, 16, stream + FIRST, SECOND, doubles, 10));
    printf("%d, given %u\n", memcmp(run, doubles, sizeof run) == 0, (unsigned)t.given);
    print_fpc("transfer_close", windlassow_transfer_close(&t));
    struct windlassow_fpc_reply late = windlassow_transfer_piece(&t, f, 16, d, 16, stream, FIRST, doubles, 8);
    print_fpc("transfer_piece", late);
    if (late.answer == WINDLASSOW_TRANSFER_CLOSED) printf("the transfer is not open\n");

    print_fpc("transfer_open", windlassow_transfer_open(&t, f, 16, d, 16));
    print_fpc("transfer_piece", windlassow_transfer_piece(&t, f, 16, d, 16, damaged, sizeof damaged, doubles, 8));
    printf("%d %d\n", (int)doubles[0], (int)doubles[1]);
    print_fpc("transfer_piece", windlassow_transfer_piece(&t, f, 16, d, 16, stream, FIRST, doubles, 0));
    print_fpc("transfer_close", windlassow_transfer_close(&t));

    print_fpc("transfer_open", windlassow_transfer_open(&t, f, 16, d, 16));
    print_fpc("transfer_open", windlassow_transfer_open(&t, f, 16, d, 8));
    print_fpc("transfer_piece", windlassow_transfer_piece(&t, f, 16, d, 8, stream, FIRST, doubles, 8));
}

int main(void) {
    slots();
    lossy();
    tolerance();
    cubes();
    copy();
    fpc();
    transfer();
    return 0;
}
