/* That the named constants of windlassow.h have the numbers of the papers. Nothing is run: it compiles or it does not. */
#include "windlassow.h"

/* Compiled with -DWRONG=1 the first assertion must fail. */
#ifndef WRONG
#define WRONG 0
#endif

#define IS(name, number) typedef char name##_is[(name) == (number) ? 1 : -1]

IS(WINDLASSOW_KIND_INTEGERS, 0 + WRONG);
IS(WINDLASSOW_KIND_FLOATS, 1);
IS(WINDLASSOW_MODE_LOSSY, 0);
IS(WINDLASSOW_MODE_EXACT, 1);

IS(WINDLASSOW_DONE, 0);
IS(WINDLASSOW_INVALID_KIND, 1);
IS(WINDLASSOW_INVALID_DIMENSION, 2);
IS(WINDLASSOW_INVALID_MODE, 3);
IS(WINDLASSOW_INVALID_PLANES, 4);
IS(WINDLASSOW_INVALID_WIDTH, 5);
IS(WINDLASSOW_INVALID_LOWEST, 13);
IS(WINDLASSOW_ARCHIVE_TOO_LONG, 6);
IS(WINDLASSOW_NO_SUCH_SLOT, 7);
IS(WINDLASSOW_INVALID_BLOCK_LEN, 8);
IS(WINDLASSOW_NOT_FINITE, 9);
IS(WINDLASSOW_CODE_TOO_LONG, 10);
IS(WINDLASSOW_TOO_FEW_SLOTS, 14);
IS(WINDLASSOW_NOT_A_CODE, 11);
IS(WINDLASSOW_INVALID_TABLES, 20);
IS(WINDLASSOW_INPUT_TOO_LONG, 21);
IS(WINDLASSOW_OUTPUT_TOO_LONG, 22);
IS(WINDLASSOW_NOT_A_STREAM, 23);
IS(WINDLASSOW_TRANSFER_CLOSED, 25);

IS(WINDLASSOW_MAX_PLANES, 32);
IS(WINDLASSOW_MIN_WIDTH, 16);
IS(WINDLASSOW_MAX_WIDTH, 8462);
IS(WINDLASSOW_MIN_LOWEST, -300);
IS(WINDLASSOW_MAX_LOWEST, 300);
IS(WINDLASSOW_MAX_ARCHIVE_LEN, 65536);
IS(WINDLASSOW_MIN_TABLE_LEN, 16);
IS(WINDLASSOW_MAX_TABLE_LEN, 1024);
IS(WINDLASSOW_MAX_RUN_LEN, 4096);
IS(WINDLASSOW_MAX_STREAM_LEN, 65536);

/* A slot call returns three numbers, an FPC call two. */
typedef char reply_size[sizeof(struct windlassow_reply) == 12 ? 1 : -1];
typedef char fpc_reply_size[sizeof(struct windlassow_fpc_reply) == 8 ? 1 : -1];

/* The record of a transfer, as Rust's TransferRecord has it: where a field stands and its bytes. */
#define FIELD(name, offset, bytes) \
    typedef char name##_offset[offsetof(struct windlassow_transfer, name) == (offset) ? 1 : -1]; \
    typedef char name##_bytes[sizeof(((struct windlassow_transfer *)0)->name) == (bytes) ? 1 : -1]

FIELD(state, 0, 4);
FIELD(given, 4, 4);
FIELD(pair, 8, 4);
FIELD(held, 12, 4);
FIELD(value, 16, 8);
FIELD(last, 24, 8);
FIELD(size, 32, 8);
FIELD(h, 40, 8);
FIELD(g, 48, 8);
typedef char transfer_size[sizeof(struct windlassow_transfer) == 56 ? 1 : -1];

/* The Rust interface has the same, and is asked for it where this is compiled. */
IS(WINDLASSOW_STACK_BYTES, RUST_STACK_BYTES);

typedef char integers_width[WINDLASSOW_EXACT_INTEGERS_WIDTH(WINDLASSOW_BLOCK_LEN(1)) == 136 ? 1 : -1];
typedef char floats_width[WINDLASSOW_EXACT_FLOATS_WIDTH(WINDLASSOW_BLOCK_LEN(2)) == 542 ? 1 : -1];
typedef char cube_width[WINDLASSOW_EXACT_FLOATS_WIDTH(WINDLASSOW_BLOCK_LEN(3)) == 2126 ? 1 : -1];
typedef char widest[WINDLASSOW_EXACT_FLOATS_WIDTH(WINDLASSOW_BLOCK_LEN(4)) == WINDLASSOW_MAX_WIDTH ? 1 : -1];
typedef char full_width[WINDLASSOW_FULL_WIDTH(WINDLASSOW_BLOCK_LEN(1)) == 146 ? 1 : -1];
typedef char widest_full[WINDLASSOW_FULL_WIDTH(WINDLASSOW_BLOCK_LEN(4)) == WINDLASSOW_MAX_WIDTH ? 1 : -1];
typedef char longest_stream[WINDLASSOW_STREAM_ROOM(WINDLASSOW_MAX_RUN_LEN) == 34816 ? 1 : -1];
typedef char odd_stream[WINDLASSOW_STREAM_ROOM(1) == 17 ? 1 : -1];
typedef char piece_room[WINDLASSOW_PIECE_ROOM(4 + 5) == 18 ? 1 : -1];
typedef char no_piece_room[WINDLASSOW_PIECE_ROOM(0) == 0 ? 1 : -1];
