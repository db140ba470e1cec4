/*
 * Windlassow: blocks of readings in slots of equal width, and doubles in FPC streams.
 * The calls of the static library libwindlassow.a (x86-64 Linux, a processor of level v2 or newer).
 *
 * Buffers
 *   A buffer is lent as a pointer and a length in elements. The pointer must not be null, not even
 *   with a length of 0, and must be aligned for its elements. A buffer without const must not
 *   overlap another one of the same call, and no other thread may use it while the call runs.
 *   The library keeps no pointer, has no state of its own and allocates nothing. Any numbers may
 *   be passed and any bytes may stand in a buffer: what does not fit is refused by an answer number.
 *   The record of a transfer is lent too, as a pointer to one struct, and the same holds of it: not null,
 *   aligned, no overlap, no other thread, and any bits may stand in it. A struct of zeros is a closed one,
 *   and so is one whose numbers are out of range or do not go together. Others are taken for open ones, so
 *   set a new struct to zeros or open it first. A record may be kept together with both tables and used
 *   later, also by another process on the same kind of machine.
 *
 * Stack
 *   No call takes more than WINDLASSOW_STACK_BYTES of stack. Some 11 KB were seen to be taken, with an
 *   older kit; the number leaves room for other versions and compilers.
 *
 * Answers
 *   If several refusals apply, the one of the lowest number is given, except that 13 comes between 5
 *   and 6, 14 before 11 and 23 before 22. Of a piece 25 comes before 20, and 23 before 22 only if an
 *   earlier piece was damaged.
 *
 *    no.  meaning                                                              count
 *     0   done                                                                 see each call
 *     1   the kind is not 0 or 1                                               0
 *     2   the dimension is not from 1 to 4                                     0
 *     3   the mode is not 0 or 1; of a copy, it is not 1                       0
 *     4   planes is not from 1 to 32                                           0
 *     5   width is neither 0 nor from 16 to 8,462                              0
 *    13   lowest is not from -300 to 300                                       0
 *     6   the archive is longer than 65,536 bytes; of a copy, either one       0
 *     7   the archive has no slot of that number                               0
 *     8   the buffer of words has not the length of a block                    0
 *     9   lossy, floats: an infinity or a NaN is among the words               0
 *    10   exact: the code of the block is longer than the slot                 bits it needs
 *    14   the new archive has fewer slots than the old one                     0
 *    11   exact: the slot holds no block's code followed by zeros              0; of a copy the slot's number
 *    20   the FPC tables are not of one length, a power of two 16 to 1,024;
 *         of a piece, or not of the length that they had at the opening        0
 *    21   more than 4,096 doubles to write, or 65,536 bytes to read            0
 *    22   the output is longer than the room lent                              bytes or doubles it needs
 *         of a piece: the room is for fewer doubles than twice its bytes       twice its bytes
 *    23   the bytes are not the FPC stream, for tables of this length, of any
 *         run of at most 4,096 doubles                                         0
 *         of a piece: it is damaged (see Pieces), or an earlier one was        doubles it gave; 0 if earlier
 *         of a close: the pieces together are not such a stream                0
 *    25   the transfer is not open                                             0
 *
 *   Answers 1 to 11, 13, 14, 20, 21 and 25 leave every buffer as it was, but 20 of an opening closes the
 *   record.
 *   Answers 22 and 23 of a whole stream leave the output as it was and both tables zero.
 *   Answer 22 of a piece leaves everything as it was, and so does 23 if an earlier piece was damaged.
 *   Answer 23 of the damaged piece itself leaves the doubles before the damage in the output, and the
 *   tables as after them. Answer 23 of a close closes the record.
 *   Refusals report 0 planes, answer 10 too. The planes of a done call are with each call.
 *
 * Planes
 *   A slot call also says how many bit planes are whole, from the highest down. Of a lossy record
 *   that is how much of it survived. A plane is whole if all of its code ends within the slot. One
 *   that the slot's end cuts is not counted, even if only zeros are lost. An exact block has all
 *   planes of its code, and floats that are coded as a single 0 have 0: those that are all zero, and
 *   lossy ones of which lowest keeps no plane. FPC streams have no planes.
 *
 * Parameters of the slot calls
 *   kind       0: two's complement integers of 32 bits; 1: IEEE 754 binary32 patterns
 *   dimension  1: a block is 4 words
 *              2: 16 words, four rows of four, column i of row j at place i + 4j
 *              3: 64 words, a cube of four squares, that of square k at place i + 4j + 16k
 *              4: 256 words, four cubes in sequence, that of cube l at place i + 4j + 16k + 64l
 *   mode       0: lossy, the code is cut at the slot's end; 1: exact, the words come back bit for bit
 *   planes     the number of bit planes kept, 1 to 32; exact mode takes no other notice of it. Lossy
 *              integers lose a little with all 32: in dimension 1, with W at least 131 and magnitudes
 *              below 2^30, the second value comes back exact, the others at most 2, 1 and 2 too low, and
 *              none too high but the first, by at most 1, which is proved (docs/LOSSY.md)
 *   width      the bits W of a slot; 0 stands for 33N + 14 bits in exact mode, a full slot, which every
 *              block fits, and for 8 bits a word in lossy mode
 *   lowest     lossy floats: the lowest exponent q, -300 to 300. Of a block at most
 *              m - q + 2 x (dimension + 1) planes are kept, where m is the least number from -126 on such
 *              that all its values are below 2^m in magnitude. Values then come back within 1.5 x 2^q,
 *              which is measured and not proved (docs/LOSSY.md has the conditions): for 0.05 degrees take
 *              -5, where that is 0.047. -300 keeps all planes up to `planes`. Other kinds and modes take
 *              no notice of a good one
 *   An archive is read with the parameters that it was written with.
 *
 * Limits
 *   words of a block, N           4, 16, 64, 256 in dimensions 1, 2, 3, 4
 *   planes, P                     1 to 32
 *   bits of a slot, W             16 to 8,462, or 0 for 33N + 14 in exact mode and 8N in lossy mode
 *   lowest exponent, q            -300 to 300
 *   bytes of an archive           65,536
 *   entries of an FPC table       a power of two from 16 to 1,024, the same for both
 *   doubles of a run              4,096
 *   bytes to read as a stream     65,536; no run's stream is longer than 34,816
 *   bytes of a piece              65,536
 *
 * Archives
 *   Slot k starts at bit kW. Bit t of an archive is bit t mod 8 of byte t / 8, lowest first.
 *   The slot count is 8 x length / W, rounded down. Every exact block of N words fits a slot of
 *   33N + 4 bits (integers) or 33N + 14 bits (float patterns).
 *
 *   If you passed width 0 in exact mode before this header had windlassow_copy: it stood for 8 bits a
 *   word there. Name that width, 8 x WINDLASSOW_BLOCK_LEN(dimension), for such an archive. With 0 its
 *   slots are now sought at other places, and what stands there may be read as other blocks.
 *   windlassow_copy takes it to full slots.
 *
 * Pieces
 *   An FPC stream can be read as it comes: open a transfer, pass piece after piece, close it. The stream may
 *   be cut anywhere, and pieces may be empty. Each double is given with the byte that makes it known, so
 *   the doubles do not depend on the cuts. A piece that is refused with 20, 21, 22 or 25 is not part of the
 *   stream and can be passed again. From the opening to the close nothing else may change the record or
 *   the tables.
 *
 *   The doubles are given before the stream is known to be whole. What counts is the close: 0 says that
 *   they are the whole run, the one that windlassow_fpc_read gives for all pieces together with room
 *   enough, and 23 that it gives none.
 *
 *   A piece is damaged where a double is complete that the rules code otherwise, and where a byte comes
 *   after 4,096 doubles or after an odd end, which is half byte 6 in second place and then a byte 00. The
 *   piece gives the doubles before that. Every later piece is refused with 23, and so is the close.
 *
 * Damage is not detected
 *   Answers 11 and 23 say that no block or run has these bits. They are no check of the bytes: a
 *   damaged slot or stream is often another block's or run's own code and is then read as that
 *   one, with answer 0. A slot of zeros reads as zeros. Of 62 damaged slots of exact readings 32
 *   were answered 11 (docs/TRUST.md has the counts). If bytes can be lost, keep a checksum of the
 *   archive or stream beside it. A lossy read never answers 11. Of a damaged stream in pieces, doubles
 *   that were never written may be given before a 23. A stream cut off between two pairs is a whole one.
 *
 * Building
 *   tools/built windlassow       proves the crates, which takes minutes the first time, and writes
 *                                target/staticlib/libwindlassow.a
 *   cc -I include program.c target/staticlib/libwindlassow.a -o program
 */
#ifndef WINDLASSOW_H
#define WINDLASSOW_H

#include <stddef.h>
#include <stdint.h>

#ifdef __cplusplus
extern "C" {
#endif

/* Kinds: what the words of a block are. */
enum { WINDLASSOW_KIND_INTEGERS = 0, WINDLASSOW_KIND_FLOATS = 1 };

/* Modes. */
enum { WINDLASSOW_MODE_LOSSY = 0, WINDLASSOW_MODE_EXACT = 1 };

/* Answers, as in the table above. */
enum {
    WINDLASSOW_DONE = 0,
    WINDLASSOW_INVALID_KIND = 1,
    WINDLASSOW_INVALID_DIMENSION = 2,
    WINDLASSOW_INVALID_MODE = 3,
    WINDLASSOW_INVALID_PLANES = 4,
    WINDLASSOW_INVALID_WIDTH = 5,
    WINDLASSOW_INVALID_LOWEST = 13,
    WINDLASSOW_ARCHIVE_TOO_LONG = 6,
    WINDLASSOW_NO_SUCH_SLOT = 7,
    WINDLASSOW_INVALID_BLOCK_LEN = 8,
    WINDLASSOW_NOT_FINITE = 9,
    WINDLASSOW_CODE_TOO_LONG = 10,
    WINDLASSOW_TOO_FEW_SLOTS = 14,
    WINDLASSOW_NOT_A_CODE = 11,
    WINDLASSOW_INVALID_TABLES = 20,
    WINDLASSOW_INPUT_TOO_LONG = 21,
    WINDLASSOW_OUTPUT_TOO_LONG = 22,
    WINDLASSOW_NOT_A_STREAM = 23,
    WINDLASSOW_TRANSFER_CLOSED = 25
};

/* Limits, as in the table above. */
enum {
    WINDLASSOW_MAX_PLANES = 32,
    WINDLASSOW_MIN_WIDTH = 16,
    WINDLASSOW_MAX_WIDTH = 8462,
    WINDLASSOW_MIN_LOWEST = -300,
    WINDLASSOW_MAX_LOWEST = 300,
    WINDLASSOW_MAX_ARCHIVE_LEN = 65536,
    WINDLASSOW_MIN_TABLE_LEN = 16,
    WINDLASSOW_MAX_TABLE_LEN = 1024,
    WINDLASSOW_MAX_RUN_LEN = 4096,
    WINDLASSOW_MAX_STREAM_LEN = 65536
};

/* The bytes of stack that no call takes more of. */
enum { WINDLASSOW_STACK_BYTES = 80 * 1024 };

/* The words N of a block. */
#define WINDLASSOW_BLOCK_LEN(dimension) (1 << (2 * (dimension)))

/* The widths that take every exact block of N words. That of floats is the full width of both kinds. */
#define WINDLASSOW_EXACT_INTEGERS_WIDTH(n) (33 * (n) + 4)
#define WINDLASSOW_EXACT_FLOATS_WIDTH(n) (33 * (n) + 14)
#define WINDLASSOW_FULL_WIDTH(n) (33 * (n) + 14)

/* Room for the stream of any run of n doubles, in bytes. */
#define WINDLASSOW_STREAM_ROOM(n) (17 * (((n) + 1) / 2))

/* Room for the doubles of any piece of n bytes, in doubles. */
#define WINDLASSOW_PIECE_ROOM(n) (2 * (n))

/*
 * What a slot call returns: the answer number, its count and the planes.
 *
 * A caller that was compiled before the slot calls took lowest, the argument after width, must be compiled
 * again with this header.
 */
struct windlassow_reply {
    uint32_t answer;
    uint32_t count;
    uint32_t planes;
};

/* What an FPC call returns: the answer number and its count. */
struct windlassow_fpc_reply {
    uint32_t answer;
    uint32_t count;
};

/*
 * The record of a transfer: where it stands. Each piece updates it in place.
 * Read given at any time; what the other numbers mean is the library's own affair.
 */
struct windlassow_transfer {
    uint32_t state; /* closed 0, at a pair's byte 1, in its first double 2, in its second 3,
                       after the odd end 4, damaged 5 */
    uint32_t given; /* the doubles given so far */
    uint32_t pair;  /* the byte of the last pair begun */
    uint32_t held;  /* how many bytes of the double in hand have come */
    uint64_t value; /* the number that these bytes make */
    uint64_t last;  /* the last double */
    size_t size;    /* the length of the tables */
    size_t h;       /* the hash of the fcm side */
    size_t g;       /* the hash of the dfcm side */
};

/*
 * Stores a block in a slot. Only that slot's bits change.
 * Answers 0 to 10 and 13. Count when done: the bits of the block's code; the rest of the slot is zero.
 * Planes when done: those written whole within the slot.
 */
struct windlassow_reply windlassow_store(
    uint32_t kind, uint32_t dimension, uint32_t mode, uint32_t planes, uint32_t width, int32_t lowest,
    uint8_t *archive, size_t archive_len, size_t slot,
    const uint32_t *words, size_t words_len);

/*
 * Reads a slot into the words.
 * Answers 0 to 8, 11 and 13. Count when done: the words of a block. Planes when done: those that could
 * be read whole, which for a slot that a store has written are the planes of the store. A lossy read
 * takes any slot, and 11 is no detector of damage: see above. Where the end of a lossy slot cuts a plane
 * in the search for a one, its bit is set at the place that the search has come to, as other zfp programs do.
 */
struct windlassow_reply windlassow_read(
    uint32_t kind, uint32_t dimension, uint32_t mode, uint32_t planes, uint32_t width, int32_t lowest,
    const uint8_t *archive, size_t archive_len, size_t slot,
    uint32_t *words, size_t words_len);

/*
 * Counts the slots of an archive.
 * Answers 0 to 6 and 13. Count when done: the number of slots. Planes: 0.
 */
struct windlassow_reply windlassow_slot_count(
    uint32_t kind, uint32_t dimension, uint32_t mode, uint32_t planes, uint32_t width, int32_t lowest,
    const uint8_t *archive, size_t archive_len);

/*
 * Counts the bits of a block's code.
 * Answers 0 to 5, 8, 9 and 13. Count when done: the bits; exact mode takes no notice of a good width.
 * Planes when done: those that a store would write whole, in exact mode all of the code's.
 */
struct windlassow_reply windlassow_bit_count(
    uint32_t kind, uint32_t dimension, uint32_t mode, uint32_t planes, uint32_t width, int32_t lowest,
    const uint32_t *words, size_t words_len);

/*
 * Copies an exact archive to a new one with full slots of 33N + 14 bits: the block of slot k goes to slot k.
 * The parameters are those of the old archive; the new one is read with the same and width 0.
 * Every slot is read before one is written. Of the new buffer only the slots copied change, and a refused
 * copy changes nothing. A new buffer of (slots x WINDLASSOW_FULL_WIDTH(N) + 7) / 8 bytes is long enough.
 * Answers 0 to 6, 13, 14 and 11. Count when done: the slots copied, all that the old archive has. Count of
 * 11: the number of the first slot that cannot be read. Planes: 0. A copy is no check of the bytes, see above.
 */
struct windlassow_reply windlassow_copy(
    uint32_t kind, uint32_t dimension, uint32_t mode, uint32_t planes, uint32_t width, int32_t lowest,
    const uint8_t *archive, size_t archive_len, uint8_t *new_archive, size_t new_len);

/*
 * Writes the FPC stream of a run of doubles, given as 64-bit patterns.
 * f and d are the two tables; what they hold before the call does not matter.
 * Answers 0 and 20 to 22. Count when done: the bytes written; out past them is as it was,
 * and the tables stand as after the last double.
 * The stream of n doubles is never longer than 17 bytes for each begun pair.
 */
struct windlassow_fpc_reply windlassow_fpc_write(
    uint64_t *f, size_t f_len, uint64_t *d, size_t d_len,
    const uint64_t *doubles, size_t doubles_len, uint8_t *out, size_t out_len);

/*
 * Reads an FPC stream. The tables must have the length that they had when it was written.
 * Answers 0 and 20 to 23. Count when done: the doubles read; the buffer past them is as it was,
 * and the tables stand as after the last double.
 */
struct windlassow_fpc_reply windlassow_fpc_read(
    uint64_t *f, size_t f_len, uint64_t *d, size_t d_len,
    const uint8_t *stream, size_t stream_len, uint64_t *doubles, size_t doubles_len);

/*
 * Opens a transfer and zeroes both tables. The tables must have the length that the writer's had.
 * What the record and the tables hold does not matter: a record that is open starts anew.
 * Answers 0 and 20. Count: 0. With 20 the record is closed and the tables are as they were.
 */
struct windlassow_fpc_reply windlassow_transfer_open(
    struct windlassow_transfer *transfer, uint64_t *f, size_t f_len, uint64_t *d, size_t d_len);

/*
 * Takes the next piece of the stream. The tables are those of the opening, as the last piece left them.
 * There must be room for WINDLASSOW_PIECE_ROOM(piece_len) doubles.
 * Answers 0, 20 to 23 and 25. Count when done, and with 23: the doubles that this piece gave. They stand at
 * the start of the buffer; past them it is as it was, and the tables stand as after the last one given.
 */
struct windlassow_fpc_reply windlassow_transfer_piece(
    struct windlassow_transfer *transfer, uint64_t *f, size_t f_len, uint64_t *d, size_t d_len,
    const uint8_t *piece, size_t piece_len, uint64_t *doubles, size_t doubles_len);

/*
 * Closes a transfer. The tables are not needed for it.
 * Answers 0, 23 and 25. Count when done: the doubles of the whole transfer. With 0 and with 23 the record is
 * closed, all zeros.
 */
struct windlassow_fpc_reply windlassow_transfer_close(struct windlassow_transfer *transfer);

#ifdef __cplusplus
}
#endif

#endif
