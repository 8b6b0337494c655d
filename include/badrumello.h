/* badrumello.h: scores evolutionary trees under Wagner parsimony (ordered, freely reversible characters), after Swofford and Maddison (1987).
 *
 * Every function is written in Rattle and proved, for every input: to answer what is said here, to read and write nothing but the buffers it is
 * lent, and to return. (The compiler's back end and this header are trusted, not proved.) What is left to you is what a C function cannot see:
 *
 *   - A slice is a pointer and its length in elements. The pointer is not null, is aligned for its type, and that many elements may be read there
 *     (and written, where the pointer is not const). A slice of length 0 needs a pointer that is not null, too. A wrong length is refused, and
 *     nothing past the length you give is touched; a pointer that does not have so many elements behind it cannot be noticed.
 *   - A slice that is written must not overlap any other slice of the same call, and nobody else reads or writes it during the call. Nobody writes
 *     to the others during the call.
 *
 * No function allocates memory, keeps a pointer, or has state of its own: calls from several threads, on separate buffers, do not disturb each
 * other, and slices that are only read may be shared. A call needs less than BADRUMELLO_STACK_BYTES of stack. The library is built for x86-64 Linux,
 * and for processors of the level x86-64-v2 (SSE4.2 and POPCNT).
 *
 * Inputs
 *
 *   n taxa, 3 to 256. c characters, 1 to 512. Nodes are 1 to 2n-2: taxa 1 to n, interior nodes n+1 to 2n-2, in any order.
 *   tree      the tree table, 2n-2 entries: entry k-1 is the ancestor of node k, and 0 marks the root. The root is a taxon with one descendant;
 *             every interior node has two.
 *   matrix    n rows of c states, 0 to 9999: the state of taxon t for character j is cell (t-1)*c + j, counted from 1, so entry (t-1)*c + j-1.
 *   taxon, character, and the nodes, cells, lines and slices that a refusal names are counted from 1.
 *
 * Answers
 *
 *   Every function answers one 64-bit number. Below 2^32 it is the answer. Otherwise the call is refused: badrumello_refusal(value) is the number of
 *   the refusal and badrumello_place(value) its place. A refused call has changed nothing in any buffer. The refusals of a call are looked for in the
 *   order in which they stand with the function, and the first that applies is given. All of them:
 *
 *     no.  given when                                                        place
 *      1   n or c is outside its limits                                      0
 *      2   a slice has not exactly the length that is asked                  the lowest such slice, as numbered with the function
 *      3   not exactly one entry of the tree is 0, or it is interior         the lowest 0 that is interior or follows another 0; 0 if there is none
 *      4   an entry is above 2n-2, or names a taxon that is not the root     the lowest such node
 *      5   the root has not one descendant, or an interior node not two      the lowest such node
 *      6   the ancestors of a node never reach the root                      the lowest such node
 *      7   a state is above 9999                                             the lowest such cell
 *      8   there is no such taxon or character                               0
 *      9   the new state of a correction is above 9999                       0
 *     10   an entry of a kept table has low above high, high above 9999,     its node, the lowest of the lowest character
 *          or a subtree length above 5,089,491
 *     11   a line of a sheet is not in form, or missing                      the lowest such line
 *     12   a sheet has more than 32,768 bytes                                0
 */
#ifndef BADRUMELLO_H
#define BADRUMELLO_H

#include <stddef.h>
#include <stdint.h>

#ifdef __cplusplus
extern "C" {
#endif

/* Limits of the inputs. */
#define BADRUMELLO_MIN_TAXA 3
#define BADRUMELLO_MAX_TAXA 256
#define BADRUMELLO_MAX_CHARACTERS 512
#define BADRUMELLO_MAX_STATE 9999
#define BADRUMELLO_MAX_KEPT_LENGTH 5089491 /* 9999 * 509: a subtree length above it is no entry of a kept table (refusal 10) */
#define BADRUMELLO_MAX_SHEET_BYTES 32768

/* Lengths of slices, in elements. */
#define BADRUMELLO_NODES(n) (2 * (size_t)(n) - 2)
#define BADRUMELLO_INTERIOR(n) ((size_t)(n) - 2)
#define BADRUMELLO_CELLS(n, c) ((size_t)(n) * (size_t)(c))
#define BADRUMELLO_KEPT(n, c) (BADRUMELLO_INTERIOR(n) * (size_t)(c))
#define BADRUMELLO_SHEET_TREE 510      /* 2 * 256 - 2: the tree slice of badrumello_read_sheet, enough for any sheet */
#define BADRUMELLO_SHEET_MATRIX 16384  /* 32,768 / 2: its matrix slice; a cell takes two bytes of the sheet at least */
#define BADRUMELLO_REPORT_BYTES 524288 /* the out slice of badrumello_report, enough for any report */

/* A call needs less stack than this. */
#define BADRUMELLO_STACK_BYTES 262144

/* The entries of a result slice of badrumello_tree and badrumello_character. An index is over / under, not reduced; under 0 (and over 0) is none:
 * CI is none if the length is 0, RI is none if g = m or g is below the length. */
enum {
    BADRUMELLO_LENGTH,   /* the least length */
    BADRUMELLO_M,        /* the highest minus the lowest state over all taxa; for a tree, summed over the characters */
    BADRUMELLO_G,        /* the sum over taxa of the distance from the root taxon's state; for a tree, summed over the characters */
    BADRUMELLO_CI_OVER,  /* m */
    BADRUMELLO_CI_UNDER, /* the length */
    BADRUMELLO_RI_OVER,  /* g - length */
    BADRUMELLO_RI_UNDER, /* g - m */
    BADRUMELLO_RESULTS   /* 7: how many there are */
};

/* The entries of the result slice of badrumello_read_sheet. */
enum {
    BADRUMELLO_SHEET_TAXA,       /* n */
    BADRUMELLO_SHEET_CHARACTERS, /* c */
    BADRUMELLO_SHEET_RESOLVE,    /* BADRUMELLO_ACCTRAN or BADRUMELLO_DELTRAN */
    BADRUMELLO_SHEET_RESULTS     /* 3: how many there are */
};

/* How a reconstruction is resolved: from the root downward, each interior node takes the state nearest its ancestor's ... */
enum {
    BADRUMELLO_ACCTRAN, /* ... of its first-pass range */
    BADRUMELLO_DELTRAN  /* ... of its final range; for badrumello_character any number but 0 means this */
};

/* Is this value a refusal? */
static inline int badrumello_refused(uint64_t value) { return value >> 32 != 0; }

/* The number of a refusal, and its place. */
static inline uint32_t badrumello_refusal(uint64_t value) { return (uint32_t)(value >> 32); }
static inline uint32_t badrumello_place(uint64_t value) { return (uint32_t)value; }

/* ---- afresh: from a tree and a matrix ---- */

/* One character: its length, ranges, a reconstruction and its indices.
 *
 * Answers the character's length: the least over all ways of giving integers to the interior nodes. `result` then holds the seven numbers for this
 * character. The other slices that are written have an entry for each interior node, node n+1 first:
 *
 *   first_low, first_high   the first-pass range: the states the node has in some least-length way of its subtree taken alone
 *   subtree                 the least length of that subtree
 *   final_low, final_high   the final range (MPR set): the states the node has in some least-length way of the whole tree
 *   states                  the reconstruction that `resolve` asks for: a way of least length
 *
 *   character   1 to c
 *   resolve     BADRUMELLO_ACCTRAN (0), or any other number for DELTRAN
 *   slices      1 tree (2n-2)   2 matrix (n*c)   3 first_low   4 first_high   5 subtree   6 final_low   7 final_high   8 states   9 result (7);
 *               slices 3 to 8 have n-2 entries each
 *   refusals    1, 2, 3, 4, 5, 6; 8: there is no such character; 7: a state of this character is above 9999 (other characters' are not looked at)
 */
uint64_t badrumello_character(uint64_t n, uint64_t c, uint64_t character, uint8_t resolve,
    const uint16_t *tree, size_t tree_len, const uint16_t *matrix, size_t matrix_len,
    uint16_t *first_low, size_t first_low_len, uint16_t *first_high, size_t first_high_len,
    uint32_t *subtree, size_t subtree_len,
    uint16_t *final_low, size_t final_low_len, uint16_t *final_high, size_t final_high_len,
    uint16_t *states, size_t states_len,
    uint32_t *result, size_t result_len);

/* All characters: the length of the tree and its indices.
 *
 * Answers the length, which is the sum of the characters' least lengths. `result` then holds the seven numbers for the tree; CI and RI are of the
 * sums, and so is whether they are none.
 *
 *   slices      1 tree (2n-2)   2 matrix (n*c)   3 result (7)
 *   refusals    1, 2, 3, 4, 5, 6; 7: a state is above 9999
 */
uint64_t badrumello_tree(uint64_t n, uint64_t c,
    const uint16_t *tree, size_t tree_len, const uint16_t *matrix, size_t matrix_len,
    uint32_t *result, size_t result_len);

/* ---- the kept table: the first pass of all characters, kept while single cells are corrected ----
 *
 * Three slices of (n-2)*c entries: low ends and high ends of the first-pass ranges, and subtree lengths. Character 1 comes first; the entries of one
 * character are adjacent, node n+1 first: those of node v and character j are at (j-1)*(n-2) + v-n-1.
 *
 * Build a table, then correct cells as often as you like: as long as nobody else writes to the tree, the matrix or the table, the table equals one
 * that is built afresh from the matrix as it then is, after every correction, accepted or refused. A table that was not built here is answered, too:
 * its entries are taken as they stand, and refusal 10 comes only where it is said.
 */

/* Builds the kept table.
 *
 * Answers 0. `low`, `high` and `lengths` then hold the table; what they held before does not matter.
 *
 *   slices      1 tree (2n-2)   2 matrix (n*c)   3 low   4 high   5 lengths; slices 3 to 5 have (n-2)*c entries each
 *   refusals    1, 2, 3, 4, 5, 6; 7: a state is above 9999
 */
uint64_t badrumello_build(uint64_t n, uint64_t c,
    const uint16_t *tree, size_t tree_len, const uint16_t *matrix, size_t matrix_len,
    uint16_t *low, size_t low_len, uint16_t *high, size_t high_len, uint32_t *lengths, size_t lengths_len);

/* Corrects one cell: the state of `taxon` for `character` becomes `state`.
 *
 * Answers the count of interior nodes between the taxon and the root, 0 for the root taxon. The cell of `matrix` then holds the new state, and in
 * `low`, `high` and `lengths` the entries of these nodes for this character are worked out anew, from the taxon upward; nothing else is written. A
 * correction to the state that is there already is one, too.
 *
 *   taxon       1 to n
 *   character   1 to c
 *   slices      1 tree (2n-2)   2 matrix (n*c)   3 low   4 high   5 lengths; slices 3 to 5 have (n-2)*c entries each
 *   refusals    1, 2, 3, 4, 5, 6; 8: there is no such taxon or character; 7: a state of this character is above 9999, that of the cell to be
 *               corrected among them; 9; 10: in an entry of this character that the work reads, that is, of an interior node that is not between
 *               the taxon and the root but whose ancestor is
 */
uint64_t badrumello_correct(uint64_t n, uint64_t c, uint64_t taxon, uint64_t character, uint16_t state,
    const uint16_t *tree, size_t tree_len, uint16_t *matrix, size_t matrix_len,
    uint16_t *low, size_t low_len, uint16_t *high, size_t high_len, uint32_t *lengths, size_t lengths_len);

/* The length of the tree, from the kept table.
 *
 * Answers the sum over the characters of the subtree length of the root's descendant and the distance from the root taxon's state to its range. For
 * a table as above that is the length that badrumello_tree answers.
 *
 *   slices      1 tree (2n-2)   2 matrix (n*c)   3 low   4 high   5 lengths; slices 3 to 5 have (n-2)*c entries each
 *   refusals    1, 2, 3, 4, 5, 6; 7: a state is above 9999; 10: in any entry
 */
uint64_t badrumello_kept_length(uint64_t n, uint64_t c,
    const uint16_t *tree, size_t tree_len, const uint16_t *matrix, size_t matrix_len,
    const uint16_t *low, size_t low_len, const uint16_t *high, size_t high_len, const uint32_t *lengths, size_t lengths_len);

/* One character's length and final ranges, from the kept table.
 *
 * Answers the length of the character. `final_low` and `final_high` then hold the final range of each interior node, node n+1 first. For a table as
 * above these are what badrumello_character gives.
 *
 *   character   1 to c
 *   slices      1 tree (2n-2)   2 matrix (n*c)   3 low   4 high   5 lengths   6 final_low   7 final_high; slices 3 to 5 have (n-2)*c entries
 *               each, slices 6 and 7 n-2
 *   refusals    1, 2, 3, 4, 5, 6; 8: there is no such character; 7: a state of this character is above 9999; 10: in an entry of this character
 */
uint64_t badrumello_kept_character(uint64_t n, uint64_t c, uint64_t character,
    const uint16_t *tree, size_t tree_len, const uint16_t *matrix, size_t matrix_len,
    const uint16_t *low, size_t low_len, const uint16_t *high, size_t high_len, const uint32_t *lengths, size_t lengths_len,
    uint16_t *final_low, size_t final_low_len, uint16_t *final_high, size_t final_high_len);

/* ---- sheets and reports ----
 *
 * A sheet is a text of key=value lines, each ended by LF, in this order: taxa=N, characters=C, ancestors= with 2n-2 numbers, for each taxon row= with
 * c numbers, and, if you like, resolve=acctran or resolve=deltran (without it: acctran). Numbers are decimal, 0 to 65535, without leading zeros, with
 * commas between and no spaces.
 */

/* Reads a sheet.
 *
 * Answers 0. `result` then holds the three numbers n, c and resolve; the first 2n-2 entries of `tree` are the tree table and the first n*c of
 * `matrix` the matrix. Entries past those keep their values. Whether the tree is one, and whether a state is above 9999, is not looked at here: the
 * functions above do.
 *
 *   slices      1 tree (BADRUMELLO_SHEET_TREE)   2 matrix (BADRUMELLO_SHEET_MATRIX)   3 result (3); the text is none of them and may have any length
 *   refusals    2, 12, 11, 1. 1 comes after line 2 and before line 3 is read: with n or c outside its limits, 11 is only for lines 1 and 2
 */
uint64_t badrumello_read_sheet(const uint8_t *text, size_t text_len,
    uint16_t *tree, size_t tree_len, uint16_t *matrix, size_t matrix_len,
    uint32_t *result, size_t result_len);

/* The report of a sheet.
 *
 * Answers the number of bytes of the report, which are the first so many of `out`: lines in ASCII, each ended by LF, with no 0 byte behind them.
 * Bytes past the report keep their values. A sheet that is refused (12, 11, 1, 3, 4, 5, 6, or 7 in any cell, in this order) has a report of one line,
 * as "refused=6,3" with number and place: that is an answer and not a refusal of this call.
 *
 *   slices      1 out (BADRUMELLO_REPORT_BYTES); the text is none of them and may have any length
 *   refusals    2
 */
uint64_t badrumello_report(const uint8_t *text, size_t text_len, uint8_t *out, size_t out_len);

#ifdef __cplusplus
}
#endif

#endif
