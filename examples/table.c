/* Reads a sheet, builds a kept table, corrects cells, refused ones among them, and prints the report of the sheet as it then is.
 *
 *     cc table.c $(pkg-config --cflags --libs badrumello) -o table
 */
#include <badrumello.h>
#include <inttypes.h>
#include <stdio.h>
#include <string.h>

static const char sheet[] =
    "taxa=4\n"
    "characters=2\n"
    "ancestors=0,5,6,6,1,5\n"
    "row=0,0\n"
    "row=3,1\n"
    "row=1,1\n"
    "row=5,0\n";

/* Everything that a kept table lives in: with room for the largest sheet, so nothing here is allocated. */
static uint16_t tree[BADRUMELLO_SHEET_TREE];
static uint16_t matrix[BADRUMELLO_SHEET_MATRIX];
static uint16_t low[BADRUMELLO_SHEET_MATRIX], high[BADRUMELLO_SHEET_MATRIX];
static uint32_t lengths[BADRUMELLO_SHEET_MATRIX];
static uint16_t final_low[BADRUMELLO_MAX_TAXA], final_high[BADRUMELLO_MAX_TAXA];
static char corrected[BADRUMELLO_MAX_SHEET_BYTES];
static uint8_t report[BADRUMELLO_REPORT_BYTES];
static uint32_t n, c;

static void put_refusal(uint64_t value) {
    printf("refused=%" PRIu32 ",%" PRIu32 "\n", badrumello_refusal(value), badrumello_place(value));
}

static uint64_t kept_length(void) {
    size_t kept = BADRUMELLO_KEPT(n, c);
    return badrumello_kept_length(n, c, tree, BADRUMELLO_NODES(n), matrix, BADRUMELLO_CELLS(n, c), low, kept, high, kept, lengths, kept);
}

/* One correction, and what it changes. */
static void correct(uint64_t taxon, uint64_t character, uint16_t state) {
    size_t kept = BADRUMELLO_KEPT(n, c);
    printf("taxon %" PRIu64 ", character %" PRIu64 " becomes %" PRIu16 ": ", taxon, character, state);
    uint64_t count = badrumello_correct(n, c, taxon, character, state, tree, BADRUMELLO_NODES(n), matrix, BADRUMELLO_CELLS(n, c),
        low, kept, high, kept, lengths, kept);
    if (badrumello_refused(count)) {
        put_refusal(count);
        return;
    }
    uint64_t length = badrumello_kept_character(n, c, character, tree, BADRUMELLO_NODES(n), matrix, BADRUMELLO_CELLS(n, c),
        low, kept, high, kept, lengths, kept, final_low, BADRUMELLO_INTERIOR(n), final_high, BADRUMELLO_INTERIOR(n));
    printf("%" PRIu64 " interior nodes\n  length of the tree %" PRIu64 ", of the character %" PRIu64 "; final ranges", count, kept_length(), length);
    for (size_t k = 0; k < BADRUMELLO_INTERIOR(n); k++)
        printf(" %" PRIu16 "-%" PRIu16, final_low[k], final_high[k]);
    printf("\n");
}

/* The corrected matrix as a sheet; its length. */
static size_t write_sheet(void) {
    size_t at = 0;
    at += (size_t)snprintf(corrected + at, sizeof corrected - at, "taxa=%" PRIu32 "\ncharacters=%" PRIu32 "\n", n, c);
    for (size_t k = 0; k < BADRUMELLO_NODES(n); k++)
        at += (size_t)snprintf(corrected + at, sizeof corrected - at, "%s%" PRIu16, k == 0 ? "ancestors=" : ",", tree[k]);
    for (size_t k = 0; k < BADRUMELLO_CELLS(n, c); k++)
        at += (size_t)snprintf(corrected + at, sizeof corrected - at, "%s%" PRIu16, k % c == 0 ? "\nrow=" : ",", matrix[k]);
    at += (size_t)snprintf(corrected + at, sizeof corrected - at, "\nresolve=deltran\n");
    return at;
}

int main(void) {
    uint32_t result[BADRUMELLO_SHEET_RESULTS];
    uint64_t value = badrumello_read_sheet((const uint8_t *)sheet, strlen(sheet), tree, BADRUMELLO_SHEET_TREE, matrix, BADRUMELLO_SHEET_MATRIX,
        result, BADRUMELLO_SHEET_RESULTS);
    if (badrumello_refused(value)) {
        put_refusal(value);
        return 1;
    }
    n = result[BADRUMELLO_SHEET_TAXA];
    c = result[BADRUMELLO_SHEET_CHARACTERS];

    size_t kept = BADRUMELLO_KEPT(n, c);
    value = badrumello_build(n, c, tree, BADRUMELLO_NODES(n), matrix, BADRUMELLO_CELLS(n, c), low, kept, high, kept, lengths, kept);
    if (badrumello_refused(value)) {
        put_refusal(value);
        return 1;
    }
    printf("%" PRIu32 " taxa, %" PRIu32 " characters, length of the tree %" PRIu64 "\n", n, c, kept_length());

    correct(4, 1, 3);     /* two interior nodes stand between taxon 4 and the root */
    correct(1, 1, 4);     /* taxon 1 is the root: no entry changes, and yet the length does */
    correct(2, 2, 10000); /* no state */
    correct(5, 1, 0);     /* no taxon */
    correct(3, 2, 0);

    size_t bytes = write_sheet();
    value = badrumello_report((const uint8_t *)corrected, bytes, report, BADRUMELLO_REPORT_BYTES);
    if (badrumello_refused(value)) {
        put_refusal(value);
        return 1;
    }
    fwrite(report, 1, value, stdout);
    return 0;
}
