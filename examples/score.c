/* Scores document 01's sample: the tree, then each character with both reconstructions; and shows a refusal.
 *
 *     cc score.c $(pkg-config --cflags --libs badrumello) -o score
 */
#include <badrumello.h>
#include <stdio.h>

enum { TAXA = 4, CHARACTERS = 2, NODES = 2 * TAXA - 2, INTERIOR = TAXA - 2 };

static void put_index(const char *name, uint32_t over, uint32_t under) {
    if (under == 0)
        printf(" %s=none", name);
    else
        printf(" %s=%u/%u", name, over, under);
}

static void put_scores(const uint32_t *result) {
    printf("length=%u", result[BADRUMELLO_LENGTH]);
    put_index("ci", result[BADRUMELLO_CI_OVER], result[BADRUMELLO_CI_UNDER]);
    put_index("ri", result[BADRUMELLO_RI_OVER], result[BADRUMELLO_RI_UNDER]);
    printf("\n");
}

static void put_refusal(uint64_t value) {
    printf("refused=%u,%u\n", badrumello_refusal(value), badrumello_place(value));
}

int main(void) {
    const uint16_t tree[NODES] = {0, 5, 6, 6, 1, 5};
    const uint16_t matrix[TAXA * CHARACTERS] = {0, 0, 3, 1, 1, 1, 5, 0};
    uint32_t result[BADRUMELLO_RESULTS];

    uint64_t value = badrumello_tree(TAXA, CHARACTERS, tree, NODES, matrix, TAXA * CHARACTERS, result, BADRUMELLO_RESULTS);
    if (badrumello_refused(value)) {
        put_refusal(value);
        return 1;
    }
    printf("tree: ");
    put_scores(result);

    for (uint64_t character = 1; character <= CHARACTERS; character++)
        for (uint8_t resolve = BADRUMELLO_ACCTRAN; resolve <= BADRUMELLO_DELTRAN; resolve++) {
            uint16_t first_low[INTERIOR], first_high[INTERIOR], final_low[INTERIOR], final_high[INTERIOR], states[INTERIOR];
            uint32_t subtree[INTERIOR];
            value = badrumello_character(TAXA, CHARACTERS, character, resolve, tree, NODES, matrix, TAXA * CHARACTERS,
                first_low, INTERIOR, first_high, INTERIOR, subtree, INTERIOR, final_low, INTERIOR, final_high, INTERIOR, states, INTERIOR,
                result, BADRUMELLO_RESULTS);
            if (badrumello_refused(value)) {
                put_refusal(value);
                return 1;
            }
            printf("character %u, %s: ", (unsigned)character, resolve == BADRUMELLO_ACCTRAN ? "acctran" : "deltran");
            put_scores(result);
            for (int k = 0; k < INTERIOR; k++)
                printf("  node %d: first %u-%u, final %u-%u, state %u, least length below %u\n", TAXA + 1 + k,
                    first_low[k], first_high[k], final_low[k], final_high[k], states[k], subtree[k]);
        }

    /* one interior node has three descendants, another none: refused, and nothing has been changed */
    const uint16_t damaged[NODES] = {0, 5, 5, 5, 1, 5};
    put_refusal(badrumello_tree(TAXA, CHARACTERS, damaged, NODES, matrix, TAXA * CHARACTERS, result, BADRUMELLO_RESULTS));
    return 0;
}
