/* The example of include/code_tree.h, line by line (tests/install/run compares them). */
#include <code_tree.h>
#include <stdio.h>

#define GAS_NOT_OPEN CT_WORD(CT_NEGATIVE, 1, 1)
#define AIR_PROVED CT_WORD(CT_POSITIVE, 1, 2)
#define Z CT_WORD(CT_VARIABLE, 0, 0)
#define ZONE_1 CT_WORD(CT_FUNCTION, 0, 1)

int main(void) {
    const uint16_t rule[4] = {GAS_NOT_OPEN, Z, AIR_PROVED, Z};
    const uint16_t asked[4] = {GAS_NOT_OPEN, ZONE_1, AIR_PROVED, ZONE_1};
    uint64_t tree[1024], told[CT_TOLD_WORDS];
    uint16_t witness[CT_WITNESS_WORDS];

    if (ct_fresh(tree, 1024) != CT_OK || ct_insert(tree, 1024, rule, 4, 7, told, CT_TOLD_WORDS) != CT_OK) return 1;
    if (ct_query(tree, 1024, asked, 4, CT_ENOUGH_BUDGET, witness, CT_WITNESS_WORDS, told, CT_TOLD_WORDS) != CT_OK)
        return 1;
    if (told[0] == 1)
        printf("covered by %d, z is the term at word %d\n", (int)told[1], witness[CT_WITNESS_POSITIONS]);
    return 0;
}
