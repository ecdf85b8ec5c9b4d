/* The header, from C and from C++: a trial row of document 01 with the counts of F-3, told words that are too few, a count with units, the ceilings,
   a clause read back, kept clauses listed backwards; and each of its constants, held against what the calls do. */
#include "code_tree.h"

#include <stdio.h>
#include <stdlib.h>

static int failed = 0;

static void expect(const char *what, uint64_t got, uint64_t wanted) {
    if (got != wanted) {
        printf("%s: %llu, not %llu\n", what, (unsigned long long)got, (unsigned long long)wanted);
        failed = 1;
    }
}

/* The ceilings of one clause and of the most, for all q and m, by adding up; sizes out of bounds are refused and tell nothing. */
static void expect_ceilings(void) {
    uint64_t told[1];
    for (uint64_t q = 1; q <= CT_CLAUSE_LITERALS; q++) {
        uint64_t power = 1, sum = 0;
        for (uint64_t m = 1; m <= CT_CLAUSE_LITERALS; m++) {
            power *= q;
            sum += power;
            expect("ceiling of one clause", ct_ceiling(1, q, m, told, 1), 0);
            expect("its value", told[0], sum);
            expect("ceiling of the most clauses", ct_ceiling(CT_KEPT_CLAUSES, q, m, told, 1), 0);
            expect("its value", told[0], CT_KEPT_CLAUSES * sum);
        }
    }
    expect("the greatest ceiling", told[0], 19634135040u);
    expect("the full budget", CT_FULL_BUDGET, 19634135040u);
    expect("ceiling of no clause", ct_ceiling(0, 1, 1, told, 1), 0);
    expect("its value", told[0], 0);
    told[0] = 9;
    expect("ceiling of no literal", ct_ceiling(1, 0, 1, told, 1), CT_BAD_SIZE);
    expect("ceiling of clauses of none", ct_ceiling(1, 1, 0, told, 1), CT_BAD_SIZE);
    expect("ceiling of a literal more", ct_ceiling(1, CT_CLAUSE_LITERALS + 1, 1, told, 1), CT_BAD_SIZE);
    expect("ceiling of clauses with one more", ct_ceiling(1, 1, CT_CLAUSE_LITERALS + 1, told, 1), CT_BAD_SIZE);
    expect("ceiling of a clause more", ct_ceiling(CT_KEPT_CLAUSES + 1, 1, 1, told, 1), CT_BAD_SIZE);
    expect("nothing told", told[0], 9);
}

/* A tree of Q(y), P(y) is checked, and its clause read back as Q(x), P(x); every refusal leaves the output. */
static void expect_saved(void) {
    const uint16_t clause[] = {0x8802, 0x4001, 0x8801, 0x4001};
    const uint16_t numbered[] = {0x8802, 0x4000, 0x8801, 0x4000};
    uint64_t tree[24];
    uint64_t told[2] = {9, 9};
    uint16_t out[CT_CLAUSE_WORDS + 1];
    for (size_t i = 0; i <= CT_CLAUSE_WORDS; i++) {
        out[i] = 9;
    }
    expect("fresh", ct_fresh(tree, 24), 0);
    expect("check of an empty tree", ct_check(tree, 24), 0);
    expect("read back of none", ct_read_back(tree, 24, 7, out, CT_CLAUSE_WORDS, told, 2), CT_NO_SUCH_NUMBER);
    expect("insert", ct_insert(tree, 24, clause, 4, 7, NULL, 0), 0);
    expect("check", ct_check(tree, 24), 0);
    expect("check of no slice", ct_check(NULL, 0), CT_BAD_SLICE);
    expect("check of one word", ct_check(tree, 1), CT_BAD_SLICE);
    expect("read back out of no slice", ct_read_back(NULL, 0, 7, NULL, 0, NULL, 0), CT_BAD_SLICE);
    expect("read back to no output", ct_read_back(tree, 24, 7, NULL, 0, told, 2), CT_SHORT_OUTPUT);
    expect("read back to a word too few", ct_read_back(tree, 24, 7, out, CT_CLAUSE_WORDS - 1, told, 2), CT_SHORT_OUTPUT);
    expect("read back of another number", ct_read_back(tree, 24, 8, out, CT_CLAUSE_WORDS, told, 2), CT_NO_SUCH_NUMBER);
    tree[23] = 1;
    expect("check of a word past the used ones", ct_check(tree, 24), CT_BROKEN);
    expect("read back of it", ct_read_back(tree, 24, 7, out, CT_CLAUSE_WORDS, told, 2), CT_BROKEN);
    tree[23] = 0;
    /* a Check of 17 bits */
    tree[2] ^= (uint64_t)1 << (28 + 16);
    expect("check of a tree of no clause", ct_check(tree, 24), CT_NO_SUCH_TREE);
    expect("read back of none such", ct_read_back(tree, 24, 7, out, CT_CLAUSE_WORDS, told, 2), CT_NO_SUCH_TREE);
    tree[2] ^= (uint64_t)1 << (28 + 16);
    expect("nothing told", told[0], 9);
    for (size_t i = 0; i <= CT_CLAUSE_WORDS; i++) {
        expect("nothing written", out[i], 9);
    }
    expect("read back", ct_read_back(tree, 24, 7, out, CT_CLAUSE_WORDS + 1, told, 2), 0);
    expect("length", told[0], 4);
    expect("told no further", told[1], 9);
    for (size_t i = 0; i < 4; i++) {
        expect("clause word", out[i], numbered[i]);
    }
    for (size_t i = 4; i <= CT_CLAUSE_WORDS; i++) {
        expect("word past the clause", out[i], 9);
    }
    expect("read back without told", ct_read_back(tree, 24, 7, out, CT_CLAUSE_WORDS, NULL, 0), 0);
}

/* P(a) is kept as 9, P(c), Q as 4000000000, Q as 7 and P(b) as 3: P(x) lists 3, 9 and 4000000000, in 4 candidates; every refusal leaves the list. */
static void expect_backward(void) {
    const uint16_t clauses[] = {0x8801, 0x0001, 0x8801, 0x0003, 0x8002, 0x8002, 0x8801, 0x0002};
    const uint16_t given[] = {0x8801, 0x4000};
    const uint16_t nine[] = {0x8001, 0x8001, 0x8001, 0x8001, 0x8001, 0x8001, 0x8001, 0x8001, 0x8001};
    const uint32_t numbers[] = {3, 9, 4000000000u};
    uint64_t tree[24];
    uint64_t told[3] = {9, 9, 9};
    uint32_t list[5] = {1, 1, 1, 1, 1};
    expect("fresh", ct_fresh(tree, 24), 0);
    expect("backward, nothing kept", ct_backward(tree, 24, given, 2, 0, NULL, 0, told, 3), 0);
    expect("no number", told[0], 0);
    expect("no candidate", told[1], 0);
    expect("told no further", told[2], 9);
    expect("insert", ct_insert(tree, 24, clauses, 2, 9, NULL, 0), 0);
    expect("insert of two literals", ct_insert(tree, 24, clauses + 2, 3, 4000000000u, NULL, 0), 0);
    expect("insert of another predicate", ct_insert(tree, 24, clauses + 5, 1, 7, NULL, 0), 0);
    expect("insert of a smaller number", ct_insert(tree, 24, clauses + 6, 2, 3, NULL, 0), 0);
    told[0] = told[1] = 9;
    expect("backward out of no slice", ct_backward(NULL, 0, NULL, 0, 0, NULL, 0, NULL, 0), CT_BAD_SLICE);
    expect("backward for no clause", ct_backward(tree, 24, NULL, 0, 4, list, 5, told, 3), CT_BAD_LENGTH);
    expect("backward to a list one short", ct_backward(tree, 24, given, 2, 4, list, 2, told, 3), CT_SHORT_LIST);
    expect("backward to no list", ct_backward(tree, 24, given, 2, 1, NULL, 0, told, 3), CT_SHORT_LIST);
    tree[23] = 1;
    expect("backward out of a broken tree", ct_backward(tree, 24, given, 2, 4, list, 5, told, 3), CT_BROKEN);
    tree[23] = 0;
    /* a Check of 17 bits, after the one of Q */
    tree[4] ^= (uint64_t)1 << (28 + 16);
    expect("backward out of a tree of no clause", ct_backward(tree, 24, given, 2, 4, list, 5, told, 3), CT_NO_SUCH_TREE);
    tree[4] ^= (uint64_t)1 << (28 + 16);
    expect("nothing told", told[0], 9);
    expect("backward, a budget one short", ct_backward(tree, 24, given, 2, 3, list, 5, told, 3), CT_SPENT);
    expect("spent count", told[0], 3);
    expect("backward before the list is short", ct_backward(tree, 24, given, 2, 0, NULL, 0, told, 3), CT_SPENT);
    expect("spent count of none", told[0], 0);
    expect("backward for a cut clause", ct_backward(tree, 24, given, 1, 4, list, 5, told, 3), CT_BAD_CLAUSE);
    expect("position", told[0], 1);
    expect("backward for nine literals", ct_backward(tree, 24, nine, 9, 4, list, 5, told, 3), CT_NINTH_LITERAL);
    expect("position of the ninth", told[0], 8);
    expect("told no further", told[1], 9);
    for (size_t i = 0; i < 5; i++) {
        expect("nothing listed", list[i], 1);
    }
    expect("backward", ct_backward(tree, 24, given, 2, 4, list, 5, told, 3), 0);
    expect("numbers", told[0], 3);
    expect("candidates", told[1], 4);
    expect("told no further", told[2], 9);
    for (size_t i = 0; i < 3; i++) {
        expect("listed number", list[i], numbers[i]);
    }
    expect("word past the numbers", list[3], 1);
    expect("the last word", list[4], 1);
    expect("backward without told, to just enough", ct_backward(tree, 24, given, 2, 4, list + 1, 3, NULL, 0), 0);
    for (size_t i = 0; i < 3; i++) {
        expect("number listed again", list[i + 1], numbers[i]);
    }
    expect("word before the list", list[0], numbers[0]);
    expect("word after the list", list[4], 1);
}

/* A fresh tree of the most words, in a slice of one more; or the end. */
static uint64_t *fresh_tree(void) {
    uint64_t *tree = (uint64_t *)malloc((CT_TREE_MOST + 1) * sizeof(uint64_t));
    if (tree == NULL || ct_fresh(tree, CT_TREE_MOST) != CT_OK) {
        printf("no tree\n");
        exit(1);
    }
    return tree;
}

/* The fields of a clause word: only heads begin a literal, a variable has no argument, a head has as many arguments as its arity says, and the
   numbers are told apart to the last. */
static void expect_words(void) {
    uint64_t *tree = fresh_tree();
    uint64_t told[CT_TOLD_WORDS];
    uint16_t clause[8];
    uint32_t kept = 0;
    for (unsigned kind = CT_FUNCTION; kind <= CT_NEGATIVE; kind++) {
        clause[0] = CT_WORD(kind, 0, 2047);
        expect("literal of a kind", ct_insert(tree, CT_TREE_MOST, clause, 1, kept, told, CT_TOLD_WORDS),
               kind == CT_POSITIVE || kind == CT_NEGATIVE ? CT_OK : CT_BAD_CLAUSE);
        kept++;
    }
    for (unsigned arity = 0; arity <= 7; arity++) {
        clause[0] = CT_WORD(CT_POSITIVE, arity, 0);
        for (size_t i = 1; i < 8; i++) {
            clause[i] = CT_WORD(CT_FUNCTION, 0, i);
        }
        expect("as many arguments", ct_insert(tree, CT_TREE_MOST, clause, arity + 1, kept, told, CT_TOLD_WORDS), CT_OK);
        kept++;
        if (arity > 0) {
            expect("an argument less", ct_insert(tree, CT_TREE_MOST, clause, arity, kept, told, CT_TOLD_WORDS), CT_BAD_CLAUSE);
            expect("its position", told[0], arity);
        }
    }
    clause[0] = CT_WORD(CT_POSITIVE, 1, 2047);
    clause[1] = CT_WORD(CT_VARIABLE, 0, 2047);
    expect("a variable", ct_insert(tree, CT_TREE_MOST, clause, 2, 100, told, CT_TOLD_WORDS), CT_OK);
    clause[1] = CT_WORD(CT_VARIABLE, 1, 2047);
    expect("a variable with an argument", ct_insert(tree, CT_TREE_MOST, clause, 2, 101, told, CT_TOLD_WORDS), CT_BAD_CLAUSE);
    expect("its position", told[0], 1);
    expect("the least kind", CT_FUNCTION, 0);
    expect("bytes of a word", sizeof(CT_WORD(CT_FUNCTION, 0, 0)), sizeof(clause[0]));
    expect("the greatest word", CT_WORD(CT_NEGATIVE, 7, 2047), 0xFFFF);
    expect("the words of document 01", CT_WORD(CT_POSITIVE, 3, 1), 0x9801);
    free(tree);
}

/* A clause of 8 literals, each with 7 variables, covers itself: of the witness the first 8 words are written, and 56 from the positions on; of what
   is told as many as hold every answer. */
static void expect_witness(void) {
    const uint16_t untouched = 999;
    uint64_t *tree = fresh_tree();
    uint64_t told[CT_TOLD_WORDS + 1];
    uint16_t clause[64], witness[CT_WITNESS_WORDS];
    for (size_t i = 0; i < 64; i++) {
        clause[i] = i % 8 == 0 ? CT_WORD(CT_NEGATIVE, 7, i) : CT_WORD(CT_VARIABLE, 0, i);
    }
    for (size_t i = 0; i < CT_WITNESS_WORDS; i++) {
        witness[i] = untouched;
    }
    for (size_t i = 0; i <= CT_TOLD_WORDS; i++) {
        told[i] = untouched;
    }
    expect("insert", ct_insert(tree, CT_TREE_MOST, clause, 64, 7, NULL, 0), CT_OK);
    expect("query", ct_query(tree, CT_TREE_MOST, clause, 64, CT_ENOUGH_BUDGET, witness, CT_WITNESS_WORDS, told, CT_TOLD_WORDS + 1), CT_OK);
    expect("covered by itself", told[0], 1);
    for (size_t i = 0; i <= CT_TOLD_WORDS; i++) {
        expect("a told word is one of those that hold every answer", told[i] != untouched, i < CT_TOLD_WORDS);
    }
    for (size_t i = 0; i < CT_WITNESS_WORDS; i++) {
        size_t j = i - CT_WITNESS_POSITIONS;
        if (i < 8) {
            expect("a literal", witness[i], i);
        } else if (i >= CT_WITNESS_POSITIONS && j < 56) {
            expect("a position", witness[i], j / 7 * 8 + j % 7 + 1);
        } else {
            expect("a word that does not count", witness[i], untouched);
        }
    }
    free(tree);
}

/* Each limit holds, and one more or less is refused. */
static void expect_limits(void) {
    uint64_t *tree = fresh_tree();
    uint64_t told[CT_TOLD_WORDS];
    uint16_t clause[CT_CLAUSE_WORDS + 1], many[CT_CLAUSE_LITERALS + 1], witness[CT_WITNESS_WORDS];
    many[0] = CT_WORD(CT_POSITIVE, 0, 1);
    expect("the least tree", ct_fresh(tree, CT_TREE_LEAST), CT_OK);
    expect("no room there", ct_insert(tree, CT_TREE_LEAST, many, 1, 0, told, CT_TOLD_WORDS), CT_NO_ROOM);
    expect("a word less", ct_fresh(tree, CT_TREE_LEAST - 1), CT_BAD_SLICE);
    expect("a word more than the most", ct_fresh(tree, CT_TREE_MOST + 1), CT_BAD_SLICE);
    /* P(f(f(.. f(x) ..))) */
    for (size_t i = 0; i <= CT_CLAUSE_WORDS; i++) {
        clause[i] = CT_WORD(i == 0 ? CT_POSITIVE : CT_FUNCTION, 1, 1);
    }
    clause[CT_CLAUSE_WORDS] = CT_WORD(CT_VARIABLE, 0, 0);
    expect("a word too many", ct_insert(tree, CT_TREE_MOST, clause, CT_CLAUSE_WORDS + 1, 0, told, CT_TOLD_WORDS), CT_BAD_LENGTH);
    clause[CT_CLAUSE_WORDS - 1] = CT_WORD(CT_VARIABLE, 0, 0);
    expect("the most words", ct_insert(tree, CT_TREE_MOST, clause, CT_CLAUSE_WORDS, 0, told, CT_TOLD_WORDS), CT_OK);
    for (size_t i = 0; i <= CT_CLAUSE_LITERALS; i++) {
        many[i] = CT_WORD(CT_POSITIVE, 0, 1);
    }
    expect("a literal too many", ct_insert(tree, CT_TREE_MOST, many, CT_CLAUSE_LITERALS + 1, 1, told, CT_TOLD_WORDS), CT_NINTH_LITERAL);
    expect("its position", told[0], CT_CLAUSE_LITERALS);
    expect("a number taken", ct_insert(tree, CT_TREE_MOST, many, CT_CLAUSE_LITERALS, 0, told, CT_TOLD_WORDS), CT_NUMBER_TAKEN);
    expect("the most literals", ct_insert(tree, CT_TREE_MOST, many, CT_CLAUSE_LITERALS, 1, told, CT_TOLD_WORDS), CT_OK);
    expect("the least witness", ct_query(tree, CT_TREE_MOST, many, 1, CT_ENOUGH_BUDGET, witness, CT_WITNESS_WORDS, told, CT_TOLD_WORDS), CT_OK);
    expect("a witness with a word less", ct_query(tree, CT_TREE_MOST, many, 1, CT_ENOUGH_BUDGET, witness, CT_WITNESS_WORDS - 1, told, CT_TOLD_WORDS),
           CT_SHORT_WITNESS);
    for (uint32_t number = 2; number <= CT_KEPT_CLAUSES; number++) {
        many[0] = CT_WORD(CT_NEGATIVE, 0, number);
        expect("one of the most clauses", ct_insert(tree, CT_TREE_MOST, many, 1, number, told, CT_TOLD_WORDS),
               number < CT_KEPT_CLAUSES ? CT_OK : CT_LIST_FULL);
    }
    free(tree);
}

/* How often q literals can be taken, one to q of them after another. */
static uint64_t arrangements(uint64_t q) {
    uint64_t ways = 1, sum = 0;
    for (; q > 0; q--) {
        ways *= q;
        sum += ways;
    }
    return sum;
}

/* P, .., P, Q is kept and P, .., P asked for, of up to 8 literals: the count is the arrangements', and a budget of one less is spent. */
static void expect_budgets(void) {
    uint64_t told[CT_TOLD_WORDS];
    uint16_t kept[8], asked[8], witness[CT_WITNESS_WORDS];
    for (size_t literals = 1; literals <= 8; literals++) {
        uint64_t *tree = fresh_tree();
        uint64_t most = arrangements(literals);
        for (size_t i = 0; i < literals; i++) {
            asked[i] = CT_WORD(CT_POSITIVE, 0, 1);
            kept[i] = CT_WORD(CT_POSITIVE, 0, i + 1 < literals ? 1 : 2);
        }
        expect("insert", ct_insert(tree, CT_TREE_MOST, kept, literals, 7, told, CT_TOLD_WORDS), CT_OK);
        expect("query", ct_query(tree, CT_TREE_MOST, asked, literals, most, witness, CT_WITNESS_WORDS, told, CT_TOLD_WORDS), CT_OK);
        expect("not covered", told[0], 0);
        expect("the most candidates of a clause", told[2], most);
        expect("a budget one short", ct_query(tree, CT_TREE_MOST, asked, literals, most - 1, witness, CT_WITNESS_WORDS, told, CT_TOLD_WORDS), CT_SPENT);
        free(tree);
    }
    expect("the budget that is enough", CT_ENOUGH_BUDGET, CT_KEPT_CLAUSES * arrangements(CT_CLAUSE_LITERALS));
}

/* Three clauses of 8 literals are listed for one that covers none: each takes the arrangements of 8, and a budget of one less is spent. */
static void expect_listed(void) {
    const uint64_t most = 3 * arrangements(8);
    uint64_t *tree = fresh_tree();
    uint64_t told[CT_TOLD_WORDS];
    uint16_t given[16], kept[16];
    for (size_t i = 0; i < 8; i++) {
        given[2 * i] = CT_WORD(i < 7 ? CT_POSITIVE : CT_NEGATIVE, 1, 1);
        given[2 * i + 1] = CT_WORD(CT_VARIABLE, 0, i);
        kept[2 * i] = CT_WORD(CT_POSITIVE, 1, 1);
        kept[2 * i + 1] = CT_WORD(CT_FUNCTION, 0, 0);
    }
    for (uint32_t number = 0; number < 3; number++) {
        kept[15] = CT_WORD(CT_FUNCTION, 0, number);
        expect("insert", ct_insert(tree, CT_TREE_MOST, kept, 16, number, told, CT_TOLD_WORDS), CT_OK);
    }
    expect("backward", ct_backward(tree, CT_TREE_MOST, given, 16, most, NULL, 0, told, CT_TOLD_WORDS), CT_OK);
    expect("no number", told[0], 0);
    expect("the most candidates of three clauses", told[1], most);
    expect("backward, a budget one short", ct_backward(tree, CT_TREE_MOST, given, 16, most - 1, NULL, 0, told, CT_TOLD_WORDS), CT_SPENT);
    free(tree);
}

int main(void) {
    /* P(x), Q(x) is kept; P(a), P(b), Q(b) is asked for */
    const uint16_t kept[] = {0x8801, 0x4000, 0x8802, 0x4000};
    const uint16_t asked[] = {0x8801, 0x0001, 0x8801, 0x0002, 0x8802, 0x0002};
    const uint16_t cut[] = {0x8801};
    /* units, clauses of one literal: P(a) and Q(a); what they do not cover: P(b), Q(b) */
    const uint16_t units[] = {0x8801, 0x0001, 0x8802, 0x0001};
    const uint16_t missed[] = {0x8801, 0x0002, 0x8802, 0x0002};
    uint64_t tree[24];
    uint64_t told[3] = {9, 9, 9};
    uint16_t witness[CT_WITNESS_WORDS] = {0};

    expect("fresh", ct_fresh(tree, 24), 0);
    expect("fresh of one word", ct_fresh(tree, 1), CT_BAD_SLICE);
    expect("insert", ct_insert(tree, 24, kept, 4, 7, NULL, 0), 0);
    expect("insert again", ct_insert(tree, 24, kept, 4, 8, told, 3), CT_HELD);
    expect("held number", told[0], 7);
    expect("told no further", told[1], 9);
    expect("insert of a cut clause", ct_insert(tree, 24, cut, 1, 8, told, 1), CT_BAD_CLAUSE);
    expect("position", told[0], 1);

    expect("query", ct_query(tree, 24, asked, 6, 6, witness, CT_WITNESS_WORDS, told, 3), 0);
    expect("covered", told[0], 1);
    expect("number", told[1], 7);
    expect("count", told[2], 6);
    expect("literals", witness[0] * 10u + witness[1], 12);
    expect("positions", witness[8] * 10u + witness[9], 35);
    expect("where they start", CT_WITNESS_POSITIONS, 8);
    expect("query without told", ct_query(tree, 24, asked, 6, 6, witness, CT_WITNESS_WORDS, NULL, 0), 0);
    expect("short budget", ct_query(tree, 24, asked, 6, 5, witness, CT_WITNESS_WORDS, told, 3), CT_SPENT);
    expect("spent count", told[0], 5);
    expect("no witness", ct_query(tree, 24, asked, 6, 6, NULL, 0, told, 3), CT_SHORT_WITNESS);
    expect("no clause", ct_query(tree, 24, NULL, 0, 6, witness, CT_WITNESS_WORDS, told, 3), CT_BAD_LENGTH);
    expect("query with a literal too few", ct_query(tree, 24, asked, 2, 1, witness, CT_WITNESS_WORDS, told, 3), 0);
    expect("not covered by one for two", told[0], 0);
    expect("count, no literal left", told[2], 1);

    expect("remove", ct_remove(tree, 24, 7), 0);
    expect("remove again", ct_remove(tree, 24, 7), CT_NO_SUCH_NUMBER);

    expect("insert of a unit", ct_insert(tree, 24, units, 2, 1, NULL, 0), 0);
    expect("insert of another", ct_insert(tree, 24, units + 2, 2, 2, NULL, 0), 0);
    expect("query, units kept", ct_query(tree, 24, missed, 4, 2, witness, CT_WITNESS_WORDS, told, 3), 0);
    expect("not covered", told[0], 0);
    expect("as many candidates as literals", told[2], 2);
    expect("budget one short, units kept", ct_query(tree, 24, missed, 4, 1, witness, CT_WITNESS_WORDS, told, 3), CT_SPENT);
    expect("spent count, units kept", told[0], 1);

    expect_ceilings();
    expect_saved();
    expect_backward();
    expect_words();
    expect_witness();
    expect_limits();
    expect_budgets();
    expect_listed();
    if (!failed) {
        printf("ok\n");
    }
    return failed;
}
