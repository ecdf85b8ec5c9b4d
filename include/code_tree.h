/*
 * code_tree.h: keeps clauses in words that you lend, and tells which kept clause covers a given one.
 *
 * A clause is a list of literals with variables, say "gas not open at z, or air proved at z". A clause covers
 * (subsumes) another if one replacement of its variables by terms makes each of its literals a literal of the other,
 * each at a place of its own (equal literals at two places are two). So this one covers "gas not open at zone 1, or
 * air proved at zone 1". Variables of the covered clause are constants there.
 *
 * An example (tests/c/example.c). It prints "covered by 7, z is the term at word 1":
 *
 *     #include <code_tree.h>
 *     #include <stdio.h>
 *
 *     #define GAS_NOT_OPEN CT_WORD(CT_NEGATIVE, 1, 1)
 *     #define AIR_PROVED CT_WORD(CT_POSITIVE, 1, 2)
 *     #define Z CT_WORD(CT_VARIABLE, 0, 0)
 *     #define ZONE_1 CT_WORD(CT_FUNCTION, 0, 1)
 *
 *     int main(void) {
 *         const uint16_t rule[4] = {GAS_NOT_OPEN, Z, AIR_PROVED, Z};
 *         const uint16_t asked[4] = {GAS_NOT_OPEN, ZONE_1, AIR_PROVED, ZONE_1};
 *         uint64_t tree[1024], told[CT_TOLD_WORDS];
 *         uint16_t witness[CT_WITNESS_WORDS];
 *
 *         if (ct_fresh(tree, 1024) != CT_OK || ct_insert(tree, 1024, rule, 4, 7, told, CT_TOLD_WORDS) != CT_OK) return 1;
 *         if (ct_query(tree, 1024, asked, 4, CT_ENOUGH_BUDGET, witness, CT_WITNESS_WORDS, told, CT_TOLD_WORDS) != CT_OK)
 *             return 1;
 *         if (told[0] == 1)
 *             printf("covered by %d, z is the term at word %d\n", (int)told[1], witness[CT_WITNESS_POSITIONS]);
 *         return 0;
 *     }
 *
 * `./install PREFIX` of the repository puts this header, the static and the shared library and codetree.pc there; then
 * `cc example.c $(pkg-config --cflags --libs codetree)`. They are for x86-64 and need the C library only. Where
 * PREFIX/lib is none of the system's folders, pkg-config needs PKG_CONFIG_PATH=PREFIX/lib/pkgconfig, and a program that
 * is linked with the shared library LD_LIBRARY_PATH=PREFIX/lib.
 *
 * A clause is 1 to CT_CLAUSE_WORDS words of 16 bits, made by CT_WORD. From the most significant bit a word has:
 *
 *   kind     2 bits   CT_FUNCTION: a function symbol (a constant has arity 0); CT_VARIABLE; CT_POSITIVE or
 *                     CT_NEGATIVE: the head of a positive or of a negative literal, its predicate
 *   arity    3 bits   how many arguments follow, 0 to 7; 0 for a variable
 *   number  11 bits   0 to 2047, which symbol or variable; one number with two arities is two symbols
 *
 * A literal is its head and then its arguments, a term its symbol and then its arguments: P(x, f(a)) is the words P, x,
 * f, a. A clause is 1 to CT_CLAUSE_LITERALS literals, one after another; heads stand nowhere else. A position is a
 * word's index in its clause, from 0.
 *
 * A slice is a pointer and the number of its elements. The pointer must be aligned and valid for all of them; with 0
 * elements it may be null. Slices handed to one call must not overlap. No pointer is kept, nothing is allocated, and
 * there is no other state: calls on different trees may run at the same time, and so may calls that only read a tree.
 *
 * Each function returns CT_OK, which is 0, or the code of the first refusal that applies; a refusal changes no word of
 * a tree, a witness, an output or a list. `told` gets the values of an answer, also of a refusal, in its first words,
 * as far as its told_words words reach; CT_TOLD_WORDS words hold every answer. Words for which there is no value stay
 * as they were.
 *
 *   code                    told       refused by
 *    1  bad slice                      all but ceiling: tree_words not CT_TREE_LEAST to CT_TREE_MOST
 *    2  broken                         insert, remove, read back, check, backward: the tree's words are not well
 *                                      laid (docs/REFERENCE.md)
 *                                      query: the header (tree[0]) has more words used than follow it, or the walk
 *                                      meets a word with an operation over 8 or a wrong extent, or a step that it
 *                                      can't take; it does not look at words that it does not meet
 *    3  bad length                     insert, query, backward: clause_words not 1 to CT_CLAUSE_WORDS
 *    4  bad clause          position   insert, query, backward: the first word, or the end, that breaks the
 *                                      clause rules
 *    5  ninth literal       position   insert, query, backward: a head too many where a literal begins, met before
 *                                      any 4
 *    6  short witness                  query: witness_words under CT_WITNESS_WORDS
 *    7  number taken                   insert
 *    8  held                number     insert: a variant (the same clause up to the names of its variables) is
 *                                      kept, under this number
 *    9  no such number                 remove, read back
 *   10  list full                      insert: CT_KEPT_CLAUSES clauses are kept
 *   11  no room                        insert: the tree would need more than its tree_words words
 *   12  spent               count      query: the walk would take one candidate more than the budget
 *                                      backward: the queries would, all together
 *   13  bad size                       ceiling: kept over CT_KEPT_CLAUSES, or query_literals or kept_literals not 1 to
 *                                      CT_CLAUSE_LITERALS
 *   14  no such tree                   read back, check, backward: well laid, but not the tree of some clauses,
 *                                      or of none, under different numbers
 *   15  short output                   read back: output_words under CT_CLAUSE_WORDS
 *   16  short list                     backward: one more number is found than the list_words words of the list hold
 *
 * Stack: a query of a tree made by these calls takes less than 62 KiB: a path has at most 321 instructions (proved),
 * so at most 320 calls nest, of 192 bytes each (measured), and the query itself takes 0.6 KiB. Tree words from
 * elsewhere nest up to 32,772 calls: 6,152 KiB; ct_check tells whether calls could have made them. ct_backward takes
 * less than 170 KiB, ct_check and ct_read_back less than 20 KiB, the other functions less than 8 KiB (measured).
 *
 * Each function is proved, for all words, lengths and numbers, to return the number and to leave the words that its
 * definition says (crates/interface/specs/Calls.antt), to read and write nothing but the slices that it is handed, and to
 * end. What queries, checks, clauses read back and listings say after any list of calls, and that with CT_TOLD_WORDS
 * told words or more no two answers of a function are told the same, is proved of those definitions
 * (crates/interface/specs/Claims.antt).
 */
#ifndef CODE_TREE_H
#define CODE_TREE_H

#include <stddef.h>
#include <stdint.h>

#ifdef __cplusplus
extern "C" {
#endif

/* One number, which rises with each release. The shared library is libcodetree.so.CT_VERSION, so that a program runs
   only with the release that it was compiled for. */
#define CT_VERSION 14

/* The kinds of a clause word, and the word. No field is cut: a number over its bits spoils the fields above it. */
enum {
    CT_FUNCTION = 0,
    CT_VARIABLE = 1,
    CT_POSITIVE = 2,
    CT_NEGATIVE = 3
};
#define CT_WORD(kind, arity, number) ((uint16_t)((unsigned)(kind) << 14 | (unsigned)(arity) << 11 | (unsigned)(number)))

/* Limits: words of a tree, words and literals of a clause, kept clauses. An output has CT_CLAUSE_WORDS words or more;
   a list of CT_KEPT_CLAUSES words is never too short. */
#define CT_TREE_LEAST 2
#define CT_TREE_MOST 65536
#define CT_CLAUSE_WORDS 64
#define CT_CLAUSE_LITERALS 8
#define CT_KEPT_CLAUSES 1024

/* The least words of a witness, and where positions begin in it (ct_query). */
#define CT_WITNESS_WORDS 72
#define CT_WITNESS_POSITIONS 8

/* The words of `told` that hold every answer. */
#define CT_TOLD_WORDS 3

/* The greatest ceiling (ct_ceiling), and a closer number: each is a budget that no query and no listing of a tree made
   by these calls spends. */
#define CT_FULL_BUDGET UINT64_C(19634135040)
#define CT_ENOUGH_BUDGET UINT64_C(112230400)

/* What is returned: CT_OK, or a refusal. */
enum {
    CT_OK = 0,
    CT_BAD_SLICE = 1,
    CT_BROKEN = 2,
    CT_BAD_LENGTH = 3,
    CT_BAD_CLAUSE = 4,
    CT_NINTH_LITERAL = 5,
    CT_SHORT_WITNESS = 6,
    CT_NUMBER_TAKEN = 7,
    CT_HELD = 8,
    CT_NO_SUCH_NUMBER = 9,
    CT_LIST_FULL = 10,
    CT_NO_ROOM = 11,
    CT_SPENT = 12,
    CT_BAD_SIZE = 13,
    CT_NO_SUCH_TREE = 14,
    CT_SHORT_OUTPUT = 15,
    CT_SHORT_LIST = 16
};

/*
 * Makes an empty tree, whatever its words hold.
 * Returns 0 with every word 0, or 1.
 */
uint64_t ct_fresh(uint64_t *tree, size_t tree_words);

/*
 * Keeps a clause under a number, any of 32 bits that no kept clause has.
 * Returns 0 with the clause merged into the tree, or 1, 2, 3, 4, 5, 7, 8, 10 or 11
 * (asked for in the order 1, 3 to 5, 2, 7, 8, 10, 11).
 * told: the position for 4 and 5, the number under which a variant is kept for 8; else nothing.
 */
uint64_t ct_insert(uint64_t *tree, size_t tree_words, const uint16_t *clause, size_t clause_words, uint32_t number,
                   uint64_t *told, size_t told_words);

/*
 * Takes the clause with a number out.
 * Returns 0 with the tree closed up, or 1, 2 or 9.
 */
uint64_t ct_remove(uint64_t *tree, size_t tree_words, uint32_t number);

/*
 * Asks whether a kept clause covers a clause, the query, with at most `budget` candidates: a candidate is a literal of
 * the query that is tried for a literal of a kept clause. With CT_ENOUGH_BUDGET a tree made by these calls is never
 * spent.
 * Returns 0, or 1, 2, 3, 4, 5, 6 or 12 (asked for in the order 1, 3 to 6, the header's 2, then 2 or 12 as the
 * walk meets them).
 * told: with 0, three values: 1 for covered, or 0; the number of the covering clause, or 0; the count of
 * candidates tried. The position for 4 and 5, the count for 12; else nothing.
 * witness, only if covered: of a covering clause with l literals and v words that are variables (one that stands twice
 * is two), l + v words count and are written, the others stay as they were. witness[i], for i under l, is the query's
 * literal, from 0, for its literal i, no two of them the same. witness[CT_WITNESS_POSITIONS + j], for j under v, is the
 * position in the query of the term for its variable word j (from 0, from left to right).
 * Where a tree, made by these calls, keeps at least one clause, each of a single literal: a query of q literals
 * that is answered not covered has the count q; a budget of q or more is enough (CT_CLAUSE_LITERALS for any
 * query), and a smaller one is spent unless the query is covered within it.
 */
uint64_t ct_query(const uint64_t *tree, size_t tree_words, const uint16_t *clause, size_t clause_words, uint64_t budget,
                  uint16_t *witness, size_t witness_words, uint64_t *told, size_t told_words);

/*
 * A bound: a query of q = query_literals takes no more candidates in a tree, made by these calls, of `kept` clauses of
 * at most m = kept_literals: kept * (q + q^2 + .. + q^m). It is not the closest one: no literal is used twice on a
 * path, so such a query takes at most kept * (q + q * (q - 1) + ..), of m summands; with m = 1 it takes at most q
 * (ct_query). The ceiling stays kept * q there. With the limits for all three the ceiling is CT_FULL_BUDGET and the
 * closer bound CT_ENOUGH_BUDGET.
 * Returns 0, or 13. told: with 0 the ceiling; else nothing.
 */
uint64_t ct_ceiling(uint64_t kept, uint64_t query_literals, uint64_t kept_literals, uint64_t *told, size_t told_words);

/*
 * Checks a tree, say one that was saved.
 * Returns 0 exactly if it is the tree of some clauses, at most CT_KEPT_CLAUSES, or of none, under different numbers:
 * each path to a Success is the sequence that an accepted clause compiles to. Or 1, 2 or 14.
 * A tree that these calls have made returns 0. And a tree that returns 0 is word for word the one that ct_fresh
 * and the insertion of its clauses make, so that all that is said of trees made by these calls holds of it, and
 * of what further calls make of it.
 * After the well-laid test one pass over the used words, at most one reading and one compiling for each kept
 * clause, and the numbers compared with each other, at most 523,776 times.
 */
uint64_t ct_check(const uint64_t *tree, size_t tree_words);

/*
 * Reads the clause with a number back, into output (CT_CLAUSE_WORDS words or more).
 * Returns 0, or 1, 15, 2, 14 or 9 (asked for in this order): the whole tree is checked first, as by ct_check.
 * told: with 0 the clause's length; else nothing.
 * output, only with 0: the clause's words, its variables numbered from 0 by their first appearance; its other words
 * stay as they were. Compiled, the clause gives the very path to its Success: it is the clause that was inserted,
 * up to the names of its variables, and word for word if they were so numbered.
 */
uint64_t ct_read_back(const uint64_t *tree, size_t tree_words, uint32_t number, uint16_t *output, size_t output_words,
                      uint64_t *told, size_t told_words);

/*
 * Lists the numbers of all kept clauses that a clause covers (a variant of it among them), each once, rising, into
 * list: by rising number each kept clause is queried in a tree of the given one alone, as by ct_query, with at most
 * `budget` candidates for all queries together; CT_ENOUGH_BUDGET is always enough.
 * Returns 0, or 1, 2, 3, 4, 5, 12, 14 or 16 (asked for in the order 1, 3 to 5, 2, 14, so that the whole tree is
 * checked first, as by ct_check; then 12 or 16 as the queries meet them, 16 where a number is found that the list
 * has no word left for, before the next candidate).
 * told: with 0, two values: how many numbers; the count of candidates tried in all. The position for 4 and 5, the
 * count for 12; else nothing.
 * list, only with 0: the numbers in its first words. Its other words stay as they were.
 */
uint64_t ct_backward(const uint64_t *tree, size_t tree_words, const uint16_t *clause, size_t clause_words,
                     uint64_t budget, uint32_t *list, size_t list_words, uint64_t *told, size_t told_words);

#ifdef __cplusplus
}
#endif

#endif
