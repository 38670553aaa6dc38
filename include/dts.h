/* Declaration trees: the proved declaration transform, for C.

   Link libdts.a, which `rt lib` proves and writes in crates/dts. A module is a tree of flat records (docs/FORMAT.md); an overload list holds entries
   of 10 bytes. Each function takes any bytes, lists, numbers and lengths: nothing has to be tested first, but memory has to be there for as many
   bytes as a length says (a pointer with length 0 may point anywhere, but not be null), and what is lent to be written must not overlap
   anything else that is lent. A call takes less than 512 KiB of stack.

   Each function returns 0, or the number of a refusal, with its place in answer[0] and 0 in answer[1]; what is lent to be written then holds what it
   held before:

     1  the tree is over 524,288 bytes                               6  a record's start is behind its end
     2  the list is over 40,960 bytes, no whole entries, or          7  more than 64 levels
        has a wrong mark or a start behind its end                   8  bytes after the root
     3  a head or a text runs past the tree                          9  the output is longer than its buffer
     4  an unknown mark                                             10  the diagnostics are longer than theirs
     5  a mark that its slot doesn't allow, a wrong form of         11  a number to be written in a text has no spelling, and
        text, or too few children                                       is not whole or not below 2 to the 53 in size

   The place is the record's offset for 3 to 7 and 11, that of the first extra byte for 8, else 0. A 9 of dts_transform and dts_depths has one other
   reason: a key of more than 65,531 bytes, of which an `Id` would be made whose text no head can hold. Then no buffer is long enough, so don't grow
   one without end: no output of 16 times the tree's length is known, and no text is longer than 6 times it. */
#ifndef DTS_H
#define DTS_H

#include <stddef.h>
#include <stdint.h>

#ifdef __cplusplus
extern "C" {
#endif

/* Refusals 1 to 8 of a tree and an overload list. Success: answer is the tree's length and 0. */
uint32_t dts_check(const uint8_t *tree, size_t tree_length, const uint8_t *list, size_t list_length, uint64_t answer[2]);

/* The declarations of a module. `list` has the ranges of the overloads' implementations; `unresolved_context` is the context of the names that no
   scope declares. Success: answer[0] bytes of declarations, a tree too, stand at the start of `out`, and answer[1] diagnostics of 10 bytes at the
   start of `diagnostics`; every byte beyond is as it was. */
uint32_t dts_transform(const uint8_t *tree, size_t tree_length, const uint8_t *list, size_t list_length, uint32_t unresolved_context,
                       uint8_t *out, size_t out_length, uint8_t *diagnostics, size_t diagnostics_length, uint64_t answer[2]);

/* The same, and how many of each diagnostic, and how deep. Success: counts[32 * (d - 1) + depth] is the number of diagnostics d, 1 to 5, that stand at
   this namespace depth, 0 to 31: the number of `Ns` records that hold the record that a diagnostic is marked at. Their sum is answer[1]. */
uint32_t dts_depths(const uint8_t *tree, size_t tree_length, const uint8_t *list, size_t list_length, uint32_t unresolved_context,
                    uint8_t *out, size_t out_length, uint8_t *diagnostics, size_t diagnostics_length, uint32_t counts[160], uint64_t answer[2]);

/* The text of a tree, as a .d.ts file has it: two spaces of indent for each namespace around an item, and an item to a line. `tree` may be any tree;
   for a module's declarations, give what dts_transform wrote. Statements, bodies and initial values are left out. A number is written with its
   spelling, its first `Op`, or else in decimal. Tested in this order: 1, 3 to 8, 11 (the first such number), 9. Success: answer[0] bytes of text stand
   at the start of `out`, and answer[1] is 0; every byte beyond is as it was. */
uint32_t dts_text(const uint8_t *tree, size_t tree_length, uint8_t *out, size_t out_length, uint64_t answer[2]);

#ifdef __cplusplus
}
#endif

#endif
