/*
 * Bixtogan: counts, lists, draws and checks the readings of a dominance sheet.
 *
 * A sheet is a run of bytes:
 *
 *     0x01 w      there are w nodes, 1 to 128, numbered from 0; comes first, and once
 *     0x02 p c    a tree edge from parent p to child c
 *     0x03 l r    a dominance edge from leaf l to root r; at most 255 different ones
 *     0x00        the end, the last byte
 *
 * Tree edges and dominance edges come in any order. The tree edges make trees of two or more
 * nodes each, the fragments. A dominance edge goes from a leaf to a root, of one fragment or two;
 * one that is repeated is read as a single edge. A sheet has at most 2,048 bytes.
 *
 * A node without tree edges, such as a word that stands alone, becomes a fragment whose root it
 * is, with one leaf added. Added leaves are numbered from w upward, by ascending node, and no
 * command can name them. With them the sheet has n nodes, at most 128, as bixtogan_nodes tells;
 * where each node has a tree edge, n is w.
 *
 * A labelled sheet, a normal dominance constraint, is for two functions: bixtogan_labelled makes a
 * plain sheet of it for all the others, and bixtogan_term writes a reading of it as a term. It has
 * two commands more, anywhere after the first:
 *
 *     0x05 p s    node p has the symbol s; 0 to 63 take no child, 64 to 127 one, 128 to 191 two,
 *                 192 to 255 three
 *     0x06        all labelled nodes differ; needed where there are two, and may be repeated
 *
 * A node has one label at most, and without one no child. A leaf without a label is a hole: it has
 * a parent, and dominance edges start from holes alone.
 *
 * A placing is n bytes, one for each node: of a root the leaf that it hangs under, and
 * BIXTOGAN_TOP of a root on top and of a node that is no root. Readings are placings, and so are
 * solved forms and configurations. Readings are numbered from 1.
 *
 * Every function returns BIXTOGAN_DONE, which is 0, or the number of a refusal, 1 to 4, 6 or 8 to
 * 16. Each tests its own input, so any bytes may be handed in. The sheet's refusals (1 to 4, 6, 8,
 * 12 and 13) come first: 12 before all others, then the fault that is the earliest in its bytes; a
 * cycle of tree edges, 13 and 6 are looked for after the last command, in this order. The other
 * numbers come in the order in which the function lists them.
 *
 * A refusal leaves all memory of the caller as it was, with one exception: where those
 * for readings and for a configuration answer that there is no reading (9), they write a cycle that
 * shows it, and its number of pairs. Bytes past a result are left as they were.
 *
 * The caller sees to it that
 *  - no pointer is null, not even one with the length 0;
 *  - each points to as many bytes as the length after it says, or to one number;
 *  - what a function may write is lent to it only once, and used by nobody else meanwhile.
 * The functions keep nothing between calls, allocate nothing and need no more than 256 kilobytes
 * of stack. They may run in several threads at once.
 */
#ifndef BIXTOGAN_H
#define BIXTOGAN_H

#include <stddef.h>
#include <stdint.h>

#ifdef __cplusplus
extern "C" {
#endif

/* Limits. */
#define BIXTOGAN_NODES_MAX 128           /* nodes of a sheet, added leaves counted */
#define BIXTOGAN_DOMINANCE_EDGES_MAX 255 /* different dominance edges of a sheet */
#define BIXTOGAN_SHEET_MAX 2048          /* bytes of a sheet */
#define BIXTOGAN_READINGS_MAX 65535      /* the highest exact count, and the highest number */

/* Bytes that are enough for any sheet. */
#define BIXTOGAN_PLACING_ROOM 256   /* a reading, a configuration, the cycle of 9 */
#define BIXTOGAN_DRAWING_ROOM 1024  /* a drawing; no fewer are taken */
#define BIXTOGAN_TERM_ROOM 2048     /* a term; no fewer are taken */
#define BIXTOGAN_TIDY_ROOM 1149     /* a tidy sheet, which has each edge once */
#define BIXTOGAN_FRAGMENTS_ROOM 192 /* a fragment table: 64 records of three bytes */

/* In a placing: a root on top, or a node that is no root. */
#define BIXTOGAN_TOP 255

/* As a count: more than BIXTOGAN_READINGS_MAX. */
#define BIXTOGAN_MORE 65536

/* What a function returns: an answer, .. */
#define BIXTOGAN_DONE 0
/* .. or that the sheet is not well-formed, .. */
#define BIXTOGAN_MISSING 1    /* a needed byte is missing */
#define BIXTOGAN_COMMAND 2    /* a command is unknown or out of place, or a byte follows the end */
#define BIXTOGAN_RANGE 3      /* w is outside 1 to 128, or an operand is w or more */
#define BIXTOGAN_TREE 4       /* an edge from a node to itself, a second parent, or a cycle */
#define BIXTOGAN_ENDS 6       /* a dominance edge does not go from a leaf to a root */
#define BIXTOGAN_TOO_MANY 8   /* a dominance edge would be the 256th different one */
#define BIXTOGAN_TOO_LONG 12  /* the sheet has more than 2,048 bytes */
#define BIXTOGAN_OVERGROWN 13 /* with a leaf added for each node without a tree edge, there are
                                 more than 128 nodes */
/* .. or that a labelled sheet is no normal dominance constraint, .. */
#define BIXTOGAN_LABEL 14   /* a node is labelled twice, or has not as many children as its symbol
                               takes */
#define BIXTOGAN_OVERLAP 15 /* two nodes are labelled, and nothing says that they differ */
#define BIXTOGAN_HOLE 16    /* a dominance edge starts from a labelled leaf, or a node has neither
                               label nor tree edge */
/* .. or that it has no solved form, and so no reading, .. */
#define BIXTOGAN_NO_READING 9
/* .. or that the call asks what cannot be. */
#define BIXTOGAN_SMALL_BUFFER 10    /* a buffer is too small */
#define BIXTOGAN_NO_SUCH_READING 11 /* the number wanted is 0, or beyond the count or 65,535 */

/* The answers to the check of a placing, to be added up. */
#define BIXTOGAN_SOLVED_FORM 1
#define BIXTOGAN_CONFIGURATION 2
#define BIXTOGAN_READING 4

/*
 * How many nodes there are, added leaves counted. *nodes becomes n, 2 to 128: so many bytes has a
 * placing.
 *
 * Refusals: the sheet's.
 */
uint8_t bixtogan_nodes(const uint8_t *sheet, size_t sheet_length, uint64_t *nodes);

/*
 * How many readings the sheet has. *readings becomes 1 to 65,535, or BIXTOGAN_MORE.
 *
 * Refusals: the sheet's, 9.
 */
uint8_t bixtogan_count(const uint8_t *sheet, size_t sheet_length, uint64_t *readings);

/*
 * The reading after a place. *place is the number of the last reading handed out, 0 before the
 * first. The next reading fills the first n bytes of out, and *place becomes its number. So
 * calls in a row list the readings, and the call after the last is refused with 11. (Each call
 * walks from reading 1 on; bixtogan_readings gives many at once.)
 *
 * out has at least 2n bytes. Where there is no reading (9), a cycle fills the first 2c of them
 * and *pairs becomes c: c pairs of a node and the kind of the edge that leads to the next
 * node, 2 for a tree edge and 3 for a dominance edge, the last leading to the first. It is a
 * simple hypernormal cycle, as bixtogan_check_cycle confirms. Otherwise *pairs stays as it was.
 *
 * Refusals: the sheet's, 10, 9, 11. After any of them *place is what it was.
 */
uint8_t bixtogan_reading(const uint8_t *sheet, size_t sheet_length, uint64_t *place,
                         uint8_t *out, size_t out_length, uint64_t *pairs);

/*
 * The readings after a place, one after the other, n bytes each: as many as are left and as there
 * is room for, all of them found in one walk. *place becomes the number of the last one, so
 * that *place less what it was is how many they are, and a further call goes on from there. A buffer
 * of 65,535 times n bytes holds every list. out and pairs are otherwise as for bixtogan_reading.
 *
 * Refusals: the sheet's, 10, 9, 11. After any of them *place is what it was.
 */
uint8_t bixtogan_readings(const uint8_t *sheet, size_t sheet_length, uint64_t *place,
                          uint8_t *out, size_t out_length, uint64_t *pairs);

/*
 * A configuration, which is a solved form with no two roots under one leaf. It is made from
 * reading 1, and fills the first n bytes of out. out and pairs are as for bixtogan_reading.
 *
 * Refusals: the sheet's, 10, 9.
 */
uint8_t bixtogan_configuration(const uint8_t *sheet, size_t sheet_length,
                               uint8_t *out, size_t out_length, uint64_t *pairs);

/*
 * The drawing of the reading with this number, a text such as 0(1[6(7)],2). It fills the first
 * bytes of out, and *length becomes how many; no 0 byte is put after it. out has at least 1,024
 * bytes, however short the drawing is.
 *
 * Refusals: the sheet's, 10, 9, 11.
 */
uint8_t bixtogan_drawing(const uint8_t *sheet, size_t sheet_length, uint64_t number,
                         uint8_t *out, size_t out_length, uint64_t *length);

/*
 * The tidy sheet of the same nodes and edges: tree edges by child, then dominance edges by leaf
 * and root, each edge once. No added leaf is written. It fills the first bytes of out, and *length
 * becomes how many. out has at least as many: the sheet's own length is enough, and so is
 * BIXTOGAN_TIDY_ROOM.
 *
 * Refusals: the sheet's, 10.
 */
uint8_t bixtogan_tidy(const uint8_t *sheet, size_t sheet_length,
                      uint8_t *out, size_t out_length, uint64_t *length);

/*
 * The plain sheet of a labelled one: its nodes and edges without the labels, tidy as bixtogan_tidy
 * has them. out and length are as there.
 *
 * Refusals: the sheet's, 14, 15, 16, 10.
 */
uint8_t bixtogan_labelled(const uint8_t *sheet, size_t sheet_length,
                          uint8_t *out, size_t out_length, uint64_t *length);

/*
 * The reading with this number of a labelled sheet as a term, a text such as 64(128(5,0)): a tree
 * that satisfies every literal of the sheet. A labelled node is its symbol, and after it in round
 * brackets its children, in the order of their commands. A hole that carries fragments is the
 * symbol 128, lower root first, filled out with the constant 0; where it carries more than two, the
 * lowest root comes first, and 128 with the others second. A hole that carries none is 0. Several
 * fragments on top come under a hole of their own. Added leaves are not written.
 *
 * The term fills the first bytes of out, and *length becomes how many; no 0 byte is put after it.
 * out has at least 2,048 bytes, however short the term is.
 *
 * Refusals: the sheet's, 14, 15, 16, 10, 9, 11.
 */
uint8_t bixtogan_term(const uint8_t *sheet, size_t sheet_length, uint64_t number,
                      uint8_t *out, size_t out_length, uint64_t *length);

/*
 * The fragments, a record of three bytes each: root, lowest leaf, number of leaves. The records
 * come by ascending root and fill the first bytes of out; *records becomes how many records
 * there are. out has at least three bytes for each fragment.
 *
 * Refusals: the sheet's, 10.
 */
uint8_t bixtogan_fragments(const uint8_t *sheet, size_t sheet_length,
                           uint8_t *out, size_t out_length, uint64_t *records);

/*
 * Whether the bytes, all of them, spell a simple hypernormal cycle of the sheet, in pairs as
 * with bixtogan_reading. *yes becomes 1 or 0. There is such a cycle exactly where there is no
 * reading. The bytes may come from anybody, and any length will do.
 *
 * Refusals: the sheet's.
 */
uint8_t bixtogan_check_cycle(const uint8_t *sheet, size_t sheet_length,
                             const uint8_t *cycle, size_t cycle_length, uint8_t *yes);

/*
 * What the first n bytes of placing are. *answers becomes the sum of BIXTOGAN_SOLVED_FORM,
 * BIXTOGAN_CONFIGURATION and BIXTOGAN_READING, each where they are one; bytes that are no
 * placing of the sheet get 0. placing has at least n bytes.
 *
 * Refusals: the sheet's, 10.
 */
uint8_t bixtogan_check_placing(const uint8_t *sheet, size_t sheet_length,
                               const uint8_t *placing, size_t placing_length, uint8_t *answers);

#ifdef __cplusplus
}
#endif

#endif
