/*
 * zuvaropy.h - the C interface of Zuvaropy
 *
 * Zuvaropy works on concept descriptions of the description logic ALE. A
 * description is a tree; its file is called a picture, and each node of the
 * tree is a row of the picture.
 *
 * Every call takes numbers and byte buffers and returns one 64-bit answer
 * word. The library allocates nothing, keeps no state and calls nothing but
 * memcpy, memset and their like, so every call may be made from any thread at
 * any time, on buffers that no other thread writes meanwhile.
 *
 * A buffer is a pointer and a length in bytes, and has as many bytes as its
 * length says, but a NULL pointer has none whatever the length (see NULL, at the
 * end). A buffer lent for writing overlaps no other buffer of its call: if it does,
 * nothing is promised (but see WORK SPACE APART, at the end). A table that stands
 * in a work space is copied before it is given to a call with that work space.
 *
 * It is proved, for every input, that a call's word and every byte that it writes
 * are what the definitions lay down, and that these mean what is said here: yes
 * is subsumption, evidence that is taken shows it, the common picture is least, the
 * cards found are the most specific. The proofs are about the library's source.
 * What this header does by itself, its inline functions and its sizes of stack, is
 * tested.
 *
 * Every call but zuvaropy_validate also takes a definitions book, which gives names
 * their pictures. A program without definitions gives ZUVAROPY_NO_DEFINITIONS.
 *
 * zuvaropy_parts.h, beside this header, builds pictures and books of both kinds and
 * reads tables, evidence and books.
 *
 * Contents: version, pictures and sizes, codes, the answer word, calls.
 */

#ifndef ZUVAROPY_H
#define ZUVAROPY_H

#include <stddef.h>
#include <stdint.h>

#ifdef __cplusplus
extern "C" {
#endif

/*
 * Version
 *
 * From 3.0 on, until the first release, the major number stays 3, and the minor one
 * rises with each version, any of which may ask for programs to be compiled again or
 * changed: CHANGELOG.md says which. So the soname of the shared library has both
 * numbers.
 */

#define ZUVAROPY_VERSION_MAJOR  3
#define ZUVAROPY_VERSION_MINOR  3
#define ZUVAROPY_VERSION_PATCH  0
#define ZUVAROPY_VERSION_STRING "3.3.0"

/*
 * Pictures and sizes
 *
 * A picture is a sequence of fields: tag, length of the value, value. Numbers
 * have the high byte first. There is a field for each row, the root first, and
 * then an end field, which has no value. Rows are numbered from 0.
 *
 * The value of a row is, in this order:
 *
 *   parent      number of an earlier row; 0 in row 0
 *   kind        of the edge from the parent (ZUVAROPY_KIND_...)
 *   role        of the edge from the parent; 0 in row 0
 *   impossible  the mark: 1 to say that nothing is an instance of the row,
 *               else 0
 *   wanted      set of the names that an instance has
 *   excluded    set of the names that an instance has not
 *
 * Names and roles are numbered from 0. In a set, name n is the bit of weight
 * 2^n of the one number that its bytes are.
 *
 * What a picture means: an interpretation is a finite set of individuals, each of
 * which has some of the names and reaches some individuals, perhaps itself, by
 * roles. A row's successors are the other rows whose parent it is. An individual
 * is an instance of a row if
 *
 *   - the row is not marked impossible,
 *   - the individual has all wanted names and no excluded one,
 *   - for each successor of kind some, it reaches an instance of the successor by
 *     the successor's role, and
 *   - for each successor of kind all, every individual that it reaches by the
 *     successor's role is an instance of the successor.
 *
 * An instance of a picture is one of its row 0.
 *
 * One picture subsumes another if in every interpretation every instance of the
 * other is an instance of it. Two have the same instances if each subsumes the
 * other. Where names are defined, fewer interpretations count: see the definitions
 * book, below.
 */

#define ZUVAROPY_NAMES      64  /* concept names */
#define ZUVAROPY_ROLES      32  /* roles */
#define ZUVAROPY_MAX_ROWS  256  /* rows of a picture, at most */
#define ZUVAROPY_MAX_DEPTH  12  /* edges from the root to a row, at most */

/* The parts of a field's head, in bytes. */
#define ZUVAROPY_TAG_BYTES     1
#define ZUVAROPY_LENGTH_BYTES  2
#define ZUVAROPY_HEAD_BYTES    (ZUVAROPY_TAG_BYTES + ZUVAROPY_LENGTH_BYTES)

/* The parts of a row's value, in bytes. */
#define ZUVAROPY_PARENT_BYTES      2
#define ZUVAROPY_KIND_BYTES        1
#define ZUVAROPY_ROLE_BYTES        1
#define ZUVAROPY_IMPOSSIBLE_BYTES  1
#define ZUVAROPY_NAME_SET_BYTES    (ZUVAROPY_NAMES / 8)

/* Where each part begins, counted from the value's first byte. */
#define ZUVAROPY_PARENT_AT      0
#define ZUVAROPY_KIND_AT        (ZUVAROPY_PARENT_AT + ZUVAROPY_PARENT_BYTES)
#define ZUVAROPY_ROLE_AT        (ZUVAROPY_KIND_AT + ZUVAROPY_KIND_BYTES)
#define ZUVAROPY_IMPOSSIBLE_AT  (ZUVAROPY_ROLE_AT + ZUVAROPY_ROLE_BYTES)
#define ZUVAROPY_WANTED_AT      (ZUVAROPY_IMPOSSIBLE_AT + ZUVAROPY_IMPOSSIBLE_BYTES)
#define ZUVAROPY_EXCLUDED_AT    (ZUVAROPY_WANTED_AT + ZUVAROPY_NAME_SET_BYTES)

/* The value of each kind of field, and a row's whole field, in bytes. */
#define ZUVAROPY_ROW_VALUE_BYTES  (ZUVAROPY_EXCLUDED_AT + ZUVAROPY_NAME_SET_BYTES)
#define ZUVAROPY_END_VALUE_BYTES  0
#define ZUVAROPY_ROW_BYTES        (ZUVAROPY_HEAD_BYTES + ZUVAROPY_ROW_VALUE_BYTES)

/* A picture of so many rows, and the longest one, in bytes. */
#define ZUVAROPY_PICTURE_BYTES(rows)  ((rows) * ZUVAROPY_ROW_BYTES + ZUVAROPY_HEAD_BYTES)
#define ZUVAROPY_MAX_PICTURE_BYTES    ZUVAROPY_PICTURE_BYTES(ZUVAROPY_MAX_ROWS)

/*
 * The work space of a call on two pictures or on a book, in bytes. A call on two
 * that gets as far as their normal tables leaves the first from byte 0 and the
 * second from byte ZUVAROPY_SECOND_TABLE_AT, and zeros in the rest of each half.
 * How many rows a table there has is told by zuvaropy_table_rows of
 * zuvaropy_parts.h.
 */
#define ZUVAROPY_WORK_BYTES       (2 * ZUVAROPY_MAX_PICTURE_BYTES)
#define ZUVAROPY_SECOND_TABLE_AT  ZUVAROPY_MAX_PICTURE_BYTES

/*
 * Evidence says whether the second of two pictures subsumes the first, that is,
 * whether every instance of the first is one of the second. It has one of two
 * forms, both in fields as a picture is.
 *
 * A map, for yes, sends each row of the second normal table to a row of the
 * first. It is one field, whose value has the image of each row in turn, and
 * the end field.
 *
 * A refutation, for no, is a finite tree of individuals, the first of which is
 * an instance of the first picture and not of the second. There is a field for
 * each individual and then the end field. Individuals are numbered from 0. The
 * value of an individual is, in this order:
 *
 *   parent  number of an earlier individual; 0 in individual 0
 *   role    by which the parent reaches it; 0 in individual 0
 *   names   set of the names that it has
 *
 * An individual reaches those whose parent it is, by their roles, and no other.
 */

#define ZUVAROPY_MAX_INDIVIDUALS  (ZUVAROPY_MAX_ROWS * (ZUVAROPY_MAX_DEPTH + 1))

/* An image in a map, and a map for a second normal table of so many rows, in bytes. */
#define ZUVAROPY_IMAGE_BYTES      2
#define ZUVAROPY_MAP_BYTES(rows)  (ZUVAROPY_HEAD_BYTES + (rows) * ZUVAROPY_IMAGE_BYTES + ZUVAROPY_HEAD_BYTES)

/* Where each part of an individual begins, counted from the value's first byte. */
#define ZUVAROPY_INDIVIDUAL_PARENT_AT  0
#define ZUVAROPY_INDIVIDUAL_ROLE_AT    (ZUVAROPY_INDIVIDUAL_PARENT_AT + ZUVAROPY_PARENT_BYTES)
#define ZUVAROPY_INDIVIDUAL_NAMES_AT   (ZUVAROPY_INDIVIDUAL_ROLE_AT + ZUVAROPY_ROLE_BYTES)

/* The value of an individual, and its whole field, in bytes. */
#define ZUVAROPY_INDIVIDUAL_VALUE_BYTES  (ZUVAROPY_INDIVIDUAL_NAMES_AT + ZUVAROPY_NAME_SET_BYTES)
#define ZUVAROPY_INDIVIDUAL_BYTES        (ZUVAROPY_HEAD_BYTES + ZUVAROPY_INDIVIDUAL_VALUE_BYTES)

/* A refutation of so many individuals, and the longest evidence, in bytes. */
#define ZUVAROPY_REFUTATION_BYTES(individuals)  ((individuals) * ZUVAROPY_INDIVIDUAL_BYTES + ZUVAROPY_HEAD_BYTES)
#define ZUVAROPY_MAX_EVIDENCE_BYTES             ZUVAROPY_REFUTATION_BYTES(ZUVAROPY_MAX_INDIVIDUALS)

/*
 * A book is a catalogue of pictures, its cards: a field for each card, whose
 * value is the file of the picture, and then the end field. Cards are numbered
 * from 0. There may be none.
 */

#define ZUVAROPY_MAX_CARDS  32  /* cards of a book, at most */

/* The whole field of a card whose picture has so many bytes, and the longest
 * book of which every card can be a picture, in bytes. */
#define ZUVAROPY_CARD_BYTES(picture_bytes)  (ZUVAROPY_HEAD_BYTES + (picture_bytes))
#define ZUVAROPY_MAX_BOOK_BYTES \
    (ZUVAROPY_MAX_CARDS * ZUVAROPY_CARD_BYTES(ZUVAROPY_MAX_PICTURE_BYTES) + ZUVAROPY_HEAD_BYTES)

/*
 * A definitions book gives names their pictures: a field for each definition, whose
 * value is the name, in one byte, and then the file of its picture; and then the end
 * field. Definitions are numbered from 0. There may be none.
 *
 * A call that takes a definitions book works on the unfolded pictures. To unfold
 * one, a row that wants a defined name loses that name and gains what row 0 of the
 * name's picture has: its names, its mark, and its successors with all below them.
 * This goes on, in the rows gained too, until no row wants a defined name; one row
 * takes in a definition once only. The picture's own rows keep their numbers.
 * Those gained are numbered on: row by row in the order of numbers, gained rows
 * too when their number comes; for one row all the definitions that it takes in,
 * also those that another of them brings, sorted together by rising name; for one
 * definition in the order of its picture, without its row 0.
 *
 * The interpretations that count are then those in which each defined name is had by
 * exactly the instances of its picture. In these a picture and the unfolded one have
 * the same instances. So one picture subsumes another exactly if the one, unfolded,
 * subsumes the other, unfolded, in every interpretation, whatever it says of defined
 * names.
 *
 * Normal tables, those in the work space too, evidence and common pictures are those
 * of the unfolded pictures, and have no defined name in them. A refutation that was
 * written by others may have some: which individuals have them changes nothing.
 */

#define ZUVAROPY_MAX_DEFINITIONS  32  /* definitions of a definitions book, at most */

/* The name of a definition, and where name and picture begin, counted from the value's first byte. */
#define ZUVAROPY_DEFINED_BYTES          1
#define ZUVAROPY_DEFINED_AT             0
#define ZUVAROPY_DEFINITION_PICTURE_AT  (ZUVAROPY_DEFINED_AT + ZUVAROPY_DEFINED_BYTES)

/* The whole field of a definition whose picture has so many bytes, and the longest definitions book of which every
 * definition can have a picture, in bytes. */
#define ZUVAROPY_DEFINITION_BYTES(picture_bytes) \
    (ZUVAROPY_HEAD_BYTES + ZUVAROPY_DEFINITION_PICTURE_AT + (picture_bytes))
#define ZUVAROPY_MAX_DEFINITIONS_BYTES \
    (ZUVAROPY_MAX_DEFINITIONS * ZUVAROPY_DEFINITION_BYTES(ZUVAROPY_MAX_PICTURE_BYTES) + ZUVAROPY_HEAD_BYTES)

/*
 * The stack that each call takes at most, in bytes: measured on pictures as deep
 * as allowed, with the static library or with a shared one that is bound, and
 * rounded up. This is tested and not proved. When a call is made for the first
 * time through a shared library that is bound lazily, the dynamic linker takes
 * some 3 KB before the call begins, which is more than zuvaropy_validate takes.
 */
#define ZUVAROPY_VALIDATE_STACK_BYTES       512
#define ZUVAROPY_NORMALIZE_STACK_BYTES      (24 * 1024)
#define ZUVAROPY_SUBSUMES_STACK_BYTES       (20 * 1024)
#define ZUVAROPY_VERIFY_STACK_BYTES         (31 * 1024)
#define ZUVAROPY_LCS_STACK_BYTES            (25 * 1024)
#define ZUVAROPY_MOST_SPECIFIC_STACK_BYTES  (38 * 1024)

/*
 * Codes
 */

/* Tags of fields. */
#define ZUVAROPY_TAG_ROW         0x10
#define ZUVAROPY_TAG_END         0x2F
#define ZUVAROPY_TAG_MAP         0x41
#define ZUVAROPY_TAG_INDIVIDUAL  0x42
#define ZUVAROPY_TAG_CARD        0x51
#define ZUVAROPY_TAG_DEFINITION  0x61

/* Kinds of row. */
#define ZUVAROPY_KIND_ROOT    0  /* row 0, and no other */
#define ZUVAROPY_KIND_EXISTS  1  /* some: existential restriction */
#define ZUVAROPY_KIND_FORALL  2  /* all: value restriction */

/* Outcomes of a call. */
#define ZUVAROPY_OUTCOME_REFUSAL  0  /* an input was refused */
#define ZUVAROPY_OUTCOME_YES      1  /* the answer; yes, where it is yes or no */
#define ZUVAROPY_OUTCOME_NO       2  /* no, where the answer is yes or no */

/* Inputs that a refusal can concern. */
#define ZUVAROPY_INPUT_BUFFER       0  /* a buffer lent for writing */
#define ZUVAROPY_INPUT_FIRST        1  /* the first picture, the only one, or the case */
#define ZUVAROPY_INPUT_SECOND       2  /* the second picture */
#define ZUVAROPY_INPUT_EVIDENCE     3  /* the evidence */
#define ZUVAROPY_INPUT_BOOK         4  /* the book */
#define ZUVAROPY_INPUT_CARD         5  /* a card of the book */
#define ZUVAROPY_INPUT_DEFINITIONS  6  /* the definitions book */
#define ZUVAROPY_INPUT_DEFINITION   7  /* a definition of the definitions book */

/*
 * Questions. The first one whose answer is no refuses the input. Each stands here
 * as zuvaropy_question_text says it.
 */

/*
 * Asked before anything else is looked at. Of which buffer, where there are two, the
 * word does not say. It also refuses a work space that overlaps another buffer: see
 * WORK SPACE APART, at the end.
 */
#define ZUVAROPY_QUESTION_BUFFER       1  /* is each buffer lent for writing long enough? */

/*
 * Asked of a picture, as it was given: field by field, those of one field in the
 * order of their numbers; 5 and 9 to 13 of a row, 7 and 8 of the end field. In row
 * 0 the parent (11) has to be 0. These refusals, and no others, say at which
 * field: see zuvaropy_has_place, zuvaropy_row and zuvaropy_byte.
 */
#define ZUVAROPY_QUESTION_HEAD         2  /* are the three bytes of the head there? */
#define ZUVAROPY_QUESTION_TAG          3  /* is the tag that of a row or of the end? */
#define ZUVAROPY_QUESTION_LENGTH       4  /* is the length the one that goes with the tag? */
#define ZUVAROPY_QUESTION_ROWS         5  /* have fewer than 256 rows been read? */
#define ZUVAROPY_QUESTION_VALUE        6  /* is the whole value there? */
#define ZUVAROPY_QUESTION_NONEMPTY     7  /* was there a row before the end? */
#define ZUVAROPY_QUESTION_STOP         8  /* does the file stop after the end field? */
#define ZUVAROPY_QUESTION_KIND         9  /* is the kind root in row 0, else some or all? */
#define ZUVAROPY_QUESTION_ROLE        10  /* is the role below 32, and 0 in row 0? */
#define ZUVAROPY_QUESTION_PARENT      11  /* is the parent below the row's number? */
#define ZUVAROPY_QUESTION_DEPTH       12  /* is the depth at most 12? */
#define ZUVAROPY_QUESTION_IMPOSSIBLE  13  /* is the impossible byte 0 or 1? */

/* Asked when all pictures have been read and after 25 to 30: of the pictures that were given, unfolded. Definitions are
 * not asked, but the rows may come from one. */
#define ZUVAROPY_QUESTION_MERGED      14  /* has the merged table at most 256 rows? */
#define ZUVAROPY_QUESTION_COMMON      15  /* has the common picture at most 256 rows? */

/* Asked of evidence. */
#define ZUVAROPY_QUESTION_FORM        16  /* is the evidence a map or a refutation, to its last byte? */

/* Asked of a map: for each row of the second normal table in turn; 18 of row 0, 20 of the others. */
#define ZUVAROPY_QUESTION_IMAGE       17  /* is the image a row of the first normal table? */
#define ZUVAROPY_QUESTION_ROOT_IMAGE  18  /* is the image of row 0 row 0? */
#define ZUVAROPY_QUESTION_LABEL       19  /* has the image the row's names and its mark, or is it impossible? */
#define ZUVAROPY_QUESTION_EDGE        20  /* does the edge from the parent agree? */

/* Asked of a refutation and the unfolded pictures. In individual 0 parent and role (21) have to be 0. */
#define ZUVAROPY_QUESTION_INDIVIDUAL  21  /* has each individual a parent below its number and a role below 32? */
#define ZUVAROPY_QUESTION_INSTANCE    22  /* is individual 0 an instance of the first picture? */
#define ZUVAROPY_QUESTION_REFUTED     23  /* is individual 0 not an instance of the second picture? */

/* Asked of a book, by heads, lengths and number of fields, before its cards are asked 2 to 13. */
#define ZUVAROPY_QUESTION_BOOK        24  /* does it have the form of a book, to its last byte? */

/*
 * Asked about definitions, when all pictures and the book of cards have been read,
 * and before 14 and the questions of evidence. The pictures are those that the call
 * was given, in their order, with the cards of a book in turn, and then those of all
 * definitions in turn, whether they are used or not. Each item here is asked of all
 * before the next item; 2 to 13 go definition by definition, and field by field:
 *
 *   25       of the definitions book, by heads, lengths, number of fields and names:
 *            each value has a name, below ZUVAROPY_NAMES
 *   2 to 13  of each definition's picture, all of one before the next one's
 *   26       of the definitions book
 *   27       of each picture, before it is unfolded
 *   28       of the definitions book. In a ring each definition's picture wants, in
 *            some row, the name of the next one, and the last the name of the first
 *   29       of each picture, unfolded. It can have far more rows, but is not built
 *            further than that
 *   30       of each picture, unfolded
 *
 * A refusal by 25, 26 or 28 concerns the definitions book, by another the picture or
 * the definition (see zuvaropy_definition). None of these refusals writes anything.
 */
#define ZUVAROPY_QUESTION_DEFINITIONS     25  /* does it have the form of a definitions book, to its last byte? */
#define ZUVAROPY_QUESTION_DEFINED_TWICE   26  /* is no name defined twice? */
#define ZUVAROPY_QUESTION_EXCLUDED        27  /* is no defined name excluded? */
#define ZUVAROPY_QUESTION_RING            28  /* is there no ring of definitions? */
#define ZUVAROPY_QUESTION_UNFOLDED        29  /* has the unfolded picture at most 256 rows? */
#define ZUVAROPY_QUESTION_UNFOLDED_DEPTH  30  /* is the depth of the unfolded picture at most 12? */

/*
 * The answer word
 *
 *   bits      answer   refusal
 *   63..56    outcome  outcome
 *   55..48    0        question
 *   47..40    0        input
 *   39..32    0        card or definition, if the input is one; else 0
 *   31..16    value    row, if the question is one of 2 to 13; else 0
 *   15..0     value    byte, if the question is one of 2 to 13; else 0
 *
 * The value of an answer is one number of 32 bits.
 *
 * A picture that question 2 to 13 refuses is refused at a field. The row is the
 * number of rows before that field, all of which passed: if the field is a row, it
 * is its number. The byte is where the field begins, counted from the first byte
 * of the picture, also where the picture is a card of a book or that of a
 * definition, which begins after the name. Since only rows come before it, it is
 * ZUVAROPY_ROW_BYTES times the row. It is not the byte at fault: a parent, say,
 * stands ZUVAROPY_HEAD_BYTES + ZUVAROPY_PARENT_AT bytes after it.
 *
 * Where fewer than ZUVAROPY_HEAD_BYTES bytes are left for a head (2), the byte is
 * where it would begin; if none is left, that is the picture's length, and there
 * is no such byte. Where there is a row too many (5), the row is
 * ZUVAROPY_MAX_ROWS. An end field without rows (7) is at row 0, byte 0; where the
 * picture goes on after its end field (8), the byte is that of the end field.
 */

#define ZUVAROPY_OUTCOME_SHIFT     56
#define ZUVAROPY_QUESTION_SHIFT    48
#define ZUVAROPY_INPUT_SHIFT       40
#define ZUVAROPY_CARD_SHIFT        32
#define ZUVAROPY_DEFINITION_SHIFT  ZUVAROPY_CARD_SHIFT
#define ZUVAROPY_ROW_SHIFT         16
#define ZUVAROPY_BYTE_SHIFT         0

/* Eight bits of a word, from this one on. */
static inline unsigned int zuvaropy_word_part(uint64_t word, unsigned int shift)
{
    return word >> shift & 0xFFu;
}

/* The outcome: one of ZUVAROPY_OUTCOME_.... */
static inline unsigned int zuvaropy_outcome(uint64_t word)
{
    return zuvaropy_word_part(word, ZUVAROPY_OUTCOME_SHIFT);
}

/* Of an answer: the value, whose meaning each call gives. Of a refusal 0. */
static inline uint32_t zuvaropy_value(uint64_t word)
{
    return zuvaropy_outcome(word) == ZUVAROPY_OUTCOME_REFUSAL ? 0 : word & 0xFFFFFFFFu;
}

/* Of a refusal: the question whose answer was no, one of ZUVAROPY_QUESTION_.... */
static inline unsigned int zuvaropy_question(uint64_t word)
{
    return zuvaropy_word_part(word, ZUVAROPY_QUESTION_SHIFT);
}

/* Of a refusal: the input it concerns, one of ZUVAROPY_INPUT_.... */
static inline unsigned int zuvaropy_input(uint64_t word)
{
    return zuvaropy_word_part(word, ZUVAROPY_INPUT_SHIFT);
}

/* Of a refusal that concerns a card: the card's number, from 0; else 0. */
static inline unsigned int zuvaropy_card(uint64_t word)
{
    return zuvaropy_input(word) == ZUVAROPY_INPUT_CARD ? zuvaropy_word_part(word, ZUVAROPY_CARD_SHIFT) : 0;
}

/* Of a refusal that concerns a definition: the definition's number, from 0; else 0. */
static inline unsigned int zuvaropy_definition(uint64_t word)
{
    return zuvaropy_input(word) == ZUVAROPY_INPUT_DEFINITION ? zuvaropy_word_part(word, ZUVAROPY_DEFINITION_SHIFT) : 0;
}

/* Does the word say at which row and byte? Nonzero for a refusal by question 2 to 13, else 0. */
static inline int zuvaropy_has_place(uint64_t word)
{
    return zuvaropy_outcome(word) == ZUVAROPY_OUTCOME_REFUSAL && zuvaropy_question(word) >= ZUVAROPY_QUESTION_HEAD &&
           zuvaropy_question(word) <= ZUVAROPY_QUESTION_IMPOSSIBLE;
}

/* Of a refusal that has a place: the row being read, that is, how many were completed; else 0. */
static inline unsigned int zuvaropy_row(uint64_t word)
{
    return zuvaropy_has_place(word) ? word >> ZUVAROPY_ROW_SHIFT & 0xFFFFu : 0;
}

/* Of a refusal that has a place: where the refused field begins, from the picture's first byte; else 0. */
static inline unsigned int zuvaropy_byte(uint64_t word)
{
    return zuvaropy_has_place(word) ? word >> ZUVAROPY_BYTE_SHIFT & 0xFFFFu : 0;
}

/*
 * A question in words, such as "is the parent below the row's number?": the answer
 * was no. It is a string constant and never NULL: of a number that is no
 * question's it is "no such question". The words may change with the version.
 */
static inline const char *zuvaropy_question_text(unsigned int question)
{
    switch (question) {
    case ZUVAROPY_QUESTION_BUFFER:
        return "is each buffer lent for writing long enough?";
    case ZUVAROPY_QUESTION_HEAD:
        return "are the three bytes of the head there?";
    case ZUVAROPY_QUESTION_TAG:
        return "is the tag that of a row or of the end?";
    case ZUVAROPY_QUESTION_LENGTH:
        return "is the length the one that goes with the tag?";
    case ZUVAROPY_QUESTION_ROWS:
        return "have fewer than 256 rows been read?";
    case ZUVAROPY_QUESTION_VALUE:
        return "is the whole value there?";
    case ZUVAROPY_QUESTION_NONEMPTY:
        return "was there a row before the end?";
    case ZUVAROPY_QUESTION_STOP:
        return "does the file stop after the end field?";
    case ZUVAROPY_QUESTION_KIND:
        return "is the kind root in row 0, else some or all?";
    case ZUVAROPY_QUESTION_ROLE:
        return "is the role below 32, and 0 in row 0?";
    case ZUVAROPY_QUESTION_PARENT:
        return "is the parent below the row's number?";
    case ZUVAROPY_QUESTION_DEPTH:
        return "is the depth at most 12?";
    case ZUVAROPY_QUESTION_IMPOSSIBLE:
        return "is the impossible byte 0 or 1?";
    case ZUVAROPY_QUESTION_MERGED:
        return "has the merged table at most 256 rows?";
    case ZUVAROPY_QUESTION_COMMON:
        return "has the common picture at most 256 rows?";
    case ZUVAROPY_QUESTION_FORM:
        return "is the evidence a map or a refutation, to its last byte?";
    case ZUVAROPY_QUESTION_IMAGE:
        return "is the image a row of the first normal table?";
    case ZUVAROPY_QUESTION_ROOT_IMAGE:
        return "is the image of row 0 row 0?";
    case ZUVAROPY_QUESTION_LABEL:
        return "has the image the row's names and its mark, or is it impossible?";
    case ZUVAROPY_QUESTION_EDGE:
        return "does the edge from the parent agree?";
    case ZUVAROPY_QUESTION_INDIVIDUAL:
        return "has each individual a parent below its number and a role below 32?";
    case ZUVAROPY_QUESTION_INSTANCE:
        return "is individual 0 an instance of the first picture?";
    case ZUVAROPY_QUESTION_REFUTED:
        return "is individual 0 not an instance of the second picture?";
    case ZUVAROPY_QUESTION_BOOK:
        return "does it have the form of a book, to its last byte?";
    case ZUVAROPY_QUESTION_DEFINITIONS:
        return "does it have the form of a definitions book, to its last byte?";
    case ZUVAROPY_QUESTION_DEFINED_TWICE:
        return "is no name defined twice?";
    case ZUVAROPY_QUESTION_EXCLUDED:
        return "is no defined name excluded?";
    case ZUVAROPY_QUESTION_RING:
        return "is there no ring of definitions?";
    case ZUVAROPY_QUESTION_UNFOLDED:
        return "has the unfolded picture at most 256 rows?";
    case ZUVAROPY_QUESTION_UNFOLDED_DEPTH:
        return "is the depth of the unfolded picture at most 12?";
    default:
        return "no such question";
    }
}

/*
 * An input in words, such as "first picture", in the same way: "no such input". Of
 * a call that takes one picture, or a case, ZUVAROPY_INPUT_FIRST is that one, and
 * a program may have a better word for it.
 */
static inline const char *zuvaropy_input_text(unsigned int input)
{
    switch (input) {
    case ZUVAROPY_INPUT_BUFFER:
        return "buffer";
    case ZUVAROPY_INPUT_FIRST:
        return "first picture";
    case ZUVAROPY_INPUT_SECOND:
        return "second picture";
    case ZUVAROPY_INPUT_EVIDENCE:
        return "evidence";
    case ZUVAROPY_INPUT_BOOK:
        return "book";
    case ZUVAROPY_INPUT_CARD:
        return "card";
    case ZUVAROPY_INPUT_DEFINITIONS:
        return "definitions book";
    case ZUVAROPY_INPUT_DEFINITION:
        return "definition";
    default:
        return "no such input";
    }
}

/* The bytes of a definitions book without definitions: the end field, of ZUVAROPY_HEAD_BYTES. */
static inline const uint8_t *zuvaropy_no_definitions(void)
{
    static const uint8_t end[ZUVAROPY_HEAD_BYTES] = {ZUVAROPY_TAG_END, 0, ZUVAROPY_END_VALUE_BYTES};
    return end;
}

/*
 * Pointer and length of that book, in place of the first two arguments of a call:
 *
 *   zuvaropy_normalize(ZUVAROPY_NO_DEFINITIONS, picture, picture_len, result, result_len)
 *
 * These are two arguments, and cannot stand in ?: together. Where a program may have
 * a definitions book or none:
 *
 *   const uint8_t *definitions = given ? given : zuvaropy_no_definitions();
 *   size_t definitions_len = given ? given_len : ZUVAROPY_HEAD_BYTES;
 */
#define ZUVAROPY_NO_DEFINITIONS zuvaropy_no_definitions(), ZUVAROPY_HEAD_BYTES

/*
 * Calls
 *
 * Each word says whether there is a result at all: a call whose word is dropped
 * is warned about, by compilers that can (gcc does not if this header is in one of
 * its system folders). What becomes of NULL: see the end of this header.
 */

#ifdef __GNUC__
#define ZUVAROPY_MUST_USE __attribute__((warn_unused_result))
#else
#define ZUVAROPY_MUST_USE
#endif

/*
 * Test whether a buffer holds one whole picture.
 *
 * Reads:   picture, at most picture_len bytes.
 * Writes:  nothing.
 * Returns: ZUVAROPY_OUTCOME_YES, value: the number of rows, from 1 to
 *          ZUVAROPY_MAX_ROWS; or ZUVAROPY_OUTCOME_REFUSAL, question 2 to 13,
 *          input ZUVAROPY_INPUT_FIRST, with row and byte.
 *
 * Any bytes of any length may be given. An empty buffer is refused by
 * ZUVAROPY_QUESTION_HEAD, row 0, byte 0. The call takes at most
 * ZUVAROPY_VALIDATE_STACK_BYTES of stack.
 *
 * It knows no definitions: a picture that it takes may still be refused by another
 * call, by 27, 29, 30 or 14. What tests a definitions book is zuvaropy_normalize,
 * with that book and a picture of one row without names: all definitions are asked,
 * used or not.
 */
ZUVAROPY_MUST_USE
uint64_t zuvaropy_validate(const uint8_t *picture, size_t picture_len);

/*
 * Write the normal table of a picture: a picture with the same instances and
 * without defined names, in which what is said of all successors by a role is
 * also said of each one by that role.
 *
 * In the merged table a row stands for a set of rows of the unfolded picture, the
 * root for row 0 alone, and has the names and the mark of them all. For each role,
 * the value restrictions of the set become one successor, and each existential
 * restriction becomes one that stands for it and all those value restrictions.
 * Then, from the leaves up, a row becomes impossible, without names or successors,
 * if it is marked, if a name is both wanted and excluded, or if an existential
 * restriction of it is impossible; and a value restriction that says nothing is
 * dropped. Rows are written depth first: successors by role, the value restriction
 * before the existential ones, these in the order of the picture.
 *
 * Reads:   definitions, at most definitions_len bytes; picture, at most
 *          picture_len bytes.
 * Writes:  result, as many bytes as the value says; the bytes after them keep
 *          their contents. A refusal writes nothing.
 * Returns: ZUVAROPY_OUTCOME_YES, value: the length of the normal table in
 *          bytes, ZUVAROPY_PICTURE_BYTES(rows) for a table of so many rows; or
 *          ZUVAROPY_OUTCOME_REFUSAL, in this order:
 *          question 1, input ZUVAROPY_INPUT_BUFFER, if result_len is below
 *          ZUVAROPY_MAX_PICTURE_BYTES, however short the table would be;
 *          question 2 to 13, input ZUVAROPY_INPUT_FIRST, as zuvaropy_validate;
 *          question 25 to 30, with 2 to 13 of the definitions, in the order that
 *          is given with these questions;
 *          question 14, input ZUVAROPY_INPUT_FIRST, if the merged table has
 *          more than ZUVAROPY_MAX_ROWS rows, however few the normal table would
 *          have. It can be far larger than the picture, but is not built
 *          further than that.
 *
 * Any bytes of any length may be given as the definitions book and the picture,
 * which may overlap. The result buffer must not overlap either. The call takes at
 * most ZUVAROPY_NORMALIZE_STACK_BYTES of stack.
 *
 * A normal table is a picture, and can be given to any call. Its own normal
 * table has the same instances, but need not be the same bytes, and its merged
 * table may be too large.
 */
ZUVAROPY_MUST_USE
uint64_t zuvaropy_normalize(const uint8_t *definitions, size_t definitions_len, const uint8_t *picture,
                            size_t picture_len, uint8_t *result, size_t result_len);

/*
 * Say whether the second picture subsumes the first, that is, whether every
 * instance of the first is one of the second; and write evidence of it.
 *
 * Reads:   definitions, at most definitions_len bytes; first, at most first_len
 *          bytes; second, at most second_len bytes.
 * Writes:  work, its first ZUVAROPY_WORK_BYTES bytes: the normal table of the
 *          first picture from byte 0, that of the second from byte
 *          ZUVAROPY_SECOND_TABLE_AT, and zeros in the rest of each half;
 *          result, as many bytes as the value says: the evidence. Bytes after
 *          them keep their contents, in both. A refusal writes nothing.
 * Returns: ZUVAROPY_OUTCOME_YES: the second picture subsumes the first, and the
 *          evidence is a map. Value: its length in bytes,
 *          ZUVAROPY_MAP_BYTES(rows) for a second normal table of so many rows;
 *          ZUVAROPY_OUTCOME_NO: it does not, and the evidence is a refutation.
 *          Value: its length in bytes, ZUVAROPY_REFUTATION_BYTES(individuals)
 *          for one of so many individuals; or
 *          ZUVAROPY_OUTCOME_REFUSAL, in this order:
 *          question 1, input ZUVAROPY_INPUT_BUFFER, if work_len is below
 *          ZUVAROPY_WORK_BYTES or result_len below ZUVAROPY_MAX_EVIDENCE_BYTES,
 *          however short the evidence would be;
 *          question 2 to 13, input ZUVAROPY_INPUT_FIRST, as zuvaropy_validate;
 *          question 2 to 13, input ZUVAROPY_INPUT_SECOND, likewise;
 *          question 25 to 30, with 2 to 13 of the definitions, in the order that
 *          is given with these questions;
 *          question 14, input ZUVAROPY_INPUT_FIRST, as zuvaropy_normalize;
 *          question 14, input ZUVAROPY_INPUT_SECOND, likewise.
 *
 * The map is the one with the lowest images: from row 0 on, each row is sent to
 * the lowest row that its whole subtree can be sent to below the image of its
 * parent, or, where that image is impossible, to it. Which refutation is
 * written is not laid down, but each name of an individual is one that the first
 * picture, unfolded, wants or the second, unfolded, excludes. zuvaropy_verify takes
 * the evidence when it is given the same definitions book, the same pictures in the
 * same order and as many bytes of result as the value says; its work space may be
 * the same one.
 *
 * Of a first picture that contradicts itself nothing is an instance, and every
 * picture subsumes it. Row 0 of its normal table is marked impossible.
 *
 * Any bytes of any length may be given as the definitions book and the pictures;
 * the work space and the result buffer may hold anything beforehand. Neither may
 * overlap any other buffer; the others may overlap.
 *
 * The call takes at most ZUVAROPY_SUBSUMES_STACK_BYTES of stack. Beyond unfolding
 * and making the two normal tables its time grows at most as the rows of the one
 * times the rows of the other: the search meets two rows at most once, and the
 * evidence is written without another search. A refutation has at most
 * ZUVAROPY_MAX_INDIVIDUALS individuals.
 */
/* YES MEANS: every instance of the FIRST is one of the SECOND. It asks whether the second subsumes the first. */
ZUVAROPY_MUST_USE
uint64_t zuvaropy_subsumes(const uint8_t *definitions, size_t definitions_len, const uint8_t *first, size_t first_len,
                           const uint8_t *second, size_t second_len, uint8_t *work, size_t work_len, uint8_t *result,
                           size_t result_len);

/*
 * Write the common picture of two pictures, their least common subsumer: it
 * subsumes both, and every picture that excludes no defined name and subsumes both
 * subsumes it.
 *
 * It is the product of the two normal tables, and pairs their roots. Where one
 * row of a pair is impossible, the other stands in its place with all below it.
 * Else the pair has the names that both want and those that both exclude and,
 * for each role, the pair of the value restrictions, if both have one, and a
 * pair of each existential restriction of the first with each of the second.
 * From the leaves up, a value restriction that says nothing is dropped. Rows
 * are written depth first: successors by role, the value restriction before the
 * existential ones, these in the order of the first and then of the second.
 *
 * Reads:   definitions, at most definitions_len bytes; first, at most first_len
 *          bytes; second, at most second_len bytes.
 * Writes:  work, its first ZUVAROPY_WORK_BYTES bytes: the normal table of the
 *          first picture from byte 0, that of the second from byte
 *          ZUVAROPY_SECOND_TABLE_AT, and zeros in the rest of each half. So
 *          also where question 15 refuses; a refusal by any other question writes
 *          nothing;
 *          result, as many bytes as the value says: the common picture. Bytes
 *          after it, and after the two halves of work, keep their contents. A
 *          refusal leaves the result buffer as it is.
 * Returns: ZUVAROPY_OUTCOME_YES, value: the length of the common picture in
 *          bytes, ZUVAROPY_PICTURE_BYTES(rows) for one of so many rows; or
 *          ZUVAROPY_OUTCOME_REFUSAL, in this order:
 *          question 1, input ZUVAROPY_INPUT_BUFFER, if work_len is below
 *          ZUVAROPY_WORK_BYTES or result_len below ZUVAROPY_MAX_PICTURE_BYTES,
 *          however short the common picture would be;
 *          question 2 to 13, input ZUVAROPY_INPUT_FIRST, as zuvaropy_validate;
 *          question 2 to 13, input ZUVAROPY_INPUT_SECOND, likewise;
 *          question 25 to 30, with 2 to 13 of the definitions, in the order that
 *          is given with these questions;
 *          question 14, input ZUVAROPY_INPUT_FIRST, as zuvaropy_normalize;
 *          question 14, input ZUVAROPY_INPUT_SECOND, likewise;
 *          question 15, input ZUVAROPY_INPUT_SECOND, if the common picture has
 *          more than ZUVAROPY_MAX_ROWS rows. What is dropped is not counted.
 *
 * Any bytes of any length may be given as the definitions book and the pictures;
 * the work space and the result buffer may hold anything beforehand. Neither may
 * overlap any other buffer; the others may overlap.
 *
 * The call takes at most ZUVAROPY_LCS_STACK_BYTES of stack. Beyond unfolding and
 * making the two normal tables its time grows at most as the rows of the one times
 * the rows of the other.
 *
 * The common picture is a picture, and can be given to any call; question 14
 * may refuse it, as any other. That of the same two in the other order has the
 * same instances, but need not be the same bytes. That of a picture with itself
 * has the picture's instances, but may have more rows, so that question 15 may
 * refuse it.
 */
ZUVAROPY_MUST_USE
uint64_t zuvaropy_lcs(const uint8_t *definitions, size_t definitions_len, const uint8_t *first, size_t first_len,
                      const uint8_t *second, size_t second_len, uint8_t *work, size_t work_len, uint8_t *result,
                      size_t result_len);

/*
 * Check evidence that the second picture subsumes the first, or that it does
 * not.
 *
 * Reads:   definitions, at most definitions_len bytes; first, at most first_len
 *          bytes; second, at most second_len bytes; evidence, at most
 *          evidence_len bytes.
 * Writes:  work, its first ZUVAROPY_WORK_BYTES bytes: the normal table of the
 *          first picture from byte 0, that of the second from byte
 *          ZUVAROPY_SECOND_TABLE_AT, and zeros in the rest of each half. So
 *          also where the evidence is refused, by question 16 to 23; a refusal
 *          by any other question writes nothing. Bytes after them keep their
 *          contents.
 * Returns: ZUVAROPY_OUTCOME_YES, value 0: a map was taken, and the second
 *          picture subsumes the first;
 *          ZUVAROPY_OUTCOME_NO, value 0: a refutation was taken, and it does
 *          not; or
 *          ZUVAROPY_OUTCOME_REFUSAL, in this order:
 *          question 1, input ZUVAROPY_INPUT_BUFFER, if work_len is below
 *          ZUVAROPY_WORK_BYTES;
 *          question 2 to 13, input ZUVAROPY_INPUT_FIRST, as zuvaropy_validate;
 *          question 2 to 13, input ZUVAROPY_INPUT_SECOND, likewise;
 *          question 25 to 30, with 2 to 13 of the definitions, in the order that
 *          is given with these questions;
 *          question 14, input ZUVAROPY_INPUT_FIRST, as zuvaropy_normalize;
 *          question 14, input ZUVAROPY_INPUT_SECOND, likewise;
 *          question 16, input ZUVAROPY_INPUT_EVIDENCE, if the evidence is
 *          neither a map of as many images as the second normal table has rows
 *          nor a refutation of 1 to ZUVAROPY_MAX_INDIVIDUALS individuals, or
 *          goes on after its end field;
 *          question 17 to 20, input ZUVAROPY_INPUT_EVIDENCE, of a map: all of
 *          one row before the next row;
 *          question 21 to 23, input ZUVAROPY_INPUT_EVIDENCE, of a refutation:
 *          21 of all individuals before 22.
 *
 * The images of a map are rows of the first normal table. An impossible image
 * takes a row with any names and mark (19). The edge from a row's parent agrees
 * (20) if an edge of the same kind and role leads from the parent's image to
 * the row's, or if the parent's image is impossible and is the row's image too.
 * Several rows may have one image.
 *
 * A refutation is an interpretation: what its individuals have and reach is what it
 * says, and no more. But whether an individual has a defined name follows from the
 * rest, and what the refutation says of it is ignored.
 *
 * Any bytes of any length may be given as the definitions book, the pictures and
 * the evidence; the work space may hold anything beforehand. It must not overlap
 * any other buffer; the others may overlap.
 *
 * The call takes at most ZUVAROPY_VERIFY_STACK_BYTES of stack. Beyond unfolding
 * and making the two normal tables its time grows at most as the rows of the
 * second, for a map, and as the individuals times the rows of both, for a
 * refutation: an individual meets a row at most once.
 */
/* YES MEANS: every instance of the FIRST is one of the SECOND, as for zuvaropy_subsumes. */
ZUVAROPY_MUST_USE
uint64_t zuvaropy_verify(const uint8_t *definitions, size_t definitions_len, const uint8_t *first, size_t first_len,
                         const uint8_t *second, size_t second_len, const uint8_t *evidence, size_t evidence_len,
                         uint8_t *work, size_t work_len);

/*
 * Find the most specific cards of a book that subsume a picture, the case.
 *
 * A card subsumes the case if every instance of the case is one of the card:
 * zuvaropy_subsumes says so, with the case first and the card second. A card is
 * passed over if the book has one that says more of the case. Exactly: a card that
 * subsumes the case is passed over exactly when it subsumes another card that
 * subsumes the case and that does not subsume it in return. A card is found if it
 * subsumes the case and is not passed over.
 *
 * So some card is found exactly when some card subsumes the case, and each card
 * that subsumes the case subsumes one that is found. Cards that have the same
 * instances subsume each other, also where their bytes differ, and of these all
 * are found or none. To learn which of the cards that are found have the same
 * instances, ask zuvaropy_subsumes of each two, in either order: it says yes
 * exactly when they have.
 *
 * Of a case that contradicts itself nothing is an instance, and every card subsumes
 * it. So look first: row 0 of its normal table, which zuvaropy_normalize writes, is
 * then marked impossible. This call leaves no table in the work space.
 *
 * Reads:   definitions, at most definitions_len bytes; case_picture, at most
 *          case_picture_len bytes; book, at most book_len bytes.
 * Writes:  work, its first ZUVAROPY_WORK_BYTES bytes: zeros. Bytes after them
 *          keep their contents. A refusal writes nothing.
 * Returns: ZUVAROPY_OUTCOME_YES, value: the set of the cards that are found,
 *          card n as the bit of weight 2^n. It is 0 exactly when no card
 *          subsumes the case, as of a book without cards; or
 *          ZUVAROPY_OUTCOME_REFUSAL, in this order:
 *          question 1, input ZUVAROPY_INPUT_BUFFER, if work_len is below
 *          ZUVAROPY_WORK_BYTES;
 *          question 2 to 13, input ZUVAROPY_INPUT_FIRST, of the case, as
 *          zuvaropy_validate;
 *          question 24, input ZUVAROPY_INPUT_BOOK, if the book is not 0 to
 *          ZUVAROPY_MAX_CARDS whole fields of tag ZUVAROPY_TAG_CARD and then
 *          the end field, or goes on after it. The values may be of any length;
 *          question 2 to 13, input ZUVAROPY_INPUT_CARD, of the cards in turn:
 *          all of one card before the next card. zuvaropy_card says which, row
 *          and byte where in its picture, which begins ZUVAROPY_HEAD_BYTES after
 *          the first byte of the card's field;
 *          question 25 to 30, with 2 to 13 of the definitions, in the order that
 *          is given with these questions;
 *          question 14, input ZUVAROPY_INPUT_FIRST, of the case, as
 *          zuvaropy_normalize;
 *          question 14, input ZUVAROPY_INPUT_CARD, of the cards in turn.
 *
 * Any bytes of any length may be given as the definitions book, the case and the
 * book; an empty buffer is no book of either kind, and a card of length 0 is refused
 * by question 2. The first card that is refused is told; zuvaropy_normalize asks the
 * same of each by itself. The work space may hold anything beforehand. It must not
 * overlap any other buffer; the others may overlap.
 *
 * The call takes at most ZUVAROPY_MOST_SPECIFIC_STACK_BYTES of stack. The normal
 * table of each card is made once and compared with that of the case. Then each
 * two cards that subsume the case are compared at most once, both ways, and not
 * where one is passed over already. The tables of cards that subsume the case are
 * kept in the order of the book as long as they fit into that stack, those of 32
 * cards of 15 rows; others are made again, so that long cards had better stand last.
 */
ZUVAROPY_MUST_USE
uint64_t zuvaropy_most_specific(const uint8_t *definitions, size_t definitions_len, const uint8_t *case_picture,
                                size_t case_picture_len, const uint8_t *book, size_t book_len, uint8_t *work,
                                size_t work_len);

/*
 * NULL
 *
 * The library's functions want a pointer that is not NULL even where the length is
 * 0. So each call is also a macro of the same name for an inline function that
 * makes of NULL, whatever the length, a buffer without bytes, and hands on any
 * other. For a definitions book that is no book without definitions: question 25
 * refuses it. The library's function itself is reached by its address or as
 * (zuvaropy_validate)(..), and wants a pointer that is not NULL. So does a member or
 * a variable of the same name, which is called as (table->zuvaropy_validate)(..).
 */

/* The pointer itself, or one to a byte that is never read where it is NULL. */
static inline const uint8_t *zuvaropy_lent(const uint8_t *buffer)
{
    static const uint8_t unread = 0;
    return buffer ? buffer : &unread;
}

/* The same for a buffer lent for writing: the byte is not written either. */
static inline uint8_t *zuvaropy_lent_writable(uint8_t *buffer)
{
    static uint8_t unwritten = 0;
    return buffer ? buffer : &unwritten;
}

/* The length of a buffer: NULL has no bytes. */
static inline size_t zuvaropy_lent_length(const uint8_t *buffer, size_t length)
{
    return buffer ? length : 0;
}

/*
 * WORK SPACE APART
 *
 * A call builds its tables in the work space while it still reads the other
 * buffers. With one of them in it the word would be wrong, and memory that is no
 * buffer might be written. So the same inline functions make of a work space that
 * has a byte in common with another buffer of the call one without bytes, which
 * question 1 refuses. Only the bytes count that a call may write. The library's
 * functions themselves do not look.
 */

/* Where a buffer begins, as a number. */
static inline uintptr_t zuvaropy_lent_at(const uint8_t *buffer)
{
#ifdef __cplusplus
    return reinterpret_cast<uintptr_t>(buffer);
#else
    return (uintptr_t)buffer;
#endif
}

/* The length of a work space beside another buffer. */
static inline size_t zuvaropy_lent_work(const uint8_t *work, size_t work_len, const uint8_t *other, size_t other_len)
{
    const uintptr_t at = zuvaropy_lent_at(work), there = zuvaropy_lent_at(other);
    const size_t length = zuvaropy_lent_length(other, other_len);
    return length != 0 && (there - at < ZUVAROPY_WORK_BYTES || at - there < length) ? 0 : work_len;
}

ZUVAROPY_MUST_USE
static inline uint64_t zuvaropy_validate_lent(const uint8_t *picture, size_t picture_len)
{
    return zuvaropy_validate(zuvaropy_lent(picture), zuvaropy_lent_length(picture, picture_len));
}
#define zuvaropy_validate(...) zuvaropy_validate_lent(__VA_ARGS__)

ZUVAROPY_MUST_USE
static inline uint64_t zuvaropy_normalize_lent(const uint8_t *definitions, size_t definitions_len,
                                               const uint8_t *picture, size_t picture_len, uint8_t *result,
                                               size_t result_len)
{
    return zuvaropy_normalize(zuvaropy_lent(definitions), zuvaropy_lent_length(definitions, definitions_len),
                              zuvaropy_lent(picture), zuvaropy_lent_length(picture, picture_len),
                              zuvaropy_lent_writable(result), zuvaropy_lent_length(result, result_len));
}
#define zuvaropy_normalize(...) zuvaropy_normalize_lent(__VA_ARGS__)

ZUVAROPY_MUST_USE
static inline uint64_t zuvaropy_subsumes_lent(const uint8_t *definitions, size_t definitions_len, const uint8_t *first,
                                              size_t first_len, const uint8_t *second, size_t second_len,
                                              uint8_t *work, size_t work_len, uint8_t *result, size_t result_len)
{
    size_t lent = zuvaropy_lent_length(work, work_len);

    lent = zuvaropy_lent_work(work, lent, definitions, definitions_len);
    lent = zuvaropy_lent_work(work, lent, first, first_len);
    lent = zuvaropy_lent_work(work, lent, second, second_len);
    lent = zuvaropy_lent_work(work, lent, result, ZUVAROPY_MAX_EVIDENCE_BYTES);
    return zuvaropy_subsumes(zuvaropy_lent(definitions), zuvaropy_lent_length(definitions, definitions_len),
                             zuvaropy_lent(first), zuvaropy_lent_length(first, first_len),
                             zuvaropy_lent(second), zuvaropy_lent_length(second, second_len),
                             zuvaropy_lent_writable(work), lent,
                             zuvaropy_lent_writable(result), zuvaropy_lent_length(result, result_len));
}
#define zuvaropy_subsumes(...) zuvaropy_subsumes_lent(__VA_ARGS__)

ZUVAROPY_MUST_USE
static inline uint64_t zuvaropy_lcs_lent(const uint8_t *definitions, size_t definitions_len, const uint8_t *first,
                                         size_t first_len, const uint8_t *second, size_t second_len, uint8_t *work,
                                         size_t work_len, uint8_t *result, size_t result_len)
{
    size_t lent = zuvaropy_lent_length(work, work_len);

    lent = zuvaropy_lent_work(work, lent, definitions, definitions_len);
    lent = zuvaropy_lent_work(work, lent, first, first_len);
    lent = zuvaropy_lent_work(work, lent, second, second_len);
    lent = zuvaropy_lent_work(work, lent, result, ZUVAROPY_MAX_PICTURE_BYTES);
    return zuvaropy_lcs(zuvaropy_lent(definitions), zuvaropy_lent_length(definitions, definitions_len),
                        zuvaropy_lent(first), zuvaropy_lent_length(first, first_len),
                        zuvaropy_lent(second), zuvaropy_lent_length(second, second_len),
                        zuvaropy_lent_writable(work), lent,
                        zuvaropy_lent_writable(result), zuvaropy_lent_length(result, result_len));
}
#define zuvaropy_lcs(...) zuvaropy_lcs_lent(__VA_ARGS__)

ZUVAROPY_MUST_USE
static inline uint64_t zuvaropy_verify_lent(const uint8_t *definitions, size_t definitions_len, const uint8_t *first,
                                            size_t first_len, const uint8_t *second, size_t second_len,
                                            const uint8_t *evidence, size_t evidence_len, uint8_t *work,
                                            size_t work_len)
{
    size_t lent = zuvaropy_lent_length(work, work_len);

    lent = zuvaropy_lent_work(work, lent, definitions, definitions_len);
    lent = zuvaropy_lent_work(work, lent, first, first_len);
    lent = zuvaropy_lent_work(work, lent, second, second_len);
    lent = zuvaropy_lent_work(work, lent, evidence, evidence_len);
    return zuvaropy_verify(zuvaropy_lent(definitions), zuvaropy_lent_length(definitions, definitions_len),
                           zuvaropy_lent(first), zuvaropy_lent_length(first, first_len),
                           zuvaropy_lent(second), zuvaropy_lent_length(second, second_len),
                           zuvaropy_lent(evidence), zuvaropy_lent_length(evidence, evidence_len),
                           zuvaropy_lent_writable(work), lent);
}
#define zuvaropy_verify(...) zuvaropy_verify_lent(__VA_ARGS__)

ZUVAROPY_MUST_USE
static inline uint64_t zuvaropy_most_specific_lent(const uint8_t *definitions, size_t definitions_len,
                                                   const uint8_t *case_picture, size_t case_picture_len,
                                                   const uint8_t *book, size_t book_len, uint8_t *work, size_t work_len)
{
    size_t lent = zuvaropy_lent_length(work, work_len);

    lent = zuvaropy_lent_work(work, lent, definitions, definitions_len);
    lent = zuvaropy_lent_work(work, lent, case_picture, case_picture_len);
    lent = zuvaropy_lent_work(work, lent, book, book_len);
    return zuvaropy_most_specific(zuvaropy_lent(definitions), zuvaropy_lent_length(definitions, definitions_len),
                                  zuvaropy_lent(case_picture), zuvaropy_lent_length(case_picture, case_picture_len),
                                  zuvaropy_lent(book), zuvaropy_lent_length(book, book_len),
                                  zuvaropy_lent_writable(work), lent);
}
#define zuvaropy_most_specific(...) zuvaropy_most_specific_lent(__VA_ARGS__)

#undef ZUVAROPY_MUST_USE

#ifdef __cplusplus
}
#endif

#endif
