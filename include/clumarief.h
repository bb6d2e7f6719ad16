/* The proved reader of R8 and ProGuard mapping files, as C and C++ call it.
 *
 * tools/dist makes libclumarief.a, this header and a pkg-config file: `cc main.c $(pkg-config --cflags --libs clumarief)`.
 *
 * Every function takes any bytes and any tables, ends, and answers in numbers. Nothing is allocated, and nothing is kept between calls:
 * the caller lends all memory, so any number of threads may call, each with slices of its own. What the functions ask of a caller, since
 * C cannot: no pointer is null or unaligned, also where a length is 0; each slice has the length that is said; a slice that is written
 * overlaps no other. Rows and answers are structs of 32-bit unsigned numbers, in this order and with nothing between them. Texts are UTF-8
 * and end with no NUL.
 *
 * Stack, measured on x86-64: a load takes up to 88 KiB (the index of classes, and a comment that nests as deep as is read), applying up to
 * 257 KiB (the indexes of classes and of members), a look-up less than 1 KiB. */
#ifndef CLUMARIEF_H
#define CLUMARIEF_H

#include <stddef.h>
#include <stdint.h>

#ifdef __cplusplus
extern "C" {
#endif

/* What is lent to a load beyond these counts as so much, and is zeroed all the same. */
#define CLUMARIEF_MOST_TEXT 1048576
#define CLUMARIEF_MOST_CLASSES 4096
#define CLUMARIEF_MOST_MEMBERS 32768
#define CLUMARIEF_MOST_POOL 4194304
/* The longest tree file, before and after a mapping is applied to it. */
#define CLUMARIEF_MOST_TREE 4194304

/* The numbers that an answer begins with. */
enum clumarief_number {
    CLUMARIEF_ACCEPTED = 0,
    CLUMARIEF_TOO_LONG = 1,
    CLUMARIEF_NOT_UTF8 = 2,
    CLUMARIEF_INVALID_CLASS = 3,
    CLUMARIEF_MEMBER_WITHOUT_CLASS = 4,
    CLUMARIEF_INVALID_MEMBER = 5,
    CLUMARIEF_INVALID_METHOD = 6,
    CLUMARIEF_INVALID_FIELD = 7,
    CLUMARIEF_NO_CLASSES = 8,
    CLUMARIEF_FEW_CLASS_ROWS = 9,
    CLUMARIEF_FEW_MEMBER_ROWS = 10,
    CLUMARIEF_SHORT_POOL = 11,
    CLUMARIEF_BAD_TREE = 12,
    CLUMARIEF_NO_ROOM = 13,
    CLUMARIEF_MALFORMED_TABLES = 14
};

/* A number in words. */
static inline const char *clumarief_words(uint32_t number)
{
    switch (number) {
    case CLUMARIEF_ACCEPTED: return "accepted";
    case CLUMARIEF_TOO_LONG: return "the text is over 1,048,576 bytes, or the tree file over 4,194,304";
    case CLUMARIEF_NOT_UTF8: return "the text is not UTF-8";
    case CLUMARIEF_INVALID_CLASS: return "invalid class mapping";
    case CLUMARIEF_MEMBER_WITHOUT_CLASS: return "member mapping has no class";
    case CLUMARIEF_INVALID_MEMBER: return "invalid member mapping";
    case CLUMARIEF_INVALID_METHOD: return "invalid method mapping";
    case CLUMARIEF_INVALID_FIELD: return "invalid field mapping";
    case CLUMARIEF_NO_CLASSES: return "the mapping contains no classes";
    case CLUMARIEF_FEW_CLASS_ROWS: return "too few class rows";
    case CLUMARIEF_FEW_MEMBER_ROWS: return "too few member rows";
    case CLUMARIEF_SHORT_POOL: return "the name pool is too small";
    case CLUMARIEF_BAD_TREE: return "the tree file is malformed";
    case CLUMARIEF_NO_ROOM: return "the output is too small, or over 4,194,304 bytes are needed";
    case CLUMARIEF_MALFORMED_TABLES: return "the tables are malformed";
    default: return "no such number";
    }
}

/* A class row: raw descriptor and display descriptor, each its place in the pool and its length. */
typedef struct clumarief_class {
    uint32_t raw_place, raw_length;
    uint32_t display_place, display_length;
} clumarief_class;

/* A member row. */
typedef struct clumarief_member {
    uint32_t kind;      /* 0 field, 1 method */
    uint32_t class_row; /* counted from 0 */
    uint32_t raw_name_place, raw_name_length;
    uint32_t descriptor_place, descriptor_length; /* the raw descriptor */
    uint32_t name_place, name_length;             /* the display name */
    uint32_t owner_place, owner_length;           /* the display owner, a class descriptor; 0, 0 for a field */
    uint32_t range_flag;                          /* 0 none, 1 display only, 2 both; absent ranges are zeros */
    uint32_t raw_start, raw_end;
    uint32_t display_start, display_end;
} clumarief_member;

/* What a load answers. The counts are zeros where it is refused. */
typedef struct clumarief_load {
    uint32_t number;  /* 0 accepted, or 1 to 11, asked in this order: 1, 2, 3 to 7 for the first faulty line, 8, 9, 10, 11 */
    uint32_t place;   /* at 2 the valid bytes before it; at 3 to 7 the line, counted from 1; else 0 */
    uint32_t length;  /* at 2 that of the bad sequence, 1 to 3, or 0 where the text is cut short in it; else 0 */
    uint32_t lines;   /* all of them, the sum of the next six */
    uint32_t blank;
    uint32_t applied; /* comments that replaced a raw signature */
    uint32_t idle;    /* all other comments */
    uint32_t classes; /* class lines; also the number of class rows used */
    uint32_t fields;  /* with methods also the number of member rows used */
    uint32_t methods;
    uint32_t shorts;  /* methods whose display range has a second part that does not read */
    uint32_t names;   /* pool bytes used */
    uint32_t zeros[12];
} clumarief_load;

/* Loads the mapping of a text, without the marks (U+FEFF) that it begins with.
 *
 * Rows stand in the order of the text. The pool holds each class row's raw and display descriptor, then each member's
 * texts, unshared. All that is lent is written: what an accepted load does not use is zero, and a refused one leaves
 * nothing but zeros.
 *
 *     static clumarief_class classes[1024];
 *     static clumarief_member members[8192];
 *     static uint8_t pool[1 << 20];
 *     clumarief_load load;
 *     clumarief_parse(text, text_length, classes, 1024, members, 8192, pool, sizeof pool, &load);
 *     if (load.number != CLUMARIEF_ACCEPTED)
 *         fprintf(stderr, "refused %u: %s, line %u\n", load.number, clumarief_words(load.number), load.place);
 */
void clumarief_parse(const uint8_t *text, size_t text_length,
                     clumarief_class *classes, size_t class_rows,
                     clumarief_member *members, size_t member_rows,
                     uint8_t *pool, size_t pool_length,
                     clumarief_load *answer);

/* The same, but a mark that the text begins with stays, as a character of its first line. */
void clumarief_parse_str(const uint8_t *text, size_t text_length,
                         clumarief_class *classes, size_t class_rows,
                         clumarief_member *members, size_t member_rows,
                         uint8_t *pool, size_t pool_length,
                         clumarief_load *answer);

/* How much of the tables is used.
 *
 *     clumarief_used used = {load.classes, load.fields + load.methods, load.names};
 */
typedef struct clumarief_used {
    uint32_t class_rows, member_rows, pool_bytes;
} clumarief_used;

/* What a look-up answers: number 0, or 14 where the tables are malformed; found 1, or 0 where the class is unknown; place and length in
 * the pool, zeros where nothing is found.
 *
 * Tables are malformed where a count is above what is lent (or above the most there may be), a text reaches past the used
 * pool, a class row, kind or range flag is out of range, or a text that a used row names is not UTF-8. */
typedef struct clumarief_class_name {
    uint32_t number, found, place, length;
} clumarief_class_name;

/* The display descriptor of the class with a raw descriptor, as `Lx;`: that of the last class row that has it. Any tables
 * may be lent: nothing is read past them, and nothing is written but the answer.
 *
 *     clumarief_class_name name;
 *     clumarief_display_class_name(classes, 1024, members, 8192, pool, sizeof pool, &used, (const uint8_t *)"Lx;", 3, &name);
 *     if (name.found)
 *         printf("%.*s\n", (int)name.length, (const char *)pool + name.place);
 */
void clumarief_display_class_name(const clumarief_class *classes, size_t class_rows,
                                  const clumarief_member *members, size_t member_rows,
                                  const uint8_t *pool, size_t pool_length,
                                  const clumarief_used *used,
                                  const uint8_t *raw, size_t raw_length,
                                  clumarief_class_name *answer);

/* The other way: the raw descriptor, by the display descriptor, as `La/Main;`; the same call. */
void clumarief_raw_class_name(const clumarief_class *classes, size_t class_rows,
                              const clumarief_member *members, size_t member_rows,
                              const uint8_t *pool, size_t pool_length,
                              const clumarief_used *used,
                              const uint8_t *display, size_t display_length,
                              clumarief_class_name *answer);

/* What a raw descriptor shows as: its display descriptor in the pool, where from_pool is 1; or three zeros, and then it is
 * the caller's own descriptor, since the class is unknown or the tables are malformed.
 *
 *     clumarief_mapped mapped;
 *     clumarief_mapped_class_name(classes, 1024, members, 8192, pool, sizeof pool, &used, raw, raw_length, &mapped);
 *     const uint8_t *shown = mapped.from_pool ? pool + mapped.place : raw;
 *     size_t shown_length = mapped.from_pool ? mapped.length : raw_length;
 */
typedef struct clumarief_mapped {
    uint32_t from_pool, place, length;
} clumarief_mapped;

void clumarief_mapped_class_name(const clumarief_class *classes, size_t class_rows,
                                 const clumarief_member *members, size_t member_rows,
                                 const uint8_t *pool, size_t pool_length,
                                 const clumarief_used *used,
                                 const uint8_t *raw, size_t raw_length,
                                 clumarief_mapped *answer);

/* What a look-up of a member's name answers: number 0 or 14, found 1 or 0, the member row that answers, place and length of its
 * display name in the pool. */
typedef struct clumarief_member_name {
    uint32_t number, found, row, place, length;
} clumarief_member_name;

/* The display name of a field: by the raw descriptor of its class, as `Lx;`, its raw name, and its raw descriptor, as `I`.
 * Members of all class rows with that raw descriptor belong together; the last field that matches answers.
 *
 *     clumarief_member_name field;
 *     clumarief_display_field_name(classes, 1024, members, 8192, pool, sizeof pool, &used, (const uint8_t *)"Lx;", 3,
 *                                  (const uint8_t *)"b", 1, (const uint8_t *)"I", 1, &field);
 *     if (field.found)
 *         printf("row %u: %.*s\n", field.row, (int)field.length, (const char *)pool + field.place);
 */
void clumarief_display_field_name(const clumarief_class *classes, size_t class_rows,
                                  const clumarief_member *members, size_t member_rows,
                                  const uint8_t *pool, size_t pool_length,
                                  const clumarief_used *used,
                                  const uint8_t *owner, size_t owner_length,
                                  const uint8_t *name, size_t name_length,
                                  const uint8_t *descriptor, size_t descriptor_length,
                                  clumarief_member_name *answer);

/* The display name of a method, by the same three: of the last method that matches and whose display owner is the class's
 * display descriptor, else of the last that matches; the same call. */
void clumarief_display_method_name(const clumarief_class *classes, size_t class_rows,
                                   const clumarief_member *members, size_t member_rows,
                                   const uint8_t *pool, size_t pool_length,
                                   const clumarief_used *used,
                                   const uint8_t *owner, size_t owner_length,
                                   const uint8_t *name, size_t name_length,
                                   const uint8_t *descriptor, size_t descriptor_length,
                                   clumarief_member_name *answer);

/* What a look-up of a line answers: number 0 or 14, found 1 or 0, the member row that answers, the display line. */
typedef struct clumarief_line {
    uint32_t number, found, row, line;
} clumarief_line;

/* The display line of a raw line of a method: by the last method that matches, whose display owner is the class's display
 * descriptor, and whose raw range holds the line.
 *
 *     clumarief_line shown;
 *     clumarief_display_line(classes, 1024, members, 8192, pool, sizeof pool, &used, (const uint8_t *)"Lx;", 3,
 *                            (const uint8_t *)"c", 1, (const uint8_t *)"(Lx;)V", 6, 2, &shown);
 *     if (shown.found)
 *         printf("line %u, by row %u\n", shown.line, shown.row);
 */
void clumarief_display_line(const clumarief_class *classes, size_t class_rows,
                            const clumarief_member *members, size_t member_rows,
                            const uint8_t *pool, size_t pool_length,
                            const clumarief_used *used,
                            const uint8_t *owner, size_t owner_length,
                            const uint8_t *name, size_t name_length,
                            const uint8_t *descriptor, size_t descriptor_length,
                            uint32_t line,
                            clumarief_line *answer);

/* What applying answers: number, the output's length. */
typedef struct clumarief_applied {
    uint32_t number, length;
} clumarief_applied;

/* Applies a mapping to a tree file, for a class by its raw descriptor. Numbers, in this order: 14 tables malformed; 1 the tree file has
 * over 4,194,304 bytes; 12 it is malformed; 13 the output is shorter than needed, or more than 4,194,304 bytes are needed; 0 accepted.
 * Accepted: the output holds a tree file of the length that is answered, and every byte behind it is zero. It has the same rows; for each
 * name that is replaced a name row and its bytes are appended, and the number of that row stands for the display name; a line that is
 * replaced stands for the display line. Refused: the whole output is zero, and so is the length.
 *
 * A tree file has 32-bit little-endian numbers and then bytes: counts N, T, S, B; N node rows (parent, token count); T token rows
 * (kind, a, b) in node order; S name rows (place among the name bytes, length); B name bytes. Row 0's parent is FFFFFFFF, any other's a
 * lower row. Kind 1 is a member name and 2 a descriptor (numbers of raw and display name), 3 a source line (raw, display), 0 anything
 * else.
 *
 *     static uint8_t output[CLUMARIEF_MOST_TREE];
 *     clumarief_applied applied;
 *     clumarief_apply(classes, 1024, members, 8192, pool, sizeof pool, &used, (const uint8_t *)"Lx;", 3,
 *                     tree, tree_length, output, sizeof output, &applied);
 *     if (applied.number == CLUMARIEF_ACCEPTED)
 *         fwrite(output, 1, applied.length, stdout);
 */
void clumarief_apply(const clumarief_class *classes, size_t class_rows,
                     const clumarief_member *members, size_t member_rows,
                     const uint8_t *pool, size_t pool_length,
                     const clumarief_used *used,
                     const uint8_t *class_given, size_t class_length,
                     const uint8_t *tree, size_t tree_length,
                     uint8_t *output, size_t output_length,
                     clumarief_applied *answer);

#ifdef __cplusplus
}
#endif

#endif
