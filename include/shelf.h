/* The deposit shelf's library: crates/export/out/libexport.a.
 *
 * Every call may be given every file, number and value, and every length of
 * what is lent; nothing is kept after it returns. A pointer is not null and
 * is aligned, also where its length is 0, and no lent part overlaps another
 * part of the same call.
 *
 * An answer shorter than the call needs means that the call touches nothing
 * at all. Words of an answer beyond those named here stay as they are.
 *
 * number, record and column are the scope paper's fault: 0 0 0 is acceptance.
 * Of a 9, a field not of its kind or range, shelf_form, shelf_rewrite and
 * shelf_read give the first column at which no acceptable field begins with
 * the characters up to there, shelf_write the field's first. A 12 is a *25*,
 * *91* or *92* that names an undefined number. A 14 is a file whose form is
 * not good; shelf_references alone gives it.
 * A kind is 0 to 13, in the order AA 10 11 12 25 26 27 70 72 80 86 91 92 93.
 */
#ifndef SHELF_H
#define SHELF_H

#include <stddef.h>
#include <stdint.h>

#ifdef __cplusplus
extern "C" {
#endif

/* The words that each call's answer needs, and those of the table. */
#define SHELF_FORM_ANSWER 17
#define SHELF_REFERENCES_ANSWER 3
#define SHELF_REWRITE_ANSWER 17
#define SHELF_READ_ANSWER 32
#define SHELF_FIELD_ANSWER 2
#define SHELF_WRITE_ANSWER 3
#define SHELF_PAD_ANSWER 4
#define SHELF_PULL_ANSWER 3
#define SHELF_TABLE_WORDS 12000

/* A missing height, in what shelf_read gives and shelf_write takes: only an
 * *86* can have one. */
#define SHELF_MISSING INT64_MIN

/* Judges a file's form and order: faults 2 to 10. Whether the numbers that
 * its records name are defined, and defined once, has no say in it.
 *
 * answer: number, record, column, then the fourteen counts in the order of
 * the kinds, all 0 on a refusal. */
void shelf_form(const uint8_t *file, size_t len,
                uint32_t *answer, size_t answers);

/* Judges a file's references: faults 11 and 12. It judges the form itself,
 * and before them: a file that shelf_form refuses, whatever its fault, is 14
 * with record 0 and column 0.
 *
 * answer: number, record, column.
 * table: on acceptance word n is the record number of station n's *80*, word
 * 10,000 + n of instrument n's first *70*, word 11,000 + n of antenna n's
 * *72*, 0 where there is none. A table below 12,000 words is fault 1, before
 * 14, and is not touched; every other refusal puts 0 into its first 12,000
 * words. Words beyond those stay. */
void shelf_references(const uint8_t *file, size_t len,
                      uint32_t *table, size_t words,
                      uint32_t *answer, size_t answers);

/* Judges a file and puts it into out in house style.
 *
 * answer: number, record, column of the first fault, those of the form before
 * those of the references, and never 14; then the fourteen counts as in
 * shelf_form, all 0 on a refusal.
 * table: as in shelf_references. An output shorter than the file is fault 1
 * too, and then neither table nor output is touched. On acceptance the first
 * len bytes of out are the rewritten file; the rest of it stays, and a refusal
 * leaves all of it as it was. */
void shelf_rewrite(const uint8_t *file, size_t len,
                   uint32_t *table, size_t words,
                   uint8_t *out, size_t room,
                   uint32_t *answer, size_t answers);

/* Reads one record by its number, from 1, judged by itself.
 *
 * answer: number, record, column, the kind (-1 on a refusal), the sequence
 * number (-1 missing), then the values in column order; unused words are 0,
 * and on a refusal so are the sequence number's and all values' words.
 * Values: of a job-code record the two characters of its code first. From
 * column 11 on one word each for a number, a height in millimetres (missing:
 * SHELF_MISSING), a standard deviation in 0.01 cm, a signed correlation in
 * 0.00000001, a variance factor in 0.001, an angle in hundred-thousandths of
 * a second, north and east positive, and a date of a *12* as YYYYMM; a code
 * of at most four columns one word for each character; the media identifier
 * maker (character), day, digit of the year (0 to 9), session (character),
 * four characters. Blank fields, the constant 4 and texts of more than four
 * columns have no word: shelf_field gives the texts. */
void shelf_read(const uint8_t *file, size_t len, uint32_t record,
                int64_t *answer, size_t answers);

/* Finds the columns of a record's field, named by its first column.
 *
 * answer: where the field starts, in bytes from the file's first, and its
 * length; 0 and 0 if shelf_read refuses the record or no field from column
 * 11 on starts in that column. */
void shelf_field(const uint8_t *file, size_t len,
                 uint32_t record, uint32_t column,
                 uint64_t *answer, size_t answers);

/* Writes one record of 81 bytes in house style.
 *
 * values: the kind, the sequence number (-1 missing), then the values as
 * shelf_read gives them; words beyond those of the kind are not looked at.
 * first, second, third: the texts of more than four columns in column order,
 * each of its field's exact width; those a kind does not have are not looked
 * at.
 * answer: number, record (always 0), column. 1 is an output below 81 bytes,
 * 9 a value, text, kind or job code that no field holds or a word that
 * count leaves out, at its field's first column (sequence number 1, kind and
 * job code 7), 10 a disagreement inside the record; the first from the left
 * counts. A refusal leaves out as it was; bytes beyond the record stay. */
void shelf_write(uint8_t *out, size_t room,
                 const int64_t *values, size_t count,
                 const uint8_t *first, size_t first_len,
                 const uint8_t *second, size_t second_len,
                 const uint8_t *third, size_t third_len,
                 uint32_t *answer, size_t answers);

/* Fills the lines of an input with blanks and puts them into out.
 *
 * A line ends with LF or CR LF, or at the end of the input if bytes follow
 * the last LF; a CR anywhere else is a byte of its line. It has at most 80
 * bytes and comes out with blanks up to 80 and one line feed.
 * answer: number, record, column, then the number of lines, 0 on a refusal.
 * Line by line, 2 is a line 100,000 (column 1) and 5 a line above 80 bytes
 * (column 81), 2 before 5 in a line, whose number is the record; then 1 is an
 * output below 81 bytes for each line. On success the first 81 x lines bytes
 * of out are the padded lines; the rest of it stays, and a refusal leaves all
 * of it as it was. */
void shelf_pad(const uint8_t *input, size_t len,
               uint8_t *out, size_t room,
               uint32_t *answer, size_t answers);

/* Puts the records of a list into out, each in house style.
 *
 * records: the numbers of the records asked for, from 1, in any order; one
 * may come again. Each entry is judged by itself, as shelf_read judges it: the
 * file is not judged as a whole.
 * answer: number, record (always 0), column (always 0). 1 is an output below
 * 81 bytes for each entry or a fault list of fewer places than entries, and
 * then neither is touched. Otherwise the number is 0, whatever the entries
 * are.
 * out: for each entry 81 bytes, in the list's order. A good record is in house
 * style, its sequence number 10 times its own record number; one that can't
 * be read is 80 blanks and a line feed. Bytes beyond these stay.
 * faults: for each entry the fault number that shelf_read answers, 0 for a
 * good record; 13 is a record 0, above 99,999 or past the last. Places beyond
 * these stay. */
void shelf_pull(const uint8_t *file, size_t len,
                const uint32_t *records, size_t entries,
                uint8_t *out, size_t room,
                uint32_t *faults, size_t places,
                uint32_t *answer, size_t answers);

#ifdef __cplusplus
}
#endif

#endif
