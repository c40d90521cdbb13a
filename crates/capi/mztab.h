/* The reader of mzTab 1.0 for hosts in C, or any language that calls C.
 *
 * Every call ends, on every file and every number, and touches nothing but what is named here. No call keeps a pointer, allocates, or
 * needs set-up; calls may run at the same time as long as they do not share a place that is written.
 *
 * What the host owes. A `file`, a buffer and a list are each a pointer and the count of what it points at; a tally is a pointer to eight numbers.
 *  - Every pointer is not null, also where its count is 0, and aligned, and all that its count says is there, and all eight numbers of a tally.
 *  - What is lent to be read does not change during the call.
 *  - No memory lent to be written (`number`, `length`, .., the buffers `copy` and `buffer`, the lists `places`, `changes`, `faults`, `weights` of
 *    mztab_weights and `shares`, and the tallies `sum` and `totals`, that of mztab_tally_write apart) overlaps other memory that is lent in the call, be it to
 *    be read or to be written.
 *  - The stack has room for what a call says it needs.
 *
 * The number that every call writes says whether there is an answer, and else why not. Each call says which of them it gives.
 *    0  the answer was given
 *    1  the file is longer than 16,777,216 bytes
 *    2  the section is not 1 to 4
 *    3  no such row, or no such line
 *    4  no such cell
 *    5  no room: what is to be written is longer than the buffer, or than 16,777,216 bytes
 *    7  the file is not accepted: it breaks a rule
 *   12  a count is below zero
 *   13  a sum passes 64 bits
 *   14  the bytes are not the record of a tally
 *   15  the number of weights, or of shares, is not what it should be
 *   16  an amount or a weight is too large
 *   17  all weights are zero
 * They are tried in this order.
 */
#ifndef MZTAB_H
#define MZTAB_H

#include <stddef.h>
#include <stdint.h>

#ifdef __cplusplus
extern "C" {
#endif

/* Shows a cell as a part of the file. Sections: 1 protein, 2 peptide, 3 PSM, 4 small molecule. Row 0 is the section's first header, row r
 * its r-th line with the row code, whatever breaks the file has. Column c is cell c + 1 of that line (cell 1 is the line code); column 0 is
 * refused with 4. The answer is where the view starts in the file; *length is how many bytes it has: file[answer .. answer + *length].
 * Refused with 1 to 4, and both are then 0. */
size_t mztab_cell(const uint8_t *file, size_t file_length, uint32_t section, uint32_t row, uint32_t column, uint32_t *number, size_t *length);

/* Shows a cell, found as by mztab_cell, or where it is `null` the stand-in that is lent. *stood_in says which: 0, and the view is
 * file[answer .. answer + *length]; or 1, and it is stand_in[0 .. *length], all of it. Refused with 1 to 4, and all three are then 0. stand_in is a pointer to
 * stand_in_length bytes, not null also where that is 0. */
size_t mztab_cell_or(const uint8_t *file, size_t file_length, uint32_t section, uint32_t row, uint32_t column, const uint8_t *stand_in,
                     size_t stand_in_length, uint32_t *number, size_t *length, uint32_t *stood_in);

/* Reads a cell, found as by mztab_cell. The answer is the case: 0 missing (`null`), 1 whole, 2 decimal, 3 infinite (`INF`), 4 not a number (`NaN`),
 * 5 long decimal, 6 text (all else, an empty cell too). *line and *cell say where it stands. A whole has its value in *whole. A decimal has its signed
 * numerals in *whole, and in *power the exponent less the places after the dot: its value is the numerals times ten to the power. `12.50` has 1250 and
 * -2, `1.2E-5` 12 and -6, `3e2` 3 and 2. In *decimal it has the nearest double: for a power below 0 one division of the numerals by ten to -power, else
 * one multiplication by ten to the power, of exact numbers as IEEE 754 binary64, negated last for a minus. A decimal is a long one where more than 15
 * digits stand before its exponent, leading zeros among them, or its power is not -22 to 22. What a case does not carry is written 0; a refused reading
 * has line 0, cell 0 and missing. */
uint32_t mztab_reading(const uint8_t *file, size_t file_length, uint32_t section, uint32_t row, uint32_t column, uint32_t *number, uint32_t *line,
                       uint32_t *cell, int64_t *whole, int32_t *power, double *decimal);

/* Judges a file by the 24 rules. The answer is the count of all breaks, 0 for an accepted file. The first of them that fit are written to places, four
 * numbers each: rule, line, cell, first; in order of line, then cell, then rule. Rules 21 and 22 are reported at the line after the last, and their cell stands
 * for the key that is absent: 1 to 5 of rule 21, 101 to 1564 of rule 22 (docs/rules.md); all others, 23 and 24 too, at a cell of their line. `first` says
 * where that which comes again stands first: of rule 6 the line of the earliest MTD line of three cells with the same key, of rule 9 the line of the earliest
 * header of the same section, of rule 13 the cell of the first equal name in this header. It is 0 for all other rules, which have no such place. places is a
 * pointer to places_length numbers, not null also where that is 0. A place that no whole break fills is left as it was: one to three at the end of a list may
 * be too few for the next. Of a file that is too long the count is 0, *number is 1 and no place is written. The call needs some 300 KB of stack. */
uint32_t mztab_judge(const uint8_t *file, size_t file_length, uint32_t *places, size_t places_length, uint32_t *number);

/* Judges one line of a file of N lines, 1 to N, under the whole file, later lines included, as mztab_judge does. The answer is the count of that line's breaks.
 * The first of them that fit are written to places, four numbers each: rule, line, cell, first. The lists of lines 1 to N one after the other, and then the
 * breaks of rules 21 and 22, which stand on line N + 1 and are never answered here, are the list of mztab_judge.
 * It serves the mending of single cells: where bytes other than tab, CR and LF take the place of one cell of a row line, from cell 2 on, and neither file is
 * too long, the breaks of all other lines, line N + 1 included, stay as they were. So the list of the new file is the old one with this call's answer in the
 * place of that line's part. places is a pointer to places_length numbers, not null also where that is 0. A place that no whole break fills is left as it was.
 * Refused with 1, and with 3 where there is no such line, 0 and N + 1 among them; the count is then 0 and no place is written. The call needs some 350 KB of
 * stack. */
uint32_t mztab_judge_line(const uint8_t *file, size_t file_length, uint32_t line, uint32_t *places, size_t places_length, uint32_t *number);

/* Writes a copy of the file to the buffer copy, with `null` in every cell that breaks rule 19, an empty cell of a row, save in the columns where `null` may not
 * stand: protein `accession`, peptide and PSM `sequence`, and `PSM_ID`. The answer is the length of the copy, file_length + 4 * *count; *count is the number of
 * all changes. The first of them that fit are written to changes, two numbers each: line, cell; in order of line, then cell. All other bytes follow in their
 * order, ends of lines as they stand: LF, CR LF, or none behind the last line. An empty cell that does not break rule 19 stays empty: the name in a header, the
 * value of a metadata line, a cell of a row under no header of its section (rule 17), of another number of cells than its header (18), or under a header of
 * over 256 cells (11).
 * The file need not be accepted. The breaks of the copy are those of the file without the mended ones, in the same order and with the same numbers. So the copy
 * of a copy has the same bytes, and so has the copy of a file with nothing to mend.
 * copy is a pointer to copy_length bytes and changes one to changes_length numbers, not null also where that is 0; file, copy and changes do not overlap. The
 * bytes of the buffer behind the copy are left as they were, and so is a place that no whole change fills: one at the end of a list is too few for the next.
 * Refused with 1, and then with 5 where the copy is longer than copy_length or than 16,777,216 bytes; the answer and the count are then 0, and no byte of copy
 * and no place of changes is written. Where the copy is within 16,777,216 bytes, these are always enough for copy_length: 5 * file_length, file_length + 4 *
 * the number of empty cells, and 16,777,216. The call needs some 50 KB of stack. */
size_t mztab_mend(const uint8_t *file, size_t file_length, uint8_t *copy, size_t copy_length, uint32_t *changes, size_t changes_length, uint32_t *number,
                  uint32_t *count);

/* A break: its rule, its line and cell in the file, and where that which comes again stands first: a line for rules 6 and 9, a cell of the break's own line for
 * rule 13, 0 for all others. */
struct mztab_fault {
    uint32_t rule, line, cell, first;
};

/* The same as mztab_judge over a list of records: the first of all breaks that fit are written to faults, a record each. A record that no break fills is
 * left as it was. faults is a pointer to faults_length records, not null also where that is 0. The call needs some 350 KB of stack. */
uint32_t mztab_faults(const uint8_t *file, size_t file_length, struct mztab_fault *faults, size_t faults_length, uint32_t *number);

/* Counts the rows of a section: the lines with its row code, whatever breaks the file has. Row r of mztab_cell is there exactly for r from 1 to the
 * answer. Refused with 1 and 2, and the answer is then 0. */
uint32_t mztab_rows(const uint8_t *file, size_t file_length, uint32_t section, uint32_t *number);

/* The weights of the study variables of an accepted file. weights is a list of exactly 64 places: place i - 1 gets the number of protein rows whose cell
 * under `protein_abundance_study_variable[i]` is not `null`, 0 where the header has no such column. Refused with 1, 7, and 15 where the list has not 64
 * places; no place is then written. The call judges the file: it needs as much stack as mztab_judge, some 300 KB. */
void mztab_weights(const uint8_t *file, size_t file_length, uint32_t *weights, size_t weights_length, uint32_t *number);

/* The tally of an accepted file: eight totals, in every tally in this order.
 *    0  PSMs, the sum of the cells under `num_psms_ms_run[n]` of all protein rows, n from 1 to 64
 *    1  distinct peptides, the same of `num_peptides_distinct_ms_run[n]`
 *    2  unique peptides, the same of `num_peptides_unique_ms_run[n]`
 *    3  protein rows, as mztab_rows counts them
 *    4  peptide rows
 *    5  PSM rows
 *    6  small molecule rows
 *    7  missing cells: those of protein rows under these columns that are `null`; each adds 0 to its sum
 * A column that the header does not have adds nothing, and is not missing. totals is a pointer to eight numbers, and so is every tally below: there are always
 * eight, so no length is passed, and none can be refused. Refused with 1, 7, and 12 where a cell under these columns is below zero, as `-1` and `-007` are, and
 * `-0` and `-000` are not; eight zeros are then written. No file within 16,777,216 bytes has a total that passes 64 bits. The call judges the file: it needs as
 * much stack as mztab_judge, some 300 KB. */
void mztab_tally(const uint8_t *file, size_t file_length, uint64_t totals[8], uint32_t *number);

/* Adds two tallies, total by total. a and b may be the same memory; sum overlaps neither. Refused with 13 where any of the eight sums passes 64 bits, which is
 * 2^64 or more; eight zeros are then written. */
void mztab_tally_add(const uint64_t a[8], const uint64_t b[8], uint64_t sum[8], uint32_t *number);

/* Writes the record of a tally to the first 70 bytes of the buffer. Every number in it has its lowest byte first.
 *    bytes 0 to 3    the length of the rest, 66
 *    bytes 4 and 5   the kind, 1
 *    bytes 6 to 69   the eight totals, eight bytes each: total i has bytes 6 + 8 * i to 13 + 8 * i
 * The answer is 70. The bytes of the buffer behind the record are left as they were. buffer is a pointer to buffer_length bytes, not null also where that is 0.
 * Refused with 5 where these are fewer than 70; the answer is then 0, and no byte is written. */
size_t mztab_tally_write(const uint64_t totals[8], uint8_t *buffer, size_t buffer_length, uint32_t *number);

/* Reads the tally that a record holds, as mztab_tally_write writes it. bytes is a pointer to bytes_length bytes, not null also where that is 0. Refused with 14
 * where they are not 70 that have the length 66 and the kind 1; eight zeros are then written. */
void mztab_tally_read(const uint8_t *bytes, size_t bytes_length, uint64_t totals[8], uint32_t *number);

/* Adds two amounts in cents. The answer is their sum. Where that is over 100,000,000,000, of any two 64-bit numbers, it is refused with 16, and the
 * answer is 0. */
uint64_t mztab_add_cents(uint64_t a, uint64_t b, uint32_t *number);

/* Splits a fee, in cents and at most 100,000,000,000, over 1 to 64 weights, each below 16,777,216, and writes as many shares. A share is the proportion
 * rounded down; the cents left over go one each to the largest remainders, the lower number first among equals. So the shares add up to the fee, and
 * each lies less than one cent from the exact proportion. Refused with 15 where the weights are not 1 to 64 or the shares not as many, 16 where the fee
 * or a weight is too large, 17 where all weights are zero; no share is then written. */
void mztab_split_fee(uint64_t fee, const uint32_t *weights, size_t weights_length, uint64_t *shares, size_t shares_length, uint32_t *number);

#ifdef __cplusplus
}
#endif

#endif
