//! What `--help` and `--version` print.

pub const VERSION: &str = concat!(
    "bolfrake ",
    env!("CARGO_PKG_VERSION"),
    "\nmzTab 1.0, 24 rules, files of at most 16,777,216 bytes. The judging, the cells, the rows, the mending, the split of a fee and the tally are a library that is proved to keep its contracts.\n"
);

pub const ALL: &str = "\
bolfrake judges mzTab 1.0 files: exactly which rules a file breaks, and where.

  bolfrake check FILE|DIR...                every break, with its place and the cell that stands there
  bolfrake check --line N FILE              the breaks of one line
  bolfrake rows FILE|DIR...                 rows and columns of each section, and how many rows break a rule
  bolfrake cell FILE SECTION ROW COLUMN     a cell, as the very bytes that stand there
  bolfrake read FILE SECTION ROW COLUMN     a cell read as a number, exactly
  bolfrake edit FILE SECTION ROW COLUMN TEXT
                                            what a text in place of a cell would change; -o NEW writes the edited copy
  bolfrake mend FILE -o NEW                 a copy with null in the empty cells of rows; --dry-run shows it and writes nothing
  bolfrake fee FILE AMOUNT                  a fee split over the study variables of a file, to the cent
  bolfrake tally FILE|DIR...                what files count up to: PSMs, peptides, rows; --save NEW keeps the sum
  bolfrake explain RULE                     what breaks a rule, an example, and how to mend the file

`bolfrake COMMAND --help` tells more of each. `bolfrake --version` prints the version.

FILE may be - for standard input. Of a folder every file is taken whose name ends in .mztab, in capitals or not, and of
the folders in it the same, sorted by name; links to folders are not followed. A file that is named itself is taken
whatever its name.

Exit status: 0 done, and every file accepted; 1 a file or a mended copy breaks a rule, or there is no such section, row,
cell or line, or an edit is refused, or there is no weight to split a fee by, or a count is below zero or a sum over 64
bits; 2 a file cannot be read or written or is longer than 16,777,216 bytes, or its mended copy would be, or is no record
of a tally, or the words were not understood.
";

const CHECK: &str = "\
bolfrake check [--format text|csv|json] [--max N] FILE|DIR...
bolfrake check --line N [--format text|csv|json] [--max N] FILE

Judges each file by the 24 rules and prints each break as

  FILE:LINE:CELL: rule N: words: `the cell`

by line, then cell, then rule, then a line for each file and one for all. Lines and cells count from 1; cell 1 is the
line code. Breaks of rules 21 and 22 stand at the line after the last and say which key is absent, and of rule 22 why it
is asked for. Those of rules 23 and 24 say which index is wrong, and how; they stand in place of 5, 7 and 12 where a key,
a reference or a column name is right but for its indices. Those of rules 6, 9 and 13, of a key, a header or a column
name that comes again, say where it stands first: on which line, or in which cell of the same line. In a cell, bytes that
do not print are shown as \\xNN, a backslash as \\\\, and what does not fit is cut with an ellipsis.

  --format text   as above (the default)
  --format csv    a line for each break: file,line,cell,rule,first,words,shown,detail; first is the number of the line, for
                  rule 13 of the cell, where that which comes again stands first, and 0 for all other rules; the cell stands
                  between backticks, so that a table program takes it as text; the summary is on standard error
  --format json   one document: files, each with its breaks, and the summary; a break has first as in CSV
  --max N         print the first N breaks of each file; the counts are still of all (the default prints all of them,
                  and takes 16 bytes of memory for each)
  --line N        judge line N of one file alone, as the whole file asks of it, and print its breaks in the same form, then
                  FILE: line N: 2 breaks, or FILE: line N breaks no rule. What the whole file lacks, rules 21 and 22, is
                  on no line of it. JSON is then one document: file, line, status (keeps: the line breaks no rule;
                  breaks: it does), count, shown and breaks

Files are judged on all cores; what is printed is in the order of the arguments. `bolfrake explain N` explains rule N.
Exit status: 0 every file accepted, or the line breaks no rule; 1 breaks, or no such line; 2 a file that cannot be read or
is too long.
";

const ROWS: &str = "\
bolfrake rows [--format table|csv] FILE|DIR...

Prints a line for each file and section: the columns of the section's first header (- where there is none), its rows,
how many of them break a rule, and how many break none. A row is a line with the section's row code, whatever breaks
the file has. A row breaks a rule if a break is reported at its line. The table ends with the sums; the CSV has none, so
that a sum over it is right: file,section,columns,rows,breaking,keeping.

Exit status: 0 counted; 2 a file that cannot be read or is too long.
";

const CELL: &str = "\
bolfrake cell FILE SECTION ROW COLUMN [--or TEXT]

Prints a cell as the very bytes that stand in the file, and a line end after them, which no cell can hold.

  SECTION    1 to 4, or protein, peptide, psm, small-molecule
  ROW        0 is the section's first header, r its r-th row
  COLUMN     c is cell c + 1 of the line; cell 1, the line code, is no column
  --or TEXT  print TEXT where the cell is null

Exit status: 0 shown; 1 no such section, row or cell; 2 a file that cannot be read or is too long.
";

const READ: &str = "\
bolfrake read FILE SECTION ROW COLUMN

Reads a cell, found as by `bolfrake cell`, and prints FILE:LINE:CELL: and what it reads as: missing (null), whole,
decimal, infinite (INF), not a number (NaN), long decimal, or text. A decimal is printed as the nearest double, with its
signed numerals and its power of ten, the exponent less the places after the dot: its value is exactly the numerals times
ten to the power. 1.2E-5 is printed as decimal 1.2e-5, numerals 12, power -6. A long decimal has over 15 digits before its
exponent, or a power that is not -22 to 22.

Exit status: 0 read; 1 no such section, row or cell; 2 a file that cannot be read or is too long.
";

const EDIT: &str = "\
bolfrake edit [--format text|csv|json] [-o NEW [--force]] FILE SECTION ROW COLUMN TEXT

Says what the edit of one cell changes: TEXT in place of the cell, found as by `bolfrake cell`. Nothing is written unless
-o says where. Prints where the cell stands and what becomes of it, then each break of its line, marked as gone, as one
that stays, or as new, and how many the line had and has. No other line's breaks change, nor what the whole file lacks
(rules 21 and 22): that is proved of every edit of one cell of a row, so the one line alone is judged.

  ROW             from 1 on. The edit of a header is refused: it can change what every row below it is judged by
  TEXT            any bytes but tab, CR and LF. In quotation marks where it has a space or is to be empty; after -- where
                  it begins with a minus and is no number
  -o NEW          write the edited copy to the file NEW: the whole of it, or nothing is changed. - is standard output,
                  and what is printed is then on standard error
  --force         write over NEW where it exists, FILE itself too; its permissions are kept
  --format text   as above (the default)
  --format csv    a line for each break: change (gone, stays or new), and then as `bolfrake check` has it; the rest is on
                  standard error
  --format json   one document: file, line, cell, column (its name; null where the nearest header above is not one of the
                  row's section, or has no such column), old and new, both whole, breaks_before and breaks_after, each
                  break as `bolfrake check` has it, and written (the name of NEW, or null)

In a cell, bytes that do not print are shown as \\xNN, a backslash as \\\\.
Exit status: 0 the edited line breaks no rule; 1 it breaks one, or there is no such section, row or cell, or the edit is
refused; 2 a file that cannot be read or written or is too long, or words that are not understood.
";

const MEND: &str = "\
bolfrake mend [--format text|csv|json] [--max N] -o NEW [--force] FILE
bolfrake mend [--format text|csv|json] [--max N] --dry-run FILE

Writes a copy of FILE to NEW, with null in every cell that breaks rule 19: the empty cells of rows, save in the columns
where null may not stand (protein accession, peptide and PSM sequence, PSM_ID). Every other byte stays as it is, line
ends too. FILE need not be accepted. Where there is nothing to mend, NEW is FILE byte for byte.

Prints a table of the cells that now hold null, and how many there are; the empty cells that stay, for whose values the
laboratory must be asked; and the other breaks of the copy, both as `bolfrake check` prints them. The copy's breaks are
those of FILE without the mended ones, that is proved: nothing else is mended, and nothing is broken.

  -o NEW          write the copy to the file NEW: the whole of it, or nothing is changed. A file that exists is refused,
                  FILE itself too. - is standard output, and what is printed is then on standard error
  --force         write over NEW where it exists, FILE itself too; its permissions are kept
  --dry-run       print the same and write nothing, beside -o NEW too
  --max N         print the first N changes, and the first N breaks of both sorts; the counts are still of all. The
                  default is 100 of each, and for json, and for the changes in csv, all of them
  --format text   as above (the default)
  --format csv    a line for each change: file,line,cell,section,row,column,new; the column's name stands between
                  backticks, so that a table program takes it as text; the rest is on standard error
  --format json   one document: file, count (of the changes), rows (how many have one), shown, changes, each with line,
                  cell, section, row, column and new; status (of the copy: accepted or broken), left (how many breaks it
                  has), left_empty (how many of them are empty cells; null where --max is given and the copy has over
                  1,000,000 breaks), left_shown, breaks_left, each as `bolfrake check` has it; bytes (of the copy), and
                  written (the name of NEW, or null)

In a column's name, bytes that do not print are shown as \\xNN, a backslash as \\\\, and what does not fit is cut with an
ellipsis.
Exit status: 0 the copy is accepted; 1 it has breaks left; 2 nothing was written: FILE cannot be read or is too long, its
copy would be too long, NEW exists or cannot be written, or words that are not understood.
";

const FEE: &str = "\
bolfrake fee [--format table|csv|json] FILE AMOUNT
bolfrake fee [--format table|csv|json] --weights W,W,... AMOUNT

Splits a fee over the study variables of an accepted file, by weight. The weight of study variable n is the number of
protein rows whose cell under protein_abundance_study_variable[n] is not null. A share is the proportion rounded down to
whole cents; the cents left over go one each to the largest remainders, the lower number first among equals. So the
shares add up to the fee, and each lies less than one cent from the exact proportion.

Prints for each study variable with a weight its number, its description from the file, its weight and its share, then
the totals. Those that are declared and have weight 0 are named in a line below: they have no share. A file that breaks
a rule is not split over: it is to be mended first.

  AMOUNT           1234, 1234.56, or 1234.5 for 1234.50; at most 1000000000.00. Digits and a dot alone: no sign,
                   currency, comma or space, and no more than two places
  --weights W,...  split over these weights in place of a file's: 1 to 64 whole numbers below 16,777,216, with commas
                   between them, as 3,2,2. Numbers are then 1, 2 and so on, and there are no descriptions
  --format table   as above (the default); a description of over 60 characters is cut with an ellipsis
  --format csv     file,study_variable,description,weight,cents,share and a line for each share, then one of totals,
                   which has total as its study_variable. cents is a whole number, share the same as 1234.56. The
                   description stands between backticks, so that a table program takes it as text; none is an empty
                   field. Those of weight 0 are named on standard error
  --format json    one document: file (null for --weights), shares, each with study_variable, description (null for
                   none), weight, cents and share, a text as 1234.56; total with weight, cents and share; and
                   without_weight, the numbers of those of weight 0

In a description, bytes that do not print are shown as \\xNN, a backslash as \\\\.
Exit status: 0 split; 1 the file breaks a rule, or no study variable has a weight; 2 a file that cannot be read or is too
long, or an amount or weights that are not understood.
";

const TALLY: &str = "\
bolfrake tally [--format text|csv|json] [--add RECORD]... [--save NEW [--force]] FILE|DIR...
bolfrake tally [--format text|csv|json] --add RECORD [--add RECORD]... [--save NEW [--force]]

Counts what stands in each accepted file and adds it up, over the files of a month and, with --add, over months. Prints a
line for each file, for each record, and for the sum, with these totals:

  PSMs               the sum of the cells under num_psms_ms_run[n], over all protein rows and runs
  distinct peptides  the same of num_peptides_distinct_ms_run[n]
  unique peptides    the same of num_peptides_unique_ms_run[n]
  rows               of each section
  missing cells      how many cells of those columns are null, which adds nothing to the sums; a column that is not there has none

A file that breaks a rule, has a count below zero, is too long or cannot be read is left out: standard error names it and
says why and what to do, its line has a - for each total, and the line of the sum says over how many files of how many it
is. There is no sum without every record that --add names, and none where a total is over 64 bits. A file that is named
twice, or stands in a folder that is named too, is taken each time, as by `bolfrake rows`; standard error says so.

  --add RECORD    add the sum that --save kept in the file RECORD; once for each record. Then no FILE is needed. - is
                  standard input
  --save NEW      keep the sum in the file NEW, as a record of 70 bytes: the whole of it, or nothing is changed. Nothing is
                  written where a file is left out, for a record does not say what it lacks. A file that exists is
                  refused. - is standard output, and what is printed is then on standard error
  --force         write over NEW where it exists; its permissions are kept
  --format text   as above (the default)
  --format csv    kind,name,psms,distinct_peptides,unique_peptides,protein_rows,peptide_rows,psm_rows,small_molecule_rows,
                  missing,reason and a line for each file, each record and the sum, which has file, record or sum as its
                  kind. The reason is empty for all that is counted. Of one that is left out, and of a sum that is not
                  there, the totals are empty and the reason says why; that of a sum which lacks a file, over how many
                  of how many it is
  --format json   one document: files, each with file, status (counted or left out) and either the totals, named as in csv,
                  or number (of the refusal; null for a file that cannot be read) and reason; records, the same with
                  record for file; sum, the totals, or null where there is none, and then reason; counted and of, how many
                  files of how many the sum is over; and written (the name of NEW, or null). Totals are whole numbers of
                  up to 20 digits

Files are counted on all cores; what is printed is in the order of the arguments, the records after the files.
Exit status: 0 all that was named is in the sum; 1 a file breaks a rule or has a count below zero, or a total is over 64
bits; 2 a file or a record that cannot be read, a file that is too long, a record that is none, NEW exists or cannot be
written, or words that are not understood.
";

const EXPLAIN: &str = "\
bolfrake explain [RULE | values | names]

Prints the page of a rule, 1 to 24: what breaks it, an example, how to mend the file, and which rules it stops. `values`
prints the kinds of value, `names` where the known keys and columns are listed. Without a word it lists the rules.
";

/// The help of a command, else that of all.
pub fn of(command: &str) -> &'static str {
    match command {
        "check" => CHECK,
        "rows" => ROWS,
        "cell" => CELL,
        "read" => READ,
        "edit" => EDIT,
        "mend" => MEND,
        "fee" => FEE,
        "tally" => TALLY,
        "explain" => EXPLAIN,
        _ => ALL,
    }
}
