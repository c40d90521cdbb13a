//! Questions for the cell calls and the reading call, with the line that the
//! mode `cells` prints for each.

use super::tabs;

pub struct Case {
    pub file: Vec<u8>,
    pub questions: Vec<((u32, u32, u32), Vec<u8>)>,
}

const MAX: u32 = 4_294_967_295;

/// The refusals, as printed.
const NO_SECTION: &str = "2 <> <> 0 0 missing";
const NO_ROW: &str = "3 <> <> 0 0 missing";
const NO_CELL: &str = "4 <> <> 0 0 missing";

type Asked<'a> = &'a [((u32, u32, u32), &'a str)];

struct Cases {
    list: Vec<Case>,
}

impl Cases {
    /// An arrow in the file is a tab.
    fn add(&mut self, file: impl AsRef<[u8]>, asked: Asked) {
        let asked: Vec<_> = asked
            .iter()
            .map(|(q, a)| (*q, a.as_bytes().to_vec()))
            .collect();
        self.add_bytes(file, asked);
    }

    fn add_bytes(&mut self, file: impl AsRef<[u8]>, questions: Vec<((u32, u32, u32), Vec<u8>)>) {
        self.list.push(Case {
            file: tabs(file),
            questions,
        });
    }
}

pub fn all() -> Vec<Case> {
    let mut c = Cases { list: Vec::new() };
    refusals(&mut c);
    line_ends(&mut c);
    rows_and_headers(&mut c);
    codes(&mut c);
    what_cells_hold(&mut c);
    readings(&mut c);
    readings_with_exponents(&mut c);
    c.list
}

fn refusals(c: &mut Cases) {
    // The empty file: no row, whatever the column; but the section comes first.
    c.add(
        "",
        &[
            ((1, 0, 1), NO_ROW),
            ((1, 1, 0), NO_ROW),
            ((0, 0, 0), NO_SECTION),
            ((5, 1, 1), NO_SECTION),
            ((4, MAX, MAX), NO_ROW),
        ],
    );
    // Each refusal and its order.
    c.add(
        "PRH→accession→taxid\nPRT→Y1→9606\n",
        &[
            ((1, 0, 1), "0 <accession> <accession> 1 2 text"),
            ((1, 0, 2), "0 <taxid> <taxid> 1 3 text"),
            ((1, 1, 1), "0 <Y1> <Y1> 2 2 text"),
            ((1, 1, 2), "0 <9606> <9606> 2 3 whole 9606"),
            ((1, 1, 0), NO_CELL),
            ((1, 0, 0), NO_CELL),
            ((1, 1, 3), NO_CELL),
            ((1, 0, 3), NO_CELL),
            ((1, 1, MAX), NO_CELL),
            ((1, 1, MAX - 1), NO_CELL),
            ((1, 2, 1), NO_ROW),
            ((1, 2, 0), NO_ROW),
            ((1, 2, 9), NO_ROW),
            ((1, MAX, 1), NO_ROW),
            ((0, 1, 1), NO_SECTION),
            ((5, 1, 1), NO_SECTION),
            ((0, 9, 0), NO_SECTION),
            ((5, MAX, MAX), NO_SECTION),
            ((MAX, 0, 1), NO_SECTION),
            ((2, 0, 1), NO_ROW),
            ((3, 1, 1), NO_ROW),
            ((4, 0, 0), NO_ROW),
        ],
    );
}

fn line_ends(c: &mut Cases) {
    // CR LF.
    c.add(
        "PRH→a→b\r\nPRT→c→d\r\n",
        &[
            ((1, 0, 2), "0 <b> <b> 1 3 text"),
            ((1, 1, 1), "0 <c> <c> 2 2 text"),
            ((1, 1, 2), "0 <d> <d> 2 3 text"),
        ],
    );
    // CR alone ends no line.
    c.add(
        "PRT→a\rPRT→b\rc\n",
        &[
            ((1, 1, 1), "0 <a\rPRT> <a\rPRT> 1 2 text"),
            ((1, 1, 2), "0 <b\rc> <b\rc> 1 3 text"),
            ((1, 2, 1), NO_ROW),
        ],
    );
    // CR CR LF: one of the two is of the cell.
    c.add(
        "SML→1\r\r\nSML→1\r\nSML→1\r",
        &[
            ((4, 1, 1), "0 <1\r> <1\r> 1 2 text"),
            ((4, 2, 1), "0 <1> <1> 2 2 whole 1"),
            ((4, 3, 1), "0 <1\r> <1\r> 3 2 text"),
        ],
    );
    // No LF at the end.
    c.add(
        "PRH→a\nPRT→null",
        &[((1, 1, 1), "0 <null> <-> 2 2 missing")],
    );
    c.add(
        "PRH→a\nPRT→null\r",
        &[((1, 1, 1), "0 <null\r> <null\r> 2 2 text")],
    );
    c.add(
        "PEP",
        &[
            ((2, 1, 1), NO_CELL),
            ((2, 1, 0), NO_CELL),
            ((2, 0, 1), NO_ROW),
        ],
    );
    c.add(
        "PEP→",
        &[((2, 1, 1), "0 <> <> 1 2 text"), ((2, 1, 2), NO_CELL)],
    );
    // Only line ends.
    c.add("\n\r\n\n", &[((1, 0, 1), NO_ROW), ((1, 1, 1), NO_ROW)]);
    // Empty lines and comments are counted.
    c.add(
        "\nCOM→PRT→x\n\r\nPRT→1.50\n\nCOM\nPRT→-7\n",
        &[
            ((1, 1, 1), "0 <1.50> <1.50> 4 2 decimal 150 -2"),
            ((1, 2, 1), "0 <-7> <-7> 7 2 whole -7"),
            ((1, 3, 1), NO_ROW),
        ],
    );
}

fn rows_and_headers(c: &mut Cases) {
    // A row before its header.
    c.add(
        "PRT→first\nPRH→accession\nPRT→second\n",
        &[
            ((1, 0, 1), "0 <accession> <accession> 2 2 text"),
            ((1, 1, 1), "0 <first> <first> 1 2 text"),
            ((1, 2, 1), "0 <second> <second> 3 2 text"),
        ],
    );
    // Two headers: row 0 is the first; rows count on.
    c.add(
        "PEH→one→two\nPEP→1→2\nPEH→three\nPEP→3\n",
        &[
            ((2, 0, 1), "0 <one> <one> 1 2 text"),
            ((2, 0, 2), "0 <two> <two> 1 3 text"),
            ((2, 0, 3), NO_CELL),
            ((2, 2, 1), "0 <3> <3> 4 2 whole 3"),
            ((2, 2, 2), NO_CELL),
        ],
    );
    // Two headers with the shorter first.
    c.add(
        "SMH→x\nSMH→y→z\n",
        &[((4, 0, 1), "0 <x> <x> 1 2 text"), ((4, 0, 2), NO_CELL)],
    );
    // Row 0 is the header's, and no row: no header, rows only.
    c.add(
        "PSM→a→b\nPSM→c\n",
        &[
            ((3, 0, 1), NO_ROW),
            ((3, 1, 2), "0 <b> <b> 1 3 text"),
            ((3, 2, 1), "0 <c> <c> 2 2 text"),
            ((3, 2, 2), NO_CELL),
        ],
    );
    // All four sections, mixed; metadata between.
    c.add(
        "MTD→title→PRT\nSML→m1\nPRH→p→q\nPEP→e1\nPRT→p1→p2\nPSH→s\nPEH→e\nSMH→m\nPSM→s1\nPRT→p3→p4\nSML→m2\n",
        &[
            ((1, 0, 2), "0 <q> <q> 3 3 text"),
            ((1, 2, 2), "0 <p4> <p4> 10 3 text"),
            ((2, 0, 1), "0 <e> <e> 7 2 text"),
            ((2, 1, 1), "0 <e1> <e1> 4 2 text"),
            ((2, 2, 1), NO_ROW),
            ((3, 0, 1), "0 <s> <s> 6 2 text"),
            ((3, 1, 1), "0 <s1> <s1> 9 2 text"),
            ((4, 0, 1), "0 <m> <m> 8 2 text"),
            ((4, 1, 1), "0 <m1> <m1> 2 2 text"),
            ((4, 2, 1), "0 <m2> <m2> 11 2 text"),
            ((4, 3, 1), NO_ROW),
        ],
    );
    // A header of more than 256 cells is a header still.
    let wide = format!("PRH{}→last\nPRT→a\n", "→x".repeat(299));
    c.add(
        wide,
        &[
            ((1, 0, 299), "0 <x> <x> 1 300 text"),
            ((1, 0, 300), "0 <last> <last> 1 301 text"),
            ((1, 0, 301), NO_CELL),
        ],
    );
}

fn codes(c: &mut Cases) {
    // Codes of wrong case, longer ones, a code not in cell 1.
    c.add(
        "prt→a\nPrt→b\nPRTx→c\nPR→d\n PRT→e\nPRT →f\n→PRT→g\nCOM→PRT→h\nPRT→i\nPRT→j\n",
        &[
            ((1, 1, 1), "0 <i> <i> 9 2 text"),
            ((1, 2, 1), "0 <j> <j> 10 2 text"),
            ((1, 3, 1), NO_ROW),
        ],
    );
    c.add(
        "PRHx→a\nprh→b\nPRH\nPRH→c\n",
        &[((1, 0, 1), NO_CELL), ((1, 0, 0), NO_CELL)],
    );
    // A line that is only a code.
    c.add(
        "SMH\nSML\nSML→\nSML→→\n",
        &[
            ((4, 0, 1), NO_CELL),
            ((4, 1, 1), NO_CELL),
            ((4, 2, 1), "0 <> <> 3 2 text"),
            ((4, 2, 2), NO_CELL),
            ((4, 3, 2), "0 <> <> 4 3 text"),
            ((4, 3, 3), NO_CELL),
        ],
    );
    // PSM is a row code, PSH its header; PEP and PEH.
    c.add(
        "PSM→PSH\nPSH→PSM\nPEP→PEH\nPEH→PEP\n",
        &[
            ((3, 0, 1), "0 <PSM> <PSM> 2 2 text"),
            ((3, 1, 1), "0 <PSH> <PSH> 1 2 text"),
            ((2, 0, 1), "0 <PEP> <PEP> 4 2 text"),
            ((2, 1, 1), "0 <PEH> <PEH> 3 2 text"),
        ],
    );
}

fn what_cells_hold(c: &mut Cases) {
    // Empty cells and `null`.
    c.add(
        "PRH→null→b→\nPRT→→null→\nPRT→ null→null →NULL\nPRT→nul→nulll→null\n",
        &[
            ((1, 0, 1), "0 <null> <-> 1 2 missing"),
            ((1, 0, 3), "0 <> <> 1 4 text"),
            ((1, 1, 1), "0 <> <> 2 2 text"),
            ((1, 1, 2), "0 <null> <-> 2 3 missing"),
            ((1, 1, 3), "0 <> <> 2 4 text"),
            ((1, 1, 4), NO_CELL),
            ((1, 2, 1), "0 < null> < null> 3 2 text"),
            ((1, 2, 2), "0 <null > <null > 3 3 text"),
            ((1, 2, 3), "0 <NULL> <NULL> 3 4 text"),
            ((1, 3, 1), "0 <nul> <nul> 4 2 text"),
            ((1, 3, 2), "0 <nulll> <nulll> 4 3 text"),
            ((1, 3, 3), "0 <null> <-> 4 4 missing"),
        ],
    );
    // Bytes from 128 up, and control bytes.
    c.add_bytes(
        b"PRT\t\x80\xff\xfe\tcaf\xe9\t\x00\x01\x7f\n",
        vec![
            (
                (1, 1, 1),
                b"0 <\x80\xff\xfe> <\x80\xff\xfe> 1 2 text".to_vec(),
            ),
            ((1, 1, 2), b"0 <caf\xe9> <caf\xe9> 1 3 text".to_vec()),
            (
                (1, 1, 3),
                b"0 <\x00\x01\x7f> <\x00\x01\x7f> 1 4 text".to_vec(),
            ),
        ],
    );
    // The stand-in itself, spaces, and what looks like the print.
    c.add(
        "SML→-→ → a b →<>→.→;\n",
        &[
            ((4, 1, 1), "0 <-> <-> 1 2 text"),
            ((4, 1, 2), "0 < > < > 1 3 text"),
            ((4, 1, 3), "0 < a b > < a b > 1 4 text"),
            ((4, 1, 4), "0 <<>> <<>> 1 5 text"),
            ((4, 1, 5), "0 <.> <.> 1 6 text"),
            ((4, 1, 6), "0 <;> <;> 1 7 text"),
        ],
    );
    // Whatever breaks the file has.
    c.add(
        "MTD→title\nPRH→accession→accession→foo\nPEH\nPRT→null\nPEP→→→\nPRT→x→y→z→w\n",
        &[
            ((1, 0, 2), "0 <accession> <accession> 2 3 text"),
            ((1, 1, 1), "0 <null> <-> 4 2 missing"),
            ((1, 2, 4), "0 <w> <w> 6 5 text"),
            ((2, 0, 1), NO_CELL),
            ((2, 1, 3), "0 <> <> 5 4 text"),
        ],
    );
}

fn readings(c: &mut Cases) {
    c.add(
        "SML→null→7→-7→007→-0→1.5→-0.0→1234567890→INF→NaN→-INF→nan→123456789012345→\
         1234567890123456→12345678901234.5→123456789012345.6→.5→5.→+1→1|2→[,,a,]\n",
        &[
            ((4, 1, 1), "0 <null> <-> 1 2 missing"),
            ((4, 1, 2), "0 <7> <7> 1 3 whole 7"),
            ((4, 1, 3), "0 <-7> <-7> 1 4 whole -7"),
            ((4, 1, 4), "0 <007> <007> 1 5 whole 7"),
            ((4, 1, 5), "0 <-0> <-0> 1 6 whole 0"),
            ((4, 1, 6), "0 <1.5> <1.5> 1 7 decimal 15 -1"),
            ((4, 1, 7), "0 <-0.0> <-0.0> 1 8 decimal 0 -1"),
            (
                (4, 1, 8),
                "0 <1234567890> <1234567890> 1 9 decimal 1234567890 0",
            ),
            ((4, 1, 9), "0 <INF> <INF> 1 10 infinite"),
            ((4, 1, 10), "0 <NaN> <NaN> 1 11 nan"),
            ((4, 1, 11), "0 <-INF> <-INF> 1 12 text"),
            ((4, 1, 12), "0 <nan> <nan> 1 13 text"),
            (
                (4, 1, 13),
                "0 <123456789012345> <123456789012345> 1 14 decimal 123456789012345 0",
            ),
            (
                (4, 1, 14),
                "0 <1234567890123456> <1234567890123456> 1 15 long",
            ),
            (
                (4, 1, 15),
                "0 <12345678901234.5> <12345678901234.5> 1 16 decimal 123456789012345 -1",
            ),
            (
                (4, 1, 16),
                "0 <123456789012345.6> <123456789012345.6> 1 17 long",
            ),
            ((4, 1, 17), "0 <.5> <.5> 1 18 text"),
            ((4, 1, 18), "0 <5.> <5.> 1 19 text"),
            ((4, 1, 19), "0 <+1> <+1> 1 20 text"),
            ((4, 1, 20), "0 <1|2> <1|2> 1 21 text"),
            ((4, 1, 21), "0 <[,,a,]> <[,,a,]> 1 22 text"),
        ],
    );
}

fn readings_with_exponents(c: &mut Cases) {
    c.add(
        "PSM→12.50→3e2→1.2E-5→1E0→-1.5e+003→-0E5→1.0E-21→1.0E-22→1E22→1E23→\
         123456789012345E-22→9007199254740993E0→1E999→INFE5→1E→1E1000→1.2E-5.0→1E1|2E1→5E0\r\n\
         PSM→6.229394e06",
        &[
            ((3, 1, 1), "0 <12.50> <12.50> 1 2 decimal 1250 -2"),
            ((3, 1, 2), "0 <3e2> <3e2> 1 3 decimal 3 2"),
            ((3, 1, 3), "0 <1.2E-5> <1.2E-5> 1 4 decimal 12 -6"),
            ((3, 1, 4), "0 <1E0> <1E0> 1 5 decimal 1 0"),
            ((3, 1, 5), "0 <-1.5e+003> <-1.5e+003> 1 6 decimal -15 2"),
            ((3, 1, 6), "0 <-0E5> <-0E5> 1 7 decimal 0 5"),
            ((3, 1, 7), "0 <1.0E-21> <1.0E-21> 1 8 decimal 10 -22"),
            ((3, 1, 8), "0 <1.0E-22> <1.0E-22> 1 9 long"),
            ((3, 1, 9), "0 <1E22> <1E22> 1 10 decimal 1 22"),
            ((3, 1, 10), "0 <1E23> <1E23> 1 11 long"),
            (
                (3, 1, 11),
                "0 <123456789012345E-22> <123456789012345E-22> 1 12 decimal 123456789012345 -22",
            ),
            (
                (3, 1, 12),
                "0 <9007199254740993E0> <9007199254740993E0> 1 13 long",
            ),
            ((3, 1, 13), "0 <1E999> <1E999> 1 14 long"),
            ((3, 1, 14), "0 <INFE5> <INFE5> 1 15 text"),
            ((3, 1, 15), "0 <1E> <1E> 1 16 text"),
            ((3, 1, 16), "0 <1E1000> <1E1000> 1 17 text"),
            ((3, 1, 17), "0 <1.2E-5.0> <1.2E-5.0> 1 18 text"),
            ((3, 1, 18), "0 <1E1|2E1> <1E1|2E1> 1 19 text"),
            ((3, 1, 19), "0 <5E0> <5E0> 1 20 decimal 5 0"),
            ((3, 1, 20), NO_CELL),
            (
                (3, 2, 1),
                "0 <6.229394e06> <6.229394e06> 2 2 decimal 6229394 0",
            ),
        ],
    );
    // A letter at the end of one cell and a digit at the start of the next; the
    // same over a line end and over a CR that is of the cell.
    c.add(
        "SML→1E→5→e5\nSML→1E\nSML→5E+\r\r\nSML→1E5\r",
        &[
            ((4, 1, 1), "0 <1E> <1E> 1 2 text"),
            ((4, 1, 2), "0 <5> <5> 1 3 whole 5"),
            ((4, 1, 3), "0 <e5> <e5> 1 4 text"),
            ((4, 2, 1), "0 <1E> <1E> 2 2 text"),
            ((4, 3, 1), "0 <5E+\r> <5E+\r> 3 2 text"),
            ((4, 4, 1), "0 <1E5\r> <1E5\r> 4 2 text"),
        ],
    );
    // A cell that ends where the file does.
    for (file, answer) in [
        ("SML→1E", "0 <1E> <1E> 1 2 text"),
        ("SML→1E-", "0 <1E-> <1E-> 1 2 text"),
        ("SML→1E-7", "0 <1E-7> <1E-7> 1 2 decimal 1 -7"),
        ("SML→1.5e007", "0 <1.5e007> <1.5e007> 1 2 decimal 15 6"),
        ("SML→1.5e0070", "0 <1.5e0070> <1.5e0070> 1 2 text"),
    ] {
        c.add(file, &[((4, 1, 1), answer)]);
    }
}
