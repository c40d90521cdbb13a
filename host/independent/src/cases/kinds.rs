//! Values, with the line that the mode `kinds` prints for each: text, whole,
//! decimal, decimal list, window, parameter, parameter list; then the index as
//! reference to a sample, assay, study variable and run; then whether it is a
//! list of such references; then the reading.

type Values = Vec<(Vec<u8>, String)>;

pub fn all() -> Values {
    let mut v = Vec::new();
    wholes(&mut v);
    decimals(&mut v);
    near_numbers(&mut v);
    exponents(&mut v);
    exponents_and_powers(&mut v);
    near_exponents(&mut v);
    other_bytes_in_exponents(&mut v);
    lists_of_decimals(&mut v);
    lists_with_exponents(&mut v);
    parameters(&mut v);
    parameter_lists(&mut v);
    references(&mut v);
    reference_lists(&mut v);
    other_text(&mut v);
    v
}

/// Nothing but text.
fn plain(v: &mut Values, value: impl AsRef<[u8]>) {
    add(v, value, "1000000 0 0 0 0 0000 text");
}

fn plains(v: &mut Values, values: &[&str]) {
    for value in values {
        plain(v, value);
    }
}

fn add(v: &mut Values, value: impl AsRef<[u8]>, line: &str) {
    v.push((value.as_ref().to_vec(), line.to_string()));
}

fn wholes(v: &mut Values) {
    for (value, number) in [
        ("0", "0"),
        ("1", "1"),
        ("9", "9"),
        ("-1", "-1"),
        ("-0", "0"),
        ("00", "0"),
        ("-00", "0"),
        ("007", "7"),
        ("-007", "-7"),
        ("64", "64"),
        ("65", "65"),
        ("9606", "9606"),
        ("12345678", "12345678"),
        ("123456789", "123456789"),
        ("-123456789", "-123456789"),
        ("999999999", "999999999"),
        ("-999999999", "-999999999"),
        ("000000000", "0"),
        ("000000001", "1"),
        ("-000000001", "-1"),
        ("100000000", "100000000"),
    ] {
        add(v, value, &format!("1111000 0 0 0 0 0000 whole {number}"));
    }
}

fn decimals(v: &mut Values) {
    for (value, reading) in [
        ("1234567890", "decimal 1234567890 0"),
        ("-1234567890", "decimal -1234567890 0"),
        ("0000000000", "decimal 0 0"),
        ("-0000000000", "decimal 0 0"),
        ("0000000001", "decimal 1 0"),
        ("12345678901234", "decimal 12345678901234 0"),
        ("123456789012345", "decimal 123456789012345 0"),
        ("-123456789012345", "decimal -123456789012345 0"),
        ("999999999999999", "decimal 999999999999999 0"),
        ("000000000000000", "decimal 0 0"),
        ("0.0", "decimal 0 -1"),
        ("-0.0", "decimal 0 -1"),
        ("0.5", "decimal 5 -1"),
        ("-0.5", "decimal -5 -1"),
        ("00.50", "decimal 50 -2"),
        ("1.5", "decimal 15 -1"),
        ("-1.5", "decimal -15 -1"),
        ("10.2", "decimal 102 -1"),
        ("12.50", "decimal 1250 -2"),
        ("1123.2", "decimal 11232 -1"),
        ("1.0", "decimal 10 -1"),
        ("1.00000000", "decimal 100000000 -8"),
        ("123456789.5", "decimal 1234567895 -1"),
        ("123.0", "decimal 1230 -1"),
        ("0.00000000000001", "decimal 1 -14"),
        ("-0.00000000000001", "decimal -1 -14"),
        ("0.12345678901234", "decimal 12345678901234 -14"),
        ("12345678901234.5", "decimal 123456789012345 -1"),
        ("-12345678901234.5", "decimal -123456789012345 -1"),
        ("1234567.89012345", "decimal 123456789012345 -8"),
        ("00000000000000.1", "decimal 1 -1"),
        ("INF", "infinite"),
        ("NaN", "nan"),
        ("1234567890123456", "long"),
        ("-1234567890123456", "long"),
        ("0000000000000000", "long"),
        ("0000000000000001", "long"),
        ("9999999999999999", "long"),
        ("123456789012345.6", "long"),
        ("-123456789012345.6", "long"),
        ("1.234567890123456", "long"),
        ("0.000000000000001", "long"),
        ("-0.000000000000000", "long"),
        ("123456789012345678901234567890", "long"),
        ("0.1234567890123456789012345678901234567890", "long"),
        ("12345678901234567890.12345678901234567890", "long"),
    ] {
        add(v, value, &format!("1011000 0 0 0 0 0000 {reading}"));
    }
}

fn near_numbers(v: &mut Values) {
    for value in [
        ".5", "5.", "-.5", "-5.", ".", "-", "--1", "-.", "+1", "+1.5", "+INF", "1,000", "1,5",
        "1 000", " 1", "1 ", "1.5 ", " 1.5", "- 1", "1-", "1.-5", "1..5", "1.5.2", "1.5.", "0x10",
        "1f", "-INF", "inf", "Inf", "INFINITY", "INF ", " INF", "INF1", "1INF", "IN", "nan", "NAN",
        "Nan", "-NaN", "NaN ", "NaNN", "NA", "null", "NULL", "Null", "null ", " null", "nulll",
        "-null", "1a", "a1", "1\t2", "1\r", "\r", "1.5\r", "INF\r", "null\r",
    ] {
        if value == "null" {
            add(v, value, "1000000 0 0 0 0 0000 missing");
        } else {
            plain(v, value);
        }
    }
    // Digits of another script, as bytes.
    plain(v, b"\xd9\xa1");
    plain(v, b"1\xff");
    plain(v, b"\xb2");
    // The empty value.
    add(v, "", "0000000 0 0 0 0 0000 text");
}

/// "A decimal may end in `E` or `e`, an optional plus or minus and 1 to 3
/// digits": every shape of it.
fn exponents(v: &mut Values) {
    for (value, reading) in [
        ("1E5", "decimal 1 5"),
        ("1e5", "decimal 1 5"),
        ("1E+5", "decimal 1 5"),
        ("1e+5", "decimal 1 5"),
        ("1E-5", "decimal 1 -5"),
        ("1e-5", "decimal 1 -5"),
        ("-1E5", "decimal -1 5"),
        ("-1e5", "decimal -1 5"),
        ("-1E+5", "decimal -1 5"),
        ("-1e-5", "decimal -1 -5"),
        ("1.5E3", "decimal 15 2"),
        ("1.5e3", "decimal 15 2"),
        ("1.5E+3", "decimal 15 2"),
        ("1.5e-3", "decimal 15 -4"),
        ("-1.5E3", "decimal -15 2"),
        ("-1.5e-3", "decimal -15 -4"),
        // One, two and three digits, zeros before them.
        ("1E0", "decimal 1 0"),
        ("1E00", "decimal 1 0"),
        ("1E000", "decimal 1 0"),
        ("1E+0", "decimal 1 0"),
        ("1e-0", "decimal 1 0"),
        ("1E+000", "decimal 1 0"),
        ("1e-000", "decimal 1 0"),
        ("1E01", "decimal 1 1"),
        ("1E001", "decimal 1 1"),
        ("1e-01", "decimal 1 -1"),
        ("1e-001", "decimal 1 -1"),
        ("1E+010", "decimal 1 10"),
        ("1E10", "decimal 1 10"),
        ("1E-10", "decimal 1 -10"),
        ("1E09", "decimal 1 9"),
        ("1E9", "decimal 1 9"),
        ("5E0", "decimal 5 0"),
        ("5.0E0", "decimal 50 -1"),
        ("3e2", "decimal 3 2"),
        ("1.2E-5", "decimal 12 -6"),
        ("-1.5e+003", "decimal -15 2"),
        ("3.2e-05", "decimal 32 -6"),
        ("6.229394e06", "decimal 6229394 0"),
        ("12.50E0", "decimal 1250 -2"),
        ("12.50E2", "decimal 1250 0"),
        ("12.50e3", "decimal 1250 1"),
        ("007E1", "decimal 7 1"),
        ("-00.70e1", "decimal -70 -1"),
        ("123456789E0", "decimal 123456789 0"),
        ("-123456789e1", "decimal -123456789 1"),
        ("1234567890E-1", "decimal 1234567890 -1"),
        // Zero has no sign as numerals.
        ("0E0", "decimal 0 0"),
        ("-0E0", "decimal 0 0"),
        ("0e5", "decimal 0 5"),
        ("-0E5", "decimal 0 5"),
        ("-0e-5", "decimal 0 -5"),
        ("00E0", "decimal 0 0"),
        ("0.0E0", "decimal 0 -1"),
        ("0.0e1", "decimal 0 0"),
        ("-0.0E0", "decimal 0 -1"),
        ("-0.00e+02", "decimal 0 0"),
    ] {
        add(v, value, &format!("1011000 0 0 0 0 0000 {reading}"));
    }
}

/// "With at most 15 mantissa digits and a power from -22 to 22": either side of
/// both.
fn exponents_and_powers(v: &mut Values) {
    for (value, reading) in [
        ("1E21", "decimal 1 21"),
        ("1E22", "decimal 1 22"),
        ("1e+022", "decimal 1 22"),
        ("-1E22", "decimal -1 22"),
        ("1E23", "long"),
        ("1E+23", "long"),
        ("1e023", "long"),
        ("-1E23", "long"),
        ("1E-21", "decimal 1 -21"),
        ("1E-22", "decimal 1 -22"),
        ("1e-022", "decimal 1 -22"),
        ("-1E-22", "decimal -1 -22"),
        ("1E-23", "long"),
        ("1e-023", "long"),
        ("-1E-23", "long"),
        ("0E22", "decimal 0 22"),
        ("0E23", "long"),
        ("0e-22", "decimal 0 -22"),
        ("-0e-22", "decimal 0 -22"),
        ("0e-23", "long"),
        ("-0E23", "long"),
        ("0.0E-21", "decimal 0 -22"),
        ("0.0E-22", "long"),
        // The exponent less the places.
        ("1.0E-21", "decimal 10 -22"),
        ("1.0E-22", "long"),
        ("1.0E22", "decimal 10 21"),
        ("1.0E23", "decimal 10 22"),
        ("1.0E24", "long"),
        ("9.99e24", "decimal 999 22"),
        ("9.99e25", "long"),
        ("9.99e-20", "decimal 999 -22"),
        ("9.99e-21", "long"),
        ("0.00000000000001E14", "decimal 1 0"),
        ("0.00000000000001E36", "decimal 1 22"),
        ("0.00000000000001E37", "long"),
        ("0.00000000000001E-8", "decimal 1 -22"),
        ("0.00000000000001E-9", "long"),
        // Mantissas of 15 digits.
        ("123456789012345E0", "decimal 123456789012345 0"),
        ("123456789012345E000", "decimal 123456789012345 0"),
        ("123456789012345e-022", "decimal 123456789012345 -22"),
        ("123456789012345E-22", "decimal 123456789012345 -22"),
        ("123456789012345E-23", "long"),
        ("123456789012345E22", "decimal 123456789012345 22"),
        ("123456789012345E23", "long"),
        ("999999999999999E22", "decimal 999999999999999 22"),
        ("-999999999999999e-22", "decimal -999999999999999 -22"),
        ("-12345678901234.5E+001", "decimal -123456789012345 0"),
        ("12345678901234.5E-21", "decimal 123456789012345 -22"),
        ("12345678901234.5E-22", "long"),
        ("12345678901234.5e23", "decimal 123456789012345 22"),
        ("12345678901234.5e24", "long"),
        ("1.23456789012345E+14", "decimal 123456789012345 0"),
        ("1.23456789012345E-8", "decimal 123456789012345 -22"),
        ("1.23456789012345E-9", "long"),
        ("000000000000001E1", "decimal 1 1"),
        ("000000000000000E1", "decimal 0 1"),
        ("-0.00000000000000e14", "decimal 0 0"),
        // Mantissas of 16 digits and more.
        ("9007199254740992E0", "long"),
        ("9007199254740993E0", "long"),
        ("1234567890123456E-1", "long"),
        ("-1234567890123456e1", "long"),
        ("123456789012345.6E1", "long"),
        ("1.234567890123456E0", "long"),
        ("1.000000000000000e15", "long"),
        ("0000000000000001E1", "long"),
        ("0000000000000000E0", "long"),
        ("-0.000000000000000E0", "long"),
        ("123456789012345678901234567890E-29", "long"),
        ("12345678901234567890.12345678901234567890e+000", "long"),
        // Powers far off.
        ("1E99", "long"),
        ("1E099", "long"),
        ("1E100", "long"),
        ("1E308", "long"),
        ("1E309", "long"),
        ("1E-324", "long"),
        ("1E999", "long"),
        ("1e+999", "long"),
        ("-1E999", "long"),
        ("1E-999", "long"),
        ("-1e-999", "long"),
        ("0E999", "long"),
        ("0.0e-999", "long"),
        ("1.7976931348623157E308", "long"),
    ] {
        add(v, value, &format!("1011000 0 0 0 0 0000 {reading}"));
    }
}

fn near_exponents(v: &mut Values) {
    // What stands before the letter is no decimal.
    plains(
        v,
        &[
            ".5E1", "5.E1", "-.5E1", "-5.E1", "5.e1", ".5e1", ".E1", "-.E1", "E5", "e5", "-E5",
            "-e5", "+E5", "E", "e", "-E", "E+", "E-", "E-5", "E+5", "E0", "+1E5", "+1.5e3",
            "--1E5", "-+1E5", "1-E5", "1+E5", "1.-5E1", "1..5E1", "1.5.2E1", "1.5.E1", "1,5E3",
            "1,000E3", "1aE5", "aE5",
        ],
    );
    // No digit after it.
    plains(
        v,
        &[
            "1E", "1e", "-1E", "1.5E", "1.5e", "1E+", "1E-", "1e+", "1e-", "-1.5E+", "-1.5e-",
        ],
    );
    // Four digits and more.
    plains(
        v,
        &[
            "1E1000", "1e1000", "1E0000", "1e0001", "1E+1000", "1E-1000", "1E+0001", "1e-0000",
            "1.5E0005", "1E00000", "0E0000",
        ],
    );
    plain(v, "1E1234567890");
    plain(v, "1E99999999999999999999");
    // Signs twice, or not in front.
    plains(
        v,
        &[
            "1E++5", "1E--5", "1E+-5", "1E-+5", "1e--5", "1E---5", "1E5+", "1E5-", "1E5-5",
            "1E5+5", "1e-5-", "1E+5+",
        ],
    );
    // A dot after it.
    plains(
        v,
        &[
            "1.2E-5.0", "1E5.0", "1E5.", "1E.5", "1E.", "1E-.5", "1E+5.", "1.5e3.0", "1e0.5",
        ],
    );
    // The letter twice.
    plains(
        v,
        &[
            "1E5E5", "1e5e5", "1E5e5", "1e5E5", "1EE5", "1ee5", "1Ee5", "1eE5", "1E5E", "1e5e",
            "1E5E-5", "1E+5E+5", "1.5E1E1", "1EE", "EE5", "1E+E5",
        ],
    );
    // "`INF` and `NaN` take none"; nor does `null`.
    plains(
        v,
        &[
            "INFE5", "INFe5", "INFE0", "INFE", "INFe", "INFE+5", "INFe-5", "INF E5", "-INFE5",
            "INF.0E5", "infe5", "InfE5", "INF5", "1INFE5", "NaNE5", "NaNe5", "NaNE0", "NaNE",
            "NaNe", "NaNE+5", "NaNe-5", "NaN E5", "-NaNE5", "nanE5", "NANE5", "NaN5", "NaNE5E5",
            "E5INF", "1EINF", "1e-INF", "1ENaN", "1E-NaN", "1EN", "nullE5", "nulle5", "nulle",
            "1Enull", "1E5null",
        ],
    );
}

fn other_bytes_in_exponents(v: &mut Values) {
    // Spaces and other bytes between.
    plains(
        v,
        &[
            "1 E5", "1E 5", "1E5 ", " 1E5", "1E+ 5", "1E- 5", "1E -5", "1.5 e3", "- 1E5", "1E1 0",
            "1E ", "1\tE5", "1E\t5", "1E5\t", "1E5\r", "1E\r5", "1E\r", "1E1,0", "1E_5", "1E1_0",
            "1E5x", "1E5a", "1Ex5", "1xE5", "x1E5", "1E0x5", "0x1E5", "0xE5", "1E5f", "1E5F",
            "1E5d", "1E5L", "1E'5", "1E(5)", "1E5%", "(1E5)", "\"1E5\"",
        ],
    );
    // Bytes beside the digits and the signs.
    plains(
        v,
        &[
            "1E/", "1E:", "1E5/", "1E5:", "1/E5", "1:E5", "1E*5", "1E,5", "1E/5",
        ],
    );
    // Other letters, and other ways of writing a power.
    plains(
        v,
        &[
            "1D5", "1d5", "1F5", "1f5", "1C5", "1c5", "1G5", "1g5", "1B5", "1A5", "1a5", "1P5",
            "1p5", "1U5", "1u5", "1X5", "1x5", "1D-5", "1d+05", "1F-5", "1f+05", "1.5D3", "1.5d3",
            "1.5F3", "1.5f-3", "1DE5", "1ED5", "1eF5", "1^5", "1E^5", "10^5", "10**5", "1*10^5",
            "1.2*10-5",
        ],
    );
    // Letters, minus signs and digits of other scripts.
    plains(
        v,
        &[
            "1.2×10-5",
            "1.2\u{415}-5",
            "1\u{435}5",
            "1\u{ff25}5",
            "1E\u{2212}5",
            "\u{2212}1E5",
            "1E\u{2013}5",
            "1E\u{ff15}",
        ],
    );
    plain(v, b"1E\xb2");
    plain(v, b"1E\xd9\xa1");
    // The letters with other highest bits.
    plain(v, b"1\x055");
    plain(v, b"1\x255");
    plain(v, b"1\xc55");
    plain(v, b"1\xe55");
    plain(v, b"1E5\xff");
    plain(v, b"1E\x005");
    plain(v, b"1E5\x00");
}

fn lists_of_decimals(v: &mut Values) {
    for value in [
        "1123.2|1145.3",
        "1|2",
        "0|0",
        "-1.5|-2",
        "INF|NaN",
        "NaN|1",
        "1234567890123456|0.00000000000000000001",
        "00|-00.00",
    ] {
        add(v, value, "1001100 0 0 0 0 0000 text");
    }
    for value in ["1|2|3", "10.2|11.5|12|13", "INF|INF|INF", "1|1|1|1|1|1|1|1"] {
        add(v, value, "1001000 0 0 0 0 0000 text");
    }
    for value in [
        "|",
        "||",
        "1|",
        "|1",
        "1||2",
        "1|2|",
        "|1|2",
        "1| 2",
        "1 |2",
        "1|2 ",
        "1|x",
        "null|1",
        "1|null",
        "null|null",
        "1|.5",
        "1|-INF",
        "1;2",
        "1-2",
        "1:2",
        "1\\|2",
        "1\"|\"2",
    ] {
        plain(v, value);
    }
}

/// "Rules 7 and 20, lists and windows follow."
fn lists_with_exponents(v: &mut Values) {
    for value in [
        "1E5|2E5",
        "1e-5|1",
        "1|1E+005",
        "1.2E-5|3.4e-05",
        "-1E5|-2.5e03",
        "1123.2e0|1145.3E0",
        "INF|1E5",
        "1e5|NaN",
        "1E999|1E-999",
        "1234567890123456E1|-0E0",
    ] {
        add(v, value, "1001100 0 0 0 0 0000 text");
    }
    for value in [
        "1E5|2E5|3E5",
        "1|1e1|1.0E+1",
        "1E5|INF|NaN|-2.5e-03",
        "1E1|1E1|1E1|1E1|1E1|1E1|1E1|1E1",
    ] {
        add(v, value, "1001000 0 0 0 0 0000 text");
    }
    for value in [
        "1E|2",
        "1|2E",
        "E1|2",
        "1|E2",
        "1E|5",
        "1E-|5",
        "1E+|5",
        "1E5|",
        "|1E5",
        "1E5||2E5",
        "1E5|2E5|",
        "1E5|2E5|3E",
        "1E5|2E+",
        "1E5|2E5E5",
        "1E5|2E5.0",
        "1E5|2E1000",
        "1E0000|2E5",
        "1E5|+2E5",
        "1E5|2.E5",
        "1E5|.2E5",
        "1E5|2D5",
        "1d5|2e5",
        "1E5 |2E5",
        "1E5| 2E5",
        "1E 5|2E5",
        "INFE1|1",
        "1|NaNE1",
        "1E5|null",
        "null|1E5",
        "1E5;2E5",
        "1E5,2E5",
        "1E5-2E5",
    ] {
        plain(v, value);
    }
}

fn parameters(v: &mut Values) {
    // A parameter, and so a list of one.
    for value in [
        "[MOD, MOD:00648, \"N,O-diacetylated L-serine\",]",
        "[,,A user parameter, The value]",
        "[MS, MS:1001207, Mascot,]",
        "[MS,MS:1001207,Mascot,]",
        "[NEWT, 9606, Homo sapiens (Human), ]",
        "[MS,MS:1002038,unlabeled sample, ]",
        "[,,MS operator, Florian]",
        "[,,a,]",
        "[,, a,]",
        "[,,a ,]",
        "[,,]],]",
        "[,,],]",
        "[,,[,]",
        "[[,,a,]]",
        "[[[,]],[a],]",
        "[,,a,]]",
        "[a,b,c,d]",
        "[ , , c , ]",
        "[,,\"a\",]",
        "[,,\"a,b,c\",]",
        "[,,\"\",]",
        "[,,\"\"\"\",]",
        "[,,\" \",]",
        "[,,\",\",]",
        "[,,a\",\"b,]",
        "[\"\",\"\",c,\"\"]",
        "[\"a,b\",\"c,d\",\"e,f\",\"g,h\"]",
        "[\",\",,c,]",
        "[,,c,\",\"]",
        "[\"\",,c,]",
        "[,,c,\"\"]",
        "[,,c,\"]\"]",
        "[\"[\",,c,]",
        "[,,\"]\",]",
        "[,,\"a|b\",]",
        "[\"|\",,c,]",
        "[,,c,\"||\"]",
        "[,,a'b,]",
        "[,,-,]",
        "[,,null,]",
        "[,,\t,]",
        "[,,\r,]",
        "[\"x\"y\"z\",,c,]",
        "[a,b,c\",d]|[e,f,g\",h]",
    ] {
        add(v, value, "1000011 0 0 0 0 0000 text");
    }
    add(v, b"[,,\xff,]", "1000011 0 0 0 0 0000 text");
    add(v, b"[\xe9,\x80,\xc3\xa9,\xff]", "1000011 0 0 0 0 0000 text");
    add(
        v,
        b"[,,\xe2\x80\x9ca\xe2\x80\x9d,]",
        "1000011 0 0 0 0 0000 text",
    );
    // A parameter that has a bar outside marks, and so is no list.
    for value in [
        "[,,a|b,]",
        "[|,,a,]",
        "[,,|,]",
        "[,,a,|]",
        "[,,\"a\"|\"b\",]",
        "[,,\"a|b\"|,]",
        "[,,a]|[,]",
        "[a,b]|[c,d,e]",
    ] {
        add(v, value, "1000010 0 0 0 0 0000 text");
    }
    // Not a parameter.
    for value in [
        "[,,,]",
        "[,, ,]",
        "[,,   ,]",
        "[MS,MS:1,,]",
        "[a,b, ,d]",
        "[MOD, MOD:00648, N,O-diacetylated L-serine,]",
        "[a,b,c]",
        "[a,b]",
        "[a]",
        "[]",
        "[",
        "]",
        "][",
        "[,,]",
        "[,]",
        "[a,b,c,d,e]",
        "[,,a,,]",
        "a,b,c,d",
        "[a,b,c,d",
        "a,b,c,d]",
        " [a,b,c,d]",
        "[a,b,c,d] ",
        "[a,b,c,d]x",
        "x[a,b,c,d]",
        "(a,b,c,d)",
        "{a,b,c,d}",
        "[PRIDE, PRIDE:0000326, SILAC light]",
        "[,MS operator, Florian]",
        "[a,b]|[c,d]",
        "[,]|[a,,]",
        // A mark opened and not closed.
        "[,,\"a,]",
        "[,,a\",]",
        "[,,a,\"]",
        "[\",,a,]",
        "[\"a\",\"b\",\"c\",\"d]",
        "[,,\"a\"\",]",
        "[,,\"\"\",]",
        "[,,a,]\"",
        "\"[,,a,]",
        "\"[,,a,]\"",
        "\"[\",,a,]",
        "[,,a,\"]\"",
        // Commas that marks hide.
        "[\",,a,\"]",
        "[\",\",a,]",
        "[\",,\",a,]",
        "[,\",\"a,]",
        "[,\",\",\" \"]",
        "[,,\",\"]",
        "[,,a\",\"]",
        "[,,a;]",
        "[;;a;]",
        "[\t\ta\t]",
        "\"",
        "\"\"",
        "[\"]",
        "[\"\"]",
        "[\"]\"",
    ] {
        plain(v, value);
    }
}

fn parameter_lists(v: &mut Values) {
    for value in [
        "[,,a,]|[,,b,]",
        "[,,a,]|[,,a,]",
        "[MS,MS:1001207,Mascot,]|[MS,MS:1001208,Sequest,]",
        "[SEP, SEP:00173, SDS PAGE,]|[SEP, SEP:00142, enzyme digestion,]",
        "[,,\"a|b\",]|[,,c,]",
        "[,,\"a,b\",]|[,,\"c|d\",]|[,,e,\"f\"]",
        "[,,a,]|[,,b,]|[,,c,]|[,,d,]",
        "[,,\"],]|[,\",]|[,,b,]",
    ] {
        add(v, value, "1000001 0 0 0 0 0000 text");
    }
    for value in [
        "[,,a,]|",
        "|[,,a,]",
        "[,,a,]||[,,b,]",
        "[,,a,]| [,,b,]",
        "[,,a,] |[,,b,]",
        "[,,a,] | [,,b,]",
        "[,,a,],[,,b,]",
        "[,,a,];[,,b,]",
        "[,,a,][,,b,]",
        "[,,a,]|[,,,]",
        "[,,a,]|[,,b]",
        "[,,a,]|b",
        "null|[,,a,]",
        "[,,a,]|null",
        "[,,a,]|[,,\"b,]",
        "[,,\"a,]|[,,b,]",
        "[,,a,]\"|\"[,,b,]",
    ] {
        plain(v, value);
    }
    // Marks that open in one part and close in the next: the bar between them
    // is inside, so it is one part, with three commas outside in all.
    add(v, "[x,y,\"a,]|[,,b\",]", "1000011 0 0 0 0 0000 text");
    // The same with more commas outside.
    plain(v, "[x,y,\"a,]|[,,b\",,]");
}

fn references(v: &mut Values) {
    for (word, before, after) in [
        ("sample", "", " 0 0 0"),
        ("assay", "0 ", " 0 0"),
        ("study_variable", "0 0 ", " 0"),
        ("ms_run", "0 0 0 ", ""),
    ] {
        let lists = match word {
            "sample" => "1000",
            "assay" => "0100",
            "study_variable" => "0010",
            _ => "0001",
        };
        for index in [1, 2, 9, 10, 11, 19, 59, 60, 63, 64] {
            let line = format!("1000000 {before}{index}{after} {lists} text");
            add(v, format!("{word}[{index}]"), &line);
        }
        for index in [
            "0",
            "00",
            "01",
            "064",
            "65",
            "66",
            "70",
            "99",
            "100",
            "640",
            "",
            " ",
            " 1",
            "1 ",
            "-1",
            "+1",
            "a",
            "1a",
            "1.0",
            "1E0",
            "1e1",
            "1,2",
            "4294967297",
            "18446744073709551617",
        ] {
            plain(v, format!("{word}[{index}]"));
        }
        for text in [
            "[1", "1]", "1", "", "[1]]", "[[1]", "[1] ", "[1]x", "[1][1]", "(1)", " [1]",
        ] {
            plain(v, format!("{word}{text}"));
        }
        plain(v, format!(" {word}[1]"));
        plain(v, format!("{}[1]", word.to_uppercase()));
    }
    for value in [
        "samples[1]",
        "Sample[1]",
        "sampl[1]",
        "assays[1]",
        "studyvariable[1]",
        "study-variable[1]",
        "ms-run[1]",
        "msrun[1]",
        "ms_run[1]-location",
        "ms_run[1]:index=5",
        "[1]",
        "run[1]",
    ] {
        plain(v, value);
    }
    plain(v, b"sample[\xd9\xa1]");
    plain(v, b"sample[1\xff]");
}

fn reference_lists(v: &mut Values) {
    for value in [
        "sample[1],sample[2]",
        "sample[1], sample[2]",
        "sample[1],     sample[2]",
        "sample[1],sample[1]",
        "sample[64], sample[64],sample[1]",
    ] {
        add(v, value, "1000000 0 0 0 0 1000 text");
    }
    for value in [
        "assay[1], assay[2], assay[3]",
        "assay[1],assay[2],assay[3],assay[3],assay[3]",
        "assay[64],  assay[1]",
    ] {
        add(v, value, "1000000 0 0 0 0 0100 text");
    }
    add(
        v,
        "study_variable[1],study_variable[2]",
        "1000000 0 0 0 0 0010 text",
    );
    add(v, "ms_run[1], ms_run[2]", "1000000 0 0 0 0 0001 text");
    for value in [
        "assay[1] ,assay[2]",
        "assay[1] , assay[2]",
        " assay[1],assay[2]",
        "assay[1],assay[2] ",
        "assay[1],",
        "assay[1], ",
        ",assay[1]",
        ", assay[1]",
        "assay[1],,assay[2]",
        "assay[1], ,assay[2]",
        ",",
        "assay[1];assay[2]",
        "assay[1]|assay[2]",
        "assay[1] assay[2]",
        "assay[1],\tassay[2]",
        "assay[1],sample[1]",
        "sample[1],assay[1]",
        "assay[1],assay[65]",
        "assay[0],assay[1]",
        "assay[1],assay[01]",
        "assay[1],[2]",
        "assay[1,2]",
        "assay[1],null",
        "assay[1],assay",
        "assay[ 1],assay[2]",
    ] {
        plain(v, value);
    }
}

fn other_text(v: &mut Values) {
    for value in [
        " ",
        "  ",
        "a",
        "Yeast check",
        "file:///a.mzML",
        "retention_time=[UO,UO:0000031, minute,]",
        "Summary",
        "Complete",
        "1.0.0",
        "2.0.1",
        "\t",
        "\u{1}",
        "~",
        ".",
        ";",
        "<>",
        "é",
    ] {
        plain(v, value);
    }
    plain(v, b"\x80");
    plain(v, b"\xff\xfe");
    plain(v, b"\x00");
    plain(v, b"\x7f");
    // Another empty value, between others.
    add(v, "", "0000000 0 0 0 0 0000 text");
    plain(v, "x");
}
