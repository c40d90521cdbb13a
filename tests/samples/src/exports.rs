//! Files in the style of the exports that laboratories send, of tests/exports: hundreds of lines of metadata, many runs, columns of their
//! own. All they say is invented.

/// A file, and its judgement as the program `judge` prints it: the independent reading wrote it.
pub struct Export {
    pub name: &'static str,
    pub file: &'static [u8],
    pub judged: &'static str,
}

macro_rules! export {
    ($name:literal) => {
        Export {
            name: $name,
            file: include_bytes!(concat!("../../exports/", $name, ".mztab")),
            judged: include_str!(concat!("../../exports/", $name, ".judged")),
        }
    };
}

/// Two are accepted, one of them with weights in a table of many columns. `identified` has the slips of programs that write such files,
/// `small_molecules` those of a table program that saved one.
pub const EXPORTS: [Export; 4] = [
    export!("identified"),
    export!("isobaric"),
    export!("label_free"),
    export!("small_molecules"),
];
