//! Damages a file: bytes, cells and lines are lost, doubled, moved or changed.

use samples::Draws;

/// The bytes that matter to the format, and some that do not.
const BYTES: &[u8] = b"\t\t\n\n\r\x00\x01\x0b\x1f \x7f\x80\xff\"\"[],|.-+0123456789EenNMPSHTR_";

pub fn damage(file: &mut Vec<u8>, draws: &mut Draws) {
    for _ in 0..draws.below(3) + 1 {
        match draws.below(10) {
            0 => change_byte(file, draws),
            1 => insert_byte(file, draws),
            2 => remove_byte(file, draws),
            3 => file.truncate(draws.below(file.len() + 1)),
            4 | 5 => move_piece(file, b'\n', draws),
            6 => copy_piece(file, b'\n', draws),
            7 => copy_piece(file, b'\t', draws),
            8 => move_piece(file, b'\t', draws),
            _ => remove_piece(file, draws),
        }
    }
}

fn change_byte(file: &mut [u8], draws: &mut Draws) {
    if !file.is_empty() {
        let at = draws.below(file.len());
        file[at] = BYTES[draws.below(BYTES.len())];
    }
}

fn insert_byte(file: &mut Vec<u8>, draws: &mut Draws) {
    let at = draws.below(file.len() + 1);
    file.insert(at, BYTES[draws.below(BYTES.len())]);
}

fn remove_byte(file: &mut Vec<u8>, draws: &mut Draws) {
    if !file.is_empty() {
        file.remove(draws.below(file.len()));
    }
}

/// Cuts the file at a byte, changes the pieces, and joins them again.
fn with_pieces(file: &mut Vec<u8>, cut: u8, change: impl FnOnce(&mut Vec<Vec<u8>>)) {
    let mut pieces: Vec<Vec<u8>> = file
        .split(|byte| *byte == cut)
        .map(<[u8]>::to_vec)
        .collect();
    change(&mut pieces);
    *file = pieces.join(&cut);
}

/// A line, or a cell, stands elsewhere.
fn move_piece(file: &mut Vec<u8>, cut: u8, draws: &mut Draws) {
    with_pieces(file, cut, |pieces| {
        let piece = pieces.remove(draws.below(pieces.len()));
        pieces.insert(draws.below(pieces.len() + 1), piece);
    });
}

/// A line, or a cell, stands in place of another.
fn copy_piece(file: &mut Vec<u8>, cut: u8, draws: &mut Draws) {
    with_pieces(file, cut, |pieces| {
        let piece = pieces[draws.below(pieces.len())].clone();
        let at = draws.below(pieces.len());
        pieces[at] = piece;
    });
}

/// A line is lost.
fn remove_piece(file: &mut Vec<u8>, draws: &mut Draws) {
    with_pieces(file, b'\n', |pieces| {
        pieces.remove(draws.below(pieces.len()));
    });
}
