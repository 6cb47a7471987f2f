//! RULES.md, Host names: cut the bytes at every dot, then judge the pieces.

const LONGEST_LABEL: usize = 63;

/// 1 to 63 letters, digits or hyphens, no hyphen first or last.
fn is_label(piece: &[u8]) -> bool {
    !piece.is_empty()
        && piece.len() <= LONGEST_LABEL
        && piece
            .iter()
            .all(|b| b.is_ascii_alphanumeric() || *b == b'-')
        && !piece.starts_with(b"-")
        && !piece.ends_with(b"-")
}

/// Labels with single dots between, or one label and a dot. A dot with nothing before or after it
/// leaves an empty piece, which is no label.
pub fn is_host_name(name: &[u8]) -> bool {
    let pieces: Vec<&[u8]> = name.split(|b| *b == b'.').collect();
    let one_label_and_a_dot = pieces.len() == 2 && is_label(pieces[0]) && pieces[1].is_empty();
    one_label_and_a_dot || pieces.iter().all(|piece| is_label(piece))
}
