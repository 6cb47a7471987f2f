//! Changes of a draft, one thing at a time: an OEM field, Control's flags, a byte of a field, a string, a structure
//! more or less, another Index. What comes of them the check lets pass.

use crate::make::drafts::*;
use crate::make::good_tables::{any_extra_index, any_text, oem_text};
use crate::make::seeded::Seeded;
use crate::model::compare::fields_in;
use crate::model::host_name::is_host_name;
use crate::model::layout::*;

/// A string of a draft: its structure, and which of its strings it is.
pub type TextName = (Name, usize);

// ---- What there is to change ----

/// Every byte of every flag and field, by structure and offset in it.
pub fn field_bytes(draft: &Draft) -> Vec<(Name, u64)> {
    let mut all = Vec::new();
    for name in draft.names() {
        for (at, size) in fields_in(&kind_of(&name)) {
            all.extend((*at..at + size).map(|byte| (name, byte)));
        }
    }
    all
}

/// Every string of the structures that there are, present or missing.
pub fn text_names(draft: &Draft) -> Vec<TextName> {
    let mut all = Vec::new();
    for name in draft.names() {
        all.extend((0..kind_of(&name).texts.len()).map(|i| (name, i)));
    }
    all
}

pub fn text_of(draft: &Draft, text: &TextName) -> Option<Vec<u8>> {
    draft.structures[&text.0].texts[text.1].clone()
}

pub fn set_text(draft: &mut Draft, text: &TextName, to: Option<Vec<u8>>) {
    draft.body(&text.0).texts[text.1] = to;
}

fn field_of(text: &TextName) -> StringField {
    kind_of(&text.0).texts[text.1]
}

/// May the string be these bytes?
pub fn may_be(text: &TextName, bytes: &[u8]) -> bool {
    let field = field_of(text);
    bytes.len() <= field.longest as usize && (!field.is_host_name || is_host_name(bytes))
}

// ---- Fields ----

/// Another byte there that the check lets pass.
pub fn change_byte(seeded: &mut Seeded, draft: &mut Draft, name: &Name, at: u64) {
    let kind = kind_of(name);
    let byte = &mut draft.body(name).fields[(at - FLAGS_AT) as usize];
    if at == FLAGS_AT {
        let mut bits = 0;
        while bits == 0 {
            bits = seeded.byte() & kind.named_flags as u8;
        }
        *byte ^= bits;
    } else if kind == TARGET && at == CHAP_TYPE_AT {
        *byte = (*byte + seeded.between(1, 2) as u8) % 3;
    } else {
        *byte ^= seeded.between(1, 255) as u8;
    }
}

fn change_any_byte(seeded: &mut Seeded, draft: &mut Draft) -> bool {
    let all = field_bytes(draft);
    if all.is_empty() {
        return false;
    }
    let (name, at) = seeded.one_of(&all);
    change_byte(seeded, draft, &name, at);
    true
}

pub fn change_oem_id(seeded: &mut Seeded, draft: &mut Draft) -> bool {
    draft.oem_id = other_oem(seeded, &draft.oem_id);
    true
}

pub fn change_oem_table_id(seeded: &mut Seeded, draft: &mut Draft) -> bool {
    draft.oem_table_id = other_oem(seeded, &draft.oem_table_id);
    true
}

/// Another one, often only in its last byte that is not zero or by one byte more.
fn other_oem(seeded: &mut Seeded, before: &[u8]) -> Vec<u8> {
    loop {
        let mut after = oem_text(seeded, before.len());
        if seeded.once_in(2) {
            let kept = before.iter().take_while(|byte| **byte != 0).count();
            let at = seeded.one_of(&[kept.saturating_sub(1), kept.min(before.len() - 1)]);
            after = before.to_vec();
            after[at] = seeded.between(0, 255) as u8;
        }
        if after != before {
            return after;
        }
    }
}

pub fn change_control(_: &mut Seeded, draft: &mut Draft) -> bool {
    draft.control_flags ^= 1;
    true
}

// ---- Strings ----

/// Another byte at a place of the string; false where no other is let pass.
pub fn change_text_at(seeded: &mut Seeded, draft: &mut Draft, text: &TextName, at: usize) -> bool {
    let before = text_of(draft, text).unwrap();
    let any = seeded.byte();
    for byte in [any, b'x', b'y', b'7'] {
        let mut after = before.clone();
        after[at] = byte;
        if after != before && may_be(text, &after) {
            set_text(draft, text, Some(after));
            return true;
        }
    }
    false
}

/// Bytes more behind the string.
pub fn lengthen(seeded: &mut Seeded, draft: &mut Draft, text: &TextName) -> bool {
    let Some(mut after) = text_of(draft, text) else {
        return false;
    };
    let more = seeded.one_of(&[1, 1, 2, 9]);
    after.extend((0..more).map(|_| seeded.one_of(b"ab7x")));
    set_where_it_may(draft, text, after)
}

/// The string cut at its end, down to no byte.
pub fn shorten(seeded: &mut Seeded, draft: &mut Draft, text: &TextName) -> bool {
    let Some(mut after) = text_of(draft, text) else {
        return false;
    };
    if after.is_empty() {
        return false;
    }
    let any = seeded.between(0, after.len() - 1);
    after.truncate(seeded.one_of(&[after.len() - 1, any]));
    set_where_it_may(draft, text, after)
}

fn set_where_it_may(draft: &mut Draft, text: &TextName, after: Vec<u8>) -> bool {
    let may = may_be(text, &after);
    if may {
        set_text(draft, text, Some(after));
    }
    may
}

/// Missing, empty, or any string; not what it was.
pub fn replace(seeded: &mut Seeded, draft: &mut Draft, text: &TextName) -> bool {
    let before = text_of(draft, text);
    let entry = entries_of(&[kind_of(&text.0)])[text.1];
    let any = any_text(seeded, &entry, 30);
    let after = match seeded.between(0, 3) {
        0 => None,
        1 if !entry.is_host_name => Some(Vec::new()),
        _ => Some(any),
    };
    let changes = after != before;
    set_text(draft, text, after);
    changes
}

/// One string changed in any way.
pub fn change_any_text(seeded: &mut Seeded, draft: &mut Draft) -> bool {
    let all = text_names(draft);
    if all.is_empty() {
        return false;
    }
    let text = seeded.one_of(&all);
    let size = text_of(draft, &text).map_or(0, |bytes| bytes.len());
    match seeded.between(0, 4) {
        0 | 1 if size > 0 => {
            let any = seeded.between(0, size - 1);
            let at = seeded.one_of(&[0, size - 1, any]);
            change_text_at(seeded, draft, &text, at)
        }
        2 => lengthen(seeded, draft, &text),
        3 => shorten(seeded, draft, &text),
        _ => replace(seeded, draft, &text),
    }
}

// ---- Structures ----

fn remove_any(seeded: &mut Seeded, draft: &mut Draft) -> bool {
    let names = draft.names();
    if names.is_empty() {
        return false;
    }
    draft.structures.remove(&seeded.one_of(&names));
    true
}

/// One more: of the named ones that are absent, or an extra.
fn add_any(seeded: &mut Seeded, draft: &mut Draft) -> bool {
    let kind = seeded.one_of(&[NIC, TARGET]);
    let extra = (kind.id, u64::from(any_extra_index(seeded)));
    let mut choices: Vec<Name> = named().collect();
    if draft.extras(kind.id).len() < EXTRAS_OF_A_KIND {
        choices.extend([extra; 5]);
    }
    let name = seeded.one_of(&choices);
    if draft.structures.contains_key(&name) {
        return false;
    }
    let body = any_body(seeded, &kind_of(&name), 20);
    draft.structures.insert(name, body);
    true
}

/// An extra gets an Index that no other of its kind has, near its own or anywhere.
pub fn move_index(seeded: &mut Seeded, draft: &mut Draft) -> bool {
    let extras: Vec<Name> = draft.names().into_iter().filter(is_extra).collect();
    if extras.is_empty() {
        return false;
    }
    let name = seeded.one_of(&extras);
    let near = [name.1.saturating_sub(1).max(2), (name.1 + 1).min(255)];
    let any = u64::from(any_extra_index(seeded));
    let moved = (name.0, seeded.one_of(&[near[0], near[1], any, any]));
    if draft.structures.contains_key(&moved) {
        return false;
    }
    let body = draft.structures.remove(&name).unwrap();
    draft.structures.insert(moved, body);
    true
}

// ---- Any of them ----

type Edit = fn(&mut Seeded, &mut Draft) -> bool;

const EDITS: &[Edit] = &[
    change_oem_id,
    change_oem_table_id,
    change_control,
    change_any_byte,
    change_any_byte,
    change_any_byte,
    change_any_text,
    change_any_text,
    change_any_text,
    change_any_text,
    remove_any,
    add_any,
    move_index,
];

/// So many changes, of any kinds.
pub fn edited(seeded: &mut Seeded, draft: &Draft, edits: usize) -> Draft {
    let mut after = draft.clone();
    let mut done = 0;
    while done < edits {
        let edit = seeded.one_of(EDITS);
        done += usize::from(edit(seeded, &mut after));
    }
    after
}
