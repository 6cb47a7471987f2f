//! What the program `compare` prints, in the words of docs/RECORD-FORMAT.md: a line for each difference, the left
//! value before the right one, then how many there are. Both values are written, zeros too.

use crate::model::compare::{compared, first_unequal, Difference, RefusedSide, What};
use crate::model::layout::FLAGS_AT;
use crate::model::text::{field_named, Field, Group, Place};

/// The lines of two tables; with secrets hidden or not.
pub fn compare_text(left: &[u8], right: &[u8], hides_secrets: bool) -> String {
    let list = match compared(left, right) {
        Ok(list) => list,
        Err(RefusedSide { refusal, side }) => return format!("{} {}\n", refusal.line(), side),
    };
    let tables = (left, right);
    let lines = list
        .iter()
        .map(|difference| line(difference, tables, hides_secrets));
    let mut text: String = lines.map(|line| line + "\n").collect();
    text += &match list.len() {
        0 => "no difference\n".to_string(),
        1 => "1 difference\n".to_string(),
        count => format!("{} differences\n", count),
    };
    text
}

fn line(difference: &Difference, (left, right): (&[u8], &[u8]), hides_secrets: bool) -> String {
    if let What::Presence(group) = difference.what {
        return format!("{}\t{}", group.name(), only_in(difference.right.start == 0));
    }
    let field = field_of(&difference.what);
    let hides = hides_secrets && field.is_secret();
    let (has_left, has_right) = (difference.left.start != 0, difference.right.start != 0);
    let (left, right) = (difference.left.bytes(left), difference.right.bytes(right));
    let written = |value: &[u8]| field.notation.written(value);
    let name = &field.name;
    match (has_left, has_right) {
        (true, true) if hides => format!("# {}\tdiffers, hidden", name),
        (true, true) => {
            let values = format!("{} {}\t| {}", name, written(left), written(right));
            match difference.what {
                What::Text(..) => values + &from_byte(&field, left, right),
                _ => values,
            }
        }
        (has_left, _) if hides => format!("# {}\t{}", name, only_in(has_left)),
        (has_left, _) => {
            let value = if has_left { left } else { right };
            format!("{} {}\t{}", name, written(value), only_in(has_left))
        }
    }
}

/// Behind the two values of a string: the rest of the left one, from the first unequal byte on.
fn from_byte(field: &Field, left: &[u8], right: &[u8]) -> String {
    let from = first_unequal(left, right) as usize;
    format!("\tfrom byte {}: {}", from, field.notation.written(&left[from..]))
}

fn only_in(is_left: bool) -> &'static str {
    match is_left {
        true => "only in LEFT",
        false => "only in RIGHT",
    }
}

/// The field that a text of a record has for this.
fn field_of(what: &What) -> Field {
    let named = |name| field_named(name).unwrap();
    match what {
        What::OemId => named("oem.id"),
        What::OemTableId => named("oem.table"),
        What::ControlFlags => named("control"),
        What::Presence(group) => panic!("{} is no field", group.name()),
        What::Field(group, at) => field_at(group, |place| match place {
            Place::Byte { at: byte, .. } => byte as u64 + FLAGS_AT == *at,
            _ => false,
        }),
        What::Text(group, wanted) => field_at(group, |place| match place {
            Place::Entry { text, .. } => text == *wanted,
            _ => false,
        }),
    }
}

fn field_at(group: &Group, is_it: impl Fn(Place) -> bool) -> Field {
    let mut fields = group.fields().into_iter();
    fields.find(|field| is_it(field.place)).unwrap()
}
