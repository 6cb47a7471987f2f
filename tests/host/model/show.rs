//! RULES.md, Show, read a second time: what `show` prints for its input.

use crate::model::check::Refusal;
use crate::model::enter_tell::INPUT_LIMIT;
use crate::model::layout::*;
use crate::model::login::login_order;
use crate::model::readings::accepted;
use std::fmt::Write;

/// All that is printed, each line closed.
pub fn show(input: &[u8]) -> String {
    let table = &input[..input.len().min(INPUT_LIMIT)];
    match lines(table) {
        Ok(text) => text,
        Err(refusal) => format!("{}\n", refusal.line()),
    }
}

fn lines(table: &[u8]) -> Result<String, Refusal> {
    let accepted = accepted(table)?;
    let mode = match accepted.header()?.control_flags & SINGLE_LOGIN {
        0 => "multi",
        _ => "single",
    };
    let mut text = format!("table {}\ncontrol {}\n", length(table), mode);
    for (i, found) in accepted.slots.iter().enumerate() {
        if let Ok(read) = accepted.structure(i as u64) {
            writeln!(text, "{} {} {}", name(found), read.start, read.flags).unwrap();
        }
    }
    for i in 0..accepted.entries.len() {
        if let Ok(words) = accepted.entry(i as u64) {
            writeln!(text, "entry {} {} {}", i, words.offset, words.length).unwrap();
        }
    }
    text += &order_line(&login_order(table)?);
    Ok(text)
}

/// A NIC and a target have the number of their Index, a named one and an extra alike.
fn name(found: &Found) -> String {
    if found.kind == INITIATOR {
        "initiator".to_string()
    } else if found.kind == NIC {
        format!("nic{}", found.index)
    } else {
        format!("target{}", found.index)
    }
}

fn order_line(order: &[u64]) -> String {
    let mut line = "order".to_string();
    for index in order {
        write!(line, " {}", index).unwrap();
    }
    if order.is_empty() {
        line += " none";
    }
    line + "\n"
}
