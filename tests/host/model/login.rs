//! RULES.md, Login order, read a second time: list the valid targets by Index, then move the
//! selected one to the front.

use crate::model::check::Refusal;
use crate::model::layout::*;
use crate::model::readings::accepted;

/// The answer's places. An unused one holds 255, which is an Index too: how many are used tells.
pub const PLACES: usize = 8;
const UNUSED: u64 = 255;

/// The Index of each target to log in to, in order.
pub fn login_order(table: &[u8]) -> Result<Vec<u64>, Refusal> {
    let accepted = accepted(table)?;
    let targets = accepted.slots.iter().filter(|found| found.kind == TARGET);
    let mut order: Vec<&Found> = targets.filter(|t| has_flag(table, t, VALID)).collect();
    order.sort_by_key(|target| target.index);
    if byte(table, CONTROL_START + FLAGS_AT) & SINGLE_LOGIN != 0 {
        if let Some(at) = order.iter().position(|t| has_flag(table, t, SELECTED)) {
            let selected = order.remove(at);
            order.insert(0, selected);
        }
    }
    Ok(order.iter().map(|target| target.index).collect())
}

/// Is the structure present, with the flag set?
fn has_flag(table: &[u8], found: &Found, flag: u64) -> bool {
    match found.start {
        Some(start) => byte(table, start + FLAGS_AT) & flag != 0,
        None => false,
    }
}

/// The answer's eight places: an unused one, and every one of a refused call, holds 255.
pub fn places(order: &[u64]) -> [u64; PLACES] {
    let mut places = [UNUSED; PLACES];
    places[..order.len()].copy_from_slice(order);
    places
}
