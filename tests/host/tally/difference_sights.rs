//! What the pairs that were compared were like: which differences, on which side, of which structures, and which
//! refusals; so that a comparison that never met something is not taken for one that did.

use crate::model::compare::*;
use crate::model::layout::*;
use crate::model::text::Group;
use crate::shapes::pair::MOST;
use std::collections::BTreeMap;

/// Things that pairs have to have shown beside what follows from the layout.
const SIGHTS: &[&str] = &[
    "no difference, other bytes",
    "no difference, the same bytes",
    "no difference, extra words in another order",
    "no difference, unused extra words",
    "one difference",
    "more than twenty differences",
    "the most differences",
    "OEM ID",
    "OEM Table ID",
    "Control's flags",
    "presence of a later structure before a field",
    "a field of a structure that has another slot on the right",
    "a string of a structure that has another slot on the right",
    "a NIC and a target of one Index, each in one table alone",
    "Index 2 only in the left table",
    "Index 2 only in the right table",
    "Index 255 only in the left table",
    "Index 255 only in the right table",
    "Index 255 in both, a difference",
    "an extra's Index that is a slot's number",
    "shown where other strings share its bytes",
    "shown past 64 KiB",
    "a string that ends past 64 KiB",
    "bytes lent behind the left table",
    "bytes lent behind the right table",
    "the left one refused",
    "the right one refused",
    "both refused, by different numbers",
    "6 of the left one, with its byte",
    "6 of the right one, with its byte",
];

/// How two strings that differ stand to each other.
const RELATIONS: &[&str] = &[
    "first byte unequal",
    "a byte between unequal",
    "last byte unequal",
    "the left one begins the right one",
    "the right one begins the left one",
    "only the left one there",
    "only the right one there",
];

/// The same with one of them empty, which a host name cannot be.
const EMPTY_RELATIONS: &[&str] = &[
    "empty against missing",
    "missing against empty",
    "empty against a string",
    "a string against empty",
];

/// Refusals that the check has.
fn numbers() -> impl Iterator<Item = u64> {
    (3..=19).chain([33, 34])
}

/// A named structure by its name, an extra by its kind.
fn class(name: &Group) -> String {
    match name.is_extra() {
        true => format!(
            "extra {}",
            name.name().trim_end_matches(|c: char| c.is_ascii_digit())
        ),
        false => name.name(),
    }
}

fn classes() -> Vec<(String, Kind)> {
    let named = SLOTS.iter().map(|slot| (slot.kind, slot.index));
    let all = named.chain([(NIC, 2), (TARGET, 2)]);
    all.map(|(kind, index)| (class(&Group { kind, index }), kind))
        .collect()
}

/// Everything that has to be met.
fn wanted() -> Vec<String> {
    let mut all: Vec<String> = SIGHTS.iter().map(|sight| sight.to_string()).collect();
    for (class, kind) in classes() {
        all.extend(["left", "right"].map(|side| format!("{} only in the {} table", class, side)));
        let fields = fields_in(&kind).iter();
        all.extend(fields.map(|(at, _)| format!("{}, field at {}", class, at)));
        for text in kind.texts {
            let empty = if text.is_host_name { &[] } else { EMPTY_RELATIONS };
            let relations = RELATIONS.iter().chain(empty);
            all.extend(relations.map(|how| format!("{}, string at {}: {}", class, text.at, how)));
        }
    }
    for side in 0..2 {
        all.extend(numbers().map(|number| refusal_sight(number, side)));
    }
    all
}

fn refusal_sight(number: u64, side: u64) -> String {
    format!("refusal {} of side {}", number, side)
}

#[derive(Default)]
pub struct DifferenceSights {
    times: BTreeMap<String, usize>,
}

impl DifferenceSights {
    fn see(&mut self, sight: &str, is_there: bool) {
        if is_there {
            *self.times.entry(sight.to_string()).or_default() += 1;
        }
    }

    pub fn see_pair(&mut self, left: &[u8], right: &[u8], compared: &Compared) {
        match compared {
            Ok(list) => self.see_list(left, right, list),
            Err(refused) => self.see_refused(left, right, refused),
        }
    }

    fn see_refused(&mut self, left: &[u8], right: &[u8], refused: &RefusedSide) {
        let RefusedSide { refusal, side } = refused;
        self.see(&refusal_sight(refusal.number, *side), true);
        let number = |table: &[u8]| crate::model::check::check(table).err().map(|other| other.number);
        let (l, r) = (number(left), number(right));
        self.see("the left one refused", l.is_some() && r.is_none());
        self.see("the right one refused", *side == 1);
        let both = l.is_some() && r.is_some();
        self.see("both refused, by different numbers", both && l != r);
        let six = refusal.number == 6 && refusal.checksum != 0;
        self.see("6 of the left one, with its byte", six && *side == 0);
        self.see("6 of the right one, with its byte", six && *side == 1);
    }

    fn see_list(&mut self, left: &[u8], right: &[u8], list: &[Difference]) {
        self.see("one difference", list.len() == 1);
        self.see("more than twenty differences", list.len() > 20);
        self.see("the most differences", list.len() == MOST);
        let whole = |table: &[u8]| table.len() == length(table) as usize;
        self.see("bytes lent behind the left table", !whole(left));
        self.see("bytes lent behind the right table", !whole(right));
        if list.is_empty() {
            self.see_same(left, right);
        }
        self.see_order(list);
        for difference in list {
            self.see_difference(left, right, difference);
        }
        self.see_kinds(list);
    }

    fn see_same(&mut self, left: &[u8], right: &[u8]) {
        let (left, right) = (&left[..length(left) as usize], &right[..length(right) as usize]);
        self.see("no difference, the same bytes", left == right);
        self.see("no difference, other bytes", left != right);
        let names = |table: &[u8]| -> Vec<Name> {
            let extras = by_word(table).into_iter().skip(SLOTS.len());
            extras.map(|found| (found.kind.id, found.index)).collect()
        };
        let other_order = names(left) != names(right);
        self.see("no difference, extra words in another order", other_order);
        let other_count = control_length(left) != control_length(right);
        self.see("no difference, unused extra words", other_count);
    }

    fn see_order(&mut self, list: &[Difference]) {
        let groups: Vec<Group> = list.iter().filter_map(|d| field_group(&d.what)).collect();
        let is_later = |presence: &Difference| match presence.what {
            What::Presence(late) => groups.iter().any(|early| comes_before(early, &late)),
            _ => false,
        };
        let sight = "presence of a later structure before a field";
        self.see(sight, list.iter().any(is_later));
    }

    /// A NIC and a target with the same Index: an extra of the one kind is not taken for the other.
    fn see_kinds(&mut self, list: &[Difference]) {
        let names: Vec<Name> = list
            .iter()
            .filter_map(|d| match d.what {
                What::Presence(group) if group.is_extra() => Some((group.kind.id, group.index)),
                _ => None,
            })
            .collect();
        let has_both = names.iter().any(|(id, index)| names.contains(&(7 - id, *index)));
        self.see(
            "a NIC and a target of one Index, each in one table alone",
            has_both,
        );
    }

    fn see_difference(&mut self, left: &[u8], right: &[u8], difference: &Difference) {
        match difference.what {
            What::OemId => self.see("OEM ID", true),
            What::OemTableId => self.see("OEM Table ID", true),
            What::ControlFlags => self.see("Control's flags", true),
            What::Presence(group) => self.see_presence(&group, difference),
            What::Field(group, at) => {
                self.see(&format!("{}, field at {}", class(&group), at), true);
                let other_slot = slot(left, &group) != slot(right, &group);
                let sight = "a field of a structure that has another slot on the right";
                self.see(sight, other_slot);
                self.see("Index 255 in both, a difference", group.index == 255);
                self.see(
                    "an extra's Index that is a slot's number",
                    (5..17).contains(&group.index),
                );
            }
            What::Text(group, text) => {
                let other_slot = slot(left, &group) != slot(right, &group);
                let sight = "a string of a structure that has another slot on the right";
                self.see(sight, other_slot);
                self.see_text(left, right, &group, &text, difference);
            }
        }
    }

    fn see_presence(&mut self, group: &Group, difference: &Difference) {
        let side = match difference.right.start {
            0 => "left",
            _ => "right",
        };
        self.see(&format!("{} only in the {} table", class(group), side), true);
        if [2, 255].contains(&group.index) {
            self.see(&format!("Index {} only in the {} table", group.index, side), true);
        }
    }

    fn see_text(
        &mut self,
        left: &[u8],
        right: &[u8],
        group: &Group,
        text: &StringField,
        difference: &Difference,
    ) {
        let relation = relation(left, right, difference);
        let of = format!("{}, string at {}: {}", class(group), text.at, relation);
        self.see(&of, true);
        let shown = difference.shown;
        self.see("shown past 64 KiB", shown.start > 0xFFFF && shown.length > 0);
        self.see("a string that ends past 64 KiB", difference.left.end() > 0x10000);
        let shares = shown.length > 0 && others_there(left, difference.left);
        self.see("shown where other strings share its bytes", shares);
    }

    pub fn print(&self) {
        for sight in SIGHTS {
            let times = self.times.get(*sight).copied().unwrap_or(0);
            println!("  {:<60} {:>8} times", sight, times);
        }
        let least = wanted()
            .into_iter()
            .min_by_key(|sight| self.times.get(sight).copied());
        let least = least.unwrap();
        let times = self.times.get(&least).copied().unwrap_or(0);
        println!(
            "  {} things to be met, each at least {} times ({})",
            wanted().len(),
            times,
            least
        );
    }

    pub fn are_enough(&self) -> bool {
        let unmet = wanted()
            .into_iter()
            .filter(|sight| !self.times.contains_key(sight));
        let unmet: Vec<String> = unmet.collect();
        for sight in &unmet {
            println!("differences: no pair has: {}", sight);
        }
        unmet.is_empty()
    }
}

/// ID and Index.
type Name = (u64, u64);

/// The structure of a field that differs.
fn field_group(what: &What) -> Option<Group> {
    match what {
        What::Field(group, _) => Some(*group),
        _ => None,
    }
}

/// In the order of the list.
fn comes_before(early: &Group, late: &Group) -> bool {
    turn(early) < turn(late)
}

/// The number of the slot that a structure has in a table.
fn slot(table: &[u8], group: &Group) -> Option<usize> {
    let is_it = |found: &Found| found.kind == group.kind && found.index == group.index;
    slots(table).iter().position(is_it)
}

fn relation(left: &[u8], right: &[u8], difference: &Difference) -> &'static str {
    let (l, r) = (difference.left.bytes(left), difference.right.bytes(right));
    match (difference.left, difference.right) {
        (Stretch { start: 0, .. }, Stretch { length: 0, .. }) => "missing against empty",
        (Stretch { length: 0, .. }, Stretch { start: 0, .. }) => "empty against missing",
        (Stretch { start: 0, .. }, _) => "only the right one there",
        (_, Stretch { start: 0, .. }) => "only the left one there",
        (Stretch { length: 0, .. }, _) => "empty against a string",
        (_, Stretch { length: 0, .. }) => "a string against empty",
        _ => match first_unequal(l, r) as usize {
            0 => "first byte unequal",
            at if at == l.len() => "the left one begins the right one",
            at if at == r.len() => "the right one begins the left one",
            at if at == l.len() - 1 => "last byte unequal",
            _ => "a byte between unequal",
        },
    }
}

/// Do other strings of the table have bytes of this stretch?
fn others_there(table: &[u8], place: Stretch) -> bool {
    let slots = slots(table);
    let words = |entry: &Entry| {
        let field = slots[entry.slot].start? + entry.at;
        Some((word(table, field + 2), word(table, field)))
    };
    let overlaps = |(offset, size): &(u64, u64)| *offset < place.end() && place.start < offset + size;
    entries(&slots).iter().filter_map(words).filter(overlaps).count() > 1
}
