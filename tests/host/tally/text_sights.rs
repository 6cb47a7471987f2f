//! What the programs were seen to write, so that a comparison that never met something is not taken
//! for one that did.

use crate::model::enter_tell::Entered;
use crate::model::layout::*;
use crate::model::text::*;
use std::collections::{BTreeMap, BTreeSet};

/// Refusals of a record that came from a text; and the places that each can have: a host name's is a
/// named NIC's, or one of those that an extra NIC's may have.
fn refusals() -> Vec<(u64, Vec<u64>)> {
    let strings: Vec<u64> = (0..ENTRY_NUMBERS).collect();
    vec![
        (8, vec![10, 16]),
        (17, strings.clone()),
        (20, strings),
        (18, [&[1, 7][..], &[13, 14, 15, 16, 17, 18]].concat()),
    ]
}

/// Index values at which the number of digits changes, and the first and last there are.
const EDGES: [u64; 7] = [2, 9, 10, 99, 100, 254, 255];

/// What is to be met beside reasons, refusals and fields.
const SIGHTS: &[&str] = &[
    "built: extra NICs in descending order",
    "built: extra targets in descending order",
    "built: extras neither up nor down",
    "built: an extra target before an extra NIC",
    "built: an extra before a named structure",
    "built: lines of extras in turns",
    "built: a NIC and a target of one extra Index",
    "built: no structure but extras",
    "built: an extra whose flags are not given",
    "built: an extra target whose port is not given",
    "built: an extra of one line",
    "built: an extra's secret",
    "unread: a seventh NIC with a good value",
    "unread: a seventh NIC with a bad value",
    "unread: a seventh target with a good value",
    "unread: a seventh target with a bad value",
    "unread: a seventh extra, of the other kind none",
    "unread: a seventh extra, of the other kind six",
    "unread: a seventh extra, and an eighth behind it",
    "unread: a seventh extra behind six whose Index is above its own",
    "unread: a bad value before a seventh extra",
    "unread: a field given again behind six extras",
    "no field: a leading zero",
    "no field: Index 256",
    "no field: an Index above 256",
    "no field: an Index in hexadecimal",
    "no field: an Index with a sign",
    "no field: a NIC without Index",
    "no field: a target without Index",
    "no field: an initiator with Index",
    "no field: oem with Index",
    "no field: of an extra's group",
    "told: no structure but extras",
    "told: extras under words in another order",
    "told: an empty string of an extra",
    "hidden: secrets of named targets alone",
    "hidden: secrets of extra targets alone",
    "hidden: secrets of both",
    "hidden: no secret",
];

#[derive(Default)]
pub struct TextSights {
    reasons: BTreeMap<String, usize>,
    refusals: BTreeMap<(u64, u64), usize>,
    /// By field, where an extra's group is `nicN` or `targetN`: refused, told and hidden.
    refused: BTreeMap<(u64, String), usize>,
    told: BTreeMap<String, usize>,
    hidden: BTreeMap<String, usize>,
    /// By the numbers of extra NICs and extra targets.
    built_numbers: BTreeMap<(usize, usize), usize>,
    told_numbers: BTreeMap<(usize, usize), usize>,
    /// By the extra's name.
    built_extras: BTreeMap<String, usize>,
    told_extras: BTreeMap<String, usize>,
    sights: BTreeMap<&'static str, usize>,
}

fn count<K: Ord>(counts: &mut BTreeMap<K, usize>, what: K) {
    *counts.entry(what).or_default() += 1;
}

/// The field's name, where an Index from 2 on is N.
fn in_general(name: &str) -> String {
    match field_named(name).and_then(|field| field.group()) {
        Some(group) if group.is_extra() => {
            let last = name.split_once('.').unwrap().1;
            let kind = if group.kind == NIC { "nicN" } else { "targetN" };
            format!("{}.{}", kind, last)
        }
        _ => name.to_string(),
    }
}

/// The numbers of extra NICs and of extra targets among these.
fn numbers(groups: &[Group]) -> (usize, usize) {
    let count = |kind: Kind| {
        let same = groups.iter().filter(|group| group.kind == kind);
        same.filter(|group| group.is_extra()).count()
    };
    (count(NIC), count(TARGET))
}

// ---- What a text names ----

/// A line that names a field of a structure.
struct Named {
    line: usize,
    field: Field,
    group: Group,
    can_be_read: bool,
}

fn named_in(text: &[u8]) -> Vec<Named> {
    let mut all = Vec::new();
    for (line, says) in lines_that_say(text) {
        let (name, value) = field_and_value(says);
        let field = std::str::from_utf8(name).ok().and_then(field_named);
        if let Some((field, group)) = field.and_then(|f| f.group().map(|group| (f, group))) {
            all.push(Named {
                line,
                can_be_read: field.notation.read(value).is_some(),
                field,
                group,
            });
        }
    }
    all
}

/// The groups, each once, in the order of the text.
fn groups_of(named: &[Named]) -> Vec<Group> {
    let mut groups = Vec::new();
    for Named { group, .. } in named {
        if !groups.contains(group) {
            groups.push(*group);
        }
    }
    groups
}

/// The extras of a kind, by Index, in the order of the text.
fn extras_in(groups: &[Group], kind: Kind) -> Vec<u64> {
    let same = groups.iter().filter(|group| group.kind == kind);
    let extras = same.filter(|group| group.is_extra());
    extras.map(|group| group.index).collect()
}

/// The line of the seventh extra of a kind, and its kind; the first such line.
fn seventh_in(named: &[Named]) -> Option<&Named> {
    let groups = groups_of(named);
    let sevenths = [NIC, TARGET].into_iter().filter_map(|kind| {
        let index = *extras_in(&groups, kind).get(EXTRAS_OF_A_KIND)?;
        named.iter().find(|n| n.group == Group { kind, index })
    });
    sevenths.min_by_key(|named| named.line)
}

// ---- Seeing ----

impl TextSights {
    fn see(&mut self, sight: &'static str, is_there: bool) {
        assert!(SIGHTS.contains(&sight), "{} is no sight", sight);
        if is_there {
            count(&mut self.sights, sight);
        }
    }

    pub fn see_entered(&mut self, text: &[u8], entered: &Entered) {
        match entered {
            Entered::Table(_) => self.see_built(&named_in(text)),
            Entered::Unread(message) => {
                count(&mut self.reasons, reason(message).to_string());
                self.see_unread(text, message);
            }
            Entered::Refused(refusal, words) => {
                count(&mut self.refusals, (refusal.number, refusal.place));
                let field = words.split(':').next().unwrap();
                count(&mut self.refused, (refusal.number, in_general(field)));
            }
        }
    }

    fn see_built(&mut self, named: &[Named]) {
        let groups = groups_of(named);
        let (nics, targets) = (extras_in(&groups, NIC), extras_in(&groups, TARGET));
        count(&mut self.built_numbers, numbers(&groups));
        for group in groups.iter().filter(|group| group.is_extra()) {
            count(&mut self.built_extras, group.name());
        }
        let falls = |list: &[u64]| list.len() > 2 && list.windows(2).all(|w| w[0] > w[1]);
        let turns = |list: &[u64]| {
            list.windows(2).any(|w| w[0] > w[1]) && list.windows(2).any(|w| w[0] < w[1])
        };
        self.see("built: extra NICs in descending order", falls(&nics));
        self.see("built: extra targets in descending order", falls(&targets));
        let both = turns(&nics) || turns(&targets);
        self.see("built: extras neither up nor down", both);
        self.see_order(named, &groups);
        let of_one_index = nics.iter().any(|index| targets.contains(index));
        self.see("built: a NIC and a target of one extra Index", of_one_index);
        self.see_lines(named, &groups);
    }

    /// In which order the groups come, and the lines of extras.
    fn see_order(&mut self, named: &[Named], groups: &[Group]) {
        let first = |is_it: &dyn Fn(&Group) -> bool| groups.iter().position(is_it);
        let last = |is_it: &dyn Fn(&Group) -> bool| groups.iter().rposition(is_it);
        let is_nic = |group: &Group| group.is_extra() && group.kind == NIC;
        let is_target = |group: &Group| group.is_extra() && group.kind == TARGET;
        let turned = matches!((first(&is_target), last(&is_nic)), (Some(t), Some(n)) if t < n);
        self.see("built: an extra target before an extra NIC", turned);
        let extra = first(&|group| group.is_extra());
        let named_one = last(&|group| !group.is_extra());
        let before = matches!((extra, named_one), (Some(extra), Some(named)) if extra < named);
        self.see("built: an extra before a named structure", before);
        let alone = !groups.is_empty() && named_one.is_none();
        self.see("built: no structure but extras", alone);
        let extras: Vec<Group> = named.iter().map(|n| n.group).collect();
        let mut runs: Vec<Group> = extras.into_iter().filter(Group::is_extra).collect();
        runs.dedup();
        let extras = groups.iter().filter(|group| group.is_extra()).count();
        self.see("built: lines of extras in turns", runs.len() > extras + 1);
    }

    /// What lines an extra has.
    fn see_lines(&mut self, named: &[Named], groups: &[Group]) {
        for group in groups.iter().filter(|group| group.is_extra()) {
            let own = named.iter().filter(|n| n.group == *group);
            let names: Vec<&str> = own
                .map(|n| n.field.name.split_once('.').unwrap().1)
                .collect();
            let given = |name: &str| names.contains(&name);
            self.see("built: an extra whose flags are not given", !given("flags"));
            let no_port = group.kind == TARGET && !given("port");
            self.see("built: an extra target whose port is not given", no_port);
            self.see("built: an extra of one line", names.len() == 1);
            let has_secret = given("chap-secret") || given("reverse-secret");
            self.see("built: an extra's secret", has_secret);
        }
    }

    fn see_unread(&mut self, text: &[u8], message: &str) {
        let Some(line) = line_of(message) else {
            return;
        };
        let named = named_in(text);
        let before: Vec<Group> = groups_of(&named)
            .into_iter()
            .filter(|group| named.iter().any(|n| n.group == *group && n.line < line))
            .collect();
        let six = numbers(&before).0 == 6 || numbers(&before).1 == 6;
        match reason(message) {
            "there is no such field" => self.see_no_field(text, line),
            "this field was given before" => {
                self.see("unread: a field given again behind six extras", six);
            }
            reason if reason.starts_with("a record has at most six") => {
                self.see_seventh(&named, &before);
            }
            _ => {
                let is_later = matches!(seventh_in(&named), Some(n) if n.line > line);
                self.see("unread: a bad value before a seventh extra", is_later);
            }
        }
    }

    fn see_seventh(&mut self, named: &[Named], before: &[Group]) {
        let Some(seventh) = seventh_in(named) else {
            return;
        };
        let Group { kind, index } = seventh.group;
        let is_nic = kind == NIC;
        let good = seventh.can_be_read;
        self.see("unread: a seventh NIC with a good value", is_nic && good);
        self.see("unread: a seventh NIC with a bad value", is_nic && !good);
        self.see(
            "unread: a seventh target with a good value",
            !is_nic && good,
        );
        self.see(
            "unread: a seventh target with a bad value",
            !is_nic && !good,
        );
        let (nics, targets) = numbers(before);
        let others = if is_nic { targets } else { nics };
        self.see(
            "unread: a seventh extra, of the other kind none",
            others == 0,
        );
        self.see(
            "unread: a seventh extra, of the other kind six",
            others == 6,
        );
        let all = extras_in(&groups_of(named), kind);
        self.see(
            "unread: a seventh extra, and an eighth behind it",
            all.len() > 7,
        );
        let is_lowest = all[..EXTRAS_OF_A_KIND].iter().all(|other| *other > index);
        let sight = "unread: a seventh extra behind six whose Index is above its own";
        self.see(sight, is_lowest);
    }

    /// The line's name is that of a field but for what stands before the dot, or the other way round.
    fn see_no_field(&mut self, text: &[u8], line: usize) {
        let says = lines_that_say(text).find(|says| says.0 == line).unwrap().1;
        let name = String::from_utf8_lossy(field_and_value(says).0).into_owned();
        let Some((group, last)) = name.split_once('.') else {
            return;
        };
        let is_extra = matches!(Group::named(group), Some(group) if group.is_extra());
        self.see("no field: of an extra's group", is_extra);
        for (kind, fields) in [("nic", nic(0)), ("target", target(0))] {
            let is_field = |field: &Field| field.name == format!("{}0.{}", kind, last);
            if let (Some(index), true) = (
                group.strip_prefix(kind),
                fields.fields().iter().any(is_field),
            ) {
                self.see_no_index(kind, index);
            }
        }
        let is_digits = |text: &str| !text.is_empty() && text.bytes().all(|b| b.is_ascii_digit());
        let initiator = matches!(group.strip_prefix("initiator"), Some(rest) if is_digits(rest));
        self.see("no field: an initiator with Index", initiator);
        let oem = matches!(group.strip_prefix("oem"), Some(rest) if is_digits(rest));
        self.see("no field: oem with Index", oem);
    }

    fn see_no_index(&mut self, kind: &str, index: &str) {
        let digits = index.trim_start_matches('0');
        let number = index.parse::<u128>().ok();
        let is_one = number.is_some() && !index.starts_with('+');
        let has_zero = is_one && index.len() > digits.len() && number <= Some(255);
        self.see("no field: a leading zero", has_zero);
        self.see("no field: Index 256", index == "256");
        let is_above = is_one && index == digits && number > Some(256);
        self.see("no field: an Index above 256", is_above);
        self.see("no field: an Index in hexadecimal", index.starts_with("0x"));
        self.see(
            "no field: an Index with a sign",
            index.starts_with(['+', '-']),
        );
        let none = index.is_empty();
        self.see("no field: a NIC without Index", none && kind == "nic");
        self.see("no field: a target without Index", none && kind == "target");
    }

    /// What is told of a table that the check accepts.
    pub fn see_told(&mut self, table: &[u8], text: &str) {
        let named = named_in(text.as_bytes());
        for line in text.lines() {
            if let Some((field, _)) = line.split_once(' ') {
                count(&mut self.told, in_general(field));
            }
        }
        let groups = groups_of(&named);
        count(&mut self.told_numbers, numbers(&groups));
        for group in groups.iter().filter(|group| group.is_extra()) {
            count(&mut self.told_extras, group.name());
        }
        let alone = !groups.is_empty() && groups.iter().all(Group::is_extra);
        self.see("told: no structure but extras", alone);
        let turned = by_word(table) != slots(table);
        self.see("told: extras under words in another order", turned);
        let is_empty = |line: &str| match line.strip_suffix(" \"\"") {
            Some(field) => in_general(field).contains("N."),
            None => false,
        };
        self.see(
            "told: an empty string of an extra",
            text.lines().any(is_empty),
        );
    }

    /// What is told of it where secrets are hidden.
    pub fn see_hidden(&mut self, text: &str) {
        let (mut of_named, mut of_extras) = (false, false);
        for line in text.lines().filter(|line| line.starts_with('#')) {
            let field = in_general(line.split(' ').nth(1).unwrap());
            of_extras |= field.contains("N.");
            of_named |= !field.contains("N.");
            count(&mut self.hidden, field);
        }
        let sight = match (of_named, of_extras) {
            (true, true) => "hidden: secrets of both",
            (true, false) => "hidden: secrets of named targets alone",
            (false, true) => "hidden: secrets of extra targets alone",
            (false, false) => "hidden: no secret",
        };
        self.see(sight, true);
    }

    // ---- What was seen ----

    pub fn print(&self) {
        for (reason, times) in &self.reasons {
            println!("  {:>6} times: {}", times, reason);
        }
        for (number, places) in refusals() {
            let times: usize = places.iter().map(|p| self.times(number, *p)).sum();
            println!("  {:>6} times: refused {}", times, number);
        }
        for (sight, times) in &self.sights {
            println!("  {:>6} times: {}", times, sight);
        }
        for (what, numbers) in [("built", &self.built_numbers), ("told", &self.told_numbers)] {
            let least = numbers.values().min().unwrap_or(&0);
            let pairs = numbers.len();
            println!(
                "  {:>6} times at least: {}, each of {} numbers of extras",
                least, what, pairs
            );
        }
    }

    fn times(&self, number: u64, place: u64) -> usize {
        self.refusals.get(&(number, place)).copied().unwrap_or(0)
    }

    /// Was each reason given, each refusal met at each place and of each string, each field told, each
    /// number of extras and each Index of note met, and each sight seen?
    pub fn are_enough(&self) -> bool {
        let mut missing = Vec::new();
        for reason in all_reasons() {
            if !self.reasons.contains_key(&reason) {
                missing.push(reason);
            }
        }
        for (number, places) in refusals() {
            for place in places.iter().filter(|p| self.times(number, **p) == 0) {
                missing.push(format!("refused {} {}", number, place));
            }
        }
        for field in general_fields() {
            if !self.told.contains_key(&field.name) {
                missing.push(format!("a line of {}", field.name));
            }
            if field.is_secret() && !self.hidden.contains_key(&field.name) {
                missing.push(format!("{} is hidden", field.name));
            }
            for number in refusals_of(&field) {
                if !self.refused.contains_key(&(number, field.name.clone())) {
                    missing.push(format!("refused {} of {}", number, field.name));
                }
            }
        }
        missing.extend(self.missing_extras());
        let unseen = SIGHTS.iter().filter(|s| !self.sights.contains_key(*s));
        missing.extend(unseen.map(|sight| sight.to_string()));
        for what in &missing {
            println!("text: no input shows '{}'", what);
        }
        missing.is_empty()
    }

    fn missing_extras(&self) -> Vec<String> {
        let mut missing = Vec::new();
        for pair in (0..7 * 7).map(|n| (n % 7, n / 7)) {
            for (what, met) in [("built", &self.built_numbers), ("told", &self.told_numbers)] {
                if !met.contains_key(&pair) {
                    missing.push(format!("{}: {:?} extras", what, pair));
                }
            }
        }
        for name in EDGES
            .iter()
            .flat_map(|i| [nic(*i).name(), target(*i).name()])
        {
            for (what, met) in [("built", &self.built_extras), ("told", &self.told_extras)] {
                if !met.contains_key(&name) {
                    missing.push(format!("{}: {}", what, name));
                }
            }
        }
        missing
    }
}

/// All fields, those of an extra NIC and of an extra target as `nicN` and `targetN`.
fn general_fields() -> Vec<Field> {
    let mut fields = all_fields();
    for group in [nic(2), target(2)] {
        fields.extend(group.fields().into_iter().map(|field| Field {
            name: in_general(&field.name),
            ..field
        }));
    }
    fields
}

/// By what a build can refuse the string that is this field.
fn refusals_of(field: &Field) -> Vec<u64> {
    match field.place {
        Place::Entry { text, .. } if text.is_host_name => vec![17, 18, 20],
        Place::Entry { .. } => vec![17, 20],
        _ => Vec::new(),
    }
}

/// The message without the number of its line.
fn reason(message: &str) -> &str {
    message.splitn(3, ": ").last().unwrap()
}

/// The number of the line that a message is of.
fn line_of(message: &str) -> Option<usize> {
    let (number, _) = message.strip_prefix("enter: line ")?.split_once(':')?;
    number.parse().ok()
}

/// Every reason there is not to read a text.
fn all_reasons() -> BTreeSet<String> {
    let mut reasons: BTreeSet<String> = all_fields()
        .iter()
        .map(|field| field.notation.reason())
        .collect();
    for reason in [
        "there is no such field",
        "a record has at most six NICs beyond nic0 and nic1",
        "a record has at most six targets beyond target0 and target1",
        "this field was given before",
        "the string has more than 6 bytes",
        "the string has more than 8 bytes",
        "the strings together have more than 16384 bytes",
        "the text has more than 65536 bytes",
    ] {
        reasons.insert(reason.to_string());
    }
    reasons
}
