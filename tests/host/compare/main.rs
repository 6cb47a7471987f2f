//! Compares what the static libraries and the programs `show`, `tell`, `enter`, `find`, `rebuild` and
//! `compare` answer with independent readings of RULES.md and docs/RECORD-FORMAT.md, on seeded inputs.
//! Prints how often each answer was met; exits 1 at the first difference.
//!
//! The readings are the files of model/, written from the documents alone; a call that is exported
//! later gets its reading there and its comparison here. The environment variables SHOW, TELL,
//! ENTER, FIND, REBUILD and COMPARE name the programs.

mod build;
mod check;
mod checksum;
mod difference_texts;
mod differences;
mod families;
mod family_scans;
mod family_text;
mod family_writes;
mod host_name;
mod least;
mod login;
mod readings;
mod rebuild;
mod scan;
mod show;
mod sum;
mod sum_programs;
mod tail;
mod text;
mod views;
mod wipe;

#[path = "../call/mod.rs"]
mod call;
#[path = "../damage/mod.rs"]
mod damage;
#[path = "../known/mod.rs"]
mod known;
#[path = "../lent/mod.rs"]
mod lent;
#[path = "../make/mod.rs"]
mod make;
#[path = "../model/mod.rs"]
mod model;
#[path = "../shapes/mod.rs"]
mod shapes;
#[path = "../tally/mod.rs"]
mod tally;

fn main() {
    let all_agree = scan::compare()
        && host_name::compare()
        && checksum::compare()
        && tail::compare()
        && check::compare()
        && readings::compare()
        && views::compare()
        && login::compare()
        && show::compare()
        && text::compare()
        && build::compare()
        && least::compare()
        && rebuild::compare()
        && wipe::compare()
        && family_scans::compare()
        && families::compare()
        && family_writes::compare()
        && sum::compare()
        && sum_programs::compare()
        && differences::compare()
        && difference_texts::compare()
        && family_text::compare();
    if !all_agree {
        std::process::exit(1);
    }
}
