//! The host name rule as compiled (`test_host_name`), held to model/host_name.rs.

use crate::call::library;
use crate::make::host_names::SHAPES;
use crate::make::seeded::Seeded;
use crate::model::host_name::is_host_name;
use crate::tally::answers::Tally;

const LEAST_INPUTS: usize = 100_000;

fn compare_one(shape: &'static str, seed: u64, text: &mut Vec<u8>, tally: &mut Tally) -> bool {
    let before = text.clone();
    let expected = u8::from(is_host_name(text));
    let answer = unsafe { library::test_host_name(text.as_mut_ptr(), text.len()) };
    if answer == expected && *text == before {
        tally.count(shape, usize::from(answer));
        return true;
    }
    println!(
        "host name: DIFFERENCE in shape '{}', seed {:#x}",
        shape, seed
    );
    println!(
        "  name \"{}\", size {}",
        before.escape_ascii(),
        before.len()
    );
    println!("  library {}, document {}", answer, expected);
    false
}

pub fn compare() -> bool {
    let mut tally = Tally::new("host name", &["refused", "good"]);
    for (i, (shape, inputs, make)) in SHAPES.iter().enumerate() {
        for input in 0..*inputs {
            let seed = ((i as u64) << 32) + input as u64;
            let mut text = make(input, &mut Seeded::new(seed));
            if !compare_one(shape, seed, &mut text, &mut tally) {
                return false;
            }
        }
    }
    tally.print();
    tally.is_enough(LEAST_INPUTS)
}
