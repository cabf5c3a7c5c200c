//! Calls that the day allows and doesn't.

use crate::generator::Generator;

/// Minute ends, fixes and closes too early, too often and with senseless values.
pub fn out_of_order(generator: &mut Generator) {
    for _ in 0..generator.random.between(1, 4) {
        early_calls(generator);
        let length = generator.start_date();
        generator.tight_quote();
        let missing = generator.random.pick(&[0, 0, 0, 1, 2]);
        generator.quiet_minutes(length - missing);
        early_calls(generator);
        generator.quiet_minutes(missing);
        for _ in 0..generator.random.below(3) {
            late_call(generator);
        }
        let set_price = generator.near_price();
        generator.fix(set_price);
        for _ in 0..generator.random.below(4) {
            late_call(generator);
        }
        generator.close();
    }
}

fn early_calls(generator: &mut Generator) {
    for _ in 0..generator.random.below(3) {
        match generator.random.below(4) {
            0 | 1 => {
                let price = generator.random.pick(&[0, 1, 4_999, 200_000]);
                generator.any_fix(price);
            }
            2 => {
                generator.file.close();
            }
            _ => {
                generator.file.resume();
            }
        }
    }
}

fn late_call(generator: &mut Generator) {
    match generator.random.below(8) {
        0 | 1 => {
            let index = generator.random.pick(&[0, 1, 4_999, 200_000]);
            generator.file.minute_ends(1, index);
        }
        2 => {
            let price = generator.random.pick(&[0, 1, 50_000_001]);
            generator.any_fix(price);
        }
        3 => generator.any_quote(),
        4 => generator.any_trade(),
        5 => {
            generator.file.halt();
        }
        6 => generator.any_length_of_day(),
        _ => {
            generator.close();
        }
    }
}

/// Calls in any order on a day that hardly starts.
pub fn short_files(generator: &mut Generator) {
    for _ in 0..generator.random.below(40) {
        match generator.random.below(10) {
            0 | 1 => generator.any_quote(),
            2 | 3 => generator.any_trade(),
            4 => generator.quiet_minutes(1),
            5 => {
                generator.file.halt();
            }
            6 => {
                generator.file.resume();
            }
            7 => generator.any_fix(0),
            8 => generator.any_length_of_day(),
            _ => {
                generator.file.close();
            }
        }
    }
}
