//! Inputs whose theme is the file itself.

use crate::generator::Generator;
use crate::profiles::days::short_files;
use dayformat::{body_length, tag, BENCH_LIMIT, HEADER};

/// Bytes without plan, many of them small so that some make records.
pub fn random_bytes(generator: &mut Generator) {
    let random = &mut generator.random;
    let small = random.chance(70);
    for _ in 0..random.below(400) {
        let byte = match small && random.chance(70) {
            true => random.below(14) as u8,
            false => random.byte(),
        };
        generator.file.bytes.push(byte);
    }
}

/// Records of known tags and lengths with bodies without plan.
pub fn random_bodies(generator: &mut Generator) {
    for _ in 0..generator.random.below(60) {
        let tag = generator.random.pick(&tag::KNOWN);
        let length = body_length(tag).unwrap_or(0);
        let body: Vec<u8> = (0..length).map(|_| generator.random.byte()).collect();
        generator.file.record(tag, &body);
    }
}

/// Sizes that are refused.
pub fn refused_sizes(generator: &mut Generator) {
    generator.size = match generator.random.chance(60) {
        true => generator.random.pick(&[0, 2, 9, 11, 100, 255]),
        false => generator.random.byte(),
    };
    short_files(generator);
}

/// Records around the end of the 65,536 bytes that the bench counts.
pub fn bench_limit(generator: &mut Generator) {
    up_to_bench_limit(generator, 12);
    for _ in 0..5 {
        match generator.random.below(4) {
            0 => generator.any_trade(),
            1 => {
                generator.file.fix(0);
            }
            _ => {
                generator.file.resume();
            }
        }
    }
}

/// Records up to less than so many bytes before that end.
pub fn up_to_bench_limit(generator: &mut Generator, left: u32) {
    short_files(generator);
    let before = 1 + generator.file.bytes.len() + HEADER;
    let gap = generator.random.below(left) as usize;
    generator
        .file
        .record(77, &vec![0; BENCH_LIMIT - before - gap]);
}
