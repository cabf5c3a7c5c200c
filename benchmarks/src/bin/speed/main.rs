//! Times the proved library and the Rust ledger on the same files, each in processes of its own by
//! turns, their closes, and a trade by value against a copy of the book and a trade of a set: see
//! benchmarks/run.

mod by_value;
mod closes;
mod library;
mod rounds;
mod runs;

fn tables(trade_bench: &str) {
    let rows = runs::table();
    println!();
    let closes = closes::table();
    println!();
    runs::table_without_closes(&rows, &closes);
    println!();
    by_value::tables(trade_bench);
}

fn main() {
    let arguments: Vec<String> = std::env::args().skip(1).collect();
    match arguments.iter().map(String::as_str).collect::<Vec<_>>()[..] {
        [side, closes::CLOSE, active] => {
            closes::time(rounds::side(side), active.parse().expect("a number"))
        }
        [rounds::RUST, by_value::SETS] => by_value::time_sets(),
        [side, place] => runs::time(rounds::side(side), place.parse().expect("a file's place")),
        [trade_bench] => tables(trade_bench),
        _ => panic!("expected the path of trade-bench"),
    }
}
