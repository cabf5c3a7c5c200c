//! Prints `crates/expiry/src/table.rt`: the day of each month's last Friday, a line for each year.

use last_fridays::{last_friday, FIRST_YEAR, LAST_YEAR, MONTHS};

fn main() {
    print!("{}", table());
}

fn table() -> String {
    let entries = (LAST_YEAR - FIRST_YEAR + 1) * MONTHS;
    let mut text = format!(
        "// The day of the month of each month's last Friday, January {FIRST_YEAR} to December {LAST_YEAR}. \
         `tools/last-fridays` prints this file.\n\
         pub const LAST_FRIDAYS: [u8; {entries}] = [\n"
    );
    for year in FIRST_YEAR..=LAST_YEAR {
        let days: Vec<String> = (1..=MONTHS)
            .map(|month| last_friday(year, month).to_string())
            .collect();
        text += &format!("    {}, // {year}\n", days.join(", "));
    }
    text + "];\n"
}
