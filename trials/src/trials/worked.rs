//! The trial of the stored output of the program crates/trials: it is what the reference says.

use super::tally::Tally;
use crate::worked::expected;
use std::path::Path;

pub fn run(_seed: u64, _amount: u64) -> Result<Tally, String> {
    let file = Path::new(env!("CARGO_MANIFEST_DIR")).join("../crates/trials/stdout");
    let stored = std::fs::read_to_string(file).map_err(|fault| format!("the file: {fault}"))?;
    let must = expected();
    let mut tally = Tally::default();
    for (stored, must) in stored.lines().zip(must.lines()) {
        if stored != must {
            return Err(format!("\n  left {stored}\n  must {must}"));
        }
        tally.cases += 1;
    }
    if stored != must {
        return Err(format!(
            "{} lines are the same, and others follow",
            tally.cases
        ));
    }
    Ok(tally)
}
