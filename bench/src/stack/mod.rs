//! How much stack each public call takes: at most, by the frames of the compiled functions on its deepest way, and as seen on a painted stack.

mod frames;
mod painted;
mod runs;

use frames::Frames;
use std::fs;

/// Prints a line for each call. The argument names the archive's functions as `objdump -dr --no-show-raw-insn` lists them.
pub fn print(listing: &str) -> Result<(), String> {
    let text = fs::read_to_string(listing).map_err(|fault| format!("{listing}: {fault}"))?;
    let frames = Frames::read(&text)?;
    let seen = runs::deepest();
    let exported: Vec<&str> = frames.exported().collect();
    if let Some(call) = exported.iter().find(|call| !seen.contains_key(*call)) {
        return Err(format!("{call} was not run"));
    }
    println!("| call | stack at most | seen | frames on the deepest way, from the call inwards |");
    println!("|---|---|---|---|");
    for call in exported {
        let way = frames.deepest_way(call)?;
        let most: usize = way.iter().map(|step| step.bytes).sum();
        let seen = seen[call];
        if seen > most {
            return Err(format!("{call} took {seen} bytes, more than {most}"));
        }
        let steps: Vec<String> = way.iter().map(ToString::to_string).collect();
        println!("| `{call}` | {most} | {seen} | {} |", steps.join(", "));
    }
    Ok(())
}
