//! Prints the listing of the records in a file.

#[path = "../bindings/rust/gristpebble.rs"]
mod gristpebble;

use std::io::Write;

fn main() -> Result<(), Box<dyn std::error::Error>> {
    let file = std::env::args().nth(1).ok_or("usage: listing FILE")?;
    match gristpebble::listing(&std::fs::read(file)?) {
        Ok(listing) => std::io::stdout().write_all(&listing)?,
        Err(refusal) => {
            println!("{refusal}");
            eprintln!("{}", refusal.words());
        }
    }
    Ok(())
}
