//! Writes the canonical bytes of the item on standard input to standard output.

use naltvigo::{canonicalise, Options};
use std::io::{self, Read, Write};

fn main() -> Result<(), Box<dyn std::error::Error>> {
    let mut item = Vec::new();
    // one byte more than the limit shows that the input is longer
    io::stdin().take((1 << 20) + 1).read_to_end(&mut item)?;
    io::stdout().write_all(&canonicalise(&item, &Options::default())?)?;
    Ok(())
}
