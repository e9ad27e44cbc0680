//! Decodes each item of a file with serde_cbor, and prints how many there are.
use serde_cbor::{Deserializer, Value};

fn main() -> Result<(), Box<dyn std::error::Error>> {
    let path = std::env::args().nth(1).ok_or("no file is named")?;
    let bytes = std::fs::read(path)?;
    let mut count = 0;
    for item in Deserializer::from_slice(&bytes).into_iter::<Value>() {
        item?;
        count += 1;
    }
    println!("{count}");
    Ok(())
}
