//! Reads lines of hex digits, each an item. Writes the canonical bytes of each decoded value to a
//! line, in hex digits, or `refused 5 Float at 1`: `values [bytewise|length [MAX_BYTES]] < LINES`.

use naltvigo::{Options, Order, Value};
use std::env;
use std::error::Error;
use std::io::{self, BufRead, Write};

fn bytes_of(line: &str) -> Result<Vec<u8>, Box<dyn Error>> {
    if !line.is_ascii() || line.len() % 2 == 1 {
        return Err("hex digits come in pairs".into());
    }
    let byte = |at| Ok(u8::from_str_radix(&line[at..at + 2], 16)?);
    (0..line.len()).step_by(2).map(byte).collect()
}

fn main() -> Result<(), Box<dyn Error>> {
    let order = match env::args().nth(1).as_deref() {
        None | Some("bytewise") => Order::Bytewise,
        Some("length") => Order::LengthFirst,
        Some(_) => return Err("usage: values [bytewise|length [MAX_BYTES]] < LINES".into()),
    };
    let most = env::args().nth(2).map_or(Ok(1 << 30), |it| it.parse())?;
    let widest = Options::default().with_limits(1024, most);
    let options = widest.ok_or("limits")?.with_order(order);
    let mut out = io::BufWriter::new(io::stdout().lock());
    for line in io::stdin().lock().lines() {
        let given = bytes_of(line?.trim())?;
        match Value::decode(&given, &options).and_then(|value| value.encode(&options)) {
            Ok(bytes) => {
                for byte in bytes {
                    write!(out, "{byte:02x}")?;
                }
                writeln!(out)?;
            }
            Err(why) => {
                let number = why.reason.number();
                writeln!(out, "refused {number} {:?} at {}", why.reason, why.offset)?;
            }
        }
    }
    Ok(out.flush()?)
}
