//! The README's example in Rust.

use hulgyevan::{add, list, write_contents, Number, Refusal};

fn main() -> Result<(), Refusal> {
    let mut file = [0; 64];
    let used = write_contents(b"\x01\x0b########.##", &mut file)?;
    let used = add(used, &[Number::from_steps(16_777_216)?], &mut file)?;
    let used = add(used, &["16777216.25".parse()?], &mut file)?;
    let mut text = [0; 80];
    let size = list(&file[..used], &mut text)?;
    print!("{}", String::from_utf8_lossy(&text[..size]));
    Ok(())
}
