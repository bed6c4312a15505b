//! Writes what the Rust's own `decompress` makes of each halfword, in rising order: a little-endian u32, 0 where it refuses.

use std::io::Write;

#[allow(dead_code)]
#[path = "riscv32imc.rs"]
mod riscv32imc;

fn main() -> std::io::Result<()> {
    let list: Vec<u8> = (0..=u16::MAX).flat_map(|raw| riscv32imc::decompress(raw).unwrap_or(0).to_le_bytes()).collect();
    std::io::stdout().write_all(&list)
}
