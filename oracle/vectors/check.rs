// Computes the result of each published pair by the machine's own operators, and prints the pairs whose result differs.
use std::io::BufRead;

fn value(operation: &str, a: u32, b: u32) -> u32 {
    let (s, t) = (a as i32, b as i32);
    match operation {
        "lui" | "srai" | "sra" => (s >> (b & 31)) as u32,
        "auipc" | "addi" | "add" => a.wrapping_add(b),
        "beq" => (a == b) as u32,
        "bne" => (a != b) as u32,
        "blt" | "slti" | "slt" => (s < t) as u32,
        "bge" => (s >= t) as u32,
        "bltu" | "sltiu" | "sltu" => (a < b) as u32,
        "bgeu" => (a >= b) as u32,
        "xori" | "xor" => a ^ b,
        "ori" | "or" => a | b,
        "andi" | "and" => a & b,
        "slli" | "sll" => a << (b & 31),
        "srli" | "srl" => a >> (b & 31),
        "sub" => a.wrapping_sub(b),
        "mul" => ((a as u64 * b as u64) & 0xffff_ffff) as u32,
        "mulh" => ((s as i64 * t as i64) >> 32) as u32,
        "mulhsu" => ((s as i64 * b as i64) >> 32) as u32,
        "mulhu" => ((a as u64 * b as u64) >> 32) as u32,
        "div" => if t == 0 { !0 } else { s.wrapping_div(t) as u32 },
        "divu" => if b == 0 { !0 } else { a / b },
        "rem" => if t == 0 { a } else { s.wrapping_rem(t) as u32 },
        "remu" => if b == 0 { a } else { a % b },
        _ => panic!("unknown operation {operation}"),
    }
}

fn main() {
    let (mut pairs, mut different) = (0, 0);
    for line in std::io::stdin().lock().lines() {
        let line = line.unwrap();
        let words: Vec<&str> = line.split_whitespace().collect();
        let hex = |k: usize| u32::from_str_radix(words[k], 16).unwrap();
        let computed = value(words[0], hex(1), hex(2));
        pairs += 1;
        if computed != hex(3) {
            different += 1;
            println!("{line}: {computed:08x}");
        }
    }
    println!("pairs {pairs}, different {different}");
}
