//! The edges: sizes, symbols, addresses, rows, entries, output, events, steps, and each role.

use crate::answer::Case;
use crate::asm::*;
use crate::port::{ENTRY, Lent, ROW};

pub struct Bound {
    pub name: String,
    pub case: Case,
    pub lent: Lent,
}

pub const AMPLE: Lent = Lent { rows: 300 * ROW, trace: 4096 * ENTRY, output: 80_000 };
/// Enough for 1,000,000 steps.
pub const LONG: Lent = Lent { rows: 300 * ROW, trace: 1_000_000 * ENTRY, output: 14_100_000 };

const EDGES: [u32; 34] = [
    0,
    1,
    2,
    3,
    4,
    0x7fff_fffc,
    0x7fff_fffd,
    0x7fff_fffe,
    0x7fff_ffff,
    0x8000_0000,
    0x8000_0001,
    0x8000_0002,
    0x8000_0003,
    0x800f_ffff,
    0x8010_0000,
    0x801f_fff0,
    0x801f_fff4,
    0x801f_fff8,
    0x801f_fff9,
    0x801f_fffa,
    0x801f_fffb,
    0x801f_fffc,
    0x801f_fffd,
    0x801f_fffe,
    0x801f_ffff,
    0x8020_0000,
    0x8020_0001,
    0x8020_0002,
    0x8020_0003,
    0x8020_0004,
    0xffff_fffc,
    0xffff_fffd,
    0xffff_fffe,
    0xffff_ffff,
];

/// C.LI x10, 1 and the return.
const END: [u32; 2] = [0x4505, RET];

#[derive(Default)]
struct List(Vec<Bound>);

impl List {
    fn add(&mut self, name: impl Into<String>, case: Case, lent: Lent) {
        self.0.push(Bound { name: name.into(), case, lent });
    }

    fn ample(&mut self, name: impl Into<String>, case: Case) {
        self.add(name, case, AMPLE);
    }

    fn code(&mut self, name: impl Into<String>, instructions: &[u32]) {
        self.ample(name, Case::plain(code(instructions)));
    }
}

/// Code, then the end.
fn ended(build: impl FnOnce(&mut Code)) -> Case {
    let mut code = Code::default();
    build(&mut code);
    code.all(&END);
    Case::plain(code.0)
}

fn sizes(list: &mut List) {
    for size in [0, 1, 2, 3, 4, 5, 13, 32_767, 32_768, 32_769, 1_048_575, 1_048_576, 1_048_577] {
        let mut image = code(&END);
        image.resize(size, 0);
        list.ample(format!("image of {size} bytes"), Case::plain(image));
    }
    for image in [vec![0x82], vec![0x82, 0x80], vec![0x82, 0x80, 0xff], vec![0x13], vec![0x13, 0x05], vec![0x13, 0x05, 0x10]] {
        list.ample(format!("image {image:02x?}"), Case::plain(image));
    }
}

fn symbols(list: &mut List) {
    let image = code(&[addi(5, 0, 1), 0x4505, RET, 0x0001, 0x4505, RET]);
    for at in EDGES.into_iter().chain(0x8000_0000..0x8000_0010).chain(0x801f_ffc0..0x801f_ffff) {
        let plain = Case::plain(image.clone());
        list.ample(format!("entry {at:08x}"), Case { entry: at, ..plain.clone() });
        list.ample(format!("event count at {at:08x}"), Case { event_count: at, ..plain.clone() });
        list.ample(format!("events at {at:08x}"), Case { events: at, ..plain.clone() });
    }
    // an odd entry, with words and halfwords from there on
    for shift in [1, 2, 3] {
        let mut odd = vec![0xff; shift];
        odd.extend(code(&[addi(5, 0, 7), j(6, 6), 0x0001, 0x4505, RET]));
        let plain = Case::plain(odd);
        list.ample(format!("code at {shift}"), Case { entry: 0x8000_0000 + shift as u32, ..plain });
    }
}

fn addresses(list: &mut List) {
    for funct3 in [0, 1, 2, 4, 5] {
        for at in EDGES.into_iter().chain(0x8000_0000..0x8000_0030) {
            for rd in [0, 6] {
                list.ample(
                    format!("load {funct3} into x{rd} at {at:08x}"),
                    ended(|code| {
                        code.constant(5, at).put(load(funct3, rd, 5, 0));
                    }),
                );
            }
            if funct3 < 3 {
                list.ample(
                    format!("store {funct3} at {at:08x}"),
                    ended(|code| {
                        code.constant(5, at).put(s(funct3, 5, 10, 0)).put(load(funct3, 6, 5, 0));
                    }),
                );
            }
            list.ample(
                format!("wrapping load {funct3} at {at:08x}"),
                ended(|code| {
                    code.constant(5, at.wrapping_add(2000)).put(load(funct3, 6, 5, -2000));
                }),
            );
        }
        for base in [0, 2] {
            list.code(format!("load {funct3} through x{base}"), &[load(funct3, 6, base, -1), 0x4505, RET]);
        }
        list.code(format!("load {funct3} through lanes"), &[load(funct3, 0, 10, 0), 0x4505, RET]);
        list.code(format!("load {funct3} through unknown"), &[load(funct3, 0, 11, 0), 0x4505, RET]);
        list.code(format!("store {funct3} through lanes"), &[s(funct3 & 3, 10, 0, 0), 0x4505, RET]);
        list.code(format!("store {funct3} through unknown"), &[s(funct3 & 3, 11, 0, 0), 0x4505, RET]);
    }
}

fn jumps(list: &mut List) {
    for at in EDGES {
        list.ample(
            format!("JALR to {at:08x}"),
            ended(|code| {
                code.constant(5, at).put(0x4505).put(jalr(6, 5, 0));
            }),
        );
    }
    list.code("JALR through lanes", &[jalr(0, 10, 0)]);
    list.code("JALR through unknown", &[jalr(0, 11, 0)]);
    list.code("JALR through lanes into itself", &[jalr(10, 10, 0)]);
    list.ample(
        "JALR through lanes that differ in bit 0",
        ended(|code| {
            code.put(i(0x13, 7, 5, 10, 1)).put(c_add(5, 1)).put(0x4505).put(jalr(0, 5, 0));
        }),
    );
    list.ample(
        "JALR through lanes that differ in bit 1",
        ended(|code| {
            code.put(i(0x13, 7, 5, 10, 2)).put(c_add(5, 1)).put(0x4505).put(jalr(0, 5, 0));
        }),
    );
    list.ample(
        "JALR rd = rs1",
        ended(|code| {
            code.constant(5, 0x8000_000e).put(jalr(5, 5, 0)).put(0x0001);
        }),
    );
    for offset in [-4, -2, -1048576, 1048574, 0x7fffe] {
        list.code(format!("JAL {offset}"), &[j(1, offset), 0x4505, RET]);
    }
    for offset in [-4096, -4, -2, 4094] {
        list.code(format!("BEQ {offset}"), &[b(0, 0, 0, offset), 0x4505, RET]);
    }
    for funct3 in [0, 1, 4, 5, 6, 7] {
        list.code(format!("branch {funct3} on unknown"), &[b(funct3, 11, 11, 4), 0x4505, RET]);
        list.code(format!("branch {funct3} on unknown right"), &[b(funct3, 0, 11, 4), 0x4505, RET]);
        list.code(format!("branch {funct3} on lanes"), &[b(funct3, 10, 10, 4), 0x4505, RET]);
        for value in [5, 6, 7, 254, 255, 256, -1] {
            list.code(
                format!("branch {funct3} on lanes and {value}"),
                &[addi(5, 0, value), b(funct3, 10, 5, 8), 0x0001, 0x0001, 0x4505, RET],
            );
        }
    }
}

fn roles(list: &mut List) {
    list.code("return lanes", &[RET]);
    list.code("return unknown", &[0x852e, RET]);
    list.code("return unknown XOR itself", &[0x8dad, 0x852e, RET]);
    list.code("return known XOR itself", &[r(0, 4, 10, 10, 10), RET]);
    list.code("SLTIU 6", &[0x0065_3513, RET]);
    list.code("SLTIU 7", &[0x0075_3513, RET]);
    for (name, word) in [
        ("ECALL", 0x73),
        ("EBREAK", 0x0010_0073),
        ("C.EBREAK", 0x9002),
        ("MULH", 0x0200_1033),
        ("MULHSU", 0x0200_2033),
        ("MULHU", 0x0200_3033),
        ("zeros", 0),
        ("ones", 0xffff_ffff),
    ] {
        list.code(name, &[word, 0x4505, RET]);
    }
    let at = 0x8010_0000;
    for register in [10, 11] {
        for byte in 0..4 {
            // code past the image of which one byte is not even
            list.ample(
                format!("fetch of x{register} at byte {byte}"),
                ended(|code| {
                    code.constant(5, at).constant(6, addi(0, 0, 0)).put(s(2, 5, 6, 0)).put(s(0, 5, register, byte)).put(jalr(9, 5, 0));
                }),
            );
            list.ample(format!("load of x{register} at byte {byte}, returned"), {
                let mut code = Code::default();
                code.constant(5, at).put(s(2, 5, 0, 0)).put(s(0, 5, register, byte)).put(load(2, 10, 5, 0)).put(RET);
                Case::plain(code.0)
            });
        }
        list.ample(format!("x{register} overwritten"), {
            let mut code = Code::default();
            code.constant(5, at).put(s(2, 5, register, 0)).put(s(2, 5, 0, 0)).put(load(2, 10, 5, 0)).put(RET);
            Case::plain(code.0)
        });
        for part in 0..4 {
            let mut case = ended(|code| {
                code.constant(5, at).put(addi(6, 0, 1));
                if part == 3 {
                    code.put(s(2, 5, register, 0));
                } else {
                    code.put(s(2, 5, register, 4 + 4 * part)).put(s(2, 5, 6, 0));
                }
            });
            case.event_count = at;
            case.events = at + 4;
            list.ample(format!("x{register} as an event's number {part}"), case);
        }
    }
    list.ample(
        "stop overwritten",
        ended(|code| {
            code.put(s(2, 2, 0, 12));
        }),
    );
    list.ample(
        "code up to stop",
        ended(|code| {
            code.constant(5, 0x0001_0001).put(s(2, 2, 5, 8)).put(0x4505).put(jalr(0, 2, 8));
        }),
    );
    list.ample(
        "a word across stop",
        ended(|code| {
            code.constant(5, 0x0513_0001).put(s(2, 2, 5, 8)).put(0x4505).put(jalr(0, 2, 8));
        }),
    );
    for value in [0x0003_0000u32, 0x0001_0000, 0x8082_0001] {
        list.ample(
            format!("past stop, with {value:08x} there"),
            ended(|code| {
                code.constant(5, value).put(s(2, 2, 5, 12)).put(0x4505).put(jalr(0, 2, 14));
            }),
        );
    }
    list.ample(
        "C.EBREAK at stop's second half is never read",
        ended(|code| {
            code.put(0x4505).put(jalr(0, 1, 0));
        }),
    );
}

fn events(list: &mut List) {
    for count in [0, 1, 2, 31, 32, 33, 40] {
        for told in [count, count + 1, 0, 32, 33] {
            let mut case = ended(|code| {
                code.constant(5, 0x8011_0000).constant(6, 0x1234_5678);
                for event in 0..count {
                    code.put(s(2, 5, 6, 4 + 12 * event)).put(s(2, 5, 5, 8 + 12 * event)).put(addi(7, 0, event + 1)).put(s(2, 5, 7, 0));
                }
                if told != count {
                    // the count changed by bytes, which are not recorded
                    code.put(addi(7, 0, told)).put(s(0, 5, 7, 0));
                }
            });
            case.event_count = 0x8011_0000;
            case.events = 0x8011_0004;
            list.ample(format!("{count} events, {told} told"), case.clone());
            for back in [12, 11, 13, 24, 384, 383, 385, 16] {
                if told == count {
                    list.ample(format!("{count} events, {back} before the end"), Case { events: 0x8020_0000 - back, ..case.clone() });
                }
            }
        }
    }
    for (name, funct3) in [("SB", 0), ("SH", 1), ("SW", 2)] {
        for off in [-4, -3, -1, 0, 1, 4] {
            list.ample(format!("{name} at {off} from the count"), {
                let mut case = ended(|code| {
                    code.constant(5, 0x8011_0000).put(addi(6, 0, 1)).put(s(funct3, 5, 6, off));
                });
                case.event_count = 0x8011_0000;
                case
            });
        }
    }
}

/// Loads and fetches across the image's end, with bytes written behind it.
fn image_end(list: &mut List) {
    for register in [6, 10, 11] {
        for back in 0..4 {
            for funct3 in [0, 1, 2, 4, 5] {
                // x5 is the image's end: eight instructions of 4 bytes and the last four bytes
                let mut code = Code::default();
                code.constant(5, 0x8000_0024).constant(6, 0x8182_8384).put(s(2, 5, register, 0)).put(load(funct3, 10, 5, -back));
                code.put(jalr(0, 1, 0)).put(addi(0, 0, 0)).put(0xf1f2_f3f3);
                assert!(code.len() == 0x24);
                list.ample(format!("load {funct3} of x{register} at {back} before the image's end"), Case::plain(code.0));
            }
        }
    }
    for back in 1..4usize {
        for register in [6, 10, 11] {
            // the image has the first bytes of ADDI x10, x0, 291, the rest is written
            let word = addi(10, 0, 291).to_le_bytes();
            let rest = [&word[back..], &[0x82, 0x80, 0][..back]].concat();
            let rest = u32::from_le_bytes(rest.try_into().unwrap());
            let mut code = Code::default();
            code.constant(5, 0x8000_0020 + back as u32).constant(6, rest).put(s(2, 5, register, 0)).put(addi(6, 0, 0x80));
            code.put(s(0, 5, 6, 5 - back as i32)).put(jalr(0, 5, -(back as i32)));
            assert!(code.len() == 0x20);
            code.0.extend(&word[..back]);
            let plain = Case::plain(code.0);
            list.ample(format!("fetch with {back} bytes of the image and x{register}"), plain.clone());
        }
    }
}

/// Stores to six distinct bytes beside stop's, in twelve steps.
fn storing() -> Case {
    ended(|code| {
        code.constant(5, 0x8010_0000).put(s(2, 5, 10, 0)).put(s(0, 5, 10, 3)).put(s(1, 5, 0, 3)).put(s(0, 5, 11, 9)).put(s(2, 5, 0, 0));
    })
}

fn lent(list: &mut List) {
    let cases = [
        ("six bytes", storing()),
        ("no store", ended(|_| {})),
        (
            "a store to stop",
            ended(|code| {
                code.put(s(2, 1, 0, 0));
            }),
        ),
        (
            "a store across stop",
            ended(|code| {
                code.put(s(2, 1, 0, -2));
            }),
        ),
        (
            "a refused store",
            ended(|code| {
                code.put(s(2, 2, 0, -4)).put(s(2, 2, 0, 14));
            }),
        ),
        (
            "an unknown branch",
            ended(|code| {
                code.put(s(2, 2, 0, -4)).put(b(0, 11, 0, 4));
            }),
        ),
        ("an empty image", Case::plain(Vec::new())),
        ("a symbol outside", Case { events: 0, ..Case::plain(code(&END)) }),
        ("entry at stop", Case { entry: 0x801f_fffc, ..Case::plain(code(&END)) }),
    ];
    for (name, case) in cases {
        for rows in 0..14 {
            for rest in [0, 1, 100, 263] {
                list.add(format!("{name}, {rows} rows and {rest} bytes"), case.clone(), Lent { rows: rows * ROW + rest, ..AMPLE });
            }
        }
        for entries in 0..14 {
            for rest in [0, 1, 12] {
                list.add(
                    format!("{name}, {entries} entries and {rest} bytes"),
                    case.clone(),
                    Lent { trace: entries * ENTRY + rest, ..AMPLE },
                );
                list.add(
                    format!("{name}, {entries} entries and {rest} bytes, 6 rows"),
                    case.clone(),
                    Lent { trace: entries * ENTRY + rest, rows: 6 * ROW, ..AMPLE },
                );
            }
        }
        for output in (0..24).chain([34, 35, 36, 37, 48, 49, 50, 62, 63, 64, 100, 147, 148, 149]) {
            list.add(format!("{name}, {output} bytes of output"), case.clone(), Lent { output, ..AMPLE });
        }
    }
    // bytes whose addresses leave the same remainder by the number of rows, stored and read back, up to the last row
    for rows in 4..20u32 {
        for first in 0..rows {
            for bytes in [rows - 4, rows - 3] {
                let start = 0x8010_0000 + first;
                let case = ended(|code| {
                    (0..bytes).for_each(|byte| {
                        code.constant(5, start + byte * rows).put(addi(6, 10, byte as i32)).put(s(0, 5, 6, 0));
                    });
                    code.put(addi(7, 0, 0));
                    (0..bytes).for_each(|byte| {
                        code.constant(5, start + byte * rows)
                            .put(load(4, 6, 5, 0))
                            .put(r(0x20, 0, 6, 6, 10))
                            .put(c_slli(7, 1))
                            .put(c_add(7, 6));
                    });
                    code.put(i(0x13, 7, 10, 7, 255)).put(RET);
                });
                list.add(format!("{bytes} bytes of remainder {first}, {rows} rows"), case, Lent { rows: rows as usize * ROW, ..AMPLE });
            }
        }
    }
    // many bytes in one row's neighbourhood and far apart
    for (name, stride) in [("dense", 1), ("strided", 264), ("far apart", 4096)] {
        let case = ended(|code| {
            code.constant(5, 0x8010_0000).constant(6, stride).put(addi(8, 0, 196));
            code.put(s(0, 5, 10, 0)).put(r(0, 0, 5, 5, 6)).put(addi(8, 8, -1)).put(b(1, 8, 0, -12));
        });
        for rows in [199, 200, 201] {
            list.add(format!("200 {name} bytes, {rows} rows"), case.clone(), Lent { rows: rows * ROW, ..AMPLE });
        }
    }
}

/// A loop of `2 * count + 4 + nops` steps, the end included.
pub fn counted(count: u32, nops: usize) -> Case {
    ended(|code| {
        code.constant(5, count).put(addi(5, 5, -1)).put(b(1, 5, 0, -4));
        (0..nops).for_each(|_| {
            code.put(0x0001);
        });
    })
}

/// Cases that take a million steps.
fn long(list: &mut List) {
    list.add("999,999 steps", counted(499_997, 1), LONG);
    list.add("1,000,000 steps", counted(499_998, 0), LONG);
    list.add("1,000,001 steps", counted(499_998, 1), LONG);
    list.add("a loop without end", Case::plain(code(&[0xa001])), LONG);
    list.add("1,000,000 steps, one entry short", counted(499_998, 0), Lent { trace: 999_999 * ENTRY + 12, ..LONG });
    list.add("1,000,001 steps, one entry short", counted(499_998, 1), Lent { trace: 999_999 * ENTRY, ..LONG });
}

pub fn short() -> Vec<Bound> {
    let mut list = List::default();
    list.ample("document 01's example", Case { event_count: 0x8000_1000, events: 0x8000_1004, ..Case::plain(code(&END)) });
    sizes(&mut list);
    symbols(&mut list);
    addresses(&mut list);
    jumps(&mut list);
    roles(&mut list);
    events(&mut list);
    image_end(&mut list);
    lent(&mut list);
    list.0
}

pub fn steps() -> Vec<Bound> {
    let mut list = List::default();
    long(&mut list);
    list.0
}
