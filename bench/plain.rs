//! The instructions of a code text, run by a plain loop: what the machine is measured against.
//!
//! `plain FILE NAME CALLS REGION WORD..` does what `exec` does with a text that is valid. One stack holds the
//! slots of all calls; a word of memory is moved at once, and of an access only the region's end is tested.
use std::env;
use std::fs;
use std::process::exit;

enum Op {
    Add,
    Sub,
    Mul,
    And,
    Or,
    Xor,
    Eq,
    Lt,
}

enum Instr {
    Const(usize, u64),
    Copy(usize, usize),
    Alu(Op, u8, usize, usize, usize),
    Take(usize, usize, u8, u8),
    Put(usize, usize, u8, u8),
    Load(usize, usize, u64, u8),
    Store(usize, u64, u8, usize),
    Place(usize, u64, u64),
    Jump(usize),
    Switch(usize, Option<usize>, Vec<(u64, usize)>),
    Call(usize, Vec<usize>, Vec<usize>),
    Return(Vec<usize>),
}

struct Fun {
    name: String,
    slots: usize,
    body: Vec<Instr>,
}

struct Frame {
    fun: usize,
    pc: usize,
    base: usize,
}

fn number<T: std::str::FromStr>(word: &str) -> T {
    word.parse().unwrap_or_else(|_| panic!("no number: {word}"))
}

fn instr(words: &[&str]) -> Instr {
    let at = |i: usize| number::<usize>(words[i]);
    let bits = |i: usize| number::<u8>(words[i]);
    match words[0] {
        "const" => Instr::Const(at(1), number(words[2])),
        "copy" => Instr::Copy(at(1), at(2)),
        "alu" => {
            let op = match words[1] {
                "add" => Op::Add,
                "sub" => Op::Sub,
                "mul" => Op::Mul,
                "and" => Op::And,
                "or" => Op::Or,
                "xor" => Op::Xor,
                "eq" => Op::Eq,
                "lt" => Op::Lt,
                other => panic!("no operation: {other}"),
            };
            Instr::Alu(op, bits(2), at(3), at(4), at(5))
        }
        "take" => Instr::Take(at(1), at(2), bits(3), bits(4)),
        "put" => Instr::Put(at(1), at(2), bits(3), bits(4)),
        "load" => Instr::Load(at(1), at(2), number(words[3]), bits(4)),
        "store" => Instr::Store(at(1), number(words[2]), bits(3), at(4)),
        "place" => Instr::Place(at(1), number(words[2]), number(words[3])),
        "jump" => Instr::Jump(at(1)),
        "switch" => {
            let other = (words[2] != "-").then(|| at(2));
            let arms = words[3..].chunks(2).map(|arm| (number(arm[0]), number(arm[1])));
            Instr::Switch(at(1), other, arms.collect())
        }
        "call" => {
            let middle = words.iter().position(|word| *word == "of").expect("a call has an `of`");
            let slots = |some: &[&str]| some.iter().map(|word| number(word)).collect();
            Instr::Call(at(1), slots(&words[2..middle]), slots(&words[middle + 1..]))
        }
        "return" => Instr::Return(words[1..].iter().map(|word| number(word)).collect()),
        other => panic!("no instruction: {other}"),
    }
}

fn read(text: &str) -> Vec<Fun> {
    let mut funs = Vec::new();
    for line in text.lines() {
        let words: Vec<&str> = line.split(' ').collect();
        match words[0] {
            "fun" => funs.push(Fun {
                name: words[1].to_string(),
                slots: number(words[4]),
                body: Vec::new(),
            }),
            "end" => {}
            _ => funs.last_mut().expect("a function").body.push(instr(&words)),
        }
    }
    funs
}

/// The low bits of a word.
fn low(word: u64, bits: u8) -> u64 {
    word & (u64::MAX >> (64 - bits))
}

fn alu(op: &Op, bits: u8, left: u64, right: u64) -> u64 {
    match op {
        Op::Add => low(left.wrapping_add(right), bits),
        Op::Sub => low(left.wrapping_sub(right), bits),
        Op::Mul => low(left.wrapping_mul(right), bits),
        Op::And => low(left & right, bits),
        Op::Or => low(left | right, bits),
        Op::Xor => low(left ^ right, bits),
        Op::Eq => u64::from(left == right),
        Op::Lt => u64::from(left < right),
    }
}

fn load(bytes: &[u8], at: usize, width: u8) -> u64 {
    match width {
        8 => u64::from(bytes[at]),
        16 => u64::from(u16::from_le_bytes(bytes[at..at + 2].try_into().unwrap())),
        32 => u64::from(u32::from_le_bytes(bytes[at..at + 4].try_into().unwrap())),
        _ => u64::from_le_bytes(bytes[at..at + 8].try_into().unwrap()),
    }
}

fn store(bytes: &mut [u8], at: usize, width: u8, word: u64) {
    match width {
        8 => bytes[at] = word as u8,
        16 => bytes[at..at + 2].copy_from_slice(&(word as u16).to_le_bytes()),
        32 => bytes[at..at + 4].copy_from_slice(&(word as u32).to_le_bytes()),
        _ => bytes[at..at + 8].copy_from_slice(&word.to_le_bytes()),
    }
}

/// The results, or why there are none.
fn run(funs: &[Fun], first: usize, words: &[u64], calls: u64, region: usize) -> Result<Vec<u64>, String> {
    let mut left = calls.checked_sub(1).ok_or("calls spent")?;
    let mut bytes = vec![0u8; region];
    let mut end = 64;
    let (mut fun, mut pc, mut base) = (first, 0, 0);
    let mut body = &funs[fun].body[..];
    let mut frames: Vec<Frame> = Vec::new();
    let mut stack = words.to_vec();
    stack.resize(funs[fun].slots, 0);
    loop {
        let slots = &mut stack[base..];
        let next = pc + 1;
        pc = match &body[pc] {
            Instr::Const(d, n) => {
                slots[*d] = *n;
                next
            }
            Instr::Copy(d, a) => {
                slots[*d] = slots[*a];
                next
            }
            Instr::Alu(op, n, d, a, b) => {
                slots[*d] = alu(op, *n, slots[*a], slots[*b]);
                next
            }
            Instr::Take(d, a, o, l) => {
                slots[*d] = low(slots[*a] >> o, *l);
                next
            }
            Instr::Put(d, a, o, l) => {
                let held = u64::MAX >> (64 - l) << o;
                slots[*d] = slots[*d] & !held | slots[*a] << o & held;
                next
            }
            Instr::Load(d, a, offset, width) => {
                slots[*d] = load(&bytes, (slots[*a] + offset) as usize, *width);
                next
            }
            Instr::Store(a, offset, width, v) => {
                store(&mut bytes, (slots[*a] + offset) as usize, *width, slots[*v]);
                next
            }
            Instr::Place(d, size, align) => {
                let at = (end + align - 1) / align * align;
                if at + size > region as u64 {
                    return Err("region full".to_string());
                }
                end = at + size;
                slots[*d] = at;
                next
            }
            Instr::Jump(t) => *t,
            Instr::Switch(a, other, arms) => {
                let word = slots[*a];
                let arm = arms.iter().find(|arm| arm.0 == word).map(|arm| arm.1);
                arm.or(*other).ok_or("no arm")?
            }
            Instr::Call(f, _, froms) => {
                left = left.checked_sub(1).ok_or("calls spent")?;
                frames.push(Frame { fun, pc, base });
                let top = stack.len();
                for from in froms {
                    stack.push(stack[base + from]);
                }
                (fun, base) = (*f, top);
                stack.resize(base + funs[fun].slots, 0);
                body = &funs[fun].body;
                0
            }
            Instr::Return(froms) => {
                let Some(frame) = frames.pop() else {
                    return Ok(froms.iter().map(|from| slots[*from]).collect());
                };
                body = &funs[frame.fun].body;
                if let Instr::Call(_, dests, _) = &body[frame.pc] {
                    for (dest, from) in dests.iter().zip(froms) {
                        stack[frame.base + dest] = stack[base + from];
                    }
                }
                stack.truncate(base);
                (fun, base) = (frame.fun, frame.base);
                frame.pc + 1
            }
        };
    }
}

fn main() {
    let words: Vec<String> = env::args().skip(1).collect();
    let [file, name, calls, region, given @ ..] = &words[..] else {
        panic!("plain FILE NAME CALLS REGION WORD..");
    };
    let funs = read(&fs::read_to_string(file).expect("a file"));
    let first = funs.iter().position(|fun| fun.name == *name).expect("the function is there");
    let given: Vec<u64> = given.iter().map(|word| number(word)).collect();
    match run(&funs, first, &given, number(calls), number(region)) {
        Ok(words) => {
            let shown: Vec<String> = words.iter().map(|word| word.to_string()).collect();
            println!("{}", shown.join(" "));
        }
        Err(why) => {
            eprintln!("plain: {why}");
            exit(1);
        }
    }
}
