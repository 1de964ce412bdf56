//! The interpreter of rrv in plain Rust, without proofs, to measure against: a cache of decoded pages, eight bytes an instruction, and
//! an address space of two levels over a pool of counted pages. It runs a static RV32IMA program up to its first call or fault and says
//! how many instructions that took.

mod elf;
mod instr;

use elf::{Permissions, Program, STACK_POINTER};
use instr::{Instr, decode, operation};
use std::{env, fs, process};

#[derive(Clone, Copy)]
struct Entry {
    key: u32,
    permissions: Permissions,
}

struct Page {
    /// How many tables have it.
    count: u32,
    bytes: Box<[u8; 4096]>,
}

struct Space {
    tables: Vec<Option<Box<[Option<Entry>; 1024]>>>,
    pool: Vec<Page>,
}

#[derive(Clone, Copy)]
enum Operation {
    Bad,
    Nothing,
    Lui,
    Auipc,
    Jal,
    Jalr,
    Beq,
    Bne,
    Blt,
    Bge,
    Bltu,
    Bgeu,
    Lb,
    Lh,
    Lw,
    Lbu,
    Lhu,
    Sb,
    Sh,
    Sw,
    Addi,
    Slti,
    Sltiu,
    Xori,
    Ori,
    Andi,
    Slli,
    Srli,
    Srai,
    Add,
    Sub,
    Sll,
    Slt,
    Sltu,
    Xor,
    Srl,
    Sra,
    Or,
    And,
    Mul,
    Mulh,
    Mulhsu,
    Mulhu,
    Div,
    Divu,
    Rem,
    Remu,
    Ecall,
    Lr,
    Sc,
    AmoAdd,
    AmoSwap,
    AmoXor,
    AmoOr,
    AmoAnd,
    AmoMin,
    AmoMax,
    AmoMinu,
    AmoMaxu,
}

/// An instruction as the cache has it.
#[derive(Clone, Copy)]
struct Flat {
    operation: Operation,
    rd: u8,
    rs1: u8,
    /// The second register, or a shift's amount.
    rs2: u8,
    immediate: u32,
}

const _: () = assert!(size_of::<Flat>() == 8);

struct CodePage {
    number: u32,
    instrs: Box<[Flat; 1024]>,
}

enum Stepped {
    Next,
    Call,
    Fault,
}

struct Machine {
    space: Space,
    pc: u32,
    registers: [u32; 32],
    reservation: Option<u32>,
}

/// A page stands at its number modulo this.
const SLOTS: usize = 1024;

#[rustfmt::skip]
fn flatten(instr: Option<Instr>) -> Flat {
    use Operation::*;
    let flat = |operation, rd, rs1, rs2, immediate| Flat { operation, rd, rs1, rs2, immediate };
    match instr {
        None | Some(Instr::Ebreak) => flat(Bad, 0, 0, 0, 0),
        Some(Instr::Lui { rd, immediate }) => flat(Lui, rd, 0, 0, immediate),
        Some(Instr::Auipc { rd, immediate }) => flat(Auipc, rd, 0, 0, immediate),
        Some(Instr::Jal { rd, offset }) => flat(Jal, rd, 0, 0, offset),
        Some(Instr::Jalr { rd, rs1, immediate }) => flat(Jalr, rd, rs1, 0, immediate),
        Some(Instr::Branch { test, rs1, rs2, offset }) => {
            flat(match test { 0 => Beq, 1 => Bne, 4 => Blt, 5 => Bge, 6 => Bltu, _ => Bgeu }, 0, rs1, rs2, offset)
        }
        Some(Instr::Load { kind, rd, rs1, immediate }) => {
            flat(match kind { 0 => Lb, 1 => Lh, 2 => Lw, 4 => Lbu, _ => Lhu }, rd, rs1, 0, immediate)
        }
        Some(Instr::Store { kind, rs1, rs2, immediate }) => flat(match kind { 0 => Sb, 1 => Sh, _ => Sw }, 0, rs1, rs2, immediate),
        Some(Instr::OpImm { op, rd, rs1, immediate }) => {
            flat(match op { 0 => Addi, 2 => Slti, 3 => Sltiu, 4 => Xori, 6 => Ori, _ => Andi }, rd, rs1, 0, immediate)
        }
        Some(Instr::Shift { op, rd, rs1, amount }) => flat(match op { 0 => Slli, 1 => Srli, _ => Srai }, rd, rs1, amount, 0),
        Some(Instr::Op { op, rd, rs1, rs2 }) => {
            let operation = match op {
                0 => Add, 1 => Sll, 2 => Slt, 3 => Sltu, 4 => Xor, 5 => Srl, 6 => Or, 7 => And, 8 => Sub, 13 => Sra,
                16 => Mul, 17 => Mulh, 18 => Mulhsu, 19 => Mulhu, 20 => Div, 21 => Divu, 22 => Rem, _ => Remu,
            };
            flat(operation, rd, rs1, rs2, 0)
        }
        Some(Instr::Fence) => flat(Nothing, 0, 0, 0, 0),
        Some(Instr::Ecall) => flat(Ecall, 0, 0, 0, 0),
        Some(Instr::Lr { rd, rs1 }) => flat(Lr, rd, rs1, 0, 0),
        Some(Instr::Sc { rd, rs1, rs2 }) => flat(Sc, rd, rs1, rs2, 0),
        Some(Instr::Amo { op, rd, rs1, rs2 }) => {
            let operation = match op {
                0 => AmoAdd, 1 => AmoSwap, 4 => AmoXor, 8 => AmoOr, 12 => AmoAnd, 16 => AmoMin, 20 => AmoMax, 24 => AmoMinu, _ => AmoMaxu,
            };
            flat(operation, rd, rs1, rs2, 0)
        }
    }
}

impl Space {
    fn of(program: Program) -> (Space, u32) {
        let mut space = Space { tables: (0..1024).map(|_| None).collect(), pool: Vec::new() };
        for (number, page) in program.pages {
            let table = space.tables[number as usize / 1024].get_or_insert_with(|| Box::new([None; 1024]));
            table[number as usize % 1024] = Some(Entry { key: space.pool.len() as u32, permissions: page.permissions });
            space.pool.push(Page { count: 1, bytes: page.bytes });
        }
        (space, program.entry)
    }

    #[inline(always)]
    fn entry(&self, number: u32) -> Option<Entry> {
        self.tables[number as usize / 1024 & 1023].as_ref()?[number as usize % 1024]
    }

    #[inline(always)]
    fn load(&self, address: u32, count: usize) -> Option<u32> {
        let at = (address % 4096) as usize;
        if at + count > 4096 {
            return self.load_across(address, count);
        }
        let entry = self.entry(address / 4096)?;
        if !entry.permissions.read {
            return None;
        }
        let bytes = &self.pool.get(entry.key as usize)?.bytes;
        Some(match count {
            1 => u32::from(bytes[at]),
            2 => u32::from(u16::from_le_bytes([bytes[at], bytes[at + 1]])),
            _ => u32::from_le_bytes(bytes[at..at + 4].try_into().ok()?),
        })
    }

    #[cold]
    #[inline(never)]
    fn load_across(&self, address: u32, count: usize) -> Option<u32> {
        let mut value = 0;
        for k in 0..count as u32 {
            value |= self.load(address.checked_add(k)?, 1)? << (8 * k);
        }
        Some(value)
    }

    #[inline(always)]
    fn store(&mut self, address: u32, count: usize, value: u32) -> Option<()> {
        let at = (address % 4096) as usize;
        if at + count > 4096 {
            return self.store_across(address, count, value);
        }
        let entry = self.entry(address / 4096)?;
        if !entry.permissions.write {
            return None;
        }
        let page = self.pool.get_mut(entry.key as usize)?;
        if page.count > 1 {
            return self.store_shared(address, count, value);
        }
        page.bytes[at..at + count].copy_from_slice(&value.to_le_bytes()[..count]);
        Some(())
    }

    #[cold]
    #[inline(never)]
    fn store_across(&mut self, address: u32, count: usize, value: u32) -> Option<()> {
        for k in 0..count as u32 {
            if !self.entry(address.checked_add(k)? / 4096)?.permissions.write {
                return None;
            }
        }
        for k in 0..count as u32 {
            self.store(address + k, 1, value >> (8 * k))?;
        }
        Some(())
    }

    /// Stores to a copy of a page that other tables have too.
    #[cold]
    #[inline(never)]
    fn store_shared(&mut self, address: u32, count: usize, value: u32) -> Option<()> {
        let number = address as usize / 4096;
        let key = self.pool.len() as u32;
        let entry = self.tables[number / 1024].as_mut()?[number % 1024].as_mut()?;
        let shared = &mut self.pool[entry.key as usize];
        shared.count -= 1;
        let bytes = shared.bytes.clone();
        entry.key = key;
        self.pool.push(Page { count: 1, bytes });
        self.store(address, count, value)
    }
}

impl Machine {
    #[inline(always)]
    fn set(&mut self, rd: u8, value: u32) {
        if rd != 0 {
            self.registers[rd as usize & 31] = value;
        }
    }

    #[inline(always)]
    fn get(&self, r: u8) -> u32 {
        self.registers[r as usize & 31]
    }

    #[inline(always)]
    fn jump(&mut self, rd: u8, target: u32) -> Option<Stepped> {
        if target % 4 != 0 {
            return None;
        }
        self.set(rd, self.pc.wrapping_add(4));
        self.pc = target;
        Some(Stepped::Next)
    }

    #[inline(always)]
    fn branch(&mut self, taken: bool, offset: u32) -> Option<Stepped> {
        let next = self.pc.wrapping_add(if taken { offset } else { 4 });
        if next % 4 != 0 {
            return None;
        }
        self.pc = next;
        Some(Stepped::Next)
    }

    #[inline(always)]
    fn next(&mut self) -> Option<Stepped> {
        self.pc = self.pc.wrapping_add(4);
        Some(Stepped::Next)
    }

    #[inline(always)]
    fn give(&mut self, rd: u8, value: u32) -> Option<Stepped> {
        self.set(rd, value);
        self.next()
    }

    #[inline(always)]
    fn operate(&mut self, op: u8, flat: &Flat) -> Option<Stepped> {
        let value = operation(op, self.get(flat.rs1), self.get(flat.rs2));
        self.give(flat.rd, value)
    }

    #[inline(always)]
    fn load(&mut self, flat: &Flat, count: usize, extended: impl Fn(u32) -> u32) -> Option<Stepped> {
        let value = self.space.load(self.get(flat.rs1).wrapping_add(flat.immediate), count)?;
        self.give(flat.rd, extended(value))
    }

    #[inline(always)]
    fn store(&mut self, flat: &Flat, count: usize) -> Option<Stepped> {
        self.space.store(self.get(flat.rs1).wrapping_add(flat.immediate), count, self.get(flat.rs2))?;
        self.next()
    }

    fn aligned(&self, rs1: u8) -> Option<u32> {
        let address = self.get(rs1);
        (address % 4 == 0).then_some(address)
    }

    fn amo(&mut self, flat: &Flat, combined: impl Fn(u32, u32) -> u32) -> Option<Stepped> {
        let address = self.aligned(flat.rs1)?;
        let old = self.space.load(address, 4)?;
        self.space.store(address, 4, combined(old, self.get(flat.rs2)))?;
        self.give(flat.rd, old)
    }

    fn load_reserved(&mut self, flat: &Flat) -> Option<Stepped> {
        let address = self.aligned(flat.rs1)?;
        let value = self.space.load(address, 4)?;
        self.reservation = Some(address);
        self.give(flat.rd, value)
    }

    fn store_conditional(&mut self, flat: &Flat) -> Option<Stepped> {
        let address = self.aligned(flat.rs1)?;
        let old = self.space.load(address, 4)?;
        let succeeds = self.reservation == Some(address);
        self.space.store(address, 4, if succeeds { self.get(flat.rs2) } else { old })?;
        self.reservation = None;
        self.give(flat.rd, u32::from(!succeeds))
    }

    #[inline(always)]
    fn perform(&mut self, flat: &Flat) -> Option<Stepped> {
        let (a, b) = (self.get(flat.rs1), self.get(flat.rs2));
        match flat.operation {
            Operation::Bad => None,
            Operation::Nothing => self.next(),
            Operation::Lui => self.give(flat.rd, flat.immediate),
            Operation::Auipc => self.give(flat.rd, self.pc.wrapping_add(flat.immediate)),
            Operation::Jal => self.jump(flat.rd, self.pc.wrapping_add(flat.immediate)),
            Operation::Jalr => self.jump(flat.rd, a.wrapping_add(flat.immediate) & !1),
            Operation::Beq => self.branch(a == b, flat.immediate),
            Operation::Bne => self.branch(a != b, flat.immediate),
            Operation::Blt => self.branch((a as i32) < b as i32, flat.immediate),
            Operation::Bge => self.branch((a as i32) >= b as i32, flat.immediate),
            Operation::Bltu => self.branch(a < b, flat.immediate),
            Operation::Bgeu => self.branch(a >= b, flat.immediate),
            Operation::Lb => self.load(flat, 1, |value| value as i8 as u32),
            Operation::Lh => self.load(flat, 2, |value| value as i16 as u32),
            Operation::Lw => self.load(flat, 4, |value| value),
            Operation::Lbu => self.load(flat, 1, |value| value),
            Operation::Lhu => self.load(flat, 2, |value| value),
            Operation::Sb => self.store(flat, 1),
            Operation::Sh => self.store(flat, 2),
            Operation::Sw => self.store(flat, 4),
            Operation::Addi => self.give(flat.rd, a.wrapping_add(flat.immediate)),
            Operation::Slti => self.give(flat.rd, operation(2, a, flat.immediate)),
            Operation::Sltiu => self.give(flat.rd, operation(3, a, flat.immediate)),
            Operation::Xori => self.give(flat.rd, a ^ flat.immediate),
            Operation::Ori => self.give(flat.rd, a | flat.immediate),
            Operation::Andi => self.give(flat.rd, a & flat.immediate),
            Operation::Slli => self.give(flat.rd, a << (flat.rs2 & 31)),
            Operation::Srli => self.give(flat.rd, a >> (flat.rs2 & 31)),
            Operation::Srai => self.give(flat.rd, (a as i32 >> (flat.rs2 & 31)) as u32),
            Operation::Add => self.operate(0, flat),
            Operation::Sll => self.operate(1, flat),
            Operation::Slt => self.operate(2, flat),
            Operation::Sltu => self.operate(3, flat),
            Operation::Xor => self.operate(4, flat),
            Operation::Srl => self.operate(5, flat),
            Operation::Or => self.operate(6, flat),
            Operation::And => self.operate(7, flat),
            Operation::Sub => self.operate(8, flat),
            Operation::Sra => self.operate(13, flat),
            Operation::Mul => self.operate(16, flat),
            Operation::Mulh => self.operate(17, flat),
            Operation::Mulhsu => self.operate(18, flat),
            Operation::Mulhu => self.operate(19, flat),
            Operation::Div => self.operate(20, flat),
            Operation::Divu => self.operate(21, flat),
            Operation::Rem => self.operate(22, flat),
            Operation::Remu => self.operate(23, flat),
            Operation::Ecall => {
                self.pc = self.pc.wrapping_add(4);
                Some(Stepped::Call)
            }
            Operation::Lr => self.load_reserved(flat),
            Operation::Sc => self.store_conditional(flat),
            Operation::AmoAdd => self.amo(flat, u32::wrapping_add),
            Operation::AmoSwap => self.amo(flat, |_, new| new),
            Operation::AmoXor => self.amo(flat, |old, new| old ^ new),
            Operation::AmoOr => self.amo(flat, |old, new| old | new),
            Operation::AmoAnd => self.amo(flat, |old, new| old & new),
            Operation::AmoMin => self.amo(flat, |old, new| (old as i32).min(new as i32) as u32),
            Operation::AmoMax => self.amo(flat, |old, new| (old as i32).max(new as i32) as u32),
            Operation::AmoMinu => self.amo(flat, u32::min),
            Operation::AmoMaxu => self.amo(flat, u32::max),
        }
    }

    /// Runs at most so many instructions of one page. It answers how many, and how the last ended.
    #[inline(never)]
    fn run_page(&mut self, page: &CodePage, limit: u64) -> (u64, Stepped) {
        for count in 0..limit {
            if self.pc / 4096 != page.number {
                return (count, Stepped::Next);
            }
            let flat = &page.instrs[(self.pc % 4096 / 4) as usize];
            match self.perform(flat) {
                Some(Stepped::Next) => {}
                Some(stepped) => return (count + 1, stepped),
                None => return (count + 1, Stepped::Fault),
            }
        }
        (limit, Stepped::Next)
    }

    /// One instruction of a page that may be written, or that isn't there.
    #[inline(never)]
    fn step(&mut self) -> Option<Stepped> {
        let entry = self.space.entry(self.pc / 4096)?;
        if self.pc % 4 != 0 || !entry.permissions.execute {
            return None;
        }
        let at = (self.pc % 4096) as usize;
        let word = self.space.pool[entry.key as usize].bytes[at..at + 4].try_into().ok()?;
        self.perform(&flatten(decode(u32::from_le_bytes(word))))
    }

    /// A page's instructions, where it may be run and not written.
    #[cold]
    #[inline(never)]
    fn decode_page(&self, number: u32) -> Option<CodePage> {
        let entry = self.space.entry(number)?;
        if !entry.permissions.execute || entry.permissions.write {
            return None;
        }
        let mut instrs = Box::new([flatten(None); 1024]);
        for (flat, word) in instrs.iter_mut().zip(self.space.pool[entry.key as usize].bytes.chunks_exact(4)) {
            *flat = flatten(decode(u32::from_le_bytes(word.try_into().ok()?)));
        }
        Some(CodePage { number, instrs })
    }

    fn run(&mut self) -> (u64, &'static str) {
        let mut slots: Vec<Option<CodePage>> = (0..SLOTS).map(|_| None).collect();
        let mut steps = 0;
        loop {
            let number = self.pc / 4096;
            let slot = &mut slots[number as usize % SLOTS];
            if slot.as_ref().is_none_or(|page| page.number != number) {
                *slot = self.decode_page(number);
            }
            let (count, stepped) = match slot {
                Some(page) if self.pc % 4 == 0 => self.run_page(page, 50_000),
                _ => (1, self.step().unwrap_or(Stepped::Fault)),
            };
            steps += count;
            match stepped {
                Stepped::Next => {}
                Stepped::Call => return (steps, "call"),
                Stepped::Fault => return (steps, "fault"),
            }
        }
    }
}

fn main() {
    let Some(path) = env::args().nth(1) else { process::exit(2) };
    let file = fs::read(path).expect("a file");
    let (space, pc) = Space::of(elf::open(&file).expect("a program"));
    let mut registers = [0; 32];
    registers[2] = STACK_POINTER;
    let mut machine = Machine { space, pc, registers, reservation: None };
    let (steps, end) = machine.run();
    println!("{steps} instructions, then {end}");
}
