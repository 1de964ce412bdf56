//! The interpreter of rrv in plain Rust, without proofs, to measure against: a decoder to an enum, and a step over an ordered map
//! of pages. It runs a static RV32IMA program up to its first call or fault and says how many instructions that took.

mod elf;
mod instr;

use elf::{Page, STACK_POINTER};
use instr::{Instr, decode, operation};
use std::collections::BTreeMap;
use std::{env, fs, process};

enum Stepped {
    Next,
    Call,
    Fault,
}

struct Machine {
    pages: BTreeMap<u32, Page>,
    pc: u32,
    registers: [u32; 32],
    reservation: Option<u32>,
}

impl Machine {
    #[inline(always)]
    fn fetch(&self, address: u32) -> Option<u32> {
        let at = (address % 4096) as usize;
        let page = self.pages.get(&(address / 4096))?;
        if !page.permissions.execute {
            return None;
        }
        Some(u32::from_le_bytes(page.bytes[at..at + 4].try_into().ok()?))
    }

    #[inline(always)]
    fn load(&self, address: u32, count: usize) -> Option<u32> {
        let at = (address % 4096) as usize;
        if at + count > 4096 {
            let mut value = 0;
            for k in 0..count as u32 {
                value |= self.load(address.checked_add(k)?, 1)? << (8 * k);
            }
            return Some(value);
        }
        let page = self.pages.get(&(address / 4096))?;
        if !page.permissions.read {
            return None;
        }
        let bytes = &page.bytes;
        Some(match count {
            1 => u32::from(bytes[at]),
            2 => u32::from(u16::from_le_bytes([bytes[at], bytes[at + 1]])),
            _ => u32::from_le_bytes(bytes[at..at + 4].try_into().ok()?),
        })
    }

    #[inline(always)]
    fn store(&mut self, address: u32, count: usize, value: u32) -> Option<()> {
        let at = (address % 4096) as usize;
        if at + count > 4096 {
            return self.store_across(address, count, value);
        }
        let page = self.pages.get_mut(&(address / 4096))?;
        if !page.permissions.write {
            return None;
        }
        page.bytes[at..at + count].copy_from_slice(&value.to_le_bytes()[..count]);
        Some(())
    }

    #[cold]
    fn store_across(&mut self, address: u32, count: usize, value: u32) -> Option<()> {
        for k in 0..count as u32 {
            let page = self.pages.get(&(address.checked_add(k)? / 4096))?;
            if !page.permissions.write {
                return None;
            }
        }
        for k in 0..count as u32 {
            self.store(address + k, 1, value >> (8 * k))?;
        }
        Some(())
    }

    #[inline(always)]
    fn set(&mut self, rd: u8, value: u32) {
        if rd != 0 {
            self.registers[rd as usize & 31] = value;
        }
    }

    #[inline(always)]
    fn get(&self, r: u8) -> u32 {
        self.registers[r as usize & 31]
    }

    #[inline(always)]
    fn step(&mut self) -> Stepped {
        match self.try_step() {
            Some(stepped) => stepped,
            None => Stepped::Fault,
        }
    }

    #[inline(always)]
    fn try_step(&mut self) -> Option<Stepped> {
        let pc = self.pc;
        if pc % 4 != 0 {
            return None;
        }
        let mut next = pc.wrapping_add(4);
        match decode(self.fetch(pc)?)? {
            Instr::Lui { rd, immediate } => self.set(rd, immediate),
            Instr::Auipc { rd, immediate } => self.set(rd, pc.wrapping_add(immediate)),
            Instr::Jal { rd, offset } => {
                let target = pc.wrapping_add(offset);
                if target % 4 != 0 {
                    return None;
                }
                self.set(rd, next);
                next = target;
            }
            Instr::Jalr { rd, rs1, immediate } => {
                let target = self.get(rs1).wrapping_add(immediate) & !1;
                if target % 4 != 0 {
                    return None;
                }
                self.set(rd, next);
                next = target;
            }
            Instr::Branch { test, rs1, rs2, offset } => {
                let (a, b) = (self.get(rs1), self.get(rs2));
                let taken = match test {
                    0 => a == b,
                    1 => a != b,
                    4 => (a as i32) < b as i32,
                    5 => (a as i32) >= b as i32,
                    6 => a < b,
                    _ => a >= b,
                };
                if taken {
                    next = pc.wrapping_add(offset);
                    if next % 4 != 0 {
                        return None;
                    }
                }
            }
            Instr::Load { kind, rd, rs1, immediate } => {
                let address = self.get(rs1).wrapping_add(immediate);
                let value = match kind {
                    0 => self.load(address, 1)? as i8 as u32,
                    1 => self.load(address, 2)? as i16 as u32,
                    2 => self.load(address, 4)?,
                    4 => self.load(address, 1)?,
                    _ => self.load(address, 2)?,
                };
                self.set(rd, value);
            }
            Instr::Store { kind, rs1, rs2, immediate } => {
                let address = self.get(rs1).wrapping_add(immediate);
                let value = self.get(rs2);
                match kind {
                    0 => self.store(address, 1, value)?,
                    1 => self.store(address, 2, value)?,
                    _ => self.store(address, 4, value)?,
                }
            }
            Instr::OpImm { op, rd, rs1, immediate } => {
                let value = operation(op, self.get(rs1), immediate);
                self.set(rd, value);
            }
            Instr::Shift { op, rd, rs1, amount } => {
                let a = self.get(rs1);
                let value = match op {
                    0 => a << amount,
                    1 => a >> amount,
                    _ => (a as i32 >> amount) as u32,
                };
                self.set(rd, value);
            }
            Instr::Op { op, rd, rs1, rs2 } => {
                let value = operation(op, self.get(rs1), self.get(rs2));
                self.set(rd, value);
            }
            Instr::Fence => {}
            Instr::Ecall => {
                self.pc = next;
                return Some(Stepped::Call);
            }
            Instr::Ebreak => return None,
            Instr::Lr { rd, rs1 } => {
                let address = self.aligned(rs1)?;
                let value = self.load(address, 4)?;
                self.reservation = Some(address);
                self.set(rd, value);
            }
            Instr::Sc { rd, rs1, rs2 } => {
                let address = self.aligned(rs1)?;
                let old = self.load(address, 4)?;
                let succeeds = self.reservation == Some(address);
                let value = if succeeds { self.get(rs2) } else { old };
                self.store(address, 4, value)?;
                self.reservation = None;
                self.set(rd, u32::from(!succeeds));
            }
            Instr::Amo { op, rd, rs1, rs2 } => {
                let address = self.aligned(rs1)?;
                let (a, b) = (self.load(address, 4)?, self.get(rs2));
                let value = match op {
                    0 => a.wrapping_add(b),
                    1 => b,
                    4 => a ^ b,
                    8 => a | b,
                    12 => a & b,
                    16 => (a as i32).min(b as i32) as u32,
                    20 => (a as i32).max(b as i32) as u32,
                    24 => a.min(b),
                    _ => a.max(b),
                };
                self.store(address, 4, value)?;
                self.set(rd, a);
            }
        }
        self.pc = next;
        Some(Stepped::Next)
    }

    fn aligned(&self, rs1: u8) -> Option<u32> {
        let address = self.get(rs1);
        (address % 4 == 0).then_some(address)
    }
}

fn main() {
    let Some(path) = env::args().nth(1) else { process::exit(2) };
    let file = fs::read(path).expect("a file");
    let program = elf::open(&file).expect("a program");
    let mut registers = [0; 32];
    registers[2] = STACK_POINTER;
    let mut machine = Machine { pages: program.pages, pc: program.entry, registers, reservation: None };
    let mut steps = 0u64;
    let end = loop {
        steps += 1;
        match machine.step() {
            Stepped::Next => {}
            Stepped::Call => break "call",
            Stepped::Fault => break "fault",
        }
    };
    println!("{steps} instructions, then {end}");
}
