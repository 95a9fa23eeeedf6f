//! The start of a program, how it ends, and the syscalls of the machine as functions (docs/MACHINE.md, "Syscalls").
//!
//! A program has `#[no_mangle] pub extern "C" fn main() -> i8`, and exits with what that returns.
#![no_std]

use core::arch::{asm, global_asm};
use core::panic::PanicInfo;

global_asm!(include_str!("../start.S"), options(raw));

/// The code of a program that panics.
pub const PANIC: i8 = -101;

/// Where an item stands.
#[derive(Clone, Copy)]
#[repr(u64)]
pub enum Source {
    Input = 1,
    Output = 2,
    CellDep = 3,
    HeaderDep = 4,
    GroupInput = 0x0100_0000_0000_0001,
    GroupOutput = 0x0100_0000_0000_0002,
}

#[derive(Clone, Copy)]
#[repr(u64)]
pub enum CellField {
    Capacity,
    DataHash,
    Lock,
    LockHash,
    Type,
    TypeHash,
    OccupiedCapacity,
}

#[derive(Clone, Copy)]
#[repr(u64)]
pub enum HeaderField {
    EpochNumber,
    EpochStartBlockNumber,
    EpochLength,
}

#[derive(Clone, Copy)]
#[repr(u64)]
pub enum InputField {
    OutPoint,
    Since,
}

/// Why nothing was loaded. A source or a field that there is not is fault 5.
#[derive(Clone, Copy, PartialEq, Eq)]
pub enum Error {
    IndexOutOfBound = 1,
    ItemMissing = 2,
    LengthNotEnough = 3,
}

unsafe fn syscall(number: u64, mut a0: u64, a1: u64, a2: u64, a3: u64, a4: u64, a5: u64) -> u64 {
    asm!("ecall", inlateout("a0") a0, in("a1") a1, in("a2") a2, in("a3") a3, in("a4") a4, in("a5") a5, in("a7") number,
        options(nostack));
    a0
}

fn answer(result: u64) -> Result<(), Error> {
    match result {
        0 => Ok(()),
        1 => Err(Error::IndexOutOfBound),
        2 => Err(Error::ItemMissing),
        _ => Err(Error::LengthNotEnough),
    }
}

/// Fills `to` with the bytes of an item from `offset` on, as many as there are, and answers how many the item has from
/// there: it may be more than `to` holds.
fn load(number: u64, to: &mut [u8], offset: usize, a3: u64, a4: u64, a5: u64) -> Result<usize, Error> {
    let mut length = to.len() as u64;
    let place = &mut length as *mut u64 as u64;
    answer(unsafe { syscall(number, to.as_mut_ptr() as u64, place, offset as u64, a3, a4, a5) })?;
    Ok(length as usize)
}

/// Ends the program.
pub fn exit(code: i8) -> ! {
    unsafe { asm!("ecall", in("a0") code as i64, in("a7") 93, options(noreturn)) }
}

/// A text for `ckbtrace`; this node drops it. The last byte is to be zero.
pub fn debug(text: &[u8]) {
    if text.last() == Some(&0) {
        unsafe { syscall(2177, text.as_ptr() as u64, 0, 0, 0, 0, 0) };
    }
}

pub fn load_transaction(to: &mut [u8], offset: usize) -> Result<usize, Error> {
    load(2051, to, offset, 0, 0, 0)
}

pub fn load_script(to: &mut [u8], offset: usize) -> Result<usize, Error> {
    load(2052, to, offset, 0, 0, 0)
}

pub fn load_tx_hash(to: &mut [u8], offset: usize) -> Result<usize, Error> {
    load(2061, to, offset, 0, 0, 0)
}

pub fn load_script_hash(to: &mut [u8], offset: usize) -> Result<usize, Error> {
    load(2062, to, offset, 0, 0, 0)
}

pub fn load_cell(to: &mut [u8], offset: usize, index: usize, source: Source) -> Result<usize, Error> {
    load(2071, to, offset, index as u64, source as u64, 0)
}

pub fn load_header(to: &mut [u8], offset: usize, index: usize, source: Source) -> Result<usize, Error> {
    load(2072, to, offset, index as u64, source as u64, 0)
}

pub fn load_input(to: &mut [u8], offset: usize, index: usize, source: Source) -> Result<usize, Error> {
    load(2073, to, offset, index as u64, source as u64, 0)
}

pub fn load_witness(to: &mut [u8], offset: usize, index: usize, source: Source) -> Result<usize, Error> {
    load(2074, to, offset, index as u64, source as u64, 0)
}

pub fn load_cell_data(to: &mut [u8], offset: usize, index: usize, source: Source) -> Result<usize, Error> {
    load(2092, to, offset, index as u64, source as u64, 0)
}

pub fn load_cell_by_field(to: &mut [u8], offset: usize, index: usize, source: Source, field: CellField) -> Result<usize, Error> {
    load(2081, to, offset, index as u64, source as u64, field as u64)
}

pub fn load_header_by_field(to: &mut [u8], offset: usize, index: usize, source: Source, field: HeaderField) -> Result<usize, Error> {
    load(2082, to, offset, index as u64, source as u64, field as u64)
}

pub fn load_input_by_field(to: &mut [u8], offset: usize, index: usize, source: Source, field: InputField) -> Result<usize, Error> {
    load(2083, to, offset, index as u64, source as u64, field as u64)
}

/// Prints `FILE:LINE` of what panicked, and exits: EBREAK, by which core would abort, does nothing here.
#[panic_handler]
fn panic(info: &PanicInfo) -> ! {
    if let Some(place) = info.location() {
        let mut text = [0; 100];
        let mut at = text.len() - 1;
        let mut line = place.line();
        while line > 0 && at > 0 {
            at -= 1;
            text[at] = b'0' + (line % 10) as u8;
            line /= 10;
        }
        for &byte in [b':'].iter().chain(place.file().as_bytes().iter().rev()) {
            if at > 0 {
                at -= 1;
                text[at] = byte;
            }
        }
        debug(&text[at..]);
    }
    exit(PANIC)
}
