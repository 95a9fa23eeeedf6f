//! A lock that opens by a word. Its args are the ckbhash of the word, 32 bytes, and the first witness of its group is a
//! `WitnessArgs` whose lock is the word, of 1 to 128 bytes. It is a sample: who sees the transaction knows the word.
#![no_std]
#![no_main]

use ckb::{load_script, load_witness, Error, Source};

mod ckbhash;

const SCRIPT: usize = 85; // four offsets, 32 bytes, a byte, and the args with their length
const ARGS: usize = 53; // where the args begin
const WORD: usize = 20; // in a `WitnessArgs`: four offsets, and the length of the lock
const MOST: usize = 128; // of a word, one block of the hash

/// The codes that the program exits with. Those of `Error` are 1 to 3.
enum Refused {
    Syscall(Error),
    Arguments,
    Encoding,
    Word,
}

impl From<Error> for Refused {
    fn from(error: Error) -> Refused {
        Refused::Syscall(error)
    }
}

impl Refused {
    fn code(self) -> i8 {
        match self {
            Refused::Syscall(error) => error as i8,
            Refused::Arguments => -1,
            Refused::Encoding => -2,
            Refused::Word => -31,
        }
    }
}

fn number_at(bytes: &[u8], at: usize) -> usize {
    u32::from_le_bytes([bytes[at], bytes[at + 1], bytes[at + 2], bytes[at + 3]]) as usize
}

/// The word in the lock of a `WitnessArgs`, of which these are the first bytes, and so many there are in all.
fn word_of(bytes: &[u8], length: usize) -> Option<&[u8]> {
    if length < WORD || number_at(bytes, 0) != length || number_at(bytes, 4) != 16 {
        return None;
    }
    let (end, count) = (number_at(bytes, 8), number_at(bytes, 16));
    // an empty lock field is not there at all, and then the next field begins at 16
    if end < WORD || end - WORD != count {
        return None;
    }
    bytes.get(WORD..end).filter(|word| !word.is_empty() && word.len() <= MOST)
}

fn unlock() -> Result<(), Refused> {
    let mut script = [0; SCRIPT];
    if load_script(&mut script, 0)? != SCRIPT {
        return Err(Refused::Arguments);
    }
    let mut witness = [0; WORD + MOST];
    let length = load_witness(&mut witness, 0, 0, Source::GroupInput)?;
    let word = word_of(&witness, length).ok_or(Refused::Encoding)?;
    if ckbhash::of_block(word) != script[ARGS..] {
        return Err(Refused::Word);
    }
    Ok(())
}

#[no_mangle]
pub extern "C" fn main() -> i8 {
    unlock().map_or_else(Refused::code, |()| 0)
}
