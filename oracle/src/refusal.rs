//! Section "Refused input". In place of its 13 stand the three numbers of document 02, Item 3; 20 is of its Item 7.

/// "A refusal is the number and place".
#[derive(Debug, Clone, Copy, PartialEq, Eq)]
pub struct Refusal {
    pub number: u64,
    pub place: u64,
}

pub const LENGTH: u64 = 1;
pub const MISFIT: u64 = 2;
pub const LOUD: u64 = 3;
pub const LINE: u64 = 4;
pub const LONG: u64 = 10;
pub const CUT: u64 = 11;
pub const KIND: u64 = 12;
pub const SIZE: u64 = 14;
pub const HEAD: u64 = 15;
pub const ABSENT: u64 = 16;
pub const HEADLESS: u64 = 17;
pub const SECOND_HEAD: u64 = 18;
pub const TAIL: u64 = 19;
pub const WEIGHTS: u64 = 20;

/// "the first fault found decides": where the fault holds, the call ends with this refusal.
pub fn refuse_if(fault: bool, number: u64, place: usize) -> Result<(), Refusal> {
    refuse_asked_if(fault, number, place as u64)
}

/// The same where the place is "that line" or the block k that was asked for, which may be any number.
pub fn refuse_asked_if(fault: bool, number: u64, place: u64) -> Result<(), Refusal> {
    if fault {
        return Err(Refusal { number, place });
    }
    Ok(())
}
