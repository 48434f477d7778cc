//! The library's own types and functions, as outside/c/bellbadger.h has them.
use crate::rule::CheckedRule;

/// A rule as it was built.
#[repr(C)]
#[derive(Clone, Copy)]
pub struct RawBuiltRule {
    pub n: u8,
    pub k: u8,
    pub starts: u8,
    pub count: u16,
    initials: u32,
    finals: u32,
    /// 32 where a state has none.
    delegates: [u8; 32],
    singles: [u16; 32],
    sets: [u32; 512],
    next: [u16; 8192],
}

#[repr(C)]
#[derive(Clone, Copy)]
pub struct RawBoard {
    pub places: u8,
    pub filled: [u8; 64],
    counts: [u32; 64],
    lengths: [u32; 64],
    /// One more than the last revision accepted at each place since the opening, 0 for none.
    revisions: [u64; 64],
    ends: [u32; 2048],
}

#[repr(C)]
#[derive(Clone, Copy)]
pub struct RawJudge {
    pub rule: RawBuiltRule,
    pub board: RawBoard,
}

#[repr(C)]
pub struct RawRead {
    pub accepted: u8,
    pub refused: u8,
    pub rule: CheckedRule,
}

/// Of an installation and a load.
#[repr(C)]
pub struct RawInstall {
    pub accepted: u8,
    pub refused: u8,
    pub sets: u16,
    pub starts: u8,
    pub judge: RawJudge,
}

/// Of an opening and a withdrawal.
#[repr(C)]
pub struct RawChange {
    pub accepted: u8,
    pub refused: u8,
    pub judge: RawJudge,
}

#[repr(C)]
pub struct RawDelivery {
    pub accepted: u8,
    pub refused: u8,
    pub looked: u32,
    pub judge: RawJudge,
}

/// What a verdict's number is: of empty places, or the count of a yes or no. The rest: a refusal.
pub const WAITING: u8 = 1;
pub const YES: u8 = 2;
pub const NO: u8 = 3;
/// Of a recorded list alone: the number is that of a line.
pub const MALFORMED: u8 = 4;

/// Of a verdict and of a recorded list.
#[repr(C)]
pub struct RawVerdict {
    pub kind: u8,
    pub number: u64,
    pub bytes: u64,
    pub quotient: u64,
    pub remainder: u64,
}

/// The major version that the declarations here are of.
pub const MAJOR: u32 = 5;
/// As the C header has it; outside/c/test.c reads every field of it.
pub const STATE_SIZE: usize = 27832;
const _: () = assert!(std::mem::size_of::<RawJudge>() == STATE_SIZE);
const _: () = assert!(std::mem::size_of::<RawRead>() == 2064);

extern "C" {
    pub fn bellbadger_version() -> u32;
    pub fn bellbadger_state_size() -> usize;
    pub fn bellbadger_new() -> RawJudge;
    pub fn bellbadger_read(file: *const u8, length: usize) -> RawRead;
    pub fn bellbadger_install(judge: RawJudge, rule: CheckedRule) -> RawInstall;
    pub fn bellbadger_load(judge: RawJudge, file: *const u8, length: usize) -> RawInstall;
    pub fn bellbadger_open(judge: RawJudge, places: usize) -> RawChange;
    pub fn bellbadger_deliver(
        judge: RawJudge,
        place: usize,
        revision: u32,
        chunk: *const u8,
        length: usize,
    ) -> RawDelivery;
    pub fn bellbadger_withdraw(judge: RawJudge, place: usize) -> RawChange;
    pub fn bellbadger_verdict(judge: RawJudge) -> RawVerdict;
    pub fn bellbadger_replay(text: *const u8, length: usize) -> RawVerdict;
}
