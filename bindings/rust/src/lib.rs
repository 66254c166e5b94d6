//! A RISC-V vector machine for the classroom, on two boards. The methods of [`Board`] wrap the calls of `include/prashunde.h`, which says
//! what each does; the functions `turn`, `access_check`, `csr_read`, `csr_write` and `view` are those of the first board. They are safe on
//! every input: the calls test all that they are given, and slices and references are as the calls need them.

/// The calls themselves, for a caller that wants no wrapper; `include/prashunde.h` says what they need.
pub mod ffi {
    extern "C" {
        pub fn prashunde_turn(
            word: u32,
            allowance: u32,
            registers: *mut u8,
            registers_len: usize,
            scalars: *mut u64,
            scalars_len: usize,
            memory: *mut u8,
            memory_len: usize,
            rights: *const u8,
            rights_len: usize,
            control: *mut u64,
            passed: *mut u64,
            address: *mut u64,
            page: *mut u64,
            right: *mut u64,
        ) -> u64;
        pub fn prashunde_access_check(
            word: u32,
            registers: *const u8,
            registers_len: usize,
            scalars: *const u64,
            scalars_len: usize,
            memory: *const u8,
            memory_len: usize,
            rights: *const u8,
            rights_len: usize,
            control: *const u64,
            element: *mut u64,
            pages: *mut u64,
            page: *mut u64,
            right: *mut u64,
        ) -> u64;
        pub fn prashunde_csr_read(csr: u64, control: *const u64, value: *mut u64) -> u64;
        pub fn prashunde_csr_write(csr: u64, value: u64, control: *mut u64) -> u64;
        pub fn prashunde_view(
            registers: *const u8,
            registers_len: usize,
            first: usize,
            count: usize,
            start: *mut usize,
            size: *mut usize,
        ) -> u64;
        pub fn prashunde_small_turn(
            word: u32,
            allowance: u32,
            registers: *mut u8,
            registers_len: usize,
            scalars: *mut u64,
            scalars_len: usize,
            memory: *mut u8,
            memory_len: usize,
            rights: *const u8,
            rights_len: usize,
            control: *mut u64,
            passed: *mut u64,
            address: *mut u64,
            page: *mut u64,
            right: *mut u64,
        ) -> u64;
        pub fn prashunde_small_access_check(
            word: u32,
            registers: *const u8,
            registers_len: usize,
            scalars: *const u64,
            scalars_len: usize,
            memory: *const u8,
            memory_len: usize,
            rights: *const u8,
            rights_len: usize,
            control: *const u64,
            element: *mut u64,
            pages: *mut u64,
            page: *mut u64,
            right: *mut u64,
        ) -> u64;
        pub fn prashunde_small_csr_read(csr: u64, control: *const u64, value: *mut u64) -> u64;
        pub fn prashunde_small_csr_write(csr: u64, value: u64, control: *mut u64) -> u64;
        pub fn prashunde_small_view(
            registers: *const u8,
            registers_len: usize,
            first: usize,
            count: usize,
            start: *mut usize,
            size: *mut usize,
        ) -> u64;
        pub fn prashunde_reset(control: *mut u64);
        pub fn prashunde_sheet(sheet: *const u8, sheet_len: usize, out: *mut u8, out_len: usize) -> u64;
    }
}

/// What a call answers.
#[derive(Clone, Copy, Debug, PartialEq, Eq)]
#[repr(u64)]
pub enum Answer {
    Finished = 0,
    Paused = 1,
    /// A reserved, left out or unsupported word (also one that reads one register at two different EEWs), a word that the access check is
    /// not for, or no such CSR; any word and any CSR where VS is Off.
    Illegal = 2,
    LoadMisaligned = 4,
    LoadAccess = 5,
    StoreMisaligned = 6,
    StoreAccess = 7,
    BadRegisters = 32,
    BadScalars = 33,
    BadMemory = 34,
    BadRights = 35,
    BadControl = 36,
    NoGroup = 38,
}

impl Answer {
    fn of(number: u64) -> Answer {
        use Answer::*;
        const ALL: [Answer; 13] = [
            Finished,
            Paused,
            Illegal,
            LoadMisaligned,
            LoadAccess,
            StoreMisaligned,
            StoreAccess,
            BadRegisters,
            BadScalars,
            BadMemory,
            BadRights,
            BadControl,
            NoGroup,
        ];
        // each call is proved to return one of these
        *ALL.iter().find(|a| **a as u64 == number).expect("an answer")
    }

    fn done(number: u64) -> Result<(), Answer> {
        match Answer::of(number) {
            Answer::Finished => Ok(()),
            other => Err(other),
        }
    }
}

/// The control record. `vs` is the status field VS of mstatus: 0 Off, 1 Initial, 2 Clean, 3 Dirty.
#[derive(Clone, Copy, Debug, PartialEq, Eq)]
pub struct Control {
    pub vtype: u64,
    pub vl: u64,
    pub vstart: u64,
    pub vxrm: u64,
    pub vxsat: u64,
    pub vs: u64,
}

impl Control {
    /// The record at reset: vill, and VS Initial.
    pub fn reset() -> Control {
        let mut fields = [0; 6];
        unsafe { ffi::prashunde_reset(fields.as_mut_ptr()) };
        Control::of(fields)
    }

    fn of([vtype, vl, vstart, vxrm, vxsat, vs]: [u64; 6]) -> Control {
        Control {
            vtype,
            vl,
            vstart,
            vxrm,
            vxsat,
            vs,
        }
    }

    fn fields(self) -> [u64; 6] {
        [self.vtype, self.vl, self.vstart, self.vxrm, self.vxsat, self.vs]
    }
}

/// A page that lacks a right, and the right that was wanted of it: 1 by a load, 2 by a store. Page 256 and right 0 where no page was asked:
/// the element is misaligned or past the end of memory, or nothing trapped.
#[derive(Clone, Copy, Debug, PartialEq, Eq)]
pub struct Wanted {
    pub page: u64,
    pub right: u64,
}

/// What a turn gives beside what it leaves in the lent parts. The address is that of the faulting element, or of a segment's first
/// faulting field.
#[derive(Clone, Copy, Debug, PartialEq, Eq)]
pub struct Turned {
    pub answer: Answer,
    pub passed: u64,
    pub address: u64,
    pub wanted: Wanted,
}

/// What an access check gives: the answer of the turn, the element that would fault, the number of pages tested, at most 2, and what is
/// wanted of which page.
#[derive(Clone, Copy, Debug, PartialEq, Eq)]
pub struct Checked {
    pub answer: Answer,
    pub element: u64,
    pub pages: u64,
    pub wanted: Wanted,
}

/// A board, whose methods are its calls.
#[derive(Clone, Copy, Debug, PartialEq, Eq)]
pub enum Board {
    /// VLEN 128, ELEN 64: 512 bytes of registers.
    First,
    /// VLEN 64, ELEN 32 (Zve32x): 256 bytes of registers.
    Small,
}

impl Board {
    /// One turn of the instruction `word`, of at most `allowance` elements; of a word that moves segments, of at most so many segments. A
    /// setting word, a reduction, vcpop.m, vfirst.m, vmsbf.m, vmsif.m, vmsof.m, viota.m, vcompress.vm, vmv.x.s and vmv.s.x take one turn
    /// at any allowance and pass 0. VS is Dirty after it, unless the word is illegal or a part refused.
    pub fn turn(
        self,
        word: u32,
        allowance: u32,
        registers: &mut [u8],
        scalars: &mut [u64],
        memory: &mut [u8],
        rights: &[u8],
        control: &mut Control,
    ) -> Turned {
        let call = match self {
            Board::First => ffi::prashunde_turn,
            Board::Small => ffi::prashunde_small_turn,
        };
        let mut fields = control.fields();
        let (mut passed, mut address, mut page, mut right) = (0, 0, 0, 0);
        let number = unsafe {
            call(
                word,
                allowance,
                registers.as_mut_ptr(),
                registers.len(),
                scalars.as_mut_ptr(),
                scalars.len(),
                memory.as_mut_ptr(),
                memory.len(),
                rights.as_ptr(),
                rights.len(),
                fields.as_mut_ptr(),
                &mut passed,
                &mut address,
                &mut page,
                &mut right,
            )
        };
        *control = Control::of(fields);
        Turned {
            answer: Answer::of(number),
            passed,
            address,
            wanted: Wanted { page, right },
        }
    }

    /// What an uncut turn of the instruction `word` would answer, where it is a unit-stride load or store (plain, of masks or of whole
    /// registers); `Illegal` for every other word. Nothing is changed.
    pub fn access_check(self, word: u32, registers: &[u8], scalars: &[u64], memory: &[u8], rights: &[u8], control: &Control) -> Checked {
        let call = match self {
            Board::First => ffi::prashunde_access_check,
            Board::Small => ffi::prashunde_small_access_check,
        };
        let (mut element, mut pages, mut page, mut right) = (0, 0, 0, 0);
        let number = unsafe {
            call(
                word,
                registers.as_ptr(),
                registers.len(),
                scalars.as_ptr(),
                scalars.len(),
                memory.as_ptr(),
                memory.len(),
                rights.as_ptr(),
                rights.len(),
                control.fields().as_ptr(),
                &mut element,
                &mut pages,
                &mut page,
                &mut right,
            )
        };
        Checked {
            answer: Answer::of(number),
            element,
            pages,
            wanted: Wanted { page, right },
        }
    }

    /// A CSR of the record, which stays as it is.
    pub fn csr_read(self, csr: u64, control: &Control) -> Result<u64, Answer> {
        let call = match self {
            Board::First => ffi::prashunde_csr_read,
            Board::Small => ffi::prashunde_small_csr_read,
        };
        let mut value = 0;
        let number = unsafe { call(csr, control.fields().as_ptr(), &mut value) };
        Answer::done(number).map(|()| value)
    }

    /// Writes a CSR of the record, and VS is Dirty; beside any other answer than `Finished` nothing is changed.
    pub fn csr_write(self, csr: u64, value: u64, control: &mut Control) -> Result<(), Answer> {
        let call = match self {
            Board::First => ffi::prashunde_csr_write,
            Board::Small => ffi::prashunde_small_csr_write,
        };
        let mut fields = control.fields();
        let number = unsafe { call(csr, value, fields.as_mut_ptr()) };
        *control = Control::of(fields);
        Answer::done(number)
    }

    /// The bytes of the group of `count` registers from v`first` on.
    pub fn view(self, registers: &[u8], first: usize, count: usize) -> Result<&[u8], Answer> {
        let call = match self {
            Board::First => ffi::prashunde_view,
            Board::Small => ffi::prashunde_small_view,
        };
        let (mut start, mut size) = (0, 0);
        let number = unsafe { call(registers.as_ptr(), registers.len(), first, count, &mut start, &mut size) };
        Answer::done(number).map(|()| &registers[start..start + size])
    }
}

/// [`Board::turn`] on the first board.
pub fn turn(
    word: u32,
    allowance: u32,
    registers: &mut [u8],
    scalars: &mut [u64],
    memory: &mut [u8],
    rights: &[u8],
    control: &mut Control,
) -> Turned {
    Board::First.turn(word, allowance, registers, scalars, memory, rights, control)
}

/// [`Board::access_check`] on the first board.
pub fn access_check(word: u32, registers: &[u8], scalars: &[u64], memory: &[u8], rights: &[u8], control: &Control) -> Checked {
    Board::First.access_check(word, registers, scalars, memory, rights, control)
}

/// [`Board::csr_read`] on the first board.
pub fn csr_read(csr: u64, control: &Control) -> Result<u64, Answer> {
    Board::First.csr_read(csr, control)
}

/// [`Board::csr_write`] on the first board.
pub fn csr_write(csr: u64, value: u64, control: &mut Control) -> Result<(), Answer> {
    Board::First.csr_write(csr, value, control)
}

/// [`Board::view`] on the first board.
pub fn view(registers: &[u8], first: usize, count: usize) -> Result<&[u8], Answer> {
    Board::First.view(registers, first, count)
}

/// The greatest length of what a sheet prints.
pub const SHEET_MAX: usize = 1_660_000;

/// Runs a sheet on the first board and returns the length of what it prints. The text is at the front of `out` if it fits; otherwise `out`
/// is left as it was.
pub fn sheet_into(sheet: &[u8], out: &mut [u8]) -> usize {
    unsafe { ffi::prashunde_sheet(sheet.as_ptr(), sheet.len(), out.as_mut_ptr(), out.len()) as usize }
}

/// What a sheet prints.
pub fn sheet(sheet: &[u8]) -> Vec<u8> {
    let mut out = vec![0; sheet_into(sheet, &mut [])];
    sheet_into(sheet, &mut out);
    out
}
