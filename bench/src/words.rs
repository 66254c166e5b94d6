// The words that are timed, and the state that each runs on.

pub struct Row {
    pub name: &'static str,
    pub word: u32,
    pub vtype: u64,
    pub vl: u64,
    pub answer: u64,
    pub registers: usize,
    pub passed: u64,
}

const OPIVV: u32 = 0;
const OPMVV: u32 = 2;
const OPIVI: u32 = 3;
const OPIVX: u32 = 4;

// A word of opcode OP-V: vm is 1 where the word is not masked.
const fn op(funct6: u32, vm: u32, vs2: u32, vs1: u32, funct3: u32, vd: u32) -> u32 {
    funct6 << 26 | vm << 25 | vs2 << 20 | vs1 << 15 | funct3 << 12 | vd << 7 | 0x57
}

// A vector load (opcode 0x07) or store (0x27), not masked; x10 is the base.
const fn access(opcode: u32, nf: u32, mop: u32, rs2: u32, width: u32, vd: u32) -> u32 {
    nf << 29 | mop << 26 | 1 << 25 | rs2 << 20 | 10 << 15 | width << 12 | vd << 7 | opcode
}

const fn vtype(sew: u64, lmul: u64) -> u64 {
    let vsew = match sew {
        8 => 0,
        16 => 1,
        32 => 2,
        _ => 3,
    };
    let vlmul = match lmul {
        8 => 3,
        4 => 2,
        2 => 1,
        _ => 0,
    };
    vsew << 3 | vlmul
}

const fn row(name: &'static str, word: u32, sew: u64, lmul: u64, vl: u64) -> Row {
    Row {
        name,
        word,
        vtype: vtype(sew, lmul),
        vl,
        answer: 0,
        registers: 512,
        passed: vl,
    }
}

// A word of one turn: it passes no element.
const fn one_turn(name: &'static str, word: u32, sew: u64, lmul: u64, vl: u64) -> Row {
    Row {
        passed: 0,
        ..row(name, word, sew, lmul, vl)
    }
}

// A word on the smaller board, which has 256 bytes of registers.
const fn on_small(row: Row) -> Row {
    Row { registers: 256, ..row }
}

// Such a word, or one that is illegal or refused, at e8 m8.
const fn one(name: &'static str, word: u32, answer: u64, registers: usize) -> Row {
    Row {
        answer,
        registers,
        ..one_turn(name, word, 8, 8, 128)
    }
}

pub const ILLEGAL: Row = one("no word of ours (answer 2)", 0, 2, 512);

pub const ROWS: [Row; 37] = [
    row("vadd.vv e8 m8", op(0x00, 1, 16, 24, OPIVV, 8), 8, 8, 128),
    row("vadd.vv e8 m8, masked", op(0x00, 0, 16, 24, OPIVV, 8), 8, 8, 128),
    row("vadd.vv e32 m8", op(0x00, 1, 16, 24, OPIVV, 8), 32, 8, 32),
    row("vadd.vv e64 m8", op(0x00, 1, 16, 24, OPIVV, 8), 64, 8, 16),
    row("vadd.vi e8 m8", op(0x00, 1, 16, 5, OPIVI, 8), 8, 8, 128),
    row("vmacc.vv e8 m8", op(0x2D, 1, 16, 24, OPMVV, 8), 8, 8, 128),
    row("vwmacc.vv e8 m4", op(0x3D, 1, 16, 24, OPMVV, 8), 8, 4, 64),
    row("vdiv.vv e8 m8", op(0x21, 1, 16, 24, OPMVV, 8), 8, 8, 128),
    row("vsmul.vv e8 m8", op(0x27, 1, 16, 24, OPIVV, 8), 8, 8, 128),
    row("vnclip.wv e8 m4", op(0x2F, 1, 16, 24, OPIVV, 8), 8, 4, 64),
    row("vaadd.vv e8 m8", op(0x09, 1, 16, 24, OPMVV, 8), 8, 8, 128),
    row("vmseq.vv e8 m8", op(0x18, 1, 16, 24, OPIVV, 8), 8, 8, 128),
    row("vmerge.vvm e8 m8", op(0x17, 0, 16, 24, OPIVV, 8), 8, 8, 128),
    row("vadc.vvm e8 m8", op(0x10, 0, 16, 24, OPIVV, 8), 8, 8, 128),
    row("vle8.v m8", access(0x07, 0, 0, 0, 0, 8), 8, 8, 128),
    row("vse8.v m8", access(0x27, 0, 0, 0, 0, 8), 8, 8, 128),
    row("vle64.v m8", access(0x07, 0, 0, 0, 7, 8), 64, 8, 16),
    row("vlse8.v m8, stride 3", access(0x07, 0, 2, 11, 0, 8), 8, 8, 128),
    row("vluxei8.v e8 m8", access(0x07, 0, 1, 16, 0, 8), 8, 8, 128),
    row("vl8re8.v", access(0x07, 7, 0, 8, 0, 8), 8, 8, 128),
    row("vlseg3e8.v m2", access(0x07, 2, 0, 0, 0, 8), 8, 2, 32),
    row("vsseg3e8.v m2", access(0x27, 2, 0, 0, 0, 8), 8, 2, 32),
    // x11 is 3
    row("vslidedown.vx e8 m8", op(0x0F, 1, 16, 11, OPIVX, 8), 8, 8, 128),
    row("vrgather.vv e8 m8", op(0x0C, 1, 16, 24, OPIVV, 8), 8, 8, 128),
    row("vmand.mm, vl 128", op(0x19, 1, 2, 3, OPMVV, 1), 8, 8, 128),
    one_turn("vredsum.vs e8 m8", op(0x00, 1, 16, 24, OPMVV, 8), 8, 8, 128),
    one_turn("vwredsum.vs e16 m8", op(0x31, 1, 16, 24, OPIVV, 8), 16, 8, 64),
    one_turn("viota.m e8 m8", op(0x14, 1, 2, 16, OPMVV, 8), 8, 8, 128),
    one_turn("vcompress.vm e8 m8", op(0x17, 1, 16, 2, OPMVV, 8), 8, 8, 128),
    one("vcpop.m, vl 128", op(0x10, 1, 2, 16, OPMVV, 12), 0, 512),
    one("vmsbf.m, vl 128", op(0x14, 1, 2, 1, OPMVV, 1), 0, 512),
    // vsetvli x12, x0, e8 m8: vl becomes 128
    one("vsetvli", 3 << 20 | 7 << 12 | 12 << 7 | 0x57, 0, 512),
    ILLEGAL,
    one("511 bytes of registers (answer 32)", op(0x00, 1, 16, 24, OPIVV, 8), 32, 511),
    on_small(row("smaller board: vadd.vv e8 m8", op(0x00, 1, 16, 24, OPIVV, 8), 8, 8, 64)),
    on_small(row("smaller board: vle8.v m8", access(0x07, 0, 0, 0, 0, 8), 8, 8, 64)),
    on_small(row("smaller board: vmulh.vv e32 m8", op(0x27, 1, 16, 24, OPMVV, 8), 32, 8, 16)),
];

// Words that the access check is for.
pub const CHECKS: [Row; 4] = [
    row("vle8.v m8", access(0x07, 0, 0, 0, 0, 8), 8, 8, 128),
    row("vle64.v m8", access(0x07, 0, 0, 0, 7, 8), 64, 8, 16),
    row("vl8re8.v", access(0x07, 7, 0, 8, 0, 8), 8, 8, 128),
    // vm is 0
    row("vle8.v m8, masked", access(0x07, 0, 0, 0, 0, 8) - (1 << 25), 8, 8, 128),
];
