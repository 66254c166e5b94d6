//! A load in three turns: a closed page stops it, as the access check says before, then an allowance of 3 pauses it; a load of segments in
//! two; and one that is not aligned. Then the other calls, what VS does, a load on the smaller board, and a sheet. bindings/c/turns.c
//! prints the same.
use prashunde::{sheet, sheet_into, Answer, Board, Control};

struct Machine {
    board: Board,
    registers: Vec<u8>,
    scalars: [u64; 32],
    memory: [u8; 4096],
    rights: [u8; 256],
    control: Control,
}

fn number<T>(result: Result<T, Answer>) -> u64 {
    result.err().map_or(0, |a| a as u64)
}

impl Machine {
    fn turn(&mut self, name: &str, word: u32, allowance: u32) {
        let t = self.board.turn(
            word,
            allowance,
            &mut self.registers,
            &mut self.scalars,
            &mut self.memory,
            &self.rights,
            &mut self.control,
        );
        let c = self.control;
        println!(
            "{name}: answer {}, passed {}, address {}, page {}, right {}, control {:x} {} {} {} {} {}",
            t.answer as u64, t.passed, t.address, t.wanted.page, t.wanted.right, c.vtype, c.vl, c.vstart, c.vxrm, c.vxsat, c.vs
        );
    }

    fn check(&self, name: &str, word: u32) {
        let c = self
            .board
            .access_check(word, &self.registers, &self.scalars, &self.memory, &self.rights, &self.control);
        println!(
            "check {name}: answer {}, element {}, pages {}, page {}, right {}",
            c.answer as u64, c.element, c.pages, c.wanted.page, c.wanted.right
        );
    }

    fn view(&self, first: usize, count: usize) {
        let group = self.board.view(&self.registers, first, count);
        print!("view v{first}, {count}: answer {}, bytes", number(group));
        for byte in group.unwrap_or(&[]) {
            print!(" {byte}");
        }
        println!();
    }

    fn csr(&mut self, csr: u64, written: u64) {
        let write = self.board.csr_write(csr, written, &mut self.control);
        let read = self.board.csr_read(csr, &self.control);
        println!(
            "csr {csr:x}: write {}, read {}, value {}",
            number(write),
            number(read),
            read.unwrap_or(0)
        );
    }
}

/// The length of what a sheet prints, from an empty buffer and from one that is a byte too short and stays as it was; then the text.
fn print_sheet(lines: &str) {
    let needed = sheet_into(lines.as_bytes(), &mut []);
    let mut short = vec![0; needed - 1];
    let again = sheet_into(lines.as_bytes(), &mut short);
    println!("sheet: length {needed}, {again}, first byte {}", short[0]);
    print!("{}", String::from_utf8_lossy(&sheet(lines.as_bytes())));
}

/// The smaller board has VLMAX 64 where the first one has 128; EEW 64 is illegal there.
fn on_the_smaller_board(m: &mut Machine) {
    m.board = Board::Small;
    m.registers = vec![0; 256];
    m.rights = [0; 256];
    m.rights[0] = 2;
    m.scalars[10] = 100;
    m.control = Control::reset();
    m.turn("small: vsetvli x12, x10, e8, m8", 0x00357657, 1);
    m.check("small: vle8.v v8, (x11)", 0x02058407);
    m.turn("small: vle8.v v8, (x11)", 0x02058407, u32::MAX);
    m.rights[1] = 1;
    m.turn("small: page 1 open", 0x02058407, u32::MAX);
    m.turn("small: vle64.v v8, (x11)", 0x0205f407, u32::MAX);
    m.view(8, 1);
    m.view(14, 2);
    m.csr(0x008, 127); // vstart keeps 6 bits
    m.csr(0xc22, 1);
    m.control.vstart = 64;
    m.turn("small: vstart above 63", 0x02058407, u32::MAX);
    m.registers = vec![0; 512];
    m.turn("small: 512 bytes of registers", 0x02058407, u32::MAX);
}

fn main() {
    let mut m = Machine {
        board: Board::First,
        registers: vec![0; 512],
        scalars: [0; 32],
        memory: std::array::from_fn(|a| (a % 251) as u8),
        rights: [0; 256],
        control: Control::reset(),
    };
    m.rights[0] = 2;
    m.scalars[10] = 20;
    m.scalars[11] = 0xf8;
    m.scalars[13] = 0xfe;
    m.scalars[14] = 0xff0;
    m.turn("load at reset", 0x02058407, u32::MAX);
    m.turn("vsetvli x12, x10, e8, m2", 0x00157657, 1);
    m.check("vle8.v v8, (x11)", 0x02058407);
    m.turn("vle8.v v8, (x11)", 0x02058407, u32::MAX);
    m.rights[1] = 1;
    m.check("page 1 open", 0x02058407); // vstart is 8: what remains lies on page 1
    m.turn("page 1 open", 0x02058407, 3);
    m.turn("the rest", 0x02058407, u32::MAX);
    m.check("vse8.v v8, (x11)", 0x02058427); // page 1 may be read, not written
    m.rights[1] = 0;
    m.check("vlseg3e8.v v12, (x11)", 0x42058607); // not for segments
    m.turn("vlseg3e8.v v12, (x11)", 0x42058607, u32::MAX); // the third field of segment 2 lies on page 1
    m.rights[1] = 1;
    m.turn("its other segments", 0x42058607, u32::MAX);
    m.check("vle32.v v16, (x13)", 0x0206e807);
    m.turn("vle32.v v16, (x13)", 0x0206e807, u32::MAX); // an element across the end of page 0 is not aligned
    m.rights[15] = 1;
    m.check("vle8.v v24, (x14)", 0x02070c07); // element 16 lies past the end of memory: no page is asked
    m.turn("vadd.vv v8, v0, v10, v0.t", 0x00050457, u32::MAX); // v0 is data and mask: read at two EEWs
    m.view(8, 2);
    m.view(14, 2);
    m.view(9, 2);
    m.csr(0x00f, 15);
    m.csr(0xc22, 1);
    m.csr(0x001, 1);
    m.control.vs = 1;
    m.turn("vle8.v v8, (x11), allowance 0", 0x02058407, 0); // a pause sets VS Dirty too
    m.control.vs = 0;
    m.turn("VS Off", 0x00157657, u32::MAX);
    m.check("VS Off", 0x02058407);
    m.csr(0xc22, 1);
    m.control.vs = 4;
    m.turn("VS above 3", 0x02058407, u32::MAX);
    m.control.vs = 1;
    m.control.vl = 33;
    m.turn("vl above VLMAX", 0x02058407, u32::MAX);
    on_the_smaller_board(&mut m);
    print_sheet(concat!(
        "rights=w---------------\nx10=0000000000000003\nx11=00000000000000f8\nx12=0000000000000000\nallow=1\n",
        "word=01057657\nword=0205e407\nend=1\n"
    ));
    print_sheet("rights=\n");
}
