// Nanoseconds of an uncut turn through the C interface, word by word, beside a plain loop for the first word; and of the access check
// beside the turn that it is the check of.
mod words;
use prashunde::ffi::{prashunde_access_check, prashunde_small_turn, prashunde_turn};
use std::hint::black_box;
use std::time::Instant;
use words::{Row, CHECKS, ILLEGAL, ROWS};

#[derive(Clone, PartialEq)]
struct State {
    registers: Vec<u8>,
    scalars: Vec<u64>,
    memory: Vec<u8>,
    rights: Vec<u8>,
    control: [u64; 6],
}

// Bytes of a linear congruential generator; indices stay below 256, so each address is in memory.
fn state(row: &Row) -> State {
    let mut x: u32 = 1;
    let mut byte = || {
        x = x.wrapping_mul(1_664_525).wrapping_add(1_013_904_223);
        (x >> 24) as u8
    };
    let mut scalars = vec![0u64; 32];
    scalars[10] = 0x1000;
    scalars[11] = 3;
    State {
        registers: (0..row.registers).map(|_| byte()).collect(),
        scalars,
        memory: (0..65_536).map(|_| byte()).collect(),
        rights: vec![2; 256],
        control: [row.vtype, row.vl, 0, 0, 0, 1],
    }
}

// The numbers that a turn gives beside its answer.
#[derive(Default)]
struct Told {
    passed: u64,
    address: u64,
    page: u64,
    right: u64,
}

// On the smaller board where the registers are those of that.
fn turn(word: u32, s: &mut State, told: &mut Told) -> u64 {
    let call = if s.registers.len() == 256 {
        prashunde_small_turn
    } else {
        prashunde_turn
    };
    unsafe {
        call(
            word,
            u32::MAX,
            s.registers.as_mut_ptr(),
            s.registers.len(),
            s.scalars.as_mut_ptr(),
            s.scalars.len(),
            s.memory.as_mut_ptr(),
            s.memory.len(),
            s.rights.as_ptr(),
            s.rights.len(),
            s.control.as_mut_ptr(),
            &mut told.passed,
            &mut told.address,
            &mut told.page,
            &mut told.right,
        )
    }
}

// The numbers that an access check gives beside its answer.
#[derive(Default)]
struct Foretold {
    element: u64,
    pages: u64,
    page: u64,
    right: u64,
}

fn check(word: u32, s: &State, told: &mut Foretold) -> u64 {
    unsafe {
        prashunde_access_check(
            word,
            s.registers.as_ptr(),
            s.registers.len(),
            s.scalars.as_ptr(),
            s.scalars.len(),
            s.memory.as_ptr(),
            s.memory.len(),
            s.rights.as_ptr(),
            s.rights.len(),
            s.control.as_ptr(),
            &mut told.element,
            &mut told.pages,
            &mut told.page,
            &mut told.right,
        )
    }
}

// Whether the six control fields can be, for VLEN 128 and ELEN 64.
fn possible(c: &[u64; 6]) -> bool {
    const LMUL8: [u64; 8] = [8, 16, 32, 64, 0, 1, 2, 4];
    let [vtype, vl, vstart, vxrm, vxsat, vs] = *c;
    let typed = if vtype == 1 << 63 {
        vl == 0
    } else {
        let lmul8 = LMUL8[(vtype % 8) as usize];
        let sew = 8 << (vtype / 8 % 8);
        vtype < 256 && sew <= 64 && lmul8 != 0 && (8 <= lmul8 || 8 * sew <= 64 * lmul8) && vl <= lmul8 * 16 / sew
    };
    typed && vstart < 128 && vxrm <= 3 && vxsat <= 1 && vs <= 3
}

// The plain loop: the refusals of a turn, and the first word's work, byte by byte in place. It decodes nothing.
#[inline(never)]
fn plain(vd: usize, vs2: usize, vs1: usize, s: &mut State, passed: &mut u64) -> u64 {
    *passed = 0;
    if s.registers.len() != 512 {
        return 32;
    }
    if s.scalars.len() != 32 {
        return 33;
    }
    if s.memory.len() > 65_536 {
        return 34;
    }
    if s.rights.len() != 256 {
        return 35;
    }
    for &right in &s.rights {
        if right > 2 {
            return 35;
        }
    }
    if !possible(&s.control) {
        return 36;
    }
    let [_, vl, vstart, _, _, vs] = s.control;
    if vs == 0 {
        return 2;
    }
    let registers = &mut s.registers[..];
    for i in vstart as usize..vl as usize {
        registers[16 * vd + i] = registers[16 * vs2 + i].wrapping_add(registers[16 * vs1 + i]);
    }
    *passed = vl.saturating_sub(vstart);
    s.control[2] = 0;
    s.control[5] = 3;
    0
}

const BATCH: u32 = 50;
const BATCHES: u32 = 8_000;

// The least and the middle time of a call over the batches, in nanoseconds.
fn time(mut call: impl FnMut()) -> (f64, f64) {
    let mut times: Vec<f64> = (0..BATCHES)
        .map(|_| {
            let start = Instant::now();
            for _ in 0..BATCH {
                call();
            }
            start.elapsed().as_nanos() as f64 / BATCH as f64
        })
        .collect();
    times.sort_by(f64::total_cmp);
    (times[0], times[times.len() / 2])
}

// One turn by each: the answers, the number passed and all parts of the state are the same.
fn same(mut a: State) -> u64 {
    let mut b = a.clone();
    let (mut told, mut q) = (Told::default(), 0);
    let answer = turn(ROWS[0].word, &mut a, &mut told);
    assert_eq!((answer, told.passed), (plain(8, 16, 24, &mut b, &mut q), q));
    assert!(a == b && (told.address, told.page, told.right) == (0, 256, 0));
    answer
}

// The plain loop does what the turn does at every vl and vstart of the first word, and gives the same refusals.
fn agree() {
    for vl in 0..=128 {
        for vstart in 0..128 {
            let mut s = state(&ROWS[0]);
            s.control = [ROWS[0].vtype, vl, vstart, 0, 0, 1];
            assert_eq!(same(s), 0);
        }
    }
    let damage: [(u64, fn(&mut State)); 13] = [
        (32, |s| s.registers.truncate(511)),
        (33, |s| s.scalars.push(0)),
        (34, |s| s.memory.push(0)),
        (35, |s| s.rights.truncate(255)),
        (35, |s| s.rights[255] = 3),
        (36, |s| s.control[0] = 4),
        (36, |s| s.control[0] = 1 << 63),
        (36, |s| s.control[1] = 129),
        (36, |s| s.control[2] = 128),
        (36, |s| s.control[3] = 4),
        (36, |s| s.control[4] = 2),
        (36, |s| s.control[5] = 4),
        (2, |s| s.control[5] = 0),
    ];
    for (answer, wrong) in damage {
        let mut s = state(&ROWS[0]);
        wrong(&mut s);
        assert_eq!(same(s), answer);
    }
}

// The least and the middle time of a turn of the row's word and of its check, which answer the same.
fn turn_and_check(row: &Row) -> ((f64, f64), (f64, f64), u64) {
    let mut s = state(row);
    let (mut told, mut foretold) = (Told::default(), Foretold::default());
    assert_eq!(check(row.word, &s, &mut foretold), row.answer, "{}", row.name);
    assert_eq!(turn(row.word, &mut s, &mut told), row.answer, "{}", row.name);
    assert_eq!((foretold.page, foretold.right), (told.page, told.right), "{}", row.name);
    let turned = time(|| {
        black_box(turn(black_box(row.word), black_box(&mut s), &mut told));
    });
    let checked = time(|| {
        black_box(check(black_box(row.word), black_box(&s), &mut foretold));
    });
    (turned, checked, foretold.pages)
}

// What the check takes of the turn's time, both less that of an illegal word through the same call.
fn checks() {
    let (no_turn, no_check, _) = turn_and_check(&ILLEGAL);
    println!(
        "\n| Access check | Pages | ns, least | ns, middle | the turn: ns, least | ns, middle | share of the turn, less an illegal word |"
    );
    println!("|---|---|---|---|---|---|---|");
    println!(
        "| {} | 0 | {:.0} | {:.0} | {:.0} | {:.0} | - |",
        ILLEGAL.name, no_check.0, no_check.1, no_turn.0, no_turn.1
    );
    for row in &CHECKS {
        let (turned, checked, pages) = turn_and_check(row);
        println!(
            "| {} | {} | {:.0} | {:.0} | {:.0} | {:.0} | {:.2} |",
            row.name,
            pages,
            checked.0,
            checked.1,
            turned.0,
            turned.1,
            (checked.0 - no_check.0) / (turned.0 - no_turn.0)
        );
    }
}

fn main() {
    agree();
    let mut s = state(&ROWS[0]);
    let mut passed = 0;
    let base = time(|| {
        let s = black_box(&mut s);
        black_box(plain(black_box(8), black_box(16), black_box(24), s, &mut passed));
    });
    println!("| Turn | Elements | ns, least | ns, middle | ns an element | times the plain loop |");
    println!("|---|---|---|---|---|---|");
    println!(
        "| plain loop: bytes added, 128 | 128 | {:.0} | {:.0} | {:.2} | 1.0 |",
        base.0,
        base.1,
        base.0 / 128.0
    );
    for row in &ROWS {
        let mut s = state(row);
        let mut told = Told::default();
        let answer = turn(row.word, &mut s, &mut told);
        assert_eq!((answer, told.passed), (row.answer, row.passed), "{}", row.name);
        let t = time(|| {
            black_box(turn(black_box(row.word), black_box(&mut s), &mut told));
        });
        let each = if told.passed == 0 {
            String::from("-")
        } else {
            format!("{:.2}", t.0 / told.passed as f64)
        };
        println!(
            "| {} | {} | {:.0} | {:.0} | {} | {:.1} |",
            row.name,
            told.passed,
            t.0,
            t.1,
            each,
            t.0 / base.0
        );
    }
    checks();
}
