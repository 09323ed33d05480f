// A plain interpreter of the same lane code as crates/vk_bench, with the same words, for tools/bench.sh: it prints the same sum.
//
//     rustc -O tools/bench_plain.rs && ./bench_plain WORK LANES CHUNKS
use std::env;

#[derive(Clone, Copy)]
enum Op {
    Lane { d: usize },
    PtrAdd { d: usize, a: usize, b: usize },
    Load { d: usize, a: usize },
    Store { a: usize, b: usize },
    Convert { d: usize, a: usize },
    Const { d: usize, value: u64 },
    Add { d: usize, a: usize, b: usize },
    Sub { d: usize, a: usize, b: usize },
    And { d: usize, a: usize, b: usize },
    MaskOf { d: usize, a: usize },
    Loop { count: usize },
    Call { function: usize, d: usize, a: usize },
}

type Instr = (usize, Op);

struct Code {
    regs: usize,
    masks: usize,
    instrs: Vec<Instr>,
}

struct Machine {
    codes: Vec<Code>,
    sums: Vec<u64>,
}

// The registers and masks of one call, a row for each.
struct Frame {
    lanes: usize,
    regs: Vec<Vec<u64>>,
    masks: Vec<Vec<bool>>,
    stopped: Vec<bool>,
}

fn int(word: u64) -> u64 {
    word as i32 as i64 as u64
}

impl Machine {
    fn frame(&self, code: usize, lanes: usize) -> Frame {
        Frame {
            lanes,
            regs: vec![vec![0; lanes]; self.codes[code].regs],
            masks: vec![vec![false; lanes]; self.codes[code].masks],
            stopped: vec![false; lanes],
        }
    }

    fn run(&mut self, code: usize, frame: &mut Frame, from: usize, count: usize) {
        let end = from + count;
        let mut at = from;
        while at < end {
            let (m, op) = self.codes[code].instrs[at];
            at += 1;
            match op {
                Op::Loop { count } => {
                    while (0..frame.lanes).any(|j| frame.masks[m][j] && !frame.stopped[j]) {
                        self.run(code, frame, at, count);
                    }
                    at += count;
                }
                Op::Call { function, d, a } => {
                    let mut callee = self.frame(function, frame.lanes);
                    callee.regs[0].copy_from_slice(&frame.regs[a]);
                    callee.masks[0].copy_from_slice(&frame.masks[m]);
                    let count = self.codes[function].instrs.len();
                    self.run(function, &mut callee, 0, count);
                    for j in 0..frame.lanes {
                        if frame.masks[m][j] && !frame.stopped[j] {
                            frame.regs[d][j] = callee.regs[1][j];
                        }
                    }
                }
                Op::MaskOf { d, a } => {
                    for j in 0..frame.lanes {
                        frame.masks[d][j] = frame.masks[m][j] && !frame.stopped[j] && frame.regs[a][j] != 0;
                    }
                }
                _ => self.lanes(frame, m, op),
            }
        }
    }

    fn lanes(&mut self, frame: &mut Frame, m: usize, op: Op) {
        for j in 0..frame.lanes {
            if !frame.masks[m][j] || frame.stopped[j] {
                continue;
            }
            let r = &mut frame.regs;
            match op {
                Op::Lane { d } => r[d][j] = j as u64,
                Op::PtrAdd { d, a, b } => r[d][j] = r[a][j].wrapping_add(r[b][j]),
                Op::Load { d, a } => match self.sums.get(r[a][j] as usize) {
                    Some(word) => r[d][j] = *word,
                    None => frame.stopped[j] = true,
                },
                Op::Store { a, b } => match self.sums.get_mut(r[a][j] as usize) {
                    Some(word) => *word = r[b][j],
                    None => frame.stopped[j] = true,
                },
                Op::Convert { d, a } => r[d][j] = int(r[a][j]),
                Op::Const { d, value } => r[d][j] = value,
                Op::Add { d, a, b } => r[d][j] = int(r[a][j].wrapping_add(r[b][j])),
                Op::Sub { d, a, b } => r[d][j] = int(r[a][j].wrapping_sub(r[b][j])),
                Op::And { d, a, b } => r[d][j] = r[a][j] & r[b][j],
                Op::Loop { .. } | Op::Call { .. } | Op::MaskOf { .. } => unreachable!(),
            }
        }
    }
}

// The body of the loop: register 0 is the iteration's number, 1 the place of the sums, 2 the lane's number, 3 an int, 4 a sum.
fn body(work: &str) -> Vec<Instr> {
    let mut instrs = vec![
        (0, Op::Lane { d: 2 }),
        (0, Op::PtrAdd { d: 1, a: 1, b: 2 }),
        (0, Op::Load { d: 4, a: 1 }),
        (0, Op::Convert { d: 3, a: 0 }),
    ];
    match work {
        "add" => instrs.extend([(0, Op::Add { d: 4, a: 4, b: 3 }); 64]),
        "masked" => instrs.extend([
            (0, Op::Const { d: 5, value: 15 }),
            (0, Op::Const { d: 6, value: 1 }),
            (0, Op::And { d: 3, a: 3, b: 5 }),
            (0, Op::MaskOf { d: 1, a: 3 }),
            (1, Op::Loop { count: 3 }),
            (1, Op::Add { d: 4, a: 4, b: 3 }),
            (1, Op::Sub { d: 3, a: 3, b: 6 }),
            (1, Op::MaskOf { d: 1, a: 3 }),
        ]),
        _ => instrs.extend([
            (0, Op::Call { function: 1, d: 3, a: 3 }),
            (0, Op::Add { d: 4, a: 4, b: 3 }),
        ]),
    }
    instrs.push((0, Op::Store { a: 1, b: 4 }));
    instrs
}

fn caller(function: usize) -> Code {
    Code {
        regs: 2,
        masks: 2,
        instrs: vec![
            (0, Op::Call { function, d: 1, a: 0 }),
            (0, Op::Add { d: 1, a: 1, b: 0 }),
        ],
    }
}

fn main() {
    let words: Vec<String> = env::args().collect();
    let lanes: usize = words[2].parse().expect("lanes");
    let chunks: usize = words[3].parse().expect("chunks");
    let double = Code {
        regs: 2,
        masks: 2,
        instrs: vec![(0, Op::Add { d: 1, a: 0, b: 0 })],
    };
    let code = Code {
        regs: 7,
        masks: 2,
        instrs: body(&words[1]),
    };
    let mut machine = Machine {
        codes: vec![code, caller(2), caller(3), double],
        sums: vec![0; 256],
    };
    let count = machine.codes[0].instrs.len();
    for chunk in 0..chunks {
        let mut frame = machine.frame(0, lanes);
        for lane in 0..lanes {
            frame.regs[0][lane] = (chunk * lanes + lane) as u64;
            frame.masks[0][lane] = true;
        }
        machine.run(0, &mut frame, 0, count);
    }
    let mut sum: u64 = 0;
    for lane in 0..lanes {
        sum = sum.wrapping_add(machine.sums[lane]);
    }
    println!("{}", sum as i64);
}
