// Writes two inputs, each a program and then a trace file: one of local steps alone, and one with as many events
// as a trace can have. Its arguments are the names of the two files.
use std::{env, fs, process};

const THREADS: usize = 8;
const MOST_STEPS: usize = 65_535;
const MOST_EVENTS: usize = 1024;

// An instruction's code, a and b.
type Instruction = (u8, u8, u16);

fn set(a: u8, number: usize) -> Instruction {
    (1, a, number as u16)
}

fn add(a: u8, b: u16) -> Instruction {
    (2, a, b)
}

fn subtract(a: u8, b: u16) -> Instruction {
    (3, a, b)
}

fn jump_if_zero(a: u8, place: usize) -> Instruction {
    (4, a, place as u16)
}

fn jump(place: usize) -> Instruction {
    (5, 0, place as u16)
}

fn read(a: u8) -> Instruction {
    (6, a, 0)
}

fn write(a: u8) -> Instruction {
    (7, a, 0)
}

// Counts register 1 down again and again, from a number that differs from thread to thread.
fn local_text(t: usize) -> Vec<Instruction> {
    vec![
        set(0, 1),
        set(1, 10 + 3 * t),
        add(2, 0),
        subtract(3, 2),
        subtract(1, 0),
        jump_if_zero(1, 7),
        jump(2),
        add(3, 1),
        jump(1),
    ]
}

// Three steps for each turn, of which there is at least one; register 0 must be 1.
fn push_spin(text: &mut Vec<Instruction>, turns: usize) {
    text.push(set(1, turns));
    let start = text.len();
    text.extend([subtract(1, 0), jump_if_zero(1, start + 3), jump(start)]);
}

// Cycles of four events on variable 0, with a spin before each, of so many turns in a cycle. The threads start one
// after another, all within the time from one event to the next. Every other thread writes twice in a cycle, the
// rest once.
fn events_text(t: usize, turns: usize) -> Vec<Instruction> {
    let mut text = vec![set(0, 1)];
    if t > 0 {
        push_spin(&mut text, turns / 4 * t / THREADS);
    }
    let cycle = text.len();
    for k in 0..4 {
        push_spin(&mut text, (turns + k) / 4);
        let writes = k == 3 || (k == 1 && t.is_multiple_of(2));
        text.extend([add(2, 0), if writes { write(2) } else { read(2) }]);
    }
    text.push(jump(cycle));
    text
}

// What was recorded of a run: the bytes of variable 0's events, and the events and the steps of each thread.
#[derive(Default)]
struct Recording {
    section: Vec<u8>,
    events: [usize; THREADS],
    steps: [usize; THREADS],
}

// Runs the threads in turn, one step each, until the events are as many as a trace can have.
fn record(texts: &[Vec<Instruction>]) -> Recording {
    let mut run = Recording::default();
    let mut registers = [[0u32; 4]; THREADS];
    let mut places = [0; THREADS];
    let (mut value, mut version, mut reads) = (0, 0u16, 0u16);
    for t in (0..THREADS).cycle() {
        let (code, a, b) = texts[t][places[t]];
        let (a, b) = (usize::from(a), usize::from(b));
        let r = &mut registers[t];
        places[t] += 1;
        run.steps[t] += 1;
        match code {
            1 => r[a] = b as u32,
            2 => r[a] = r[a].wrapping_add(r[b]),
            3 => r[a] = r[a].wrapping_sub(r[b]),
            4 if r[a] != 0 => {}
            4 | 5 => places[t] = b,
            _ => {
                run.events[t] += 1;
                run.section.extend([t as u8 + 1, code - 6]);
                run.section.extend(version.to_le_bytes());
                if code == 6 {
                    r[a] = value;
                    reads += 1;
                } else {
                    run.section.extend(reads.to_le_bytes());
                    value = r[a];
                    version += 1;
                    reads = 0;
                }
                if run.events.iter().sum::<usize>() == MOST_EVENTS {
                    break;
                }
            }
        }
    }
    run
}

fn push_number(bytes: &mut Vec<u8>, number: usize) {
    bytes.extend((number as u16).to_le_bytes());
}

// The bytes of a program, and of a trace file in which no other object than variable 0 has events.
fn input(texts: &[Vec<Instruction>], section: &[u8], counts: &[usize; THREADS]) -> Vec<u8> {
    let mut bytes = vec![THREADS as u8];
    bytes.extend([0; 8]);
    bytes.extend([1; 8]);
    for text in texts {
        bytes.push(text.len() as u8);
        for &(code, a, b) in text {
            bytes.extend([code, a]);
            push_number(&mut bytes, b.into());
        }
    }
    bytes.extend([4, 0, THREADS as u8, 0]);
    let mut lengths = [0; 33];
    lengths[0] = section.len();
    lengths[32] = 2 * THREADS;
    let mut offset = 136;
    for length in lengths {
        push_number(&mut bytes, offset);
        push_number(&mut bytes, length);
        offset += length;
    }
    bytes.extend(section);
    for &count in counts {
        push_number(&mut bytes, count);
    }
    bytes
}

// Local steps alone, as many as can be.
fn local() -> Vec<u8> {
    let texts: Vec<_> = (0..THREADS).map(local_text).collect();
    input(&texts, &[], &[MOST_STEPS; THREADS])
}

// Events, with the longest spins at which no thread makes too many steps.
fn events() -> Vec<u8> {
    let cycles = MOST_EVENTS / THREADS / 4;
    let mut turns = MOST_STEPS / cycles / 3;
    loop {
        let texts: Vec<_> = (0..THREADS).map(|t| events_text(t, turns)).collect();
        let run = record(&texts);
        if run.steps.iter().all(|&n| n <= MOST_STEPS) {
            assert_eq!(run.events, [MOST_EVENTS / THREADS; THREADS]);
            return input(&texts, &run.section, &run.steps);
        }
        turns -= 1;
    }
}

fn main() -> std::io::Result<()> {
    let names: Vec<_> = env::args_os().skip(1).collect();
    let [local_name, events_name] = &names[..] else {
        eprintln!("usage: inputs LOCAL EVENTS");
        process::exit(2);
    };
    fs::write(local_name, local())?;
    fs::write(events_name, events())
}
