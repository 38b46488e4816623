//! Times the loaders beside a plain copy of the same bytes: a 4 MiB image with its header at
//! 8,160, 16 modules and a map of 32 pairs, into a window of 8 MiB.
//!
//! `cargo run --release --bin speed`

use evidence::input::case::Case;
use evidence::input::draft::{pattern, Draft, Header, Module};
use evidence::input::pair::Pair;
use evidence::loaders::{model, second, PROVED};
use evidence::rules::limits::{
    ADDRESS_FIELDS, FLOOR, FULL_HEADER, LOW_MEMORY, MAX_MODULES, MAX_PAIRS, MIB, PAGE_ALIGNED, RAM,
    SEARCH_LIMIT,
};
use std::hint::black_box;
use std::time::{Duration, Instant};
use viertompu::{read_words, Plan};

const HEADER_OFFSET: usize = SEARCH_LIMIT - FULL_HEADER;
const MODULE: usize = 64 * 1024;
const BSS: u32 = 64 * 1024;
const ROUNDS: usize = 51;

fn main() {
    let case = case();
    let mut window = case.window.clone();
    let words = second::load(&case, &mut window);
    let plan = read_words(&words).expect("the case is a load");
    let writes = writes(&case, &plan, &window);
    let written: usize = writes.iter().map(|(_, bytes)| bytes.len()).sum();
    println!("{written} bytes written, median and least of {ROUNDS} rounds");
    report("plain copy", written, || copy(&writes, &mut window));
    report("second", written, || {
        black_box(second::load(&case, &mut window));
    });
    for (name, loader) in PROVED {
        assert!(loader(&case, &mut window) == words, "{name} differs");
        report(name, written, || {
            black_box(loader(&case, &mut window));
        });
    }
}

fn case() -> Case {
    let load_addr = FLOOR as u32;
    let load_end = load_addr + 4 * MIB as u32;
    let module = |index: usize| Module {
        data: pattern(index, MODULE),
        string: format!("module {index}").into_bytes(),
        ceiling: 0,
    };
    let draft = Draft {
        filler: pattern(0, 4 * MIB as usize),
        header: Header {
            offset: HEADER_OFFSET,
            flags: ADDRESS_FIELDS | PAGE_ALIGNED,
            header_addr: load_addr + HEADER_OFFSET as u32,
            load_addr,
            bss_end_addr: load_end + BSS,
            entry_addr: load_addr,
            ..Header::default()
        },
        modules: (0..MAX_MODULES).map(module).collect(),
        line: b"speed".to_vec(),
        pairs: map(),
        first: load_addr,
        window: 8 * MIB as usize,
        ..Draft::default()
    };
    draft.case("speed".to_string())
}

/// Low memory, then the window's memory in pairs that abut.
fn map() -> Vec<Pair> {
    let count = MAX_PAIRS as u64 - 1;
    let length = (8 * MIB).div_ceil(count);
    let part = |index: u64| Pair::new(FLOOR + index * length, length, RAM);
    let mut pairs = vec![Pair::new(0, LOW_MEMORY, RAM)];
    pairs.extend((0..count).map(part));
    pairs
}

/// What a load writes: where in the window, and the bytes.
fn writes(case: &Case, plan: &Plan, loaded: &[u8]) -> Vec<(usize, Vec<u8>)> {
    let reading = model::read(case).unwrap_or_else(|_| panic!("the case is a load"));
    let submission = reading.submission;
    let offset = |address: u32| (address - case.first) as usize;
    let mut writes = Vec::new();
    for (segment, from) in plan.loaded_segments().iter().zip(&reading.kernel.segments) {
        let [start, load_end, end] =
            [segment.start, segment.load_end, segment.extent_end].map(offset);
        let bytes = &submission.image[from.offset as usize..][..load_end - start];
        writes.extend([(start, bytes.to_vec()), (load_end, vec![0; end - load_end])]);
    }
    for (module, span) in submission.modules.iter().zip(&plan.modules) {
        writes.push((offset(span.start), module.data.to_vec()));
    }
    let (start, end) = (offset(plan.block.start), offset(plan.block.end));
    writes.push((start, loaded[start..end].to_vec()));
    writes
}

fn copy(writes: &[(usize, Vec<u8>)], window: &mut [u8]) {
    for (offset, bytes) in writes {
        window[*offset..offset + bytes.len()].copy_from_slice(black_box(bytes));
    }
    black_box(window);
}

fn report(name: &str, written: usize, mut work: impl FnMut()) {
    let mut times: Vec<Duration> = (0..ROUNDS)
        .map(|_| {
            let began = Instant::now();
            work();
            began.elapsed()
        })
        .collect();
    times.sort();
    let micros = |time: Duration| time.as_secs_f64() * 1e6;
    let (median, least) = (micros(times[ROUNDS / 2]), micros(times[0]));
    let rate = written as f64 / median / 1000.0;
    println!("{name:20} {median:10.1} us {least:10.1} us {rate:8.2} GB/s");
}
