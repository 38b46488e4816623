//! How much stack a call of the library takes: it runs on a painted stack, and whatever is no
//! longer paint was used.

use evidence::input::bench_cases::{bench, borders};
use evidence::input::case::Case;
use evidence::input::generate;
use std::arch::asm;
use std::fs;
use viertompu::{load_words, mend_words, Words, MEND_WORDS, WORDS};

const HEADER: &str = concat!(env!("CARGO_MANIFEST_DIR"), "/../../include/viertompu.h");
/// A word of a stack on which nothing has run yet.
const PAINT: u64 = 0xA5A5_A5A5_A5A5_A5A5;
const WORD: usize = size_of::<u64>();
const GENERATED: u64 = 5000;

#[repr(align(16))]
struct Stack([u64; 8192]);

/// What a load takes, where the function on the painted stack finds it.
struct Load<'a> {
    case: &'a Case,
    window: Vec<u8>,
    words: Words,
}

extern "sysv64" fn load(call: &mut Load) {
    let Case { submission, operator, map, first, .. } = call.case;
    load_words(submission, operator, map, &mut call.window, *first, &mut call.words);
}

extern "sysv64" fn mend(image: &mut Vec<u8>) {
    mend_words(image, &mut [0; MEND_WORDS]);
}

/// The bytes of stack that a function takes, with its own arguments.
fn used<T>(function: extern "sysv64" fn(&mut T), call: &mut T) -> usize {
    let mut stack = Box::new(Stack([PAINT; 8192]));
    // SAFETY: the stack is aligned to 16 bytes and larger than what the call takes; `function`, one of
    // the two above, neither unwinds nor keeps anything, and the old stack pointer waits in a register
    // that it preserves.
    unsafe {
        asm!(
            "mov r12, rsp",
            "mov rsp, {top}",
            "call {function}",
            "mov rsp, r12",
            top = in(reg) stack.0.as_mut_ptr_range().end,
            function = in(reg) function,
            inout("rdi") call => _,
            out("r12") _,
            clobber_abi("sysv64"),
        );
    }
    let unused = stack.0.iter().take_while(|&&word| word == PAINT).count();
    WORD * (stack.0.len() - unused)
}

/// The value of a constant of the C header.
fn constant(name: &str) -> usize {
    let text = fs::read_to_string(HEADER).expect("the header can be read");
    let mut values = text.lines().filter_map(|line| line.strip_prefix(&format!("#define {name} ")));
    let value = values.next().expect("the header has the constant");
    let number = value.split_whitespace().next().expect("it has a value");
    number.parse().expect("it is a number")
}

#[test]
fn a_call_takes_the_stack_that_the_header_tells() {
    let by_hand = bench().into_iter().chain(borders()).map(|bench| bench.case);
    let generated = (0..GENERATED).map(|index| generate::case(1, index));
    let used_by = |case: Case| {
        let window = case.window.clone();
        used(load, &mut Load { case: &case, window, words: [0; WORDS] })
    };
    let most = by_hand.chain(generated).map(used_by).max().expect("there are cases");
    println!("at most {most} bytes of stack");
    assert!(most <= constant("VIERTOMPU_STACK"), "{most} bytes of stack");
    assert!((7600..7800).contains(&most), "{most} bytes of stack are not about 7.7 KB");
}

#[test]
fn a_mend_takes_little_of_it() {
    let images = (0..GENERATED).map(|index| generate::image(1, index));
    let most = images.map(|mut image| used(mend, &mut image)).max().expect("there are images");
    println!("at most {most} bytes of stack for a mend");
    assert!(most <= constant("VIERTOMPU_STACK") / 8, "{most} bytes of stack");
}
