//! The address-by-address model: each rule of its checks can be the only one broken.

use evidence::input::bench_cases::{b1, e1};
use evidence::input::case::Case;
use evidence::input::draft::{overlay, submission, Header, Module, Version};
use evidence::input::elf::{Elf, ProgramHeader};
use evidence::input::pair::{map_bytes, Pair};
use evidence::input::review_board;
use evidence::loaders::model::{false_headers, header_offset, read};
use evidence::loaders::{run, second};
use evidence::rules::limits::{ADDRESS_FIELDS, HEADER_MAGIC, RAM};
use evidence::rules::offsets::elf_header::*;
use evidence::rules::offsets::header::{BSS_END_ADDR, ENTRY_ADDR, LOAD_ADDR, LOAD_END_ADDR};
use evidence::rules::offsets::program_header::*;

/// B1's image begins here in its submission, and E1's too.
const B1_IMAGE: usize = 20;
/// E1's image ends here, and its module begins.
const E1_IMAGE_END: usize = 192;
/// Where the program headers of E1's two segments stand in its image.
const CODE: usize = 52;
const DATA: usize = 116;

/// The number of the answer, 0 where the model places everything.
fn number(case: &Case) -> u32 {
    let placed = read(case).map_err(|refused| refused.refusal).and_then(|r| r.place());
    placed.map_or_else(|refusal| refusal.number(), |_| 0)
}

/// The case is refused with this number, for this rule and no other.
fn alone(case: Case, number: u32, what: &str) {
    let refused = read(&case).err().unwrap_or_else(|| panic!("{what}: not refused"));
    let broken: Vec<&str> = refused.rules.iter().filter(|r| r.broken).map(|r| r.what).collect();
    assert_eq!((refused.refusal.number(), broken), (number, vec![what]));
}

/// B1 with other bytes at an offset.
fn with(at: usize, bytes: &[u8]) -> Case {
    let mut submission = b1();
    overlay(&mut submission, at, bytes);
    review_board::case(&submission)
}

/// B1 with another field in its header.
fn with_field(field: usize, value: u32) -> Case {
    with(B1_IMAGE + field, &value.to_le_bytes())
}

/// E1 with other bytes in its image.
fn with_image(at: usize, bytes: &[u8]) -> Case {
    let mut submission = e1();
    overlay(&mut submission, B1_IMAGE + at, bytes);
    review_board::case(&submission)
}

/// E1 with another word in its image.
fn with_word(at: usize, value: u32) -> Case {
    with_image(at, &value.to_le_bytes())
}

/// The first bytes of E1's image, with a header at 4.
fn cut_image(length: usize) -> Case {
    let mut image = e1()[B1_IMAGE..E1_IMAGE_END].to_vec();
    overlay(&mut image, 4, &Header::default().bytes()[..12]);
    review_board::case(&submission(Version::One, &image[..length], b"", &[]))
}

/// An image that ends with a table of a segment and empty program headers, bytes cut off of it.
fn with_table(count: usize, cut: usize) -> Case {
    let mut table = vec![ProgramHeader::default(); count];
    table[0] = ProgramHeader::load(0, 0x10_0000, 8, 16);
    let elf = Elf::new(64, 0x10_0000, table);
    let header = &Header::default().bytes()[..12];
    let mut image = [&elf.header.bytes(), header, &elf.table_bytes()].concat();
    image.truncate(image.len() - cut);
    review_board::case(&submission(Version::One, &image, b"", &[]))
}

/// A submission without an image.
fn parts(line: &[u8], modules: &[(&[u8], &[u8])]) -> Case {
    let module = |&(data, string): &(&[u8], &[u8])| Module {
        data: data.to_vec(),
        string: string.to_vec(),
        ceiling: 0,
    };
    let modules: Vec<Module> = modules.iter().map(module).collect();
    review_board::case(&submission(Version::One, b"", line, &modules))
}

/// An image of zeros, its header at an offset.
fn image(length: usize, header: Header) -> Case {
    let mut image = vec![0; length];
    overlay(&mut image, header.offset, &header.bytes());
    review_board::case(&submission(Version::One, &image, b"", &[]))
}

fn on_map(map: Vec<u8>) -> Case {
    Case { map, ..review_board::case(&b1()) }
}

#[test]
fn each_rule_of_the_submission_alone() {
    let cut = |length: usize| review_board::case(&b1()[..length]);
    (0..12).for_each(|length| alone(cut(length), 1, "under 12 bytes"));
    (0..3).for_each(|at| alone(with(at, b"x"), 1, "another mark"));
    for version in [[0, 0], [3, 0], [1, 1], [2, 1]] {
        alone(with(3, &version), 1, "another version");
    }
    let one: (&[u8], &[u8]) = (b"x", b"");
    let long = [b'x'; 256];
    alone(parts(b"", &[one; 17]), 2, "over 16 modules");
    alone(parts(&long, &[]), 2, "a command line over 255 bytes");
    alone(parts(b"", &[one, (b"", b"a")]), 2, "a module without data");
    alone(parts(b"", &[(b"x", &long[..128])]), 2, "a module string over 127 bytes");
    (18..20).for_each(|at| alone(with(at, &[1]), 2, "a ceiling in version 1"));
    let longer = review_board::case(&[&b1()[..], b"x"].concat());
    alone(longer, 2, "parts that end before the submission");
    (12..66).for_each(|length| alone(cut(length), 2, "parts that end past the submission"));
    (6..10).for_each(|at| alone(with(at, &[0xFF]), 2, "parts that end past the submission"));
    alone(with(15, &[0xFF]), 2, "parts that end past the submission");
    alone(parts(b"a\0b", &[one]), 2, "a zero byte in the command line");
    alone(parts(b"a", &[one, (b"\0", b"\0")]), 2, "a zero byte in a module string");
    assert_eq!(number(&parts(&long[..255], &[(&b"\0"[..], &long[..127]); 16])), 6);
}

#[test]
fn each_rule_of_line_window_and_map_alone() {
    let operator = |line: &[u8]| Case { operator: line.to_vec(), ..review_board::case(&b1()) };
    alone(operator(&[b'x'; 256]), 3, "over 255 bytes");
    alone(operator(b"a\0b"), 3, "a zero byte");
    let window = |first, length| Case { first, window: vec![0; length], ..operator(b"") };
    alone(window(0xFFFF_F001, 0), 4, "a window past the top");
    alone(window(0xFFFF_EFFF, 2), 4, "a window past the top");
    let sized = |size| map_bytes(&[Pair { size, ..Pair::new(0, 0, RAM) }]);
    let most = map_bytes(&[Pair::new(0, 0, RAM); 32]);
    alone(on_map(vec![]), 5, "an empty map");
    alone(on_map(sized(4093)), 5, "over 4,096 bytes");
    alone(on_map([&most[..], &sized(20)].concat()), 5, "over 32 pairs");
    (0..20).for_each(|size| alone(on_map(sized(size)), 5, "a size under 20"));
    (4..24).for_each(|end| alone(on_map(sized(20)[..end].to_vec()), 5, "a pair past the end"));
    let huge = [&u32::MAX.to_le_bytes()[..], &[0; 20]].concat();
    alone(on_map(huge), 5, "a pair past the end");
    let tail = |n| on_map([&most[..], &[0; 3][..n]].concat());
    (1..4).for_each(|n| alone(tail(n), 5, "a size field past the end"));
    assert_eq!([number(&on_map(most)), number(&on_map(sized(4092)))], [15, 15]);
}

#[test]
fn each_rule_of_the_kernel_alone() {
    let header = |offset| Header { offset, flags: ADDRESS_FIELDS, ..Header::default() };
    alone(image(9000, header(8164)), 9, "beyond 8,192 bytes");
    alone(image(31, header(0)), 9, "beyond the image");
    alone(with_field(LOAD_ADDR, 0x10_0001), 10, "load_addr above header_addr");
    alone(with_field(LOAD_ADDR, 0xF_FFFF), 10, "a difference above the header offset");
    alone(with_field(LOAD_END_ADDR, 0xF_FFFF), 12, "load_end_addr below load_addr");
    alone(with_field(LOAD_END_ADDR, 0x10_0029), 12, "a load beyond the image");
    alone(with_field(BSS_END_ADDR, 0x10_0027), 13, "bss_end_addr below the load end");
    alone(with_field(ENTRY_ADDR, 0xF_FFFF), 14, "an entry below load_addr");
    alone(with_field(ENTRY_ADDR, 0x10_0028), 14, "an entry not below the load end");
    assert_eq!([number(&with_field(ENTRY_ADDR, 0x10_0027)), number(&image(40, header(2)))], [0, 6]);
}

#[test]
fn each_flag_bit() {
    for (bit, others) in (0..32).flat_map(|bit| [0, ADDRESS_FIELDS].map(|others| (bit, others))) {
        let case = image(40, Header { flags: 1 << bit | others, ..Header::default() });
        match bit {
            2..=15 => alone(case, 7, "one of bits 2 to 15 set"),
            17..=31 => alone(case, 25, "one of bits 17 to 31 set"),
            16 => assert_eq!(number(&case), 15),
            _ => assert_eq!(number(&case), if others == 0 { 8 } else { 15 }),
        }
    }
}

/// A sum of 2^33 takes undefined bits; the search finds such a header all the same.
#[test]
fn the_search_knows_both_sums() {
    let found = |flags: u32, checksum: u32| {
        let words = [HEADER_MAGIC, flags, checksum];
        header_offset(&words.map(u32::to_le_bytes).concat())
    };
    assert_eq!(found(0x0000_0000, 0xE452_4FFE), Some(0));
    assert_eq!(found(0xE452_4FFE, 0x0000_0000), Some(0));
    assert_eq!(found(0xE452_4FFF, 0xFFFF_FFFF), Some(0));
    assert_eq!(found(0xFFFF_FFFF, 0xE452_4FFF), Some(0));
    assert_eq!(found(0xFFFF_FFFF, 0xFFFF_FFFF), None);
}

/// A false header at each offset of an image that is longer than what is searched, alone and with a
/// header at 4,096.
#[test]
fn which_false_headers_are_counted() {
    let parts = [Header { checksum_off_by: 1, ..Header::default() }, Header::default()];
    let [decoy, header] = parts.map(|header| header.bytes()[..12].to_vec());
    for at in 0..9000 {
        let mut image = vec![0; 9000];
        overlay(&mut image, at, &decoy);
        let alone = false_headers(&image);
        overlay(&mut image, 4096, &header);
        let is_multiple = at % 4 == 0;
        let counts = [is_multiple && at <= 8180, is_multiple && at < 4096].map(u64::from);
        assert_eq!([alone, false_headers(&image)], counts, "at {at}");
    }
}

#[test]
fn each_rule_of_the_elf_header_alone() {
    (0..4).for_each(|at| alone(with_image(at, b"x"), 8, "bit 16 clear and no ELF mark"));
    (16..52).for_each(|length| alone(cut_image(length), 18, "under 52 bytes"));
    for other in [0, 2, 0x81] {
        alone(with_image(EI_CLASS, &[other]), 18, "another class");
        alone(with_image(EI_DATA, &[other]), 18, "another data");
    }
    (0..2).for_each(|at| alone(with_image(E_TYPE + at, &[1]), 18, "another type"));
    (0..2).for_each(|at| alone(with_image(E_MACHINE + at, &[1]), 18, "another machine"));
    (0..2).for_each(|at| alone(with_image(E_PHENTSIZE + at, &[1]), 18, "another entry size"));
    alone(with_word(E_PHNUM, 0), 18, "no segment");
    alone(with_word(E_PHNUM, 4), 18, "a table beyond the image");
    alone(with_table(2, 1), 18, "a table beyond the image");
    alone(with_table(17, 0), 18, "over 16 entries");
    assert_eq!([number(&review_board::case(&e1())), number(&with_table(16, 0))], [0; 2]);
}

/// Does an image pass 18 that has all of it in place, its one program header at `e_phoff`, with a
/// header written over that?
fn passes_18(length: usize, offset: usize, flags: u32, e_phoff: usize) -> bool {
    let mut image = vec![0; length];
    overlay(&mut image, e_phoff + P_MEMSZ, &[0xFF; 4]);
    overlay(&mut image, e_phoff + P_TYPE, &[1, 0, 0, 0]);
    overlay(&mut image, 0, b"\x7FELF\x01\x01");
    overlay(&mut image, E_TYPE, &[2, 0, 3, 0]);
    overlay(&mut image, E_PHOFF, &(e_phoff as u32).to_le_bytes());
    overlay(&mut image, E_PHENTSIZE, &[32, 0, 1, 0]);
    overlay(&mut image, offset, &Header { flags, ..Header::default() }.bytes()[..12]);
    let case = review_board::case(&submission(Version::One, &image, b"", &[]));
    ![6, 7, 25, 8, 18].contains(&number(&case))
}

/// An image in order stays so with zeros behind it, so that 59 bytes speak for all shorter ones too.
/// There is room for one program header. The last flags fit a header at 32 to the entry size.
#[test]
fn no_elf_image_under_60_bytes_is_in_order() {
    let some_passes = |length: usize| {
        let places = || (0..=length - 12).step_by(4);
        let tables = |offset: usize, flags: u32| {
            (0..=length - 32).any(|e_phoff| passes_18(length, offset, flags, e_phoff))
        };
        [0, 1, 2, 3, 0xE432_0000].iter().any(|&flags| places().any(|at| tables(at, flags)))
    };
    assert_eq!([59, 60].map(some_passes), [false, true]);
}

#[test]
fn each_rule_of_the_table_alone() {
    let mut types = with_word(CODE + P_TYPE, 0);
    overlay(&mut types.submission, B1_IMAGE + DATA + P_TYPE, &[2]);
    alone(types, 18, "no segment");
    alone(with_word(DATA + P_OFFSET, 169), 19, "file bytes outside the image");
    alone(with_word(DATA + P_OFFSET, u32::MAX), 19, "file bytes outside the image");
    alone(with_word(CODE + P_MEMSZ, 7), 19, "a file size above the memory size");
    alone(with_word(DATA + P_MEMSZ, 0), 19, "a file size above the memory size");
    for start in [0x0F_FFF9, 0x10_0000, 0x10_000F] {
        alone(with_word(DATA + P_PADDR, start), 20, "two segments that share an address");
    }
    for entry in [0, 0x0F_FFFF, 0x10_0008, 0x10_0017, 0x10_001C, 0xC010_0000] {
        alone(with_word(E_ENTRY, entry), 14, "an entry in no segment's load bytes");
    }
    let loaded = [with_word(DATA + P_PADDR, 0x10_0010), with_word(E_ENTRY, 0x10_001B)];
    assert_eq!(loaded.map(|case| number(&case)), [0; 2]);
}

/// Lengths that lead anywhere, and long garbage.
#[test]
fn any_bytes_are_read() {
    for at in 0..b1().len() {
        let cases = [0, 1, 0x7F, 0xFF].map(|byte| with(at, &[byte; 4]));
        let by_second = cases.each_ref().map(|case| run(second::load, case).words[0]);
        assert_eq!(cases.each_ref().map(number), by_second, "at {at}");
    }
    for at in 0..E1_IMAGE_END - B1_IMAGE {
        let cases = [0, 1, 0x10, 0xFF].map(|byte| with_image(at, &[byte]));
        let by_second = cases.each_ref().map(|case| run(second::load, case).words[0]);
        assert_eq!(cases.each_ref().map(number), by_second, "in E1's image at {at}");
    }
    let maps = [0, 1, 19, 0xFF].map(|byte| number(&on_map(vec![byte; 300 << 10])));
    assert_eq!(maps, [5; 4]);
    let filled = |byte| review_board::case(&[&b"KSB\x01\x00"[..], &vec![byte; 300 << 10]].concat());
    assert_eq!([0, 1, 0xFF].map(|byte| number(&filled(byte))), [2; 3]);
}
