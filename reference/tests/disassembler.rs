//! The disassembler writes a text of which assembling makes the same bytes, for every kernel that
//! the bench accepts, and lines that a reader expects.

use spokeshaver_reference::answers::Answer;
use spokeshaver_reference::calls::{check, pack};
use spokeshaver_reference::dictionary::Dictionary;
use spokeshaver_reference::generate::{case, Call, Case};
use spokeshaver_reference::random::Random;
use spokeshaver_reference::text::{assemble_with, disassemble, FIELDS};
use std::collections::HashSet;
use std::path::Path;
use std::sync::OnceLock;

/// The kernels of a case.
fn kernels(case: &Case) -> Vec<Vec<u8>> {
    match &case.call {
        Call::Check { kernel }
        | Call::Pack { kernel, .. }
        | Call::Unpack { kernel, .. }
        | Call::Decode { kernel, .. }
        | Call::Step { kernel, .. }
        | Call::Run { kernel, .. }
        | Call::Forward { kernel }
        | Call::List { kernel, .. } => vec![kernel.clone()],
        Call::Pair { long, sent } => vec![long.clone(), sent.clone()],
        _ => Vec::new(),
    }
}

fn is_accepted(dictionary: &[u8], kernel: &[u8]) -> bool {
    Answer::of(check(dictionary, kernel)).number == 0
}

/// The kernel packed, if it has long words only.
fn packed(dictionary: &[u8], kernel: &[u8]) -> Option<Vec<u8>> {
    let mut out = vec![0; kernel.len()];
    let answer = Answer::of(pack(dictionary, kernel, &mut out));
    out.truncate(answer.count);
    (answer.number == 0).then_some(out)
}

/// Accepted kernels of so many cases, each with its dictionary, as they are and packed. Of long
/// kernels one in three is taken.
fn accepted(cases: u64) -> Vec<(Vec<u8>, Vec<u8>)> {
    let mut found = Vec::new();
    for case in (0..cases).map(case) {
        let dictionary = &case.dictionary;
        for kernel in kernels(&case) {
            let is_taken = kernel.len() < 4_000 || case.seed % 3 == 0;
            if is_taken && is_accepted(dictionary, &kernel) {
                found
                    .extend(packed(dictionary, &kernel).map(|packed| (dictionary.clone(), packed)));
                found.push((dictionary.clone(), kernel));
            }
        }
    }
    found
}

/// Asserts that the kernel's text assembles to the kernel, and gives the text.
fn round_trip(dictionary: &[u8], kernel: &[u8]) -> String {
    let text = disassemble(dictionary, kernel).expect("an accepted kernel");
    let numbers = Dictionary::read(dictionary).expect("a legal dictionary");
    let again = assemble_with(&numbers, &text).unwrap_or_else(|faults| panic!("{faults:?}"));
    assert!(again == kernel, "{text}");
    text
}

/// What came of the generated kernels: how many there are, and the words of their texts.
struct Trips {
    kernels: usize,
    words: HashSet<String>,
}

/// Thousands of kernels there and back, made once for the tests that ask.
fn trips() -> &'static Trips {
    static MADE: OnceLock<Trips> = OnceLock::new();
    MADE.get_or_init(|| {
        let kernels = accepted(7_500);
        let mut words = HashSet::new();
        for (dictionary, kernel) in &kernels {
            add_words(&mut words, &round_trip(dictionary, kernel));
        }
        Trips { kernels: kernels.len(), words }
    })
}

#[test]
fn assembling_undoes_disassembling() {
    assert!(trips().kernels > 4_000, "{} kernels", trips().kernels);
}

#[test]
fn every_notation_comes_up() {
    for notation in notations() {
        assert!(trips().words.contains(&notation), "{notation} never came up");
    }
}

/// Adds what a text is made of: names, numbers and signs.
fn add_words(words: &mut HashSet<String>, text: &str) {
    let is_inner =
        |character: char| character.is_ascii_alphanumeric() || ".|-:".contains(character);
    let splits = |character: char| !is_inner(character);
    for word in text.split(splits) {
        if !words.contains(word) {
            words.insert(word.to_string());
        }
    }
}

/// What must come up, as the text's words have it.
fn notations() -> Vec<String> {
    let operations =
        "mov sel not and or xor shr shl asr cmp.z cmp.nz cmp.g cmp.ge cmp.l cmp.le add \
        mul avg nop jmpi if else endif while break cont mov.sat sel.sat add.sat mul.sat avg.sat";
    let types = ":ud :d :uw :w :ub :b :f null:ud null:b null:f null inf:f -0.0:f 7fc00000:f";
    let flags = "f0.0 f0.1 -f0.0 -f0.1 f0.0.any2h f0.1.all2h -f0.0.any4h -f0.1.all4h f0.0.any8h \
        f0.0.all8h -f0.0.any16h -f0.1.all16h";
    let operands = "r0 r127 |r2 -r2 -|r2 r2.1 -r2.31 a0.0 a0.7 0:ud 1:d -1:d -32768:w 65535:uw \
        4294967295:ud -2147483648:d 1 2 4 8 16 32 - end end: L0 L0: L4095: short";
    let named = FIELDS.iter().map(|field| field.name.to_string());
    let written = [operations, types, flags, operands].join(" ");
    written.split_whitespace().map(str::to_string).chain(named).collect()
}

/// The kernel with one to three bits flipped.
fn flipped(random: &mut Random, kernel: &[u8]) -> Vec<u8> {
    let mut bytes = kernel.to_vec();
    for _ in 0..random.between(1, 3) {
        bytes[random.below(kernel.len())] ^= 1 << random.below(8);
    }
    bytes
}

/// Kernels in which bits were flipped, where the bench accepts them still: bits that nobody reads
/// are kept too.
#[test]
fn every_bit_is_kept() {
    let mut random = Random::new(1);
    let mut kept = 0;
    let mut kernels = accepted(1_500);
    kernels.retain(|(_, kernel)| (1..1_000).contains(&kernel.len()));
    for at in 0..8 * kernels.len() {
        let (dictionary, kernel) = &kernels[at / 8];
        let flipped = flipped(&mut random, kernel);
        if is_accepted(dictionary, &flipped) {
            round_trip(dictionary, &flipped);
            kept += 1;
        }
    }
    assert!(kept > 1_000, "{kept}");
}

/// A word of four dwords, and its line.
fn has_line(dwords: [u32; 4], line: &str) {
    let kernel = dwords.map(u32::to_le_bytes).concat();
    assert_eq!(round_trip(&[0; 512], &kernel), format!("{line}\n"));
}

/// Words of the bench sheet and of the request for addresses, and their lines there.
#[test]
fn words_of_the_paper() {
    let row_a = [0x0060_0040, 0x2080_14A5, 0x008D_0040, 0x008D_0060];
    has_line(row_a, "add(8) r4<1>:d r2<8;8,1>:d r3<8;8,1>:d");
    let read = [0x0060_0001, 0x2080_00A5, 0x008D_880C, 0];
    has_line(read, "mov(8) r4<1>:d r[a0.2 + 12]<8;8,1>:d");
    let written = [0x0060_0001, 0xABF4_00A5, 0x008D_0080, 0];
    has_line(written, "mov(8) r[a0.2 - 12]<1>:d r4<8;8,1>:d");
}

/// Words of a driver's own assembler tests, read by hand with the paper's places of fields.
#[test]
fn words_from_outside() {
    let and = [0x0000_0205, 0x22C0_0C21, 0x0000_0000, 0x0000_00C0];
    has_line(and, "and(1) r22<1>:ud r0<0;1,0>:ud 192:ud {WECtrl}");
    let add = [0x0060_0040, 0x4062_2529, 0x00AE_0062, 0x00AE_01A0];
    has_line(add, "add(8) r3.1<2>:uw r3.1<16;8,2>:uw r13<16;8,2>:uw");
    let cmp = [0x0161_0010, 0x2000_1CA4, 0x028D_04A0, 0x0000_0000];
    has_line(cmp, "(+f0.1) cmp.z(8) f0.1 null<1>:d r37<8;8,1>:d 0:d");
    let mov = [0x0060_0001, 0x21A0_10E5, 0x0000_0000, 0x0000_0000];
    has_line(mov, "mov(8) r13<1>:d 0:d {src1.type}");
    let negated = [0x0060_0001, 0x2060_00A5, 0x0000_4040, 0x0000_0000];
    has_line(negated, "mov(8) r3<1>:d -r2<0;1,0>:d");
    let bytes = [0x0080_0001, 0x2C60_0221, 0x00CF_0B63, 0x0000_0000];
    has_line(bytes, "mov(16) r99<1>:ud r91.3<32;8,4>:ub");
    let sel = [0x0091_0002, 0x20E0_0C21, 0x008D_0120, 0x0000_0000];
    has_line(sel, "(-f0.0) sel(16) r7<1>:ud r9<8;8,1>:ud 0:ud");
}

/// Words made by hand: votes, quarters, a0, limits of numbers, and a nop with bits.
#[test]
fn words_made_by_hand() {
    // PredCtrl 7, inverted, f0.1; Saturate; size 16; the least word as an immediate.
    let vote = [0x8097_0040, 0x2080_3DAD, 0x0269_0040, 0x8000_8000];
    has_line(vote, "(-f0.1.all4h) add.sat(16) r4<1>:w r2<4;4,1>:w -32768:w");
    // QtrCtrl 1, DepCtrl 3, ThreadCtrl 2, DebugCtrl 1.
    let carried = [0x4060_9C01, 0x2080_0061, 0x0000_0000, 0xFFFF_FFFF];
    let line = "mov(8) r4<1>:ud 4294967295:ud {DepCtrl=3 QtrCtrl ThreadCtrl=2 DebugCtrl}";
    has_line(carried, line);
    // a0.7 from r127.15, both uw.
    let to_a0 = [0x0000_0001, 0x220E_0128, 0x0000_0FFE, 0x0000_0000];
    has_line(to_a0, "mov(1) a0.7<1>:uw r127.15<0;1,0>:uw");
    let from_a0 = [0x0060_0001, 0x2080_0109, 0x008D_6200, 0x0000_0000];
    has_line(from_a0, "mov(8) r4<1>:uw -|a0.0<8;8,1>:uw");
    has_line([0x0000_007E, 0, 0, 0], "nop");
    has_line([0x0080_007E, 0, 0, 0], "nop(16)");
    has_line([0x80E3_007E, 0, 0, 1], "nop {PredCtrl=3 ExecSize=7 Saturate src1.subregister}");
}

/// Branches have labels: the numbers of instructions, and end. An if with a distance of 4 places,
/// a break with 2 and 4, a cont with 2 and -2, a jmpi from its end by -8, and a while to the end.
#[test]
fn branches_made_by_hand() {
    let words: [[u32; 4]; 5] = [
        [0x0091_0022, 0x0004_0000, 0, 0],
        [0x0080_0028, 0, 0, 0x0004_0002],
        [0x008A_0029, 0, 0x0200_0000, 0xFFFE_0002],
        [0x0000_0020, 0x0000_1C00, 0, 0xFFFF_FFF8],
        [0x0080_0027, 0x0002_8000, 0xFC00_0000, 0],
    ];
    let kernel: Vec<u8> = words.concat().into_iter().flat_map(u32::to_le_bytes).collect();
    let text = "L0:\n(-f0.0) if(16) L2\n\
        L1:\nbreak(16) L2 L3\n\
        L2:\n(+f0.1.any16h) cont(16) L3 L1\n\
        L3:\njmpi(1) L0\n\
        while(16) end {47 95:90=63}\nend:\n";
    assert_eq!(round_trip(&[0; 512], &kernel), text);
    assert_eq!(round_trip(&[0; 512], &[]), "");
}

/// Row A's short word, and the same with another index where the dictionary has its number twice.
#[test]
fn short_words() {
    let mut dictionary = vec![0; 512];
    for (number, value) in [(1usize, 0x6000u32), (34, 0x94A5), (99, 0x468), (127, 0x468)] {
        dictionary[4 * number..4 * number + 4].copy_from_slice(&value.to_le_bytes());
    }
    let smallest = 0x0302_0418_E000_4140u64;
    let other = smallest | 0x1F << 35;
    let kernel = [smallest, other].map(u64::to_le_bytes).concat();
    let line = "add(8) r4<1>:d r2<8;8,1>:d r3<8;8,1>:d";
    let text = format!("{line} {{short}}\n{line} {{short=0x030204f8e0004140}}\n");
    assert_eq!(round_trip(&dictionary, &kernel), text);
}

/// A refusal is told as check tells it.
#[test]
fn refused_kernels() {
    let mut refused = 0;
    for case in (0..600).map(case) {
        for kernel in kernels(&case) {
            let answer = Answer::of(check(&case.dictionary, &kernel));
            let told = disassemble(&case.dictionary, &kernel).err();
            let expected = (answer.number != 0).then_some((answer.number, answer.at));
            assert_eq!(told.map(|refusal| (refusal.number, refusal.at)), expected);
            refused += told.is_some() as usize;
        }
    }
    assert!(refused > 50, "{refused}");
}

/// The bytes of a file of this repository.
fn stored(name: &str) -> Vec<u8> {
    std::fs::read(Path::new(env!("CARGO_MANIFEST_DIR")).join("..").join(name)).expect("a file")
}

/// The example's kernel, long and as somebody else packed it.
#[test]
fn the_example_comes_back() {
    let dictionary = stored("examples/place-tile.dictionary");
    let long = round_trip(&dictionary, &stored("examples/place-tile.kernel"));
    let sent = round_trip(&dictionary, &stored("examples/place-tile.sent"));
    assert_eq!(sent.matches(" {short}").count(), 8);
    assert_eq!(sent.replace(" {short}", ""), long);
}

/// The words that an open driver's own tests hold, long and short, as far as the bench has them.
#[test]
fn words_of_a_driver_come_back() {
    let lines = |text: &'static str| {
        let kept = text.lines().filter(|line| !line.starts_with('#'));
        kept.map(|line| line.split_whitespace().collect::<Vec<&str>>())
    };
    let mut dictionary = Vec::new();
    for parts in lines(include_str!("data/dictionary-000.txt")) {
        let number = u32::from_str_radix(parts[2].trim_start_matches("0x"), 16).expect("a number");
        dictionary.extend(number.to_le_bytes());
    }
    let words =
        lines(include_str!("data/sandybridge-words.txt")).flat_map(|parts| parts[1..].to_vec());
    let bytes = |digits: &str| -> Vec<u8> {
        let pairs = (0..digits.len() / 2).map(|at| &digits[2 * at..2 * at + 2]);
        pairs.map(|pair| u8::from_str_radix(pair, 16).expect("two digits")).collect()
    };
    let kernels: Vec<Vec<u8>> = words.filter(|word| *word != "-").map(bytes).collect();
    let accepted = kernels.iter().filter(|kernel| is_accepted(&dictionary, kernel));
    let texts: Vec<String> = accepted.map(|kernel| round_trip(&dictionary, kernel)).collect();
    assert!(texts.len() > 50, "{}", texts.len());
    assert!(texts.contains(&"shl(16) r3<1>:d r2.4<0;1,0>:d 4:ud {short}\n".to_string()));
}
