//! What makes the text form whole: fields in braces, short words, hex numbers and commas.

mod texts;

use spokeshaver_reference::answers::Answer;
use spokeshaver_reference::calls::check;
use spokeshaver_reference::dictionary::Dictionary;
use spokeshaver_reference::text::{assemble, assemble_with, dictionary, Fault};
use texts::*;

/// The paper's places of the fields. A nop says none of them, so each can be named.
#[test]
fn fields_in_braces() {
    let control = "AccessMode 8 8 WECtrl 9 9 DepCtrl 11 10 QtrCtrl 13 12 ThreadCtrl 15 14 PredCtrl 19 16 \
        PredInv 20 20 ExecSize 23 21 CondModifier 27 24 AccWrCtrl 28 28 DebugCtrl 30 30 Saturate 31 31";
    let kinds = "destination.file 33 32 destination.type 36 34 src0.file 38 37 src0.type 41 39 \
        src1.file 43 42 src1.type 46 44 47 47 47";
    let destination = "destination.subregister 52 48 destination.register 60 53 \
        destination.stride 62 61 destination.AddrMode 63 63";
    let first =
        "src0.subregister 68 64 src0.register 76 69 src0.modifier 78 77 src0.AddrMode 79 79 \
        src0.HorzStride 81 80 src0.Width 84 82 src0.VertStride 88 85 flag 89 89 95:90 95 90";
    let second = "src1.subregister 100 96 src1.register 108 101 src1.modifier 110 109 \
        src1.AddrMode 111 111 src1.HorzStride 113 112 src1.Width 116 114 src1.VertStride 120 117 \
        127:121 127 121";
    let all = [control, kinds, destination, first, second].join(" ");
    let words: Vec<&str> = all.split_whitespace().collect();
    for row in words.chunks(3) {
        let [high, low] = [row[1], row[2]].map(|place| place.parse::<u32>().expect("a place"));
        let ones = (1u128 << (high - low + 1)) - 1;
        let (kernel, _) = assemble(&format!("nop {{{}={ones}}}", row[0])).expect("a line");
        let word = u128::from_le_bytes(kernel.try_into().expect("a word"));
        assert_eq!(word, 0x7E | ones << low, "{row:?}");
    }
    assert_eq!(words.len(), 3 * 40);
}

#[test]
fn values_in_braces() {
    let line = |inner: &str| format!("mov(8) r4<1>:d 1:d {{{inner}}}");
    let places = [(9, 9), (11, 10), (13, 12), (15, 14), (30, 30)];
    for inner in [
        "WECtrl DepCtrl=2 QtrCtrl ThreadCtrl=0x3 DebugCtrl=0",
        " WECtrl=1, DepCtrl=2, QtrCtrl=1, ThreadCtrl=3 ",
        "ThreadCtrl=3,QtrCtrl,DepCtrl=2,WECtrl",
    ] {
        assert_eq!(fields(&line(inner), places), [1, 2, 1, 3, 0], "{inner}");
    }
    assert_eq!(fields(&line(""), places), [0; 5]);
    assert_eq!(fields("mov(8) null:d 1:d {destination.subregister=3}", [(52, 48)]), [3]);
    assert_eq!(fields("nop {ExecSize=7 Saturate}", [(31, 21)]), [0x407]);
}

/// The bench takes the second quarter of 8 channels, with and without WECtrl.
#[test]
fn the_bench_takes_what_is_named() {
    let line = "(+f0.1) add.sat(8) r4<1>:d r2<8;8,1>:d 1:d {WECtrl QtrCtrl DepCtrl=3 ThreadCtrl=2}";
    let (kernel, dictionary) = assemble(line).expect("a line");
    assert_eq!(Answer::of(check(&dictionary.to_bytes(), &kernel)).number, 0);
}

#[test]
fn hex_numbers() {
    for (hex, decimal) in [
        ("0x10:w", "16:w"),
        ("-0x8000:w", "-32768:w"),
        ("0xffFF:uw", "65535:uw"),
        ("0xFFFFFFFF:ud", "4294967295:ud"),
        ("-0x1:d", "-1:d"),
        ("+0x7:d", "7:d"),
    ] {
        let bits = |number: &str| fields(&format!("mov(8) r4<1>:d {number}"), [(127, 96)]);
        assert_eq!(bits(hex), bits(decimal), "{hex}");
    }
    assert_eq!(fields("mov(8) r4<1>:w 0x10:w", [(127, 96)]), [0x0010_0010]);
    let line = "mov(8) r4<1>:d r[a0.1 + 0x10]<8;8,1>:d";
    assert_eq!(fields(line, [(73, 64)]), [16]);
}

#[test]
fn commas() {
    for (with, without) in [
        ("add(8) r4<1>:d, r2<8;8,1>:d, -r3<8;8,1>:d", "add(8) r4<1>:d r2<8;8,1>:d -r3<8;8,1>:d"),
        ("add(8) r4<1>:d,r2<8;8,1>:d,1:d", "add(8) r4<1>:d r2<8;8,1>:d 1:d"),
        ("add(8) r4<1>:d r2<8;8,1>:d , 1:d", "add(8) r4<1>:d r2<8;8,1>:d 1:d"),
        ("mov(8) r[a0.2 + 12]<1>:d,r[a0.1]<8;8,1>:d", "mov(8) r[a0.2+12]<1>:d r[a0.1]<8;8,1>:d"),
        ("cmp.z(8) f0.1, null:d, r2<8;8,1>:d, 1:d", "cmp.z(8) f0.1 null:d r2<8;8,1>:d 1:d"),
        ("end:\nbreak(16) end, end", "end:\nbreak(16) end end"),
        ("nop {WECtrl, DepCtrl=2}", "nop {WECtrl DepCtrl=2}"),
    ] {
        assert_eq!(assemble(with), assemble(without), "{with}");
        assert!(assemble(with).is_ok(), "{with}");
    }
}

/// Row A's dictionary: zero but control 1, datatype 2 and source 3.
fn row_a_dictionary() -> Dictionary {
    let mut dictionary = Dictionary::zero();
    dictionary.control[1] = 0x6000;
    dictionary.datatype[2] = 0x94A5;
    dictionary.source[3] = 0x468;
    dictionary
}

const ROW_A: &str = "add(8) r4<1>:d r2<8;8,1>:d r3<8;8,1>:d";
const ROW_A_SHORT: [u32; 2] = [0xE000_4140, 0x0302_0418];

#[test]
fn row_a_short() {
    let bytes = ROW_A_SHORT.map(u32::to_le_bytes).concat();
    let dictionary = row_a_dictionary();
    let assembled = |attributes: &str| assemble_with(&dictionary, &format!("{ROW_A} {attributes}"));
    assert_eq!(assembled("{short}"), Ok(bytes.clone()));
    assert_eq!(assembled("{short=0x03020418e0004140}"), Ok(bytes));
    let fault = |sentence: &str| Err(vec![Fault { line: 1, sentence: sentence.to_string() }]);
    let lacks = |number: &str| fault(&format!("this line has no short word: {number}"));
    let table = "the dictionary's control table lacks 0x6002";
    assert_eq!(assembled("{short WECtrl}"), lacks(table));
    assert_eq!(assembled("{short 47}"), lacks("one has no room for a field in the braces"));
    let other = "the short word stands for another line by this dictionary";
    assert_eq!(assembled("{short=0x03020518e0004140}"), fault(other));
}

/// Row B: numbers of 13 bits are short. A word fills both halves.
#[test]
fn short_numbers() {
    let line = |number: &str| format!("mov(8) r4<1>:d {number} {{short}}");
    for number in ["4095:d", "-4096:d", "0:w", "-1:w"] {
        assert!(assemble(&line(number)).is_ok(), "{number}");
    }
    for (number, bits) in [("4096:d", "4096"), ("-4097:d", "-4097"), ("1:w", "65537")] {
        let limits = "one holds a number of -4096 to 4095, and bits 127:96 are";
        refused(&line(number), 1, &[&format!("this line has no short word: {limits} {bits}")]);
    }
}

/// A short word that is not the smallest: source 3 stands at index 4 as well.
#[test]
fn a_short_word_with_other_indices() {
    let mut dictionary = row_a_dictionary();
    dictionary.source[4] = 0x468;
    let number = 0x0302_0418_E000_4140u64 + (1 << 35);
    let text = format!("{ROW_A} {{short={number}}}");
    assert_eq!(assemble_with(&dictionary, &text), Ok(number.to_le_bytes().to_vec()));
}

/// Row I: over an add that is short, jmpi goes one place.
#[test]
fn distances_count_short_words() {
    let line = |attributes: &str| format!("jmpi(1) out\n{ROW_A} {attributes}\nout:\nnop\n");
    let distance = |kernel: &[u8]| i32::from_le_bytes(kernel[12..16].try_into().expect("a dword"));
    let long = assemble_with(&row_a_dictionary(), &line("")).expect("long words");
    let short = assemble_with(&row_a_dictionary(), &line("{short}")).expect("a short word");
    assert_eq!((long.len(), distance(&long)), (48, 2));
    assert_eq!((short.len(), distance(&short)), (40, 1));
}

/// The dictionary that is made has room for what is to be short, whatever stands before it.
#[test]
fn short_words_come_first_into_the_dictionary() {
    let number = |at: usize| format!("mov(1) r4.{}<{}>:ub r4.{}<0;1,0>:ub\n", at % 32, 1, at / 2);
    let mut text: String = (0..60).map(number).collect();
    text += "add(8) r4.1<2>:w r2.3<8;4,2>:w r3.5<4;4,1>:w {short}\n";
    let (kernel, dictionary) = assemble(&text).expect("lines");
    assert_eq!(kernel.len(), 60 * 16 + 8);
    assert_eq!(Answer::of(check(&dictionary.to_bytes(), &kernel)).count, 61);
}

/// One dictionary for two texts is the one of both in a row.
#[test]
fn a_dictionary_for_many_texts() {
    let texts =
        [format!("{ROW_A}\nend:\nif(16) end\n"), "mov(8) r4<1>:d 1:d {short}\n".to_string()];
    let made = dictionary(&texts).expect("two texts");
    for text in &texts {
        assert!(assemble_with(&made, text).is_ok(), "{text}");
    }
    let (_, alone) = assemble(&(texts[1].clone() + &texts[0])).expect("one text");
    assert_eq!(made, alone);
    let faulty = [texts[0].clone(), "movv".to_string()];
    let faults = dictionary(&faulty).expect_err("a fault");
    assert_eq!(faults.iter().map(Vec::len).collect::<Vec<usize>>(), [0, 1]);
}
