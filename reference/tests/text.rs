//! The text assembler writes what a line says or refuses the line.

mod texts;

use spokeshaver_reference::text::assemble;
use std::path::{Path, PathBuf};
use texts::*;

fn example(name: &str) -> PathBuf {
    Path::new(env!("CARGO_MANIFEST_DIR")).join("../examples").join(name)
}

#[test]
fn examples_assemble_to_the_stored_bytes() {
    let text = std::fs::read_to_string(example("place-tile.txt")).expect("a text");
    let (kernel, dictionary) = assemble(&text).expect("a kernel");
    assert_eq!(kernel, std::fs::read(example("place-tile.kernel")).expect("bytes"));
    let stored = std::fs::read(example("place-tile.dictionary")).expect("bytes");
    assert_eq!(dictionary.to_bytes().to_vec(), stored);
}

#[test]
fn channel_counts() {
    for (code, count) in (0..).zip([1, 2, 4, 8, 16]) {
        assert_eq!(fields(&format!("nop({count})"), [(23, 21)]), [code]);
    }
    let others = ["nop(0)", "nop(3)", "nop(12)", "nop(32)", "nop(256)", "nop(4294967296)"];
    all_refused(&others, &["channel count"]);
    all_refused(&["nop(3)"], &["3", "has no code", "1, 2, 4, 8, 16"]);
    all_refused(&["nop()", "nop(-1)", "nop(+8)", "nop(8", "nop(8)8"], &["is no"]);
    all_refused(&["add", "add 8"], &["add needs its channels"]);
}

/// nop alone is on one channel.
#[test]
fn nop_alone() {
    assert_eq!(fields("nop", [(31, 0), (63, 32), (95, 64), (127, 96)]), [0x7E, 0, 0, 0]);
    all_refused(&["nop 8", "nop r4<1>:d"], &["nop takes 0 operands and has 1"]);
}

#[test]
fn registers() {
    for register in [0, 127, 128, 255] {
        let line = format!("add(8) r{register}<1>:d r{register}<8;8,1>:d r{register}<8;8,1>:d");
        assert_eq!(fields(&line, [(60, 53), (76, 69), (108, 101)]), [register; 3]);
    }
    let past = [
        "mov(8) r256<1>:d r2<8;8,1>:d",
        "mov(8) r300<1>:d r2<8;8,1>:d",
        "mov(8) r4<1>:d r256<8;8,1>:d",
        "add(8) r4<1>:d r2<8;8,1>:d -r300<8;8,1>:d",
        "mov(8) r4<1>:d r4294967298<8;8,1>:d",
    ];
    all_refused(&past, &["register", "does not fit"]);
    all_refused(&past[1..2], &["register 300", "the last is r127"]);
    let unread = ["mov(8) r<1>:d 1:d", "mov(8) r+4<1>:d 1:d", "mov(8) r-4<1>:d 1:d"];
    all_refused(&unread, &["register", "is no number"]);
    all_refused(&["mov(8) a4<1>:d 1:d", "mov(8) -r4<1>:d 1:d"], &["is no register"]);
}

#[test]
fn subregisters() {
    for (element, last, bytes) in [("ud", 7, 28), ("uw", 15, 30), ("b", 31, 31)] {
        let line = |number| {
            let place = format!("r4.{number}");
            format!("mov(1) {place}<1>:{element} {place}<0;1,0>:{element}")
        };
        assert_eq!(fields(&line(last), [(52, 48), (68, 64)]), [bytes; 2]);
        let message = format!("subregister {} does not fit: the last is {last}", last + 1);
        refused(&line(last + 1), 1, &[&message]);
    }
    let past = ["mov(1) r4<1>:w r4.16<0;1,0>:w", "mov(1) r4.1073741824<1>:d 1:d"];
    all_refused(&past, &["subregister", "does not fit"]);
    let unread = ["mov(1) r4.<1>:d 1:d", "mov(1) r4.+1<1>:d 1:d", "mov(1) r4.1.1<1>:d 1:d"];
    all_refused(&unread, &["subregister", "is no number"]);
}

/// A region in one of the two sources.
fn with_region(region: &str, second: bool) -> String {
    let (given, other) = (format!("r2<{region}>:d"), "r3<8;8,1>:d".to_string());
    let (first, last) = if second { (other, given) } else { (given, other) };
    format!("add(16) r4<1>:d {first} {last}")
}

#[test]
fn regions_with_codes() {
    let places = [(88, 85), (84, 82), (81, 80)];
    for (vertical_code, vertical) in (0..).zip([0, 1, 2, 4, 8, 16, 32]) {
        for (width_code, width) in (0..).zip([1, 2, 4, 8, 16]) {
            for (horizontal_code, horizontal) in (0..).zip([0, 1, 2, 4]) {
                let region = format!("{vertical};{width},{horizontal}");
                let codes = [vertical_code, width_code, horizontal_code];
                assert_eq!(fields(&with_region(&region, false), places), codes);
                let shifted = places.map(|(high, low)| (high + 32, low + 32));
                assert_eq!(fields(&with_region(&region, true), shifted), codes);
            }
        }
    }
}

#[test]
fn regions_without_codes() {
    for second in [false, true] {
        let refuse = |region: &str, words: &[&str]| refused(&with_region(region, second), 1, words);
        refuse("1;8,8", &["horizontal stride 8 has no code", "0, 1, 2, 4"]);
        refuse("8;8,3", &["horizontal stride 3"]);
        refuse("3;8,1", &["vertical stride 3 has no code", "0, 1, 2, 4, 8, 16, 32"]);
        refuse("64;8,1", &["vertical stride 64"]);
        refuse("8;0,1", &["width 0 has no code", "1, 2, 4, 8, 16"]);
        refuse("8;6,1", &["width 6"]);
        refuse("8;32,1", &["width 32"]);
        refuse("8;8,-1", &["horizontal stride '-1' is no number"]);
        refuse(";8,1", &["vertical stride '' is no number"]);
        refuse("8;8,1,1", &["horizontal stride '1,1'"]);
        refuse("8,8,1", &["is no region"]);
        refuse("8;8", &["is no region"]);
    }
}

/// A stride of 0 has a code: the bench refuses it, not the assembler.
#[test]
fn destination_strides() {
    for (code, stride) in (0..).zip([0, 1, 2, 4]) {
        assert_eq!(fields(&format!("mov(8) r4<{stride}>:d 1:d"), [(62, 61)]), [code]);
    }
    let others = ["mov(8) r4<3>:d 1:d", "mov(8) r4<8>:d 1:d", "mov(8) r4<16>:d 1:d"];
    all_refused(&others, &["destination stride", "has no code: there are 0, 1, 2, 4"]);
    all_refused(&["mov(8) r4<>:d 1:d", "mov(8) r4<8;8,1>:d 1:d"], &["destination stride"]);
    all_refused(&["mov(8) r4:d 1:d", "mov(8) null<1:d 1:d", "mov(8) 4:d 1:d"], &["destination"]);
}

/// null may have a stride, as in texts of other assemblers. Without one it has 0.
#[test]
fn strides_of_null() {
    let places = [(33, 32), (60, 53), (62, 61)];
    for (stride, code) in [("", 0), ("<0>", 0), ("<1>", 1), ("<2>", 2), ("<4>", 3)] {
        assert_eq!(fields(&format!("mov(8) null{stride}:d 1:d"), places), [0, 0, code]);
    }
    all_refused(&["mov(8) null<3>:d 1:d"], &["destination stride 3 has no code"]);
    all_refused(&["mov(8) null.1<1>:d 1:d"], &["null.1 is no register"]);
}

#[test]
fn types() {
    let codes = [0, 1, 2, 3, 4, 5, 7];
    for (code, element) in codes.into_iter().zip(["ud", "d", "uw", "w", "ub", "b", "f"]) {
        let line = format!("add(4) r4<1>:{element} r2<4;4,1>:{element} r2<4;4,1>:{element}");
        assert_eq!(fields(&line, [(36, 34), (41, 39), (46, 44)]), [code; 3]);
    }
    assert_eq!(
        fields("mov(4) r4<1>:f 1.5:f", [(36, 34), (41, 39), (127, 96)]),
        [7, 7, 0x3FC0_0000]
    );
    let four = "mov(4) r4<1>:f 1/0.5/-2/0:vf";
    assert_eq!(fields(four, [(36, 34), (41, 39), (127, 96)]), [7, 5, 0x00C0_2030]);
    let unknown = ["mov(8) r4<1>:q 1:d", "mov(8) r4<1>:D 1:d", "mov(8) null: 1:d"];
    all_refused(&unknown, &["unknown type"]);
    all_refused(&["mov(8) r4<1>:d 1:q", "mov(8) r4<1>:d r2<8;8,1>:d:d"], &["unknown type"]);
    all_refused(&["mov(8) r4<1> 1:d", "mov(8) r4<1>:d 1"], &["has no type"]);
}

#[test]
fn modifiers() {
    for (code, modifier) in (0..).zip(["", "|", "-", "-|"]) {
        let line = format!("add(8) r4<1>:d {modifier}r2<8;8,1>:d {modifier}r2<8;8,1>:d");
        assert_eq!(fields(&line, [(78, 77), (110, 109)]), [code; 2]);
    }
    for modifier in ["--", "||", "|-", "-|-"] {
        let message = format!("{modifier} is no modifier");
        all_refused(&[&format!("mov(8) r4<1>:d {modifier}r2<8;8,1>:d")], &[&message]);
    }
    let unread = ["mov(8) r4<1>:d +r2<8;8,1>:d", "mov(8) r4<1>:d |r2|<8;8,1>:d"];
    all_refused(&unread, &["is no"]);
    all_refused(&["mov(8) r4<1>:d |5:d"], &["is no source"]);
}

#[test]
fn conditions() {
    for (code, condition) in (1..).zip(["z", "nz", "g", "ge", "l", "le"]) {
        let line = format!("cmp.{condition}(8) f0.1 null:d r2<8;8,1>:d 1:d");
        assert_eq!(fields(&line, [(27, 24), (89, 89)]), [code, 1]);
    }
    let operands = "(8) f0.0 null:d r2<8;8,1>:d 1:d";
    for suffix in ["eq", "GE", "", "sat2"] {
        let message = format!("unknown suffix `{suffix}`");
        all_refused(&[&format!("cmp.{suffix}{operands}")], &[&message]);
    }
    all_refused(&[&format!("cmp.ge.l{operands}")], &["suffix .l is one too many"]);
    all_refused(&["mov.sat.sat(8) r4<1>:d 1:d"], &["suffix .sat is one too many"]);
}

#[test]
fn flags() {
    let operands = "null:d r2<8;8,1>:d 1:d";
    for flag in ["f0.2", "f1.0", "f0", "f0.+1", "f0.01", "null:d"] {
        let message = format!("{flag} is no flag");
        all_refused(&[&format!("cmp.z(8) {flag} {operands}")], &[&message]);
        all_refused(&[&format!("(+{flag}) nop(1)")], &[&message]);
    }
    all_refused(&["cmp.z(8)"], &["the condition has no flag"]);
    all_refused(&["(f0.0) nop(1)", "() nop(1)"], &["does not start with + or -"]);
    all_refused(&["(+-f0.0) nop(1)", "(--f0.0) nop(1)", "(+ f0.0) nop(1)"], &["is no flag"]);
    all_refused(&["(+f0.0 nop"], &["no closing parenthesis"]);
    all_refused(&["(+f0.0)"], &["is no operation"]);
    all_refused(&["(+f0.0) (+f0.0) nop(1)"], &["unknown operation ``"]);
}

#[test]
fn votes() {
    let names = ["any2h", "all2h", "any4h", "all4h", "any8h", "all8h", "any16h", "all16h"];
    for (control, name) in (4..).zip(names) {
        let line = |sign, flag| format!("({sign}{flag}.{name}) nop(16)");
        let places = [(19, 16), (20, 20), (89, 89)];
        assert_eq!(fields(&line("+", "f0.0"), places), [control, 0, 0]);
        assert_eq!(fields(&line("-", "f0.1"), places), [control, 1, 1]);
    }
    let others = ["any1h", "any3h", "any2", "anyv", "allv", "any32h", "x", "", "any2h.all2h"];
    for name in others {
        let line = format!("(+f0.0.{name}) nop(16)");
        all_refused(&[&line], &[&format!("unknown vote `{name}`")]);
    }
    all_refused(&["(+f0.2.any2h) nop(16)", "(+.f0.any2h) nop(16)"], &["is no flag"]);
    all_refused(&["(f0.0.any2h) nop(1)"], &["does not start with + or -"]);
}

/// A word has one bit for the flag that it reads and the flag that it writes.
#[test]
fn one_flag_to_a_word() {
    let line = |read, written| format!("({read}) cmp.z(8) {written} null:d r2<8;8,1>:d 1:d");
    assert_eq!(fields(&line("-f0.1", "f0.1"), [(89, 89), (20, 16)]), [1, 17]);
    assert_eq!(fields(&line("+f0.0", "f0.0"), [(89, 89), (20, 16)]), [0, 1]);
    refused(&line("+f0.0", "f0.1"), 1, &["two flags, f0.0 and f0.1"]);
    refused(&line("-f0.1", "f0.0"), 1, &["two flags, f0.1 and f0.0"]);
}

#[test]
fn immediates_that_fit() {
    let cases = [
        ("-32768:w", 0x8000_8000u32),
        ("32767:w", 0x7FFF_7FFF),
        ("65535:uw", 0xFFFF_FFFF),
        ("-2147483648:d", 0x8000_0000),
        ("2147483647:d", 0x7FFF_FFFF),
        ("4294967295:ud", 0xFFFF_FFFF),
        ("-0:ud", 0),
    ];
    for (text, bits) in cases {
        assert_eq!(fields(&format!("mov(8) r4<1>:d {text}"), [(127, 96)]), [bits], "{text}");
    }
}

#[test]
fn immediates_that_do_not_fit() {
    let long = "1".repeat(50);
    let cases = [
        ("w", "-32768 to 32767", ["70000", "32768", "65535", "-32769"]),
        ("uw", "0 to 65535", ["70000", "65536", "-1", "-32768"]),
        ("d", "-2147483648 to 2147483647", ["2147483648", "4294967295", "-2147483649", &long]),
        ("ud", "0 to 4294967295", ["4294967296", "-1", "-2147483648", "18446744073709551616"]),
    ];
    for (element, range, numbers) in cases {
        for number in numbers {
            let message = format!("immediate {number} does not fit {element}, {range}");
            all_refused(&[&format!("mov(8) r4<1>:d {number}:{element}")], &[&message]);
            all_refused(&[&format!("add(8) r4<1>:d r2<8;8,1>:d {number}:{element}")], &[&message]);
        }
    }
}

#[test]
fn immediates_that_no_word_holds() {
    all_refused(&["mov(8) r4<1>:ub 5:ub"], &["unknown type of a number `ub`"]);
    all_refused(&["mov(8) r4<1>:b -5:b"], &["unknown type of a number `b`", "ud, d, uw, w"]);
    let early = ["add(8) r4<1>:d 5:d r2<8;8,1>:d", "add(8) r4<1>:d 5:d 5:d"];
    all_refused(&early, &["5:d is an immediate and not the last source"]);
    all_refused(
        &["mov(8) r4<1>:d 0x:d", "mov(8) r4<1>:d 1.5:d", "mov(8) r4<1>:d :d"],
        &["is no source"],
    );
}

#[test]
fn labels() {
    refused("top:\nnop(1)\ntop:", 3, &["label top appears twice", "line 1"]);
    all_refused(&["jmpi(1) nowhere"], &["there is no label `nowhere`"]);
    all_refused(&["while(16) End", "if(16) end:2", "else(16) 2"], &["there is no label"]);
    all_refused(&["if(16)"], &["one label", "0 operands"]);
    all_refused(&["jmpi(1) end end", "endif(16) end r4<1>:d"], &["one label", "2 operands"]);
    all_refused(&["break(16) end", "(+f0.0) cont(16) end"], &["two labels", "1 operands"]);
    all_refused(&["break(16) end nowhere", "cont(16) nowhere end"], &["no label `nowhere`"]);
}

/// break and cont have JIP's label first, then UIP's, each counted from the branch's own start.
#[test]
fn leaving() {
    let text = "top:\nnop(1)\n(-f0.1.any4h) break(16) again out\ncont(16) again top\n\
                again:\nwhile(16) top\nout:";
    let (kernel, _) = assemble(text).expect("lines");
    let word = |at: usize| u128::from_le_bytes(kernel[at..at + 16].try_into().expect("a word"));
    assert_eq!((word(16) & 0x7F, word(16) >> 96 & 0xFFFF, word(16) >> 112), (0x28, 4, 6));
    assert_eq!((word(16) >> 16 & 15, word(16) >> 20 & 1, word(16) >> 89 & 1), (6, 1, 1));
    assert_eq!((word(32) & 0x7F, word(32) >> 96 & 0xFFFF, word(32) >> 112), (0x29, 2, 0xFFFC));
}

/// A line that ends in a colon is a label or a fault, never a line passed over.
#[test]
fn label_names() {
    let others =
        [":", "a b:", "top :", "1:", "mov(8) r4<1>:d 5:", "if(16) end:", "f0.0:", "top::", "é:"];
    all_refused(&others, &["is no label"]);
    all_refused(&["top: nop(1)"], &["'top:' is no operation"]);
    assert!(assemble("Top-of_2:\nwhile(16) Top-of_2").is_ok());
}

/// 16,384 instructions are 32,768 places.
#[test]
fn distances() {
    let nops = |count: usize| "nop(1)\n".repeat(count);
    let back = |count: usize| format!("top:\n{}while(16) top", nops(count));
    assert!(assemble(&back(16_384)).is_ok());
    refused(&back(16_385), 16_387, &["distance -32770 does not fit 16 bits"]);
    let forward = |operation: &str, count: usize| format!("{operation} end\n{}end:", nops(count));
    for operation in ["if(16)", "else(16)", "endif(16)", "while(16)"] {
        assert!(assemble(&forward(operation, 16_382)).is_ok());
        let message = "distance 32768 does not fit 16 bits";
        refused(&forward(operation, 16_383), 1, &[message]);
    }
    assert!(assemble(&forward("jmpi(1)", 40_000)).is_ok());
}

#[test]
fn operand_counts() {
    let too_few =
        ["mov(8)", "mov(8) r4<1>:d", "add(8) r4<1>:d r2<8;8,1>:d", "cmp.z(8) f0.0 null:d"];
    all_refused(&too_few, &["operands and has"]);
    let add = "add(8) r4<1>:d r2<8;8,1>:d r2<8;8,1>:d";
    all_refused(&[&format!("{add} 1:d"), &format!("{add} {add}")], &["takes 3 operands"]);
    all_refused(
        &["mov(8) r4<1>:d 1:d 1:d", "not(8) r4<1>:d 1:d x"],
        &["takes 2 operands and has 3"],
    );
    all_refused(&["nop(1) r4<1>:d", "nop(1) x"], &["takes 0 operands and has 1"]);
}

#[test]
fn unknown_words_and_trailing_text() {
    all_refused(&["addd(8) r4<1>:d 1:d", "Add(8) r4<1>:d 1:d", "send(8)"], &["unknown operation"]);
    all_refused(&["mov(8) r4<1>:d; 1:d", "mov(8) r4<1>:d 1:d;"], &["unknown type"]);
    all_refused(&["nop(1) # no remark", "nop(1) / / x", "nop(1) nop(1)"], &["takes 0 operands"]);
    all_refused(&["mov(8) r4<1>x:d 1:d", "mov(8) r4<1>:d r2<8;8,1>x:d"], &["is no"]);
    assert!(assemble("  nop(1)// a remark: é\r\n\t\r\nnop(1)").is_ok());
}

/// A remark must not run on over what looks like a line of its own.
#[test]
fn characters_that_mislead() {
    for character in ['\r', '\u{B}', '\u{C}', '\u{85}', '\u{2028}', '\u{202E}', '\u{2066}', '\0'] {
        all_refused(
            &[&format!("// a remark{character}mov(8) r4<1>:d 1:d")],
            &["control character"],
        );
    }
}

/// Rules of the bench are no business of the assembler.
#[test]
fn what_the_bench_refuses_is_assembled() {
    let lines = [
        "mul(8) r4<1>:d r2<8;8,1>:d r2<8;8,1>:d",
        "add.ge(8) f0.0 r4<1>:d r2<8;8,1>:d 1:d",
        "cmp(8) null:d r2<8;8,1>:d 1:d",
        "add(4) r4<1>:d r2<8;8,1>:d 1:d",
        "sel(8) r4<1>:d r2<8;8,1>:d 1:d",
        "mov(8) r200<1>:d 1:d",
        "mov(8) r4<0>:d 1:d",
    ];
    for line in lines {
        assert!(assemble(line).is_ok(), "{line}");
    }
}
