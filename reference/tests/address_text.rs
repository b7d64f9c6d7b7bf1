//! Addresses and a0 as the text assembler writes or refuses them.

mod texts;

use texts::*;

#[test]
fn addresses() {
    // File, element of a0, bytes added, AddrMode: of the destination, src0 and src1.
    let to = [(33, 32), (60, 58), (57, 48), (63, 63)];
    let from = [(38, 37), (76, 74), (73, 64), (79, 79)];
    let second = [(43, 42), (108, 106), (105, 96), (111, 111)];
    for (address, element, added) in [
        ("r[a0.2 + 12]", 2, 12),
        ("r[a0.2+12]", 2, 12),
        ("r[ a0.2  -  12 ]", 2, 1024 - 12),
        ("r[a0]", 0, 0),
        ("r[a0.7]", 7, 0),
        ("r[a0.0 + 511]", 0, 511),
        ("r[a0.1 - 512]", 1, 512),
    ] {
        let line = format!("add(8) {address}<1>:d {address}<8;8,1>:d -{address}<8;8,1>:d");
        for places in [to, from, second] {
            assert_eq!(fields(&line, places), [1, element, added, 1], "{line}");
        }
        assert_eq!(fields(&line, [(110, 109), (62, 61), (84, 82)]), [2, 1, 3]);
    }
    // The request's own two, word for word.
    let read = fields("mov(8) r4<1>:d r[a0.2 + 12]<8;8,1>:d", [(31, 0), (63, 32), (95, 64)]);
    assert_eq!(read, [0x0060_0001, 0x2080_00A5, 0x008D_880C]);
    let written = fields("mov(8) r[a0.2 - 12]<1>:d r4<8;8,1>:d", [(31, 0), (63, 32), (95, 64)]);
    assert_eq!(written, [0x0060_0001, 0xABF4_00A5, 0x008D_0080]);
}

#[test]
fn addresses_that_no_word_holds() {
    let source = |address: &str| format!("mov(8) r4<1>:d {address}<8;8,1>:d");
    let destination = |address: &str| format!("mov(8) {address}<1>:d r4<8;8,1>:d");
    for line in [source, destination] {
        refused(&line("r[a0.8]"), 1, &["address element 8 does not fit", "the last is 7"]);
        refused(&line("r[a0.2 + 512]"), 1, &["address offset 512 does not fit", "is 511"]);
        refused(&line("r[a0.2 - 513]"), 1, &["address offset 513 does not fit", "is 512"]);
        refused(&line("r[a0.2 + -1]"), 1, &["address offset '-1' is no number"]);
        refused(&line("r[a0.2 +]"), 1, &["address offset '' is no number"]);
        refused(&line("r[a0. + 1]"), 1, &["address element '' is no number"]);
        refused(&line("r[a0.2 12]"), 1, &["address element '2 12' is no number"]);
        refused(&line("r[a1.2]"), 1, &["[a1.2] is no address"]);
        refused(&line("r[a02]"), 1, &["is no address"]);
        refused(&line("r[12]"), 1, &["is no address"]);
        refused(&line("r[]"), 1, &["is no address"]);
        refused(&line("r4[a0.2]"), 1, &["register '4[a0' is no number"]);
        refused(&line("a0[a0.2]"), 1, &["is no register"]);
    }
    refused("mov(8) r4<1>:d r[a0.2 + 12<8;8,1>:d", 1, &["register '[a0' is no number"]);
    refused("mov(8) r[a0.2 + 12<1>:d r4<8;8,1>:d", 1, &["takes 2 operands and has 1"]);
}

/// The bench refuses a0 beyond its 16 bytes, and with other types; the assembler writes it.
#[test]
fn a0_as_an_operand() {
    let to = [(33, 32), (60, 53), (52, 48), (63, 63), (36, 34)];
    let from = [(38, 37), (76, 69), (68, 64), (79, 79), (41, 39)];
    for (text, byte) in [("a0", 0), ("a0.0", 0), ("a0.7", 14), ("a0.15", 30)] {
        let line = format!("mov(1) {text}<1>:uw {text}<0;1,0>:uw");
        for places in [to, from] {
            assert_eq!(fields(&line, places), [0, 0x10, byte, 0, 2], "{line}");
        }
    }
    assert_eq!(fields("mov(1) a0.3<1>:ud -a0.3<0;1,0>:ub", [(52, 48), (68, 64)]), [12, 3]);
    all_refused(&["mov(1) a0.16<1>:uw 1:uw"], &["subregister 16 does not fit: the last is 7"]);
    all_refused(&["mov(1) a0.x<1>:uw 1:uw"], &["subregister 'x' is no number"]);
    all_refused(&["mov(1) a1<1>:uw 1:uw", "mov(1) a00<1>:uw 1:uw"], &["is no register"]);
    all_refused(&["mov(1) a0:uw 1:uw"], &["is no destination"]);
}
