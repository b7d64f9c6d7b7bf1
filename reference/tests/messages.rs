//! What the assembler says of a text, word for word, and that it says all of it.

use spokeshaver_reference::text::assemble;

/// Asserts that a line alone is refused with exactly these sentences.
fn says(line: &str, sentences: &[&str]) {
    let faults = assemble(line).expect_err(line);
    let told: Vec<&str> = faults.iter().map(|fault| fault.sentence.as_str()).collect();
    assert_eq!(told, sentences, "{line}");
    assert!(faults.iter().all(|fault| fault.line == 1), "{line}");
}

#[test]
fn registers_have_their_true_limits() {
    says("mov(8) r300<1>:d 1:d", &["register 300 does not fit: the last is r127"]);
    says("mov(8) r4.8<1>:d 1:d", &["subregister 8 does not fit: the last is 7"]);
    says("mov(8) r4.32<1>:ub 1:d", &["subregister 32 does not fit: the last is 31"]);
    says("mov(1) a0.16<1>:uw 1:uw", &["subregister 16 does not fit: the last is 7"]);
    says("mov(1) r[a0.8]<1>:d 1:d", &["address element 8 does not fit: the last is 7"]);
}

#[test]
fn numbers_have_their_true_limits() {
    says("mov(8) r4<1>:w 70000:w", &["immediate 70000 does not fit w, -32768 to 32767"]);
    says("mov(8) r4<1>:w 0x8000:w", &["immediate 0x8000 does not fit w, -32768 to 32767"]);
    says("mov(8) r4<1>:w -0x1:uw", &["immediate -0x1 does not fit uw, 0 to 65535"]);
    says("mov(8) r4<1>:d 1:d {DepCtrl=4}", &["DepCtrl 4 does not fit: the last is 3"]);
    says("mov(8) r4<1>:d 1:b", &["unknown type of a number `b`: there are ud, d, uw, w, f, vf"]);
}

#[test]
fn a_cmp_without_its_condition() {
    let sentence = "cmp needs a condition, as in cmp.ge(16): there are z, nz, g, ge, l, le";
    says("cmp(16) f0.0 null:w r2<16;16,1>:w 1:w", &[sentence]);
    says("(+f0.0) cmp(16) f0.0, null:w, r2<16;16,1>:w, 1:w", &[sentence]);
    says("cmp(16)", &[sentence, "cmp takes 3 operands and has 0"]);
}

#[test]
fn misspelt_names() {
    for (line, sentence) in [
        ("movv(8) r4<1>:d 1:d", "unknown operation `movv`; do you mean `mov`?"),
        ("nopp", "unknown operation `nopp`; do you mean `nop`?"),
        ("ADD(8) r4<1>:d r4<8;8,1>:d 1:d", "unknown operation `ADD`; do you mean `add`?"),
        ("mov(8) r4<1>:uww 1:d", "unknown type `uww`; do you mean `uw`?"),
        ("mov(8) r4<1>:d r4<8;8,1>:D", "unknown type `D`; do you mean `d`?"),
        ("mov(8) r4<1>:d 1:W", "unknown type of a number `W`; do you mean `w`?"),
        ("cmp.gt(8) f0.0 null:d r2<8;8,1>:d 1:d", "unknown suffix `gt`; do you mean `g`?"),
        ("mov.sta(8) r4<1>:d 1:d", "unknown suffix `sta`; do you mean `sat`?"),
        ("(+f0.0.any4) nop", "unknown vote `any4`; do you mean `any4h`?"),
        ("nop {WEctrl}", "unknown field `WEctrl`; do you mean `WECtrl`?"),
        ("mov(8) r4<1>:d 1:d {shrot}", "unknown field `shrot`; do you mean `short`?"),
    ] {
        says(line, &[sentence]);
    }
}

#[test]
fn names_that_are_near_to_none() {
    says("mov(8) r4<1>:q 1:d", &["unknown type `q`: there are ud, d, uw, w, ub, b, f"]);
    says(
        "cmp.eq(8) f0.0 null:d r2<8;8,1>:d 1:d",
        &["unknown suffix `eq`: there are sat, z, nz, g, ge, l, le"],
    );
    says("jmpi(1) nowhere", &["there is no label `nowhere`"]);
}

#[test]
fn misspelt_labels() {
    let faults =
        assemble("again:\nnop\nwhile(16) agian\nbreak(16) againn Agai").expect_err("three");
    let told: Vec<(usize, &str)> =
        faults.iter().map(|fault| (fault.line, fault.sentence.as_str())).collect();
    let expected = [
        (3, "there is no label `agian`; do you mean `again`?"),
        (4, "there is no label `againn`; do you mean `again`?"),
        (4, "there is no label `Agai`; do you mean `again`?"),
    ];
    assert_eq!(told, expected);
}

#[test]
fn operations_without_channels() {
    says("add r4<1>:d r4<8;8,1>:d 1:d", &["add needs its channels, as in add(16)"]);
    says("cmp.ge f0.0 null:d 1:d", &["cmp.ge needs its channels, as in cmp.ge(16)"]);
    says("mov(8)r4<1>:d", &["'mov(8)r4<1>:d' is no operation with its channels, as add(16) is"]);
}

#[test]
fn commas_out_of_place() {
    let sentence = "a comma stands between two operands and nowhere else";
    for line in [
        "mov(8), r4<1>:d 1:d",
        "mov(8) , r4<1>:d 1:d",
        "mov(8) r4<1>:d,, 1:d",
        "mov(8) r4<1>:d, , 1:d",
        "mov(8) r4<1>:d 1:d,",
        "nop ,",
        "nop {WECtrl,}",
    ] {
        let faults = assemble(line).expect_err(line);
        assert!(faults.len() == 1, "{line}: {faults:?}");
    }
    says("mov(8) r4<1>:d,, 1:d", &[sentence]);
}

#[test]
fn braces() {
    let sentence = "one pair of braces may stand at the end of a line, closed";
    for line in ["nop {WECtrl", "nop {WECtrl} {DepCtrl}", "nop {{WECtrl}}", "nop {WECtrl} x"] {
        says(line, &[sentence]);
    }
    says("nop {WECtrl=}", &["WECtrl '' is no number"]);
    says("nop {WECtrl WECtrl}", &["the line says WECtrl already"]);
    says("mov(8) r4<1>:d 1:d {ExecSize=1}", &["the line says ExecSize already"]);
    says(
        "mov(8) r0<1>:d 1:d {destination.register}",
        &["the line says destination.register already"],
    );
    for line in
        ["mov(8) null:d 1:d {destination.stride}", "mov(8) null<1>:d 1:d {destination.stride=2}"]
    {
        says(line, &["the line says destination.stride already"]);
    }
    says("(+f0.0) mov(8) r4<1>:d 1:d {PredInv}", &["the line says PredInv already"]);
    says("cmp.z(8) f0.0 null:d r2<8;8,1>:d 1:d {flag}", &["the line says flag already"]);
    says("mov(8) r4<1>:d 1:d {short short}", &["the line says short already"]);
    says("nop {short=1}", &["1 is no short word: 64 bits of which bit 29 is 1"]);
}

/// Every part of a line is read, and every line, whatever is wrong before it.
#[test]
fn all_faults_come() {
    let text = "top:\n\
        (+f0.2) movv(3) r4<1>:d 1:d\n\
        add(3) r300<1>:d r4.9<8;8,1>:d 1:q {Dep}\n\
        (+f0.3) cmp.zz(8) f0.0 null:d r4<8;8,1>:d r500<8;8,1>:d\n\
        top:\n\
        // \u{2028}\n\
        if(16) tap {short}\n\
        nop {short}\n\
        mov(8) r4<1>:d 100000:d {short}\n";
    let faults = assemble(text).expect_err("many");
    let told: Vec<(usize, &str)> =
        faults.iter().map(|fault| (fault.line, fault.sentence.as_str())).collect();
    let expected = [
        (2, "f0.2 is no flag: f0.0 or f0.1"),
        (2, "unknown operation `movv`; do you mean `mov`?"),
        (2, "channel count 3 has no code: there are 1, 2, 4, 8, 16"),
        (3, "channel count 3 has no code: there are 1, 2, 4, 8, 16"),
        (3, "register 300 does not fit: the last is r127"),
        (3, "subregister 9 does not fit: the last is 7"),
        (3, "unknown type of a number `q`: there are ud, d, uw, w, f, vf"),
        (3, "unknown field `Dep`"),
        (4, "f0.3 is no flag: f0.0 or f0.1"),
        (4, "unknown suffix `zz`; do you mean `z`?"),
        (4, "register 500 does not fit: the last is r127"),
        (5, "label top appears twice, first on line 1"),
        (6, "control character \\u{2028}"),
        (7, "there is no label `tap`; do you mean `top`?"),
        (7, "a branch has no short word"),
        (
            9,
            "this line has no short word: one holds a number of -4096 to 4095, and bits 127:96 are 100000",
        ),
    ];
    assert_eq!(told, expected);
}
