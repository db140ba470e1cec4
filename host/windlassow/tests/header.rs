//! The C header: a program in C, compiled against it and linked with the static library, as C and as C++.

use std::path::Path;
use std::process::Command;
use testing::repository;
use windlassow::STACK_BYTES;

const EXPECTED: &str = "\
slot_count: answer 0, count 2, planes 0
bit_count: answer 0, count 136, planes 32
store: answer 0, count 39, planes 32
store: answer 10, count 136, planes 0
ffffffffffff1f0000003000ff
read: answer 0, count 4, planes 32
1 1 1 1
read: answer 11, count 0, planes 0
no block has the code of slot 0
read: answer 7, count 0, planes 0
store: answer 0, count 40, planes 28
28 of 32 planes are whole
read: answer 0, count 4, planes 28
1996 2004 2012 2020
store: answer 0, count 27, planes 9
read: answer 0, count 4, planes 9
15.625 15.625 15.625 15.625
bit_count: answer 13, count 0, planes 0
store: answer 0, count 47, planes 32
read: answer 0, count 256, planes 32
1
bit_count: answer 2, count 0, planes 0
store: answer 0, count 31, planes 24
store: answer 10, count 39, planes 0
copy: answer 0, count 3, planes 0
read: answer 0, count 4, planes 24
256 256 256 256
store: answer 0, count 39, planes 32
copy: answer 11, count 2, planes 0
copy: answer 14, count 0, planes 0
the new archive has fewer slots than the old one
fpc_write: answer 0, count 9
07000000000000f03f
fpc_read: answer 0, count 2
1
fpc_read: answer 23, count 0
fpc_write: answer 22, count 9
fpc_write: answer 20, count 0
transfer_close: answer 25, count 0
transfer_open: answer 0, count 0
transfer_piece: answer 0, count 0
transfer_piece: answer 22, count 10
transfer_piece: answer 0, count 2
1, given 2
transfer_close: answer 0, count 2
transfer_piece: answer 25, count 0
the transfer is not open
transfer_open: answer 0, count 0
transfer_piece: answer 23, count 2
0 0
transfer_piece: answer 23, count 0
transfer_close: answer 23, count 0
transfer_open: answer 0, count 0
transfer_open: answer 20, count 0
transfer_piece: answer 25, count 0
";

// The 47 bits of 256 times 215: the first coefficient is 215, in negabinary 100101011. 5 bits of p - 1 = 31, planes 31 to 9
// empty, a test, a bit and a test in plane 8, a bit and a test in each of the planes 7 to 0.
//
// The planes of 2000 2004 2008 2012 are written out in `testing::by_hand::planes::readings`: 28 of them end at the 38th bit,
// and the next takes four. What is left of it is a one of the first coefficient, 2048 - 32 - 8 = 2008, and a test answered 1.
// So its bit is set at place 1: the second coefficient is -8. Reading makes of y = -8: w = 4, y = -4, w = 12, and of x = 2008:
// z = x; y = 2004, z = 2012; w = 2020, x = 1996.
//
// 15.625 to 15.71875 are written out in `testing::by_hand::planes::degrees`: with q = -1 there are 4 + 1 + 4 = 9 planes of
// 1, 3, 4 x 2 and 3 x 2 bits after the head of 9, and the first coefficient is 2048 - 64 + 32 - 16 = 2000 parts of a degree.
//
// The 31 bits of four times 256, 2^8 in negabinary too: 5 bits of p - 1 = 23, planes 31 to 9 empty, 110. Four times 1 take 39
// bits, as P2 has them, more than the 32 of a slot of 8 bits a word. Three full slots are 438 bits, 55 bytes; 54 have two.
//
// The pieces of P11's stream of two 1.0: the first four bytes are the pair's and three of the eight of its first double. The
// other five make it known, and with it the second, which has none. Room for 5 bytes is 10 doubles; 9 are refused, and the piece
// is passed again. Of 77 66 00 07 the first byte is two zeros, as in P10; 66 00 is no double's code, as in P12: a xor of zero
// has code 7. After that damage a piece has 23 before 22. An opening with tables of 16 and 8 is refused and closes the open record,
// so that a piece with these tables has 25, which comes before 20.

/// Compiles the example in a language, links and runs it, and compares what it prints.
fn run_as(language: &str, standard: &str) {
    let root = repository();
    let program = Path::new(env!("CARGO_TARGET_TMPDIR")).join(format!("example-{language}"));
    let compiled = Command::new("cc")
        .args([standard, "-Wall", "-Wextra", "-Werror", "-pedantic", "-O2", "-x", language])
        .arg(root.join("host/c/example.c"))
        .args(["-x", "none"])
        .arg(root.join("target/staticlib/libwindlassow.a"))
        .arg("-I")
        .arg(root.join("include"))
        .arg("-o")
        .arg(&program)
        .output()
        .expect("the C compiler 'cc' is on the PATH");
    assert!(compiled.status.success(), "{}", String::from_utf8_lossy(&compiled.stderr));
    let ran = Command::new(&program).output().unwrap();
    assert!(ran.status.success(), "the example ended with {}", ran.status);
    assert_eq!(String::from_utf8_lossy(&ran.stdout), EXPECTED);
}

#[test]
fn the_example_in_c() {
    run_as("c", "-std=c99");
}

#[test]
fn the_example_in_cpp() {
    run_as("c++", "-std=c++11");
}

/// The named constants have document 01's numbers: a file of assertions compiles. With one number changed it does not.
#[test]
fn the_constants() {
    let source = repository().join("host/c/constants.c");
    let compiles = |name: &str, more: &[&str]| {
        let object = Path::new(env!("CARGO_TARGET_TMPDIR")).join(name);
        let mut cc = Command::new("cc");
        cc.args(["-std=c99", "-Wall", "-Wextra", "-pedantic", "-c"]).args(more).arg(&source);
        cc.arg(format!("-DRUST_STACK_BYTES={STACK_BYTES}")).arg("-I");
        let output = cc.arg(repository().join("include")).arg("-o").arg(object).output();
        output.expect("the C compiler 'cc' is on the PATH").status.success()
    };
    assert!(compiles("constants.o", &["-Werror"]));
    assert!(!compiles("constants-wrong.o", &["-DWRONG=1"]));
}
