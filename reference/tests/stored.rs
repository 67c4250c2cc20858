//! The stored sets, which our programs are run on in the gate, are what this program makes and answers.

use reference::cases::{cases, write_case};
use reference::lab::Lab;
use reference::lab_cases::talks;

#[test]
fn stored_cases() {
    let mut file = Vec::new();
    for case in cases(1, 400) {
        write_case(&case, &mut file).unwrap();
    }
    assert!(file == include_bytes!("../../crates/cases/stdin"));
}

#[test]
fn stored_lab_lines() {
    let lines = talks(1, 200).collect::<Vec<_>>().concat();
    assert!(lines == include_bytes!("../../crates/lab/stdin"));
    let mut lab = Lab::default();
    let answers: String = lines
        .strip_suffix(b"\n")
        .unwrap()
        .split(|&byte| byte == b'\n')
        .map(|line| lab.answer(line) + "\n")
        .collect();
    assert!(answers == include_str!("../../crates/lab/stdout"));
}
