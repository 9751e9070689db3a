//! The answers given by hand (cases/vectors.py) to the lines of cases/vectors.txt, against the program's.

use second::protocol::Program;

const LINES: &str = include_str!("../cases/vectors.txt");
const ANSWERS: &str = include_str!("../cases/vectors.out");

#[test]
fn vectors_are_answered_as_the_hand_gives() {
    let mut program = Program::default();
    let mut given = ANSWERS.lines();
    let mut remark = "";
    for (number, line) in LINES.lines().enumerate() {
        let answer = program.answer(line.as_bytes());
        if line.starts_with('#') {
            remark = line;
        } else if !line.is_empty() {
            let expected = format!("{}\n", given.next().unwrap_or("(no answer given)"));
            assert_eq!(answer, expected, "line {}: {line}\n{remark}", number + 1);
        }
    }
    assert_eq!(given.next(), None, "more answers than lines");
}
