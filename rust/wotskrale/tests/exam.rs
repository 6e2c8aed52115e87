//! The exam that the example draws: as many key lines as questions, in the same order, and none of them empty.

#[path = "../examples/exam/sheet/mod.rs"]
mod sheet;

/// What is behind the numbers, of lines that are numbered from 1.
fn numbered(text: &str) -> Vec<&str> {
    let lines = text.lines().filter(|l| l.starts_with(char::is_numeric));
    let numbers = (1..).map(|number: u64| format!("{number}. "));
    let lines = lines.zip(numbers).map(|(l, n)| l.strip_prefix(&n));
    lines.map(|line| line.expect("the next number")).collect()
}

/// The questions and the key of an exam.
fn parts(text: &str) -> (Vec<&str>, Vec<&str>) {
    let (questions, key) = text.split_once("\nMarking key").expect("a key");
    (numbered(questions), numbered(key))
}

#[test]
fn each_question_has_one_line_in_the_key() {
    let kinds = parts(&sheet::exam(0, 1).expect("an exam")).0.len();
    assert!(kinds > 40, "{kinds} kinds");
    for seed in 0..300 {
        let text = sheet::exam(seed, 5).expect("an exam");
        let (questions, key) = parts(&text);
        assert_eq!(questions.len(), 5 * kinds, "seed {seed}");
        assert_eq!(key.len(), questions.len(), "seed {seed}");
        for line in questions.iter().chain(&key) {
            assert_eq!(line.trim(), *line, "seed {seed}");
            assert!(!line.is_empty(), "seed {seed}");
        }
        assert!(questions.iter().all(|q| q.ends_with('?')), "seed {seed}");
    }
}

#[test]
fn one_seed_draws_one_exam() {
    assert_eq!(sheet::exam(7, 2), sheet::exam(7, 2));
    assert_ne!(sheet::exam(7, 2), sheet::exam(8, 2));
}

/// In words, inclusion and pruning are only asked of times and subspaces that include something.
#[test]
fn times_and_subspaces_of_areas_and_3d_ranges_include_something() {
    let mut seen = 0;
    for seed in 0..300 {
        let text = sheet::exam(seed, 5).expect("an exam");
        for word in ["times [", "subspaces ["] {
            for piece in text.split(word).skip(1) {
                let (bounds, _) = piece.split_once(')').expect("an end");
                let (start, end) = bounds.split_once(", ").expect("two bounds");
                let [start, end] = [start, end].map(|n| n.parse::<u64>().expect("a number"));
                assert!(start < end, "seed {seed}: {word}{bounds})");
                seen += 1;
            }
        }
    }
    assert!(seen > 10_000, "{seen} seen");
}

#[test]
fn words_that_are_no_numbers_are_not_taken() {
    let asked = |words: &[&str]| sheet::asked(words.iter().map(|word| word.to_string()));
    assert_eq!(asked(&[]), Some((1, 1)));
    assert_eq!(asked(&["7"]), Some((7, 1)));
    assert_eq!(asked(&["7", "50"]), Some((7, 50)));
    for words in [
        &["x", "7"][..],
        &["7", "x"],
        &["-1"],
        &["7", ""],
        &["1", "2", "3"],
    ] {
        assert_eq!(asked(words), None, "{words:?}");
    }
}
