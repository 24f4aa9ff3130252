//! Stands in for the proved programs in tests: `stand_in bench|play|why|vectors` prints what the reference says.

use std::io::Read;
use std::path::Path;

use reference::why::Question;

fn main() {
    let words: Vec<String> = std::env::args().skip(1).collect();
    let (name, rest) = words.split_first().expect("the name of a program");
    let text = match name.as_str() {
        "bench" => reference::bench::run(&input()).text,
        "play" => reference::timeline::run(&input()).text,
        "why" => {
            let question = Question::of_words(rest).expect("a question");
            question.answer(&input()).text(question.id)
        }
        "vectors" => {
            let outcome = reference::vectors::run_folder(Path::new("."));
            outcome.expect("a folder of cases").report
        }
        other => panic!("there is no program {other}"),
    };
    print!("{text}");
}

fn input() -> Vec<u8> {
    let mut bytes = Vec::new();
    let read = std::io::stdin().read_to_end(&mut bytes);
    read.expect("standard input");
    bytes
}
