//! The questions that are made reach every form of a line, and everything that a misreading gets
//! wrong; on each of them the two ways to the answer agree.

use reference::asked::Scene;
use reference::generate::questions::questions;
use reference::shown::Shown;

#[test]
fn a_thousand_streams_show_everything() {
    let mut shown = Shown::default();
    for number in 0..1000 {
        let questions = questions(1, number);
        let scene = Scene::of(&questions.case.stream, questions.events);
        shown.streams += 1;
        for id in questions.ids {
            match scene.checked_answer(id) {
                Ok(answer) => shown.add(&scene, id, &answer),
                Err(complaint) => panic!("stream {number}, executable {id}: {complaint}"),
            }
        }
    }
    println!("{}", shown.report());
    for (name, count) in shown.counts() {
        assert!(count >= 20, "{name}: {count} times");
    }
}
