//! The lessons in words, told with the reference in place of the proved programs.

mod common;
use common::{lessons, read, read_text, stand_ins};

use pages::lesson::lines;
use pages::told::{refused, stream, tell, Told, Trouble};

fn told(name: &str, pictures: bool) -> Result<Told, Trouble> {
    let file = format!("lessons/{name}.txt");
    tell(&file, &read_text(&file), &stand_ins(), pictures)
}

/// The whole output of two lessons, as a trainee sees it.
#[test]
fn two_lessons_are_told_word_for_word() {
    for name in ["worked-run", "timed-lesson"] {
        let told = told(name, false).unwrap_or_else(|trouble| panic!("{trouble}"));
        let stored = read_text(&format!("pages/tests/{name}.told"));
        assert_eq!(lines(&told), stored, "{name}");
    }
}

/// The lines behind the first of a lesson's stored answers.
fn stored_answers(name: &str) -> Vec<String> {
    let stored = read_text(&format!("lessons/{name}.out"));
    stored.lines().skip(1).map(str::to_string).collect()
}

#[test]
fn every_lesson_has_the_answers_that_are_stored() {
    for name in lessons() {
        let stored = stored_answers(&name);
        let told = match told(&name, false) {
            Ok(told) => told,
            Err(trouble) => {
                assert_eq!(trouble.status, 1, "{trouble}");
                assert!(stored[0].starts_with("image 1 "), "{name}");
                continue;
            }
        };
        let answers: Vec<String> = told
            .moments
            .iter()
            .map(|m| {
                format!(
                    "{} {} {} {} {}",
                    m.number, m.kind, m.code, m.domain, m.links
                )
            })
            .collect();
        assert_eq!(answers, stored, "{name}");
    }
}

#[test]
fn every_event_has_the_line_of_its_text() {
    for name in lessons() {
        let Ok(told) = told(&name, false) else {
            continue;
        };
        let text = read_text(&format!("lessons/{name}.txt"));
        for moment in &told.moments {
            let Some(line) = moment.line else {
                assert!(told.timed && moment.words.starts_with("clock put in"));
                continue;
            };
            let said = text.lines().nth(line - 1).expect("a line");
            assert_eq!(
                reference::text::event_text(&moment.event),
                said.trim(),
                "{name}"
            );
        }
    }
}

#[test]
fn pictures_end_with_the_stored_image() {
    for name in lessons() {
        let Ok(told) = told(&name, true) else {
            continue;
        };
        let last = told.moments.last().expect("an event");
        assert_eq!(last.image, read(&format!("lessons/{name}.fin")), "{name}");
        for moment in &told.moments {
            let phone = reference::phone::Phone::decode(&moment.image).expect("an image");
            let ids: Vec<u16> = phone.occupied_executables().map(|e| e.id).collect();
            let asked: Vec<u16> = moment.why.iter().map(|asked| asked.id).collect();
            assert_eq!(ids, asked);
            for asked in &moment.why {
                let said = reference::why::explain(&phone, asked.id).text(asked.id);
                assert_eq!(asked.lines, said.lines().collect::<Vec<_>>());
            }
        }
    }
}

#[test]
fn without_pictures_there_are_no_images() {
    let told = told("worked-run", false).expect("a lesson");
    assert_eq!(told.before.image, read("lessons/worked-run.in")[..184]);
    assert!(told.before.why.is_empty());
    assert!(told
        .moments
        .iter()
        .all(|m| m.image.is_empty() && m.why.is_empty()));
}

#[test]
fn a_refused_image_names_its_line() {
    let trouble = told("wrong-image", false).expect_err("a refused image");
    assert_eq!(trouble.status, 1);
    let mut said = trouble.message.lines();
    let first = said.next().expect("a line");
    assert!(first.starts_with("lessons/wrong-image.txt, line 5: the image is refused (1)"));
    assert!(first.contains("rule I4 at byte 88"));
    let quoted =
        "    certificate 10 on card 2 root operator valid enabled key 2000 owner 600 expiry 1000";
    assert_eq!(said.next(), Some(quoted));
    let read_on = said.next().expect("where to read on");
    assert!(read_on.contains("lessons/tables.md") && read_on.contains("lessons/wrong-image.md"));
    assert_eq!(said.next(), None);
}

/// An application without the chain that it should have: how to find out what is missing.
#[test]
fn an_application_without_its_chain_can_be_asked_about() {
    let text = read_text("lessons/worked-run.txt").replace("clock 100", "clock 201");
    let advice = |file: &str, text: &str| {
        let trouble = tell(file, text, &stand_ins(), false).expect_err("a refused image");
        assert!(trouble.message.contains("it breaks rule I8 at byte 152."));
        let mut said = trouble.message.lines().skip(1);
        let quoted = said.next().expect("the line").trim().to_string();
        (quoted, said.next().expect("a line").to_string())
    };
    let (quoted, advised) = advice("x.txt", &text);
    assert_eq!(quoted, "executable 1 operator signed 1001 permissions none");
    assert_eq!(
        advised,
        "To see what its chain lacks, write `untrusted` in place of `operator` in this line, and ask `./run why x.txt 1`"
    );
    assert!(advice("standard input", &text)
        .1
        .ends_with("ask `./run why FILE 1`"));
    // What is advised helps.
    let untrusted = text.replace("executable 1 operator", "executable 1 untrusted");
    let stream = stream("x.txt", &untrusted).expect("a stream");
    let said = stand_ins().why(&stream, 1, 0).expect("an answer");
    assert_eq!(said.lines, ["certificate 11 is past its date"]);
    // A record in bytes has no word to write.
    let in_bytes = text.replace(
        "executable 1 operator signed 1001 permissions none",
        "executable bytes 00 01 01 00 00 00 03 e9 00 00 00 00",
    );
    assert!(advice("x.txt", &in_bytes)
        .1
        .starts_with("lessons/tables.md"));
}

/// `./run why` tells a refused image in the words of a lesson, by the rule and the byte of the program.
#[test]
fn a_refused_image_is_told_the_same_without_a_run() {
    let told = told("wrong-image", false).expect_err("a refused image");
    let file = "lessons/wrong-image.txt";
    assert_eq!(refused(file, &read_text(file), 4, 88), told);
    let trouble = refused("x.txt", "verfy\n", 4, 88);
    assert_eq!(trouble.status, 2);
}

/// Two operator roots on the phone: one that is past its date does not count.
#[test]
fn a_second_valid_root_is_told_by_its_rule() {
    let text = |expiry: u32| {
        format!(
            "phone mode 0 card none clock 100\n\
             certificate 1 on phone root operator valid enabled key 1 owner 500 expiry 900\n\
             certificate 2 on phone root operator valid enabled key 2 owner 600 expiry {expiry}\n\
             action 0 untrusted never operator free manufacturer free third-party free\n"
        )
    };
    let trouble = tell("x.txt", &text(100), &stand_ins(), false).expect_err("two valid roots");
    assert_eq!(trouble.status, 1);
    assert!(trouble
        .message
        .starts_with("x.txt, line 3: the image is refused (1)"));
    assert!(trouble.message.contains(
        "rule I5 at byte 64. The rule is that at most one operator root is valid on the phone and on each card;"
    ));
    assert!(tell("x.txt", &text(99), &stand_ins(), false).is_ok());
}

#[test]
fn a_header_names_the_line_of_the_phone() {
    let text = read_text("lessons/worked-run.txt").replace("card none", "card 9");
    let trouble = tell("x.txt", &text, &stand_ins(), false).expect_err("no card 9");
    assert!(trouble
        .message
        .starts_with("x.txt, line 2: the image is refused (1)"));
    assert!(trouble.message.contains("rule I3 at byte 12"));
}

#[test]
fn an_image_that_is_cut_has_no_line_and_is_refused_all_the_same() {
    let trouble = tell("x.txt", "bytes 00 01\n", &stand_ins(), true).expect_err("no image");
    assert_eq!(trouble.status, 1, "{trouble}");
    assert!(trouble.message.contains("rule I1"));
}

#[test]
fn a_text_without_a_phone_says_so() {
    for text in [
        "",
        "\n\n",
        "# nothing\n",
        "# phone\n",
        "card-out by device\n",
        "timeline\n",
    ] {
        let told = tell("x.txt", text, &stand_ins(), true).expect_err("no image");
        assert_eq!(told.status, 2, "{told}");
        assert_eq!(told.message, "x.txt: there is no line 'phone'");
        assert_eq!(stream("x.txt", text), Err(told));
    }
}

#[test]
fn a_first_word_that_there_is_not_names_the_events() {
    let text = read_text("lessons/worked-run.txt").replace("verify by", "verfy by");
    let trouble = tell("x.txt", &text, &stand_ins(), false).expect_err("no such word");
    assert_eq!(trouble.status, 2);
    assert!(trouble
        .message
        .contains("found `verfy`; the events are clock, card-in, "));
    assert!(trouble.message.contains(" verify, "));
    assert!(trouble.message.contains("lessons/tables.md"));
    assert!(!trouble.message.contains("an application is"));
}

#[test]
fn an_application_is_an_executable_in_the_text() {
    let text = read_text("lessons/worked-run.txt");
    for (from, to) in [
        ("executable 1 operator", "application 1 operator"),
        (
            "card-out by device",
            "install-application by user application 5 unsigned",
        ),
    ] {
        let trouble = tell("x.txt", &text.replace(from, to), &stand_ins(), false);
        let message = trouble.expect_err("no such word").message;
        assert!(
            message.contains("application`; an application is `executable` in a lesson's text; "),
            "{message}"
        );
    }
}

#[test]
fn a_text_that_cannot_be_read_names_its_line() {
    let text = read_text("lessons/worked-run.txt").replace("to 201", "to noon");
    let trouble = tell("x.txt", &text, &stand_ins(), false).expect_err("no time");
    assert_eq!(trouble.status, 2);
    assert_eq!(
        trouble.message,
        "x.txt, line 17: expected the new time, a number from 0 to 4294967295, found `noon`"
    );
}

#[test]
fn a_refused_timeline_names_its_line() {
    let text = read_text("lessons/timed-lesson.txt");
    let refused = |from: &str, to: &str| {
        let text = text.replace(from, to);
        let trouble = tell("x.txt", &text, &stand_ins(), false).expect_err("a refused timeline");
        assert_eq!(trouble.status, 1);
        assert!(trouble.message.contains("the timeline is refused (19)"));
        let quoted = trouble.message.lines().nth(1).expect("the line").trim();
        let place = trouble.message.split(':').next().expect("a place");
        (place.to_string(), quoted.to_string())
    };
    let line_of = |text: &str, line: &str| {
        let at = text.lines().position(|other| other == line);
        format!("x.txt, line {}", at.expect("a line") + 1)
    };
    // The second stands on its own line.
    for (from, to) in [("at 1000", "at 999"), ("at 1090", "at 1001")] {
        let (place, quoted) = refused(from, to);
        assert_eq!(quoted, to);
        assert_eq!(place, line_of(&text, from));
    }
    let (place, quoted) = refused(
        "verify by device executable 1\nrequest",
        "clock by device to 5\nrequest",
    );
    assert_eq!(quoted, "clock by device to 5");
    assert_eq!(place, line_of(&text, "verify by device executable 1"));
}

#[test]
fn a_title_is_the_first_comment_or_the_name() {
    let text = read_text("lessons/worked-run.txt");
    let title = |text: &str| {
        let told = tell("x.txt", text, &stand_ins(), false);
        told.expect("a lesson").title
    };
    assert_eq!(title(&text), "The worked run of the specification.");
    assert_eq!(
        title(&text.replace("# The", "## The")),
        "The worked run of the specification."
    );
    assert_eq!(
        title(&text.replace("# The worked run of the specification.", "#")),
        "x.txt"
    );
    assert_eq!(title(text.split_once('\n').expect("lines").1), "x.txt");
}

#[test]
fn a_comment_is_told_with_the_event_under_it() {
    let text = read_text("lessons/worked-run.txt")
        .replace(
            "\nclock by device to 200",
            "\n  ## Time\n#\n# goes by.\nclock by device to 200",
        )
        .replace("\ncard-in", "\n# Not above an event.\n\ncard-in")
        .replace(
            "\nclock by device to 201",
            "\nclock by device to 201 # beside one",
        );
    let told = tell("x.txt", &text, &stand_ins(), false).expect("a lesson");
    assert_eq!(told.moments[1].comment, ["Time", "goes by."]);
    let others = told.moments.iter().filter(|moment| moment.number != 2);
    assert!(others.map(|moment| &moment.comment).all(Vec::is_empty));
    let lines = lines(&told);
    assert!(lines.contains("(0)\n\n# Time\n# goes by.\n   2  second 100  clock by device"));
    assert!(!lines.contains("Not above an event.") && !lines.contains("beside one"));
}

#[test]
fn a_comment_above_two_events_in_one_line_is_told_once() {
    let request = "0f 00 00 01 00 00 00 00 00 00 00 00 00 00 00 00 00 00 00 00 00 00 00 00";
    let text = read_text("lessons/worked-run.txt");
    let text = format!("{text}# Twice.\nbytes {request} {request}\n");
    let told = tell("x.txt", &text, &stand_ins(), false).expect("a lesson");
    assert_eq!(told.moments.len(), 16);
    assert_eq!(told.moments[14].line, told.moments[15].line);
    assert_eq!(told.moments[14].comment, ["Twice."]);
    assert!(told.moments[15].comment.is_empty());
}

/// A long comment is broken, and no line of it can be taken for an answer.
#[test]
fn every_line_of_a_comment_begins_as_one() {
    let comment = "1  second 100  done (0) ".repeat(9);
    let text = read_text("lessons/worked-run.txt")
        .replace("\ncard-out", &format!("\n# {comment}\ncard-out"));
    let told = tell("x.txt", &text, &stand_ins(), false).expect("a lesson");
    let lines = lines(&told);
    let of_comment: Vec<&str> = lines
        .lines()
        .filter(|line| line.starts_with("# "))
        .collect();
    assert_eq!(of_comment.len(), 3);
    assert!(of_comment.iter().all(|line| line.len() <= 102));
    let said = of_comment
        .iter()
        .flat_map(|line| line[2..].split_whitespace());
    assert!(said.eq(comment.split_whitespace()));
}

/// A comment above a second is that of the clock event which is put in, and of the first event where none is.
#[test]
fn a_comment_above_a_second_is_told_with_its_first_event() {
    let told = told("timed-lesson", false).expect("a lesson");
    let comment = |number: usize| told.moments[number - 1].comment.join(" ");
    assert!(comment(1).starts_with("The watch starts at the second"));
    assert_eq!(comment(13), "The last second of the card's root.");
    assert!(told.moments[12].line.is_none());
    assert_eq!(comment(14), "");
    let text =
        read_text("lessons/timed-lesson.txt").replace("at 1012\n", "at 1012\n# Asked again.\n");
    let told = tell("x.txt", &text, &stand_ins(), false).expect("a lesson");
    assert!(told.moments[1].comment[0].starts_with("Twelve seconds of talk."));
    assert_eq!(told.moments[2].comment, ["Asked again."]);
}

#[test]
fn no_picture_is_shown_that_the_library_does_not_agree_with() {
    let text = read_text("lessons/worked-run.txt");
    for saying in ["15 cases, 1 differ", "14 cases, 0 differ", ""] {
        let mut programs = stand_ins();
        programs.vectors = vec!["echo".to_string(), saying.to_string()];
        let trouble = tell("x.txt", &text, &programs, true).expect_err("a difference");
        assert_eq!(trouble.status, 2);
        assert!(
            trouble.message.starts_with("no picture is shown"),
            "{trouble}"
        );
        assert!(tell("x.txt", &text, &programs, false).is_ok());
    }
}

#[test]
fn answers_to_other_events_are_not_shown() {
    let text = read_text("lessons/worked-run.txt");
    let mut programs = stand_ins();
    programs.bench = vec![
        "echo".to_string(),
        "event kind code domain links".to_string(),
    ];
    let trouble = tell("x.txt", &text, &programs, false).expect_err("no answers");
    assert_eq!(
        trouble.message,
        "the lesson has 14 events, and the answers are to others"
    );
}

#[test]
fn long_lessons_have_lines_and_no_pictures() {
    let image = read_text("lessons/worked-run.txt");
    let text = image + &"request by device executable 1 action 0\n".repeat(600);
    let told = tell("x.txt", &text, &stand_ins(), false).expect("a lesson");
    assert_eq!(told.moments.len(), 614);
    let trouble = tell("x.txt", &text, &stand_ins(), true).expect_err("too many events");
    assert!(trouble.message.contains("614 events"), "{trouble}");
}
