//! The page of a lesson: what stands on it, and where.

mod common;
mod markup;
use common::{lessons, read_text, stand_ins};
use markup::{balanced, boxes, groups, ids, sections, texts, Group};

use std::sync::OnceLock;

use pages::page::page;
use pages::told::{tell, Asked, Moment, Moment0, Told};
use reference::generate::images::{accepted_phone, Shape};
use reference::phone::{Certificate, Phone, RECOVERY};
use reference::random::Random;
use reference::why::{explain, Reason};

fn told(name: &str) -> Told {
    let file = format!("lessons/{name}.txt");
    let told = tell(&file, &read_text(&file), &stand_ins(), true);
    told.unwrap_or_else(|trouble| panic!("{name}: {trouble}"))
}

/// All lessons that are told, run once; one has an image that is refused.
fn all_told() -> Vec<Told> {
    static ALL: OnceLock<Vec<Told>> = OnceLock::new();
    let tell_all = || {
        let names = lessons().into_iter();
        let names = names.filter(|name| name != "wrong-image");
        names.map(|name| told(&name)).collect()
    };
    ALL.get_or_init(tell_all).clone()
}

fn whys(phone: &Phone) -> Vec<Asked> {
    let asked = |id: u16| Asked {
        id,
        lines: explain(phone, id)
            .text(id)
            .lines()
            .map(str::to_string)
            .collect(),
    };
    let mut ids: Vec<u16> = phone.occupied_executables().map(|e| e.id).collect();
    ids.sort_unstable();
    ids.into_iter().map(asked).collect()
}

/// A phone without events.
fn still(phone: &Phone) -> Told {
    Told {
        title: "A phone".to_string(),
        file: "phone.txt".to_string(),
        timed: false,
        before: Moment0 {
            image: phone.encode(),
            why: whys(phone),
        },
        moments: Vec::new(),
    }
}

fn largest_phones() -> Vec<Told> {
    (1..=6)
        .map(|seed| accepted_phone(&mut Random::of_case(seed, 0), Shape::LARGEST))
        .map(|phone| still(&phone))
        .collect()
}

/// What `why` told at each section.
fn whys_of(told: &Told) -> Vec<&[Asked]> {
    let after = told.moments.iter().map(|moment| moment.why.as_slice());
    std::iter::once(told.before.why.as_slice())
        .chain(after)
        .collect()
}

/// The images of the sections.
fn phones_of(told: &Told) -> Vec<Phone> {
    let after = told.moments.iter().map(|moment| &moment.image);
    let images = std::iter::once(&told.before.image).chain(after);
    images
        .map(|image| Phone::decode(image).expect("an image"))
        .collect()
}

fn group<'a>(groups: &'a [Group], title: &str) -> &'a Group {
    let found = groups.iter().find(|group| group.title == title);
    found.unwrap_or_else(|| panic!("no box of {title}"))
}

#[test]
fn every_event_has_a_section_with_its_picture() {
    for told in all_told() {
        let page = page(&told);
        let sections = sections(&page);
        assert_eq!(sections.len(), told.moments.len() + 1, "{}", told.file);
        for section in sections {
            assert_eq!(
                section.matches("<svg class=\"phone\" role=\"img\"").count(),
                1
            );
            assert_eq!(section.matches("<h2 ").count(), 1);
            assert_eq!(section.matches("<title ").count(), 1);
            assert_eq!(section.matches("<table ").count(), 1);
            // The script shows the hint that stands before a picture.
            assert!(section.contains("to the right: move it sideways.</p>\n<figure "));
            assert!(!section.contains("no picture"));
        }
    }
}

#[test]
fn tags_are_closed_and_ids_are_there_once() {
    for told in all_told().into_iter().chain(largest_phones()) {
        let page = page(&told);
        balanced(&page).unwrap_or_else(|wrong| panic!("{}: {wrong}", told.file));
        let mut ids = ids(&page);
        let count = ids.len();
        ids.sort();
        ids.dedup();
        assert_eq!(ids.len(), count, "{}", told.file);
        for link in page.split("href=\"#").skip(1) {
            let target = link.split('"').next().unwrap_or("").to_string();
            assert!(ids.binary_search(&target).is_ok(), "nothing is {target}");
        }
    }
}

#[test]
fn the_page_asks_nothing_of_a_network() {
    for told in all_told() {
        let page = page(&told);
        for word in ["http:", "https:", "src=", "<link", "@import", "url("] {
            assert!(!page.contains(word), "{} has {word}", told.file);
        }
    }
}

#[test]
fn what_was_told_stands_there_word_for_word() {
    for told in all_told() {
        let page = page(&told);
        let sections = sections(&page);
        for (section, whys) in sections.iter().zip(whys_of(&told)) {
            let texts = texts(section);
            for line in whys.iter().flat_map(|asked| &asked.lines) {
                assert!(texts.contains(line), "{}: {line}", told.file);
            }
        }
        for (section, moment) in sections.iter().skip(1).zip(&told.moments) {
            let texts = texts(section);
            assert!(texts.contains(&moment.words), "{}", moment.words);
            assert!(texts.contains(&moment.answer), "{}", moment.answer);
            for reason in &moment.reasons {
                assert!(texts.contains(reason), "{reason}");
            }
            let comment = moment.comment.join(" ");
            assert!(comment.is_empty() || texts.contains(&comment), "{comment}");
            assert_eq!(
                section.contains("class=\"comment\""),
                !comment.is_empty(),
                "{}",
                moment.words
            );
        }
    }
}

/// `certificate 11 is past its date` stands at certificate 11.
#[test]
fn what_is_told_of_a_certificate_stands_at_it() {
    for told in all_told().into_iter().chain(largest_phones()) {
        let page = page(&told);
        for (section, whys) in sections(&page).iter().zip(whys_of(&told)) {
            let groups = groups(section);
            let lines = whys.iter().flat_map(|asked| &asked.lines);
            for line in lines.filter(|line| line.starts_with("certificate ")) {
                let mut words = line.splitn(3, ' ');
                let id = words.nth(1).expect("an id");
                let said = words.next().expect("what is said");
                let group = group(&groups, &format!("certificate {id}"));
                assert_eq!(group.said, said, "{}", told.file);
                let serves = said == "is a trusted root" || said.starts_with("is verified by ");
                let class = if serves { "good" } else { "broken" };
                assert!(group.has_class(class), "{line}");
            }
        }
    }
}

/// The faults of a certificate, by the reasons of the reference.
fn faults_by_the_reference(phone: &Phone, certificate: &Certificate) -> Vec<String> {
    let all = [
        (Reason::MarkedInvalid, "marked invalid"),
        (Reason::Disabled, "disabled"),
        (Reason::AbsentCard, "card absent"),
        (Reason::PastItsDate, "past its date"),
    ];
    let is_so =
        |reason: Reason| certificate.kind != RECOVERY && reason.is_true_of(phone, certificate);
    let found = all.into_iter().filter(|(reason, _)| is_so(*reason));
    found.map(|(_, words)| words.to_string()).collect()
}

/// Where `why` says nothing of a certificate, the page reads its fields; where it does, that stands alone.
#[test]
fn what_a_certificate_has_against_it_is_read_off_where_nothing_is_told() {
    let mut seen = std::collections::BTreeSet::new();
    for told in all_told().into_iter().chain(largest_phones()) {
        let page = page(&told);
        for (section, phone) in sections(&page).iter().zip(phones_of(&told)) {
            let groups = groups(section);
            for certificate in phone.occupied_certificates() {
                let group = group(&groups, &format!("certificate {}", certificate.id));
                let expected = match group.said.is_empty() {
                    true => faults_by_the_reference(&phone, certificate),
                    false => Vec::new(),
                };
                assert_eq!(group.faults, expected, "{}: {}", told.file, group.title);
                assert!(expected.is_empty() || group.has_class("plain"));
                seen.extend(expected);
            }
        }
    }
    assert_eq!(seen.len(), 4, "{seen:?}");
}

/// The root behind "no good signer": in its last second, and one second later.
#[test]
fn a_root_past_its_date_says_so_itself() {
    let page = page(&told("timed-lesson"));
    let sections = sections(&page);
    assert!(group(&groups(sections[14]), "certificate 20").has_class("good"));
    let groups = groups(sections[16]);
    let signed = group(&groups, "certificate 21");
    assert_eq!(signed.said, "has no good signer within three links");
    assert!(signed.faults.is_empty());
    let root = group(&groups, "certificate 20");
    assert_eq!(root.faults, ["past its date"]);
    assert_eq!(root.said, "");
    // Nowhere does it stand among the answers, and whoever does not see the picture is told whose words they are.
    assert!(!sections[16].contains("certificate 20 is past its date"));
    assert!(sections[16].contains(
        "Read off by this page: certificate 20, past its date; certificate 30, marked invalid."
    ));
}

#[test]
fn every_record_stands_there_once_and_in_its_domain() {
    let classes = ["un", "op", "mf", "tp"];
    for told in all_told() {
        let page = page(&told);
        for (section, phone) in sections(&page).iter().zip(phones_of(&told)) {
            let groups = groups(section);
            let certificates = phone.occupied_certificates();
            let certificates = certificates.map(|c| (format!("certificate {}", c.id), c.domain));
            let applications = phone.occupied_executables();
            let applications = applications.map(|e| (format!("application {}", e.id), e.domain));
            let records: Vec<(String, u8)> = certificates.chain(applications).collect();
            assert_eq!(groups.len(), records.len());
            for (title, domain) in records {
                assert!(group(&groups, &title).has_class(classes[usize::from(domain)]));
            }
        }
    }
}

#[test]
fn no_box_lies_on_another_or_outside_the_picture() {
    for told in all_told().into_iter().chain(largest_phones()) {
        for section in sections(&page(&told)) {
            let (width, height, boxes) = boxes(section);
            for (nth, one) in boxes.iter().enumerate() {
                assert!(one.x >= 0 && one.right() <= width, "{}", told.file);
                assert!(one.y >= 0 && one.bottom() <= height, "{}", told.file);
                for other in &boxes[..nth] {
                    assert!(!one.meets(other), "{}: {one:?} {other:?}", told.file);
                }
            }
        }
    }
}

/// A record that is there before and after an event stands at the same column.
#[test]
fn a_record_keeps_its_column_through_the_lesson() {
    for told in all_told() {
        let mut columns = std::collections::BTreeMap::new();
        for section in sections(&page(&told)) {
            for group in groups(section) {
                let known = *columns.entry(group.title.clone()).or_insert(group.x);
                assert_eq!(known, group.x, "{}: {}", told.file, group.title);
            }
        }
    }
}

#[test]
fn a_card_is_in_the_phone_or_absent() {
    let page = page(&told("card-pulled"));
    let sections = sections(&page);
    for (number, section) in sections.iter().enumerate() {
        let is_out = matches!(number, 2..=5 | 10..=14 | 17..=20);
        assert_eq!(
            section.contains("class=\"card absent\""),
            is_out,
            "{number}"
        );
        assert_eq!(section.contains("card 1 of operator 500, absent"), is_out);
        assert_eq!(section.contains("card 1 of operator 500, in<"), !is_out);
    }
    assert!(sections[2].contains(">now out<"));
    assert!(sections[6].contains(">now in<"));
    assert!(!sections[3].contains(">now out<"));
}

#[test]
fn what_an_event_changed_is_marked() {
    let page = page(&told("worked-run"));
    let sections = sections(&page);
    // The clock passes the date of certificate 11.
    let texts_of_4 = texts(sections[4]);
    for change in [
        "the clock: from 200 to 201",
        "application 1: from operator to untrusted",
    ] {
        assert!(texts_of_4.contains(&change.to_string()), "{change}");
    }
    let groups_of_4 = groups(sections[4]);
    assert!(group(&groups_of_4, "application 1").has_class("changed"));
    assert!(!group(&groups_of_4, "certificate 11").has_class("changed"));
    // A request changes nothing.
    assert!(sections[5].contains("Nothing on the phone changed."));
    assert!(groups(sections[5]).iter().all(|g| !g.has_class("changed")));
    // The card's valid root takes the mark of the phone's.
    assert!(group(&groups(sections[9]), "certificate 10").has_class("changed"));
}

#[test]
fn the_table_shows_what_is_granted_to_whom() {
    let page = page(&told("worked-run"));
    let sections = sections(&page);
    let cells = |number: usize| texts(sections[number]).join(" ");
    assert!(cells(5).contains("with permission application 1 not given"));
    assert!(cells(7).contains("with permission application 1 given changed"));
    assert!(cells(8).contains("with permission application 1 given"));
    assert!(cells(1).contains("operator application 1"));
    assert!(cells(8).contains("untrusted application 1"));
}

#[test]
fn text_is_never_taken_for_markup() {
    let evil = "</title><script>alert(\"1\")</script> & 'x'\u{7}";
    let mut told = told("worked-run");
    told.title = evil.to_string();
    told.file = evil.to_string();
    told.moments[0].words = evil.to_string();
    told.moments[0].comment = vec![evil.to_string(), evil.to_string()];
    told.moments[0].answer = evil.to_string();
    told.moments[0].reasons = vec![evil.to_string()];
    told.moments[0].why[0].lines = vec![evil.to_string(), format!("certificate 10 {evil}")];
    let page = page(&told);
    assert!(!page.contains("<script>alert"));
    assert!(!page.contains('\u{7}'));
    assert_eq!(page.matches("<script").count(), 1);
    assert_eq!(
        page.matches("</title><").count(),
        page.matches("<title").count() - sections(&page).len() - 1
    );
    balanced(&page).expect("balanced");
}

#[test]
fn an_image_that_cannot_be_read_has_no_picture() {
    let mut told = told("worked-run");
    told.moments.truncate(2);
    told.moments[0].image = Vec::new();
    let page = page(&told);
    let sections = sections(&page);
    assert!(sections[1].contains("This image has no picture."));
    assert!(sections[2].contains("<svg class=\"phone\""));
    balanced(&page).expect("balanced");
}

#[test]
fn an_empty_phone_and_a_clock_event_that_was_put_in_are_shown() {
    let phone = accepted_phone(&mut Random::of_case(1, 0), Shape::SMALLEST);
    let mut told = still(&phone);
    told.timed = true;
    told.moments.push(Moment {
        number: 1,
        line: None,
        comment: Vec::new(),
        second: phone.clock,
        event: Vec::new(),
        words: "clock".to_string(),
        kind: 1,
        code: 0,
        domain: 0,
        links: 0,
        answer: "done (0)".to_string(),
        reasons: Vec::new(),
        image: phone.encode(),
        why: Vec::new(),
    });
    let page = page(&told);
    balanced(&page).expect("balanced");
    assert!(page.contains("Event 1 of 1, put in by the timeline, at second"));
}

#[test]
fn the_page_says_what_stands_behind_it() {
    let page = page(&told("worked-run"));
    let footer = page.split("<footer>").nth(1).expect("a footer");
    assert!(footer.contains("The answers and the reasons were given by the proved programs."));
    assert!(footer.contains("held to the proved library, byte for byte"));
    assert!(footer.contains("is not proved"));
    assert!(footer.contains("Nor is what this page reads off a certificate by itself"));
}
