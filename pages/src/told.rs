//! A lesson as it was run: its text turned into bytes, run by the proved programs, and told in words.

use reference::bench::{event_records, split_stream};
use reference::events::{Event, CLOCK, REQUEST, VERIFY};
use reference::phone::Phone;
use reference::text::{event_names, to_placed_bytes, PlacedBytes, Wrong, FIRST_WORDS};
use reference::timeline::{self, Record, Refused, Way};

use crate::asking::{Asking, Question};
use crate::held;
use crate::programs::{Programs, Ran, Said, Verdict};
use crate::reading::STANDARD_INPUT;
use crate::trust::Trust;
use crate::words::{self, Answer};

pub use crate::trouble::Trouble;

/// The most questions that pictures may cost: each is a run of the program `why`.
pub const MOST_QUESTIONS: usize = 4000;

/// A lesson as it was run: what the lines and the page are made of.
#[derive(Clone, Debug, PartialEq, Eq)]
pub struct Told {
    /// The first comment line of the text, without `#`, or the file's name.
    pub title: String,
    /// The file's name as it was given.
    pub file: String,
    /// Whether the text is a timeline.
    pub timed: bool,
    pub before: Moment0,
    pub moments: Vec<Moment>,
}

/// The phone before any event.
#[derive(Clone, Debug, PartialEq, Eq)]
pub struct Moment0 {
    pub image: Vec<u8>,
    /// Of every application; empty unless pictures are asked for.
    pub why: Vec<Asked>,
}

/// One event and what it was answered.
#[derive(Clone, Debug, PartialEq, Eq)]
pub struct Moment {
    pub number: usize,
    /// The line of the text; none for a clock event that was put in.
    pub line: Option<usize>,
    /// The comment that stands above it in the text, line by line and without `#`.
    pub comment: Vec<String>,
    /// The phone's clock when the event came.
    pub second: u32,
    pub event: Vec<u8>,
    pub words: String,
    pub kind: u8,
    pub code: u8,
    pub domain: u8,
    pub links: u8,
    /// The answer in words, with its code.
    pub answer: String,
    /// Lines of `why`, where the answer is a surprise.
    pub reasons: Vec<String>,
    /// The image after the event; empty unless pictures are asked for.
    pub image: Vec<u8>,
    /// Of every application after the event; empty unless pictures are asked for.
    pub why: Vec<Asked>,
}

/// What `why` says of an application at a moment, word for word.
#[derive(Clone, Debug, PartialEq, Eq)]
pub struct Asked {
    pub id: u16,
    pub lines: Vec<String>,
}

/// Runs a lesson and tells what came out. With `pictures` every moment has its image and its whys.
pub fn tell(file: &str, text: &str, programs: &Programs, pictures: bool) -> Result<Told, Trouble> {
    let source = Source::of(file, text)?;
    let run = Run::of(&source, programs)?;
    let mut asking = Asking::of(programs, &run.stream, &run.answers);
    let mut told = Told {
        title: source.title(),
        file: file.to_string(),
        timed: source.placed.is_timeline,
        before: Moment0 {
            image: run.image().to_vec(),
            why: Vec::new(),
        },
        moments: run.moments(&source, &mut asking)?,
    };
    if pictures {
        let images = held::images(programs, &run.stream, &run.lines)?;
        add_pictures(&mut told, images, &mut asking)?;
    }
    Ok(told)
}

/// The bytes of a lesson's text, as `bench` and `why` read them: of a timeline, its events with the
/// clock events put in. An image that is refused is left for the program to tell.
pub fn stream(file: &str, text: &str) -> Result<Vec<u8>, Trouble> {
    let source = Source::of(file, text)?;
    if !source.placed.is_timeline {
        return Ok(source.placed.bytes);
    }
    match timeline::as_stream(&source.placed.bytes) {
        Ok(stream) => Ok(stream),
        Err(Refused::Image(_)) => Ok(source.placed.bytes),
        Err(Refused::Timeline(_)) => Err(source.timeline_refused()),
    }
}

/// What is told of a lesson's text whose image a program refuses, by the rule and the byte that it names.
pub fn refused(file: &str, text: &str, rule: u8, offset: usize) -> Trouble {
    match Source::of(file, text) {
        Ok(source) => source.image_refused(rule, offset),
        Err(trouble) => trouble,
    }
}

/// A lesson's text, and the bytes that it stands for.
struct Source<'a> {
    file: &'a str,
    text: &'a str,
    placed: PlacedBytes,
}

impl<'a> Source<'a> {
    fn of(file: &'a str, text: &'a str) -> Result<Source<'a>, Trouble> {
        let placed = to_placed_bytes(text).map_err(|wrong| cannot_be_read(file, &wrong))?;
        if !has_image(text) {
            let message = format!("{file}: there is no line 'phone'");
            return Err(Trouble::unreadable(message));
        }
        Ok(Source { file, text, placed })
    }

    /// What the first comment says, or the file's name.
    fn title(&self) -> String {
        match self.text.lines().find_map(comment_in) {
            Some(title) if !title.is_empty() => title.to_string(),
            _ => self.file.to_string(),
        }
    }

    fn image_length(&self) -> usize {
        split_stream(&self.placed.bytes).0.len()
    }

    /// The file and the line that stands for a byte, as an error begins.
    fn place(&self, offset: usize) -> String {
        match self.placed.line_of(offset) {
            Some(line) => format!("{}, line {line}", self.file),
            None => self.file.to_string(),
        }
    }

    /// The line that stands for a byte.
    fn line_at(&self, offset: usize) -> Option<&str> {
        let line = self.placed.line_of(offset)?;
        self.text.lines().nth(line - 1).map(str::trim)
    }

    /// The words of the line that stands for a byte, to be shown under an error.
    fn quoted(&self, offset: usize) -> String {
        match self.line_at(offset) {
            Some(line) => format!("\n    {line}"),
            None => String::new(),
        }
    }

    /// What is told of an image that breaks a rule.
    fn image_refused(&self, rule: u8, offset: usize) -> Trouble {
        let advice = match rule {
            8 => self.advice_on_chains(offset),
            _ => None,
        };
        Trouble::refused(format!(
            "{}: the image is refused (1), and no event is run: it breaks rule I{rule} at byte {offset}. The rule is that {}.{}{}\n{READ_ON}",
            self.place(offset),
            words::rule(rule),
            self.quoted(offset),
            advice.unwrap_or_default()
        ))
    }

    /// An application without its chain can be asked about once it is no longer said to have one.
    fn advice_on_chains(&self, offset: usize) -> Option<String> {
        let words: Vec<&str> = self.line_at(offset)?.split_whitespace().collect();
        let ["executable", id, domain, ..] = words[..] else {
            return None;
        };
        let id: u16 = id.parse().ok()?;
        let file = match self.file {
            // There is no file to name.
            STANDARD_INPUT => "FILE",
            file => file,
        };
        Some(format!(
            "\nTo see what its chain lacks, write `untrusted` in place of `{domain}` in this line, and ask `./run why {file} {id}`"
        ))
    }

    /// What is told of a timeline that breaks its form. That it does is the program's word; where it
    /// does, the reference's.
    fn timeline_refused(&self) -> Trouble {
        let (image, timeline) = split_stream(&self.placed.bytes);
        let clock = Phone::decode(image).map_or(0, |phone| phone.clock);
        let refused = "the timeline is refused (19), and no event is run";
        let Err(fault) = timeline::in_form(timeline, clock) else {
            return Trouble::refused(format!("{}: {refused}", self.file));
        };
        let offset = image.len() + offset_of(fault);
        Trouble::refused(format!(
            "{}: {refused}: {}{}",
            self.place(offset),
            fault.way.words(),
            self.quoted(offset)
        ))
    }

    /// The line of each event. Of a timeline those that were put in have none.
    fn lines_of(&self, events: &[&[u8]]) -> Vec<Option<usize>> {
        let image = self.image_length();
        if !self.placed.is_timeline {
            let offsets = (0..events.len()).map(|at| image + at * Event::SIZE);
            return offsets.map(|offset| self.placed.line_of(offset)).collect();
        }
        let mut event_at = image + timeline::Header::SIZE + EVENT_IN_RECORD;
        let mut lines = Vec::new();
        for event in events {
            if is_clock(event) {
                lines.push(None);
                continue;
            }
            lines.push(self.placed.line_of(event_at));
            event_at += Record::SIZE;
        }
        lines
    }

    /// The comment of each event: what stands directly above it. A comment above a line `at` belongs to
    /// the first event in that second, which is the clock event where one is put in.
    fn comments_of(&self, lines: &[Option<usize>]) -> Vec<Vec<String>> {
        let text: Vec<&str> = self.text.lines().collect();
        let mut comments = vec![Vec::new(); lines.len()];
        for (nth, line) in lines.iter().enumerate() {
            let before = nth.checked_sub(1);
            // A line of bytes may be several events, and the comment is that of the first.
            let goes_on = before.is_some_and(|before| lines[before] == *line);
            let Some(line) = line.filter(|_| !goes_on) else {
                continue;
            };
            let above = CommentsAbove::of(&text[..line - 1]);
            let clock = before.filter(|before| lines[*before].is_none());
            comments[clock.unwrap_or(nth)].extend(above.of_second);
            comments[nth].extend(above.of_event);
        }
        comments
    }
}

/// The comments directly above an event.
#[derive(Default)]
struct CommentsAbove {
    /// Those above its line `at`.
    of_second: Vec<String>,
    of_event: Vec<String>,
}

impl CommentsAbove {
    /// Those at the end of all lines before the event's own.
    fn of(lines: &[&str]) -> CommentsAbove {
        let mut above = CommentsAbove::default();
        let mut comments = &mut above.of_event;
        for line in lines.iter().rev() {
            match comment_in(line) {
                Some("") => {}
                Some(comment) => comments.insert(0, comment.to_string()),
                None if line.split_whitespace().next() == Some("at") => {
                    comments = &mut above.of_second;
                }
                None => break,
            }
        }
        above
    }
}

/// What a line says that is a comment and nothing else.
fn comment_in(line: &str) -> Option<&str> {
    let comment = line.trim().strip_prefix('#')?;
    Some(comment.trim_start_matches('#').trim())
}

/// Where an author reads on about a refused image.
const READ_ON: &str =
    "lessons/tables.md has every rule, and lessons/wrong-image.md shows how an image is mended";

/// What is told of a line that cannot be read. Where no line begins so, every event is named.
fn cannot_be_read(file: &str, wrong: &Wrong) -> Trouble {
    let mut message = format!("{file}, {wrong}");
    if wrong.message.contains(FIRST_WORDS) {
        if wrong.message.ends_with("application`") {
            message += "; an application is `executable` in a lesson's text";
        }
        let names: Vec<&str> = event_names().collect();
        message += &format!(
            "; the events are {} (lessons/tables.md has an example of each line)",
            names.join(", ")
        );
    }
    Trouble::unreadable(message)
}

/// Whether some line can be part of an image: the phone, or bytes.
fn has_image(text: &str) -> bool {
    let said = text.lines().filter_map(|line| line.split('#').next());
    let mut first_words = said.filter_map(|line| line.split_whitespace().next());
    first_words.any(|word| matches!(word, "phone" | "bytes"))
}

/// Where the event stands in a record of a timeline.
const EVENT_IN_RECORD: usize = Record::SIZE - Event::SIZE;

/// The byte of a timeline that a fault is about.
fn offset_of(fault: timeline::Fault) -> usize {
    let Some(record) = fault.record else {
        return 0;
    };
    let record_at = timeline::Header::SIZE + (record - 1) * Record::SIZE;
    match fault.way {
        Way::ClockEvent => record_at + EVENT_IN_RECORD,
        _ => record_at,
    }
}

/// The one kind that a timeline in form does not have: it was put in.
fn is_clock(event: &[u8]) -> bool {
    event.first() == Some(&CLOCK)
}

/// A lesson that ran: its stream, with the clock events of a timeline put in, and the answers.
struct Run {
    stream: Vec<u8>,
    answers: Vec<Answer>,
    /// The answers as they were printed.
    lines: Vec<String>,
}

impl Run {
    fn of(source: &Source, programs: &Programs) -> Result<Run, Trouble> {
        let bytes = &source.placed.bytes;
        let run = match source.placed.is_timeline {
            false => Run::new(bytes.clone(), ran(source, programs.bench(bytes)?)?),
            true => Run::of_timeline(source, programs)?,
        };
        run.check_kinds()?;
        Ok(run)
    }

    fn new(stream: Vec<u8>, ran: Ran) -> Run {
        Run {
            stream,
            answers: ran.answers,
            lines: ran.lines,
        }
    }

    /// `play` answers. `why` is asked about the stream that the reference makes of the timeline, so
    /// `bench` has to say of that stream what `play` says of the timeline.
    fn of_timeline(source: &Source, programs: &Programs) -> Result<Run, Trouble> {
        let bytes = &source.placed.bytes;
        let played = ran(source, programs.play(bytes)?)?;
        let stream = timeline::as_stream(bytes).map_err(|refused| {
            Trouble::unreadable(format!(
                "play runs this timeline, and the reference does not: {refused}"
            ))
        })?;
        let benched = ran(source, programs.bench(&stream)?)?;
        if played != benched {
            return Err(Trouble::unreadable(
                "play says something else of the timeline than bench of the stream that the reference makes of it",
            ));
        }
        Ok(Run::new(stream, played))
    }

    fn image(&self) -> &[u8] {
        split_stream(&self.stream).0
    }

    fn events(&self) -> Vec<&[u8]> {
        event_records(split_stream(&self.stream).1).collect()
    }

    /// There is an answer for each event, and each has the kind of its event.
    fn check_kinds(&self) -> Result<(), Trouble> {
        let kinds: Vec<u8> = self.events().iter().map(|event| event[0]).collect();
        let told: Vec<u8> = self.answers.iter().map(|answer| answer.kind).collect();
        match kinds == told {
            true => Ok(()),
            false => Err(Trouble::unreadable(format!(
                "the lesson has {} events, and the answers are to others",
                kinds.len()
            ))),
        }
    }

    fn moments(&self, source: &Source, asking: &mut Asking) -> Result<Vec<Moment>, Trouble> {
        let events = self.events();
        let Some(phone) = Phone::decode(self.image()) else {
            return Err(Trouble::unreadable(
                "bench accepts an image that the reference cannot take apart",
            ));
        };
        let trust = Trust::found(&phone, &events, &self.answers, asking)?;
        let reasons = reasons(&events, &self.answers, &trust, asking)?;
        let lines = source.lines_of(&events);
        let mut comments = source.comments_of(&lines).into_iter();
        let mut second = phone.clock;
        let mut moments = Vec::new();
        for (before, (record, reasons)) in events.iter().zip(reasons).enumerate() {
            let answer = self.answers[before];
            let event = Event::decode(record);
            let is_put_in = source.placed.is_timeline && is_clock(record);
            let holder = event.map(|event| trust.domain_before(event.id, before + 1));
            moments.push(Moment {
                number: before + 1,
                line: lines[before],
                comment: comments.next().unwrap_or_default(),
                second,
                event: record.to_vec(),
                words: match event {
                    Some(event) if is_put_in => words::clock_put_in(event.key),
                    _ => words::event(record),
                },
                kind: answer.kind,
                code: answer.code,
                domain: answer.domain,
                links: answer.links,
                answer: words::answer(record, answer, holder),
                reasons,
                image: Vec::new(),
                why: Vec::new(),
            });
            if let Some(event) = event.filter(|event| event.kind == CLOCK && answer.code == 0) {
                second = event.key;
            }
        }
        Ok(moments)
    }
}

/// The answers of a run, or what is told of a lesson that is refused.
fn ran(source: &Source, verdict: Verdict) -> Result<Ran, Trouble> {
    match verdict {
        Verdict::Ran(ran) => Ok(ran),
        Verdict::ImageRefused { rule, offset } => Err(source.image_refused(rule, offset)),
        Verdict::TimelineRefused => Err(source.timeline_refused()),
    }
}

/// What is said below an answer that is a surprise: for each event, in its order.
fn reasons(
    events: &[&[u8]],
    answers: &[Answer],
    trust: &Trust,
    asking: &mut Asking,
) -> Result<Vec<Vec<String>>, Trouble> {
    let surprises: Vec<Vec<Surprise>> = events
        .iter()
        .zip(answers)
        .enumerate()
        .map(|(before, (event, answer))| surprises(before + 1, event, *answer, trust))
        .collect();
    let questions: Vec<Question> = surprises.iter().flatten().map(|s| s.question).collect();
    let mut said = asking.ask(&questions)?.into_iter();
    let mut told = Vec::new();
    for surprises in surprises {
        let mut lines = Vec::new();
        for (surprise, said) in surprises.into_iter().zip(&mut said) {
            lines.extend(surprise.heading);
            lines.extend(said.lines);
        }
        told.push(lines);
    }
    Ok(told)
}

/// Something to ask about, and what is said before the reasons.
struct Surprise {
    heading: Option<String>,
    question: Question,
}

/// What is a surprise about an event: that an application is untrusted, or has become so.
fn surprises(number: usize, record: &[u8], answer: Answer, trust: &Trust) -> Vec<Surprise> {
    let about = |id, heading| Surprise {
        heading,
        question: Question { id, events: number },
    };
    let mut surprises = Vec::new();
    if let Some(event) = Event::decode(record) {
        if meets_untrusted(&event, answer, trust.domain_before(event.id, number)) {
            surprises.push(about(event.id, None));
        }
    }
    for id in trust.lost_at(number) {
        let heading = format!("application {id} is untrusted now");
        surprises.push(about(id, Some(heading)));
    }
    surprises
}

/// Whether the answer to a request or a verify is that of an untrusted application.
fn meets_untrusted(event: &Event, answer: Answer, domain_before: u8) -> bool {
    match (event.kind, answer.code) {
        (REQUEST | VERIFY, 0) => answer.domain == 0,
        (REQUEST, 15 | 16) => domain_before == 0,
        _ => false,
    }
}

/// Puts in the images, and what `why` says of every application wherever the image is another.
fn add_pictures(told: &mut Told, images: Vec<Vec<u8>>, asking: &mut Asking) -> Result<(), Trouble> {
    let mut before = &told.before.image;
    let mut questions = questions_about(before, 0);
    let mut is_changed = Vec::new();
    for (at, image) in images.iter().enumerate() {
        is_changed.push(image != before);
        if image != before {
            questions.extend(questions_about(image, at + 1));
        }
        before = image;
    }
    if questions.len() > MOST_QUESTIONS {
        return Err(Trouble::unreadable(format!(
            "the pictures of this lesson need {} questions, and at most {MOST_QUESTIONS} are asked: take fewer events or applications",
            questions.len()
        )));
    }
    let said = asking.ask(&questions)?;
    let asked: Vec<(Question, Said)> = questions.into_iter().zip(said).collect();
    told.before.why = asked_at(&asked, 0);
    let mut why = told.before.why.clone();
    for ((moment, image), is_changed) in told.moments.iter_mut().zip(images).zip(is_changed) {
        if is_changed {
            why = asked_at(&asked, moment.number);
        }
        moment.image = image;
        moment.why = why.clone();
    }
    Ok(())
}

/// A question for each application of an image.
fn questions_about(image: &[u8], events: usize) -> Vec<Question> {
    let Some(phone) = Phone::decode(image) else {
        return Vec::new();
    };
    let ids = phone
        .occupied_executables()
        .map(|application| application.id);
    ids.map(|id| Question { id, events }).collect()
}

fn asked_at(asked: &[(Question, Said)], events: usize) -> Vec<Asked> {
    let at = asked.iter().filter(|(asked, _)| asked.events == events);
    at.map(|(asked, said)| Asked {
        id: asked.id,
        lines: said.lines.clone(),
    })
    .collect()
}
