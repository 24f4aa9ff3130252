//! The worked run of 01, "One run of `bench`, whole": from its words to its fourteen lines.

use reference::bench;
use reference::text::{to_bytes, to_text};

use crate::common::WORKED_RUN;

const PRINTED: &str = "\
event kind code domain links
1 15 0 1 2
2 1 0 0 0
3 15 0 1 2
4 1 0 0 0
5 15 15 0 0
6 15 16 0 0
7 13 0 0 0
8 15 0 0 0
9 2 0 0 0
10 3 0 0 0
11 12 0 0 0
12 7 4 0 0
13 7 0 0 0
14 1 5 0 0
";

/// The same stream byte by byte: header, certificates, cards, executables, table, events.
const BYTES: &str = "
00 01 00 04 00 02 00 02 00 02 00 01 00 00 00 00
00 00 00 64 00 00 00 28 00 00 00 88 00 00 00 98 00 00 00 b0 00 00 00 b8
00 0a 00 00 00 01 01 01 00 00 03 e8 00 00 00 00 00 00 01 f4 00 00 03 e8
00 0b 00 00 01 01 01 01 00 00 03 e9 00 00 03 e8 00 00 01 f4 00 00 00 c8
00 14 00 02 00 01 01 01 00 00 07 d0 00 00 00 00 00 00 02 58 00 00 03 e8
00 00 00 00 00 00 00 00 00 00 00 00 00 00 00 00 00 00 00 00 00 00 00 00
00 01 00 00 00 00 01 f4
00 02 00 00 00 00 02 58
00 01 01 00 00 00 03 e9 00 00 00 00
00 00 00 00 00 00 00 00 00 00 00 00
01 02 02 01
00 02 02 00
0f 00 00 01 00 01 00 00 00 00 00 00 00 00 00 00 00 00 00 00 00 00 00 00
01 00 00 00 00 00 00 00 00 00 00 c8 00 00 00 00 00 00 00 00 00 00 00 00
0f 00 00 01 00 01 00 00 00 00 00 00 00 00 00 00 00 00 00 00 00 00 00 00
01 00 00 00 00 00 00 00 00 00 00 c9 00 00 00 00 00 00 00 00 00 00 00 00
0f 00 00 01 00 01 00 00 00 00 00 00 00 00 00 00 00 00 00 00 00 00 00 00
0f 00 00 01 00 00 00 00 00 00 00 00 00 00 00 00 00 00 00 00 00 00 00 00
0d 01 00 01 00 00 00 00 00 00 00 00 00 00 00 00 00 00 00 00 00 00 00 00
0f 00 00 01 00 00 00 00 00 00 00 00 00 00 00 00 00 00 00 00 00 00 00 00
02 00 00 00 00 02 00 00 00 00 00 00 00 00 00 00 00 00 00 00 00 00 00 00
03 00 00 00 00 00 00 00 00 00 00 00 00 00 00 00 00 00 00 00 00 00 00 00
0c 00 00 01 00 00 00 00 00 00 00 00 00 00 00 00 00 00 00 00 00 00 00 00
07 01 00 0a 00 00 00 00 00 00 00 00 00 00 00 00 00 00 00 00 00 00 00 00
07 02 00 0a 00 00 00 00 00 00 00 00 00 00 00 00 00 00 01 f4 00 00 00 00
01 00 00 00 00 00 00 00 00 00 00 96 00 00 00 00 00 00 00 00 00 00 00 00
";

fn stream_of_bytes() -> Vec<u8> {
    BYTES
        .split_whitespace()
        .map(|pair| u8::from_str_radix(pair, 16).expect("hex"))
        .collect()
}

#[test]
fn its_words_print_its_lines() {
    let stream = to_bytes(WORKED_RUN).expect("text");
    assert_eq!(bench::run(&stream).text, PRINTED);
}

#[test]
fn its_words_are_its_bytes() {
    assert_eq!(to_bytes(WORKED_RUN).expect("text"), stream_of_bytes());
    assert_eq!(to_text(&stream_of_bytes()), WORKED_RUN);
}

#[test]
fn a_stream_less_one_byte_has_a_short_last_event() {
    let mut stream = stream_of_bytes();
    stream.pop();
    let text = bench::run(&stream).text;
    assert!(text.ends_with("13 7 0 0 0\n14 1 2 0 0\n"));
}

#[test]
fn a_stream_that_ends_inside_the_image_is_refused() {
    let stream = stream_of_bytes();
    for end in 0..184 {
        let run = bench::run(&stream[..end]);
        let offset = if end < 40 { end } else { 36 };
        let refused = format!("event kind code domain links\nimage 1 1 {offset}\n");
        assert_eq!(run.text, refused);
        assert!(run.image.is_err());
    }
    assert_eq!(
        bench::run(&stream[..184]).text,
        "event kind code domain links\n"
    );
}
