//! The text of a lesson's file: UTF-8 that names its line where it is none.

use crate::trouble::Trouble;

/// What the file is called that `-` stands for.
pub const STANDARD_INPUT: &str = "standard input";

/// The mark that some editors put before UTF-8.
const BYTE_ORDER_MARK: &[u8] = b"\xef\xbb\xbf";

/// The text that the bytes of a file are. A zero byte stands in no text and in every image.
pub fn text_of(file: &str, bytes: &[u8]) -> Result<String, Trouble> {
    if bytes.contains(&0) {
        return Err(Trouble::unreadable(format!(
            "{file} is bytes, and a lesson is text: `reference text` makes words of an image and events, and `reference text --timeline` of an image and a timeline (lessons/README.md)"
        )));
    }
    let bytes = bytes.strip_prefix(BYTE_ORDER_MARK).unwrap_or(bytes);
    match std::str::from_utf8(bytes) {
        Ok(text) => Ok(text.to_string()),
        Err(error) => {
            let (good, bad) = bytes.split_at(error.valid_up_to());
            let line = 1 + good.iter().filter(|&&byte| byte == b'\n').count();
            Err(Trouble::unreadable(format!(
                "{file}, line {line}: the byte {:02x} is no UTF-8: save the text as UTF-8",
                bad[0]
            )))
        }
    }
}

#[cfg(test)]
mod tests {
    use super::*;

    fn message(bytes: &[u8]) -> String {
        let trouble = text_of("x.txt", bytes).expect_err("no text");
        assert_eq!(trouble.status, 2);
        trouble.message
    }

    #[test]
    fn a_byte_order_mark_is_passed_over() {
        assert_eq!(
            text_of("x.txt", b"\xef\xbb\xbf# Title\n"),
            Ok("# Title\n".to_string())
        );
        assert_eq!(text_of("x.txt", b""), Ok(String::new()));
    }

    #[test]
    fn what_is_no_utf_8_is_told_by_its_line() {
        let told = "x.txt, line 3: the byte e9 is no UTF-8: save the text as UTF-8";
        assert_eq!(message(b"# a\n\n# caf\xe9\n"), told);
        assert_eq!(message(b"\xef\xbb\xbf# a\n\n\xe9"), told);
        assert!(message(b"\xff").starts_with("x.txt, line 1: the byte ff "));
        assert!(message(b"# a\n\xe2\x82").starts_with("x.txt, line 2: the byte e2 "));
    }

    #[test]
    fn bytes_have_a_zero() {
        assert!(message(b"\x00\x01").starts_with("x.txt is bytes, and a lesson is text"));
        assert!(message(b"\xe9\n\x00").starts_with("x.txt is bytes, and a lesson is text"));
    }
}
