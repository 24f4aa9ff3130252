//! How much room a text takes. A picture is laid out before any font is known, so a wide one is reckoned with.

/// About how wide a text is, in units of the picture.
pub fn width(text: &str, size: f32) -> i32 {
    let ems: f32 = text.chars().map(ems_of).sum();
    (ems * size).ceil() as i32
}

fn ems_of(letter: char) -> f32 {
    match letter {
        'i' | 'j' | 'l' | '\'' | '.' | ',' | ':' => 0.30,
        ' ' | 'f' | 't' | 'r' => 0.38,
        'm' | 'w' => 0.88,
        'A'..='Z' => 0.72,
        _ => 0.61,
    }
}

/// The text in lines that fit; a word that is longer than the room stands alone.
pub fn wrap(text: &str, size: f32, room: i32) -> Vec<String> {
    let mut lines: Vec<String> = Vec::new();
    for word in text.split(' ') {
        match lines.last_mut() {
            Some(line) if width(&format!("{line} {word}"), size) <= room => {
                line.push(' ');
                line.push_str(word);
            }
            _ => lines.push(word.to_string()),
        }
    }
    lines
}
