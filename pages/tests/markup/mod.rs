//! A made page taken apart, as far as the tests look at it.

/// The sections of the events, whole.
pub fn sections(page: &str) -> Vec<&str> {
    let parts = page.split("<section ").skip(1);
    parts
        .map(|part| part.split("</section>").next().unwrap_or(""))
        .collect()
}

pub fn ids(page: &str) -> Vec<String> {
    let parts = page.split(" id=\"").skip(1);
    parts
        .map(|part| part.split('"').next().unwrap_or("").to_string())
        .collect()
}

fn unescaped(text: &str) -> String {
    text.replace("&lt;", "<")
        .replace("&gt;", ">")
        .replace("&quot;", "\"")
        .replace("&#39;", "'")
        .replace("&amp;", "&")
}

/// The texts between the tags, without blanks around them and without empty ones.
pub fn texts(markup: &str) -> Vec<String> {
    let parts = markup.split('<').skip(1);
    parts
        .filter_map(|part| part.split_once('>'))
        .map(|(_, text)| unescaped(text.trim()))
        .filter(|text| !text.is_empty())
        .collect()
}

/// The box of one record.
#[derive(Debug)]
pub struct Group {
    pub title: String,
    /// What `why` says of it.
    pub said: String,
    /// What the page reads off it.
    pub faults: Vec<String>,
    pub classes: Vec<String>,
    pub x: i32,
}

impl Group {
    pub fn has_class(&self, class: &str) -> bool {
        self.classes.iter().any(|own| own == class)
    }
}

fn attribute<'a>(tag: &'a str, name: &str) -> &'a str {
    let start = format!("{name}=\"");
    let value = tag.split(start.as_str()).nth(1).unwrap_or("");
    value.split('"').next().unwrap_or("")
}

fn texts_of_class(group: &str, class: &str) -> Vec<String> {
    let start = format!("<text class=\"{class}\"");
    let parts = group.split(start.as_str()).skip(1);
    let texts = parts.filter_map(|part| part.split_once('>'));
    let texts = texts.map(|(_, text)| unescaped(text.split('<').next().unwrap_or("")));
    texts.collect()
}

fn parts_of_groups(section: &str) -> impl Iterator<Item = &str> {
    let parts = section.split("<g ").skip(1);
    parts.map(|part| part.split("</g>").next().unwrap_or(""))
}

fn corner(group: &str) -> (i32, i32) {
    let corner = attribute(group, "transform");
    let corner = corner
        .trim_start_matches("translate(")
        .trim_end_matches(')');
    let (x, y) = corner.split_once(' ').expect("a corner");
    (x.parse().expect("a number"), y.parse().expect("a number"))
}

pub fn groups(section: &str) -> Vec<Group> {
    parts_of_groups(section)
        .map(|group| Group {
            title: texts_of_class(group, "title").join(" "),
            said: texts_of_class(group, "said").join(" "),
            faults: texts_of_class(group, "fault"),
            classes: attribute(group, "class")
                .split(' ')
                .map(str::to_string)
                .collect(),
            x: corner(group).0,
        })
        .collect()
}

#[derive(Debug)]
pub struct Rectangle {
    pub x: i32,
    pub y: i32,
    width: i32,
    height: i32,
}

impl Rectangle {
    pub fn right(&self) -> i32 {
        self.x + self.width
    }

    pub fn bottom(&self) -> i32 {
        self.y + self.height
    }

    pub fn meets(&self, other: &Rectangle) -> bool {
        self.x < other.right()
            && other.x < self.right()
            && self.y < other.bottom()
            && other.y < self.bottom()
    }
}

/// The width and the height of the picture, and the boxes in it.
pub fn boxes(section: &str) -> (i32, i32, Vec<Rectangle>) {
    let number = |text: &str| text.parse::<i32>().expect("a number");
    let picture = section
        .split("<svg class=\"phone\"")
        .nth(1)
        .expect("a picture");
    let sizes: Vec<i32> = attribute(picture, "viewBox")
        .split(' ')
        .map(number)
        .collect();
    let boxes = parts_of_groups(section).map(|group| {
        let (x, y) = corner(group);
        let rectangle = group.split("<rect class=\"box\"").nth(1).expect("a box");
        Rectangle {
            x,
            y,
            width: number(attribute(rectangle, "width")),
            height: number(attribute(rectangle, "height")),
        }
    });
    (sizes[2], sizes[3], boxes.collect())
}

/// Elements that have no end.
const WITHOUT_END: [&str; 2] = ["meta", "!doctype"];

/// Whether every element that begins ends, in order.
pub fn balanced(page: &str) -> Result<(), String> {
    let mut open: Vec<&str> = Vec::new();
    let mut rest = page;
    while let Some((_, after)) = rest.split_once('<') {
        let (tag, behind) = after.split_once('>').ok_or("a tag without an end")?;
        rest = behind;
        let name = tag.split([' ', '/']).find(|name| !name.is_empty());
        let name = name.unwrap_or("");
        if tag.starts_with('/') {
            let last = open.pop();
            if last != Some(name) {
                return Err(format!("</{name}> after <{}>", last.unwrap_or("nothing")));
            }
        } else if !tag.ends_with('/') && !WITHOUT_END.contains(&name) {
            open.push(name);
        }
        // What stands in these is no markup.
        if name == "style" || name == "script" {
            let end = format!("</{name}>");
            let skipped = rest.find(&end).map_or(0, |at| at);
            rest = &rest[skipped..];
        }
    }
    match open.last() {
        None => Ok(()),
        Some(name) => Err(format!("<{name}> does not end")),
    }
}
