//! The images of a lesson, each held to the proved library before it is shown.
//!
//! The proved programs print answers and no images. So the images come from the reference, and for
//! each start of the events a case is stored with the answers and the image behind it: the program
//! `vectors` runs all of them through the library. Unless it finds no difference, nothing is shown.

use std::path::{Path, PathBuf};
use std::sync::atomic::{AtomicUsize, Ordering};

use reference::bench::{run_and_watch, split_stream, FIRST_LINE};
use reference::events::Event;

use crate::programs::Programs;
use crate::trouble::Trouble;

/// The most events of a lesson with pictures: each start of them is a case of its own.
pub const MOST_EVENTS: usize = 500;

/// The image after each event, held to the library. `lines` are what `bench` printed of the events.
pub fn images(
    programs: &Programs,
    stream: &[u8],
    lines: &[String],
) -> Result<Vec<Vec<u8>>, Trouble> {
    if lines.len() > MOST_EVENTS {
        return Err(Trouble::unreadable(format!(
            "the lesson has {} events, and pictures are made of at most {MOST_EVENTS}",
            lines.len()
        )));
    }
    let mut images = Vec::new();
    run_and_watch(stream, |_, _, _, after| images.push(after.encode()));
    let folder = Folder::new()?;
    let cases = write_cases(folder.path(), stream, lines, &images)?;
    programs.vectors(folder.path(), cases).map_err(|trouble| {
        Trouble::unreadable(format!(
            "no picture is shown, since the images are not those of the proved library: {trouble}"
        ))
    })?;
    Ok(images)
}

/// A case for each start of the events, the empty one too; gives their number.
fn write_cases(
    folder: &Path,
    stream: &[u8],
    lines: &[String],
    images: &[Vec<u8>],
) -> Result<usize, Trouble> {
    let (first, _) = split_stream(stream);
    let mut names = String::new();
    let mut printed = FIRST_LINE.to_string();
    let befores = std::iter::once(first).chain(images.iter().map(Vec::as_slice));
    for (events, image) in befores.enumerate() {
        if let Some(line) = events.checked_sub(1).and_then(|last| lines.get(last)) {
            printed.push_str(line);
            printed.push('\n');
        }
        let name = format!("after-{events}");
        let end = (first.len() + events * Event::SIZE).min(stream.len());
        write(&folder.join(format!("{name}.in")), &stream[..end])?;
        write(&folder.join(format!("{name}.out")), printed.as_bytes())?;
        write(&folder.join(format!("{name}.fin")), image)?;
        names.push_str(&name);
        names.push('\n');
    }
    write(&folder.join("cases"), names.as_bytes())?;
    Ok(images.len() + 1)
}

fn write(path: &Path, bytes: &[u8]) -> Result<(), Trouble> {
    std::fs::write(path, bytes)
        .map_err(|error| Trouble::unreadable(format!("cannot write {}: {error}", path.display())))
}

/// A folder for a while: it goes when nobody holds it any more.
struct Folder {
    path: PathBuf,
}

impl Folder {
    fn new() -> Result<Folder, Trouble> {
        static MADE: AtomicUsize = AtomicUsize::new(0);
        let number = MADE.fetch_add(1, Ordering::Relaxed);
        let name = format!("egshurmal-pages-{}-{number}", std::process::id());
        let path = std::env::temp_dir().join(name);
        std::fs::create_dir(&path).map_err(|error| {
            Trouble::unreadable(format!(
                "cannot make the folder {}: {error}",
                path.display()
            ))
        })?;
        Ok(Folder { path })
    }

    fn path(&self) -> &Path {
        &self.path
    }
}

impl Drop for Folder {
    fn drop(&mut self) {
        // What stays behind in a folder for temporary files is no reason to fail.
        let _ = std::fs::remove_dir_all(&self.path);
    }
}
