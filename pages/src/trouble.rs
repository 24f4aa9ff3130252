//! Why there is nothing to show.

/// A message for the person at the terminal, and the exit status that goes with it.
#[derive(Clone, Debug, PartialEq, Eq)]
pub struct Trouble {
    pub message: String,
    pub status: u8,
}

impl Trouble {
    /// The lesson is refused: by a rule of images, or by the form of timelines.
    pub fn refused(message: impl Into<String>) -> Trouble {
        Trouble {
            message: message.into(),
            status: 1,
        }
    }

    /// Bad usage, something that cannot be read, or a program that does not do what it should.
    pub fn unreadable(message: impl Into<String>) -> Trouble {
        Trouble {
            message: message.into(),
            status: 2,
        }
    }
}

impl std::fmt::Display for Trouble {
    fn fmt(&self, out: &mut std::fmt::Formatter) -> std::fmt::Result {
        out.write_str(&self.message)
    }
}

impl std::error::Error for Trouble {}
