//! What is wrong with a text.

/// What is wrong with a line, whose number counts from 1 on.
#[derive(Clone, PartialEq, Eq, Debug)]
pub struct Fault {
    pub line: usize,
    pub sentence: String,
}

/// All that is wrong with one line, a sentence each.
#[derive(Default)]
pub struct Wrong(pub Vec<String>);

impl Wrong {
    /// Adds a sentence.
    pub fn say(&mut self, sentence: String) {
        self.0.push(sentence);
    }

    /// The value, or nothing if something is wrong, which is kept.
    pub fn keep<T>(&mut self, read: Result<T, String>) -> Option<T> {
        read.map_err(|sentence| self.say(sentence)).ok()
    }
}
