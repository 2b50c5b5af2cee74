//! Trees as texts.
//!
//! A tree is written as its tokens, each with a blank after it, and none that may be left out. The library lays them out. An
//! invalid name is written as a character that begins no token, and so is a name that means something else there:
//! whatever text the library accepts has the tree, except for places.
mod request;
mod schema;
mod values;

use crate::pos::Positioned;
use crate::types::{ExecutableDocument, ServiceDocument};

/// The tokens of a request.
pub(crate) fn request(document: &ExecutableDocument) -> String {
    whole(document)
}

/// The tokens of a schema file.
pub(crate) fn schema_file(document: &ServiceDocument) -> String {
    whole(document)
}

fn whole(document: &impl Print) -> String {
    let mut out = Tokens(String::new());
    out.part(document);
    out.0
}

// Written for an invalid name: it begins no token.
const NO_TOKEN: &str = "?";

// Tokens, each with a blank after it.
struct Tokens(String);

// What is written as some tokens.
trait Print {
    fn print(&self, out: &mut Tokens);
}

impl Tokens {
    // A keyword, a punctuator, or another token that is spelled so.
    fn token(&mut self, spelling: &str) -> &mut Tokens {
        self.0.push_str(spelling);
        self.0.push(' ');
        self
    }

    fn word_if(&mut self, is_there: bool, word: &str) -> &mut Tokens {
        if is_there {
            self.token(word);
        }
        self
    }

    fn part<T: Print + ?Sized>(&mut self, part: &T) -> &mut Tokens {
        part.print(self);
        self
    }

    // A token and the part after it; nothing if there is no part.
    fn led<T: Print>(&mut self, lead: &str, part: &Option<T>) -> &mut Tokens {
        match part {
            Some(part) => self.token(lead).part(part),
            None => self,
        }
    }

    // Parts between two tokens; nothing for none.
    fn between<T: Print>(&mut self, opening: &str, parts: &[T], closing: &str) -> &mut Tokens {
        match parts {
            [] => self,
            _ => self.token(opening).part(parts).token(closing),
        }
    }

    // Parts after a token, with another one between each two; nothing for none.
    fn separated<T: Print>(&mut self, lead: &str, between: &str, parts: &[T]) -> &mut Tokens {
        let mut before = lead;
        for part in parts {
            self.token(before).part(part);
            before = between;
        }
        self
    }
}

impl<T: Print> Print for Positioned<T> {
    fn print(&self, out: &mut Tokens) {
        self.node.print(out);
    }
}

impl<T: Print> Print for Option<T> {
    fn print(&self, out: &mut Tokens) {
        if let Some(part) = self {
            part.print(out);
        }
    }
}

impl<T: Print> Print for [T] {
    fn print(&self, out: &mut Tokens) {
        for part in self {
            part.print(out);
        }
    }
}

impl<T: Print> Print for &T {
    fn print(&self, out: &mut Tokens) {
        (*self).print(out);
    }
}
