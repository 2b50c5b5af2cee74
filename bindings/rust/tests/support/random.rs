//! Random texts, made by the grammars that `tests/random_texts.py` makes its own by.
use super::tables;
use std::collections::HashMap;
use std::fs;

// So many steps a text, and a token, grows for at most.
const TEXT_GROWTH: usize = 240;
const TOKEN_GROWTH: usize = 24;

/// Numbers that look random: a generator of the kind xorshift.
struct Random(u64);

impl Random {
    fn below(&mut self, end: usize) -> usize {
        self.0 ^= self.0 << 13;
        self.0 ^= self.0 >> 7;
        self.0 ^= self.0 << 17;
        (self.0 >> 11) as usize % end
    }

    fn one_in(&mut self, cases: usize) -> bool {
        self.below(cases) == 0
    }
}

#[derive(Clone, Copy)]
enum Times {
    Once,
    AtMostOnce,
    Any,
}

// The name of a rule, or else a text; and how often it comes.
type Symbol<'a> = (&'a str, Times);

// The choices of each rule, which are lists of symbols.
struct Grammar<'a>(HashMap<&'a str, Vec<Vec<Symbol<'a>>>>);

impl<'a> Grammar<'a> {
    fn read(text: &'a str) -> Grammar<'a> {
        let rules = text.lines().filter_map(|line| line.split_once(" : "));
        let choice = |text: &'a str| text.split_ascii_whitespace().flat_map(symbols).collect();
        Grammar(
            rules
                .map(|(name, choices)| (name.trim(), choices.split(" | ").map(choice).collect()))
                .collect(),
        )
    }

    // The pieces of a text of a rule. The first choice of each rule comes to an end when no optional part and no other
    // choice is taken, as is done once the text has grown.
    fn pieces(&self, random: &mut Random, rule: &'a str, growth: usize) -> Vec<&'a str> {
        let mut pieces = Vec::new();
        let mut left = vec![(rule, Times::Once)];
        for step in 0.. {
            let Some((part, times)) = left.pop() else {
                break;
            };
            let grows = step < growth;
            match times {
                Times::Once => match self.0.get(part) {
                    Some(choices) => {
                        let index = if grows {
                            random.below(choices.len())
                        } else {
                            0
                        };
                        left.extend(choices[index].iter().rev());
                    }
                    None => pieces.push(meant(part)),
                },
                Times::AtMostOnce if grows && random.one_in(2) => left.push((part, Times::Once)),
                Times::Any if grows && random.one_in(2) => {
                    left.extend([(part, Times::Any), (part, Times::Once)]);
                }
                Times::AtMostOnce | Times::Any => {}
            }
        }
        pieces
    }
}

// What a word of a choice stands for. A part that comes at least once is that part, and then the part any number of times.
fn symbols(word: &str) -> Vec<Symbol<'_>> {
    let part = word.trim_end_matches(['?', '*', '+']);
    match &word[part.len()..] {
        "?" => vec![(part, Times::AtMostOnce)],
        "*" => vec![(part, Times::Any)],
        "+" => vec![(part, Times::Once), (part, Times::Any)],
        _ => vec![(word, Times::Once)],
    }
}

// What stands between quotes, or a byte order mark.
fn meant(word: &str) -> &str {
    let quoted = word
        .strip_prefix('\'')
        .and_then(|rest| rest.strip_suffix('\''));
    match quoted.unwrap_or(word) {
        "mark" => "\u{FEFF}",
        text => text,
    }
}

/// Has `take` called with so many random texts of each language, and with whether it is that of requests.
pub fn texts(seed: u64, count: usize, mut take: impl FnMut(&str, bool)) {
    let [requests, schemas, tokens] = ["requests", "schemas", "tokens"]
        .map(|name| fs::read_to_string(tables::path("tests/grammars").join(name)).unwrap());
    let tokens = Grammar::read(&tokens);
    let mut random = Random(seed);
    for (phrases, is_request) in [(requests, true), (schemas, false)] {
        let phrases = Grammar::read(&phrases);
        for _ in 0..count {
            take(&text(&phrases, &tokens, &mut random), is_request);
        }
    }
}

fn text(phrases: &Grammar, tokens: &Grammar, random: &mut Random) -> String {
    let growth = random.below(TEXT_GROWTH);
    let is_dense = random.one_in(4);
    let mut text = String::new();
    for kind in phrases.pieces(random, "Document", growth) {
        if !is_dense || random.one_in(8) {
            text += &spelling(tokens, random, "Ignored");
        }
        let token = spelling(tokens, random, kind);
        let runs_on = |c: char| c.is_ascii_alphanumeric() || "_.\"-".contains(c);
        if text.ends_with(runs_on) && token.starts_with(runs_on) {
            text.push(' ');
        }
        text += &token;
    }
    text + &spelling(tokens, random, "Ignored")
}

// A token of a kind, or the token itself where its kind has one spelling. A few marks stand for characters that would not be
// seen.
fn spelling(tokens: &Grammar, random: &mut Random, kind: &str) -> String {
    let Some((kind, _)) = tokens.0.get_key_value(kind) else {
        return kind.to_owned();
    };
    let growth = random.below(TOKEN_GROWTH);
    let text = tokens.pieces(random, kind, growth).concat();
    tables::plain(&text).replace('␀', "\0")
}
