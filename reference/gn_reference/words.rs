//! Words of lines, right and wrong ones.

use crate::random::Random;

/// A field, values that it takes, and values that it does not take.
pub struct Field {
    pub name: &'static str,
    pub legal: &'static [&'static str],
    pub illegal: &'static [&'static str],
}

pub const fn field(name: &'static str, values: [&'static [&'static str]; 2]) -> Field {
    Field {
        name,
        legal: values[0],
        illegal: values[1],
    }
}

/// The fields of a program, and words that it does not understand.
pub struct Vocabulary {
    pub fields: &'static [Field],
    pub wrong_words: &'static [&'static str],
}

impl Vocabulary {
    fn field(&self, random: &mut Random) -> &Field {
        &self.fields[random.below(self.fields.len())]
    }

    pub fn legal_word(&self, random: &mut Random) -> String {
        let field = self.field(random);
        format!("{}={}", field.name, random.pick(field.legal))
    }

    pub fn illegal_word(&self, random: &mut Random) -> String {
        if random.once_in(4) {
            return random.pick(self.wrong_words).to_string();
        }
        let field = self.field(random);
        format!("{}={}", field.name, random.pick(field.illegal))
    }

    /// A field with one character of its word changed, added or removed.
    pub fn changed_word(&self, random: &mut Random) -> String {
        let mut word: Vec<char> = self.legal_word(random).chars().collect();
        let place = random.below(word.len());
        let character = random.pick(&[
            '0', '1', '5', '9', 'a', 'F', 'g', '-', '+', '=', ',', '.', '#', '\u{e9}',
        ]);
        match random.below(3) {
            0 => word[place] = character,
            1 => word.insert(place, character),
            _ => drop(word.remove(place)),
        }
        word.into_iter().collect()
    }
}

pub fn shuffled(random: &mut Random, mut words: Vec<String>) -> Vec<String> {
    for last in (1..words.len()).rev() {
        words.swap(last, random.below(last + 1));
    }
    words
}

/// Puts a word at a random place among the others.
pub fn insert(random: &mut Random, words: &mut Vec<String>, word: fn(&mut Random) -> String) {
    let place = random.below(words.len() + 1);
    words.insert(place, word(random));
}
