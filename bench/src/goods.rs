//! Made-up goods of a grocer as N-Triples: files of triples about them, and dictionaries of their texts.

use families::Triple;
use std::collections::BTreeSet;
use workload::Random;

/// How many texts the dictionaries have.
pub const TEXTS: [usize; 4] = [0, 10_000, 50_000, 100_000];

/// The zeros behind the entries of a dictionary, more than a file's new texts take.
const ROOM: usize = 1_000_000;

/// The first numbers of IRIs and of literals.
const FIRST_IRI: u32 = 16;
const FIRST_LITERAL: u32 = 0x8000_0001;

/// The lines of a file about each good.
const LINES: usize = 5;

/// The first of the goods that no dictionary has; of those before, each dictionary that is not empty has every tenth up to a number.
const NEW: usize = 1_000_000;
const EVERY: usize = 10;
const KNOWN: usize = 3_000;

const CLASSES: usize = 60;
const BRANDS: usize = 120;

/// The properties of goods that a dictionary has.
const BRAND: &str = "<https://schema.org/brand>";
const RELATED: &str = "<https://schema.org/isRelatedTo>";
const SIMILAR: &str = "<https://schema.org/isSimilarTo>";
const PRICE: &str = "<https://schema.org/price>";
const NAME: &str = "<https://schema.org/name>";
const DESCRIPTION: &str = "<https://schema.org/description>";
const NUMBER: &str = "<https://schema.org/gtin13>";
const MODIFIED: &str = "<https://schema.org/dateModified>";
const PROPERTIES: [&str; 8] = [BRAND, RELATED, SIMILAR, PRICE, NAME, DESCRIPTION, NUMBER, MODIFIED];

/// The property of classes, which has a number in every dictionary, without an entry, and its term.
const TYPE: &str = "<http://www.w3.org/1999/02/22-rdf-syntax-ns#type>";
const TYPE_TERM: u32 = 1;

/// What goods are called.
const NAMES: [&str; 6] = ["Sparkling Lemonade", "Roasted Coffee", "Rye Bread", "Peach Juice", "Mountain Cheese", "Dried Apricots"];

/// What goods are called in other languages, by their tags.
const TRANSLATED: [(&str, &str); 5] = [
    ("de-CH", "Pfirsichsaft mit Fruchtstücken, naturtrüb, süß"),
    ("el", "Χυμός ροδάκινο με ανθρακικό"),
    ("ru", "Сок персиковый с мякотью"),
    ("ja", "炭酸レモネード 三百三十ミリリットル"),
    ("ar", "عصير الليمون الفوار"),
];

/// The IRI of a class.
fn class(i: usize) -> String {
    format!("<https://data.grocer.example/classes/{}-{}>", slug(NAMES[i % NAMES.len()]), i % CLASSES)
}

/// The IRI of a brand.
fn brand(i: usize) -> String {
    format!("<https://data.grocer.example/brands/the-finest-{}>", i % BRANDS)
}

/// The IRI of a good with a name.
fn named(name: &str, i: usize) -> String {
    format!("<https://data.grocer.example/goods/{}-{i:07}>", slug(name))
}

/// The IRI of a good.
fn good(i: usize) -> String {
    named(NAMES[i % NAMES.len()], i)
}

/// The name of a good.
fn name(i: usize) -> String {
    format!("\"{}, {} g, number {i}\"@en", NAMES[i % NAMES.len()], 50 + i % 950)
}

/// The number of a good in trade.
fn number(i: usize) -> String {
    format!("\"4{i:012}\"")
}

/// A name as a part of an IRI.
fn slug(name: &str) -> String {
    name.to_lowercase().replace(' ', "-").replace(',', "")
}

/// A literal with a datatype of XML Schema.
fn typed(lexical: &str, datatype: &str) -> String {
    format!("\"{lexical}\"^^<http://www.w3.org/2001/XMLSchema#{datatype}>")
}

/// A price.
fn price(random: &mut Random) -> String {
    typed(&format!("{}.{:02}", random.below(40), random.below(100)), "decimal")
}

/// A time of a day in a month.
fn time(random: &mut Random) -> String {
    let [day, hour, minute, second] = [28, 24, 60, 60].map(|n| random.below(n));
    typed(&format!("2024-05-{:02}T{hour:02}:{minute:02}:{second:02}Z", day + 1), "dateTime")
}

/// A good that dictionaries have.
fn known(random: &mut Random) -> usize {
    EVERY * random.below(KNOWN as u32) as usize
}

/// What is said of a good: its IRI, and properties with objects.
struct Said {
    subject: String,
    lines: [(&'static str, String); LINES],
}

/// What is said of a good that dictionaries have: they have all of its texts but the price.
fn of_known(random: &mut Random) -> Said {
    let i = known(random);
    let [related, similar] = [0; 2].map(|_| good(known(random)));
    let lines = [(TYPE, class(i)), (BRAND, brand(i)), (RELATED, related), (SIMILAR, similar), (PRICE, price(random))];
    Said { subject: good(i), lines }
}

/// What is said of a new good.
fn of_new(i: usize, random: &mut Random) -> Said {
    let lines = [(TYPE, class(i)), (NAME, name(i)), (NUMBER, number(i)), (PRICE, price(random)), (MODIFIED, time(random))];
    Said { subject: good(i), lines }
}

/// What is said of a new good in other languages.
fn of_translated(i: usize) -> Said {
    let [a, b, c, d, e] = [0, 1, 2, 3, 4].map(|k| TRANSLATED[(i + k) % TRANSLATED.len()]);
    let name = |(tag, name): (&str, &str)| format!("\"{}\"@{tag}", spelled(&format!("{name}, {i}"), i));
    let description = |(_, name): (&str, &str)| format!("\"{}\"", spelled(&format!("\"{name}\"\t\u{1f34b}\nC:\\goods\\{i}"), i));
    let lines = [(TYPE, class(i)), (NAME, name(a)), (NAME, name(b)), (DESCRIPTION, description(c)), (DESCRIPTION, description(d))];
    Said { subject: named(&spelled(e.1, i), i), lines }
}

/// A string as a file spells it: what must be escaped is, and for an odd number all that is not ASCII too.
fn spelled(string: &str, i: usize) -> String {
    let spell = |c: char| match c {
        '"' | '\\' => format!("\\{c}"),
        '\n' => "\\n".to_string(),
        '\t' => "\\t".to_string(),
        c if c.is_ascii() || i % 2 == 0 => c.to_string(),
        c if c as u32 <= 0xFFFF => format!("\\u{:04X}", c as u32),
        c => format!("\\U{:08X}", c as u32),
    };
    string.chars().map(spell).collect()
}

/// A file of N-Triples, and what it is about.
pub struct File {
    pub name: &'static str,
    pub text: String,
}

impl File {
    /// A file of so many lines about one good after another.
    fn new(name: &'static str, n: usize, mut of: impl FnMut(usize) -> Said) -> File {
        let mut text = String::new();
        for i in 0..n / LINES {
            let Said { subject, lines } = of(i);
            text.extend(lines.map(|(property, object)| format!("{subject} {property} {object} .\n")));
        }
        File { name, text }
    }

    /// The first lines of the file.
    pub fn first(&self, lines: usize) -> &str {
        let ends = self.text.match_indices('\n').map(|(at, _)| at + 1);
        &self.text[..ends.take(lines).last().unwrap_or(0)]
    }
}

/// Three files of so many lines: about goods that dictionaries have, about new ones, and about new ones in other languages.
pub fn files(n: usize) -> [File; 3] {
    let mut random = Random::new(29);
    [
        File::new("known goods", n, |_| of_known(&mut random)),
        File::new("new goods", n, |i| of_new(NEW + i, &mut random)),
        File::new("new goods in other languages", n, |i| of_translated(NEW + i)),
    ]
}

/// The texts of a dictionary of n texts.
fn texts(n: usize) -> impl Iterator<Item = String> {
    let step = TEXTS[TEXTS.len() - 1] / n.max(1);
    let shared = PROPERTIES.map(str::to_string).into_iter().chain((0..CLASSES).map(class)).chain((0..BRANDS).map(brand));
    let goods = (0..).step_by(step).flat_map(|i| [good(i), name(i), number(i)]);
    shared.chain(goods).take(n)
}

/// A dictionary of n texts, with zeros behind them.
pub fn dictionary(n: usize) -> Vec<u8> {
    let [mut iri, mut literal] = [FIRST_IRI, FIRST_LITERAL];
    let mut bytes = Vec::new();
    for text in texts(n) {
        let next = if text.starts_with('<') { &mut iri } else { &mut literal };
        bytes.extend(next.to_le_bytes());
        bytes.extend((text.len() as u64).to_le_bytes());
        bytes.extend(text.as_bytes());
        *next += 1;
    }
    bytes.extend(vec![0; ROOM]);
    bytes
}

/// So many facts about all goods of a dictionary of n texts, ascending: in turn a good's name, its number, a class, its brand and a related good.
pub fn facts(rows: usize, n: usize) -> Vec<Triple> {
    let mut random = Random::new(31);
    let goods = (n - PROPERTIES.len() - CLASSES - BRANDS) / 3;
    let [class, brand, good] = [0, CLASSES, CLASSES + BRANDS].map(|i| FIRST_IRI + (PROPERTIES.len() + i) as u32);
    let [branded, related, named, numbered] = [BRAND, RELATED, NAME, NUMBER].map(property);
    let mut set = BTreeSet::new();
    for turn in 0.. {
        if set.len() == rows {
            break;
        }
        let i = (turn % goods) as u32;
        set.insert(match turn / goods % 5 {
            0 => [good + i, named, FIRST_LITERAL + 2 * i],
            1 => [good + i, numbered, FIRST_LITERAL + 2 * i + 1],
            2 => [good + i, TYPE_TERM, class + random.below(CLASSES as u32)],
            3 => [good + i, branded, brand + random.below(BRANDS as u32)],
            _ => [good + i, related, good + random.below(goods as u32)],
        });
    }
    set.into_iter().collect()
}

/// The term of a property of goods, the first texts of a dictionary.
fn property(text: &str) -> u32 {
    FIRST_IRI + PROPERTIES.iter().position(|&property| property == text).expect("a property") as u32
}
