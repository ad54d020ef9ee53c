//! Named texts of 65,535 bytes that cost a translation most: deep and wide
//! ones, very many names, types, constants, alternatives and parts.

use super::tokens::{LONGEST_NAME, LONGEST_TEXT};

pub type Make = fn() -> String;

/// The texts, before blanks fill them up.
const TEXTS: [(&str, Make); 27] = [
    ("pairs-inside", || nested("(", "hi", ",hi)")),
    ("pairs-after", || nested("(hi,", "lo", ")")),
    ("pairs-balanced", || format!("{BIT}{}", balanced(12))),
    ("lets-inside", || nested("(LET x=", "hi", " IN x)")),
    ("lets-one-name", || nested("(LET x=x IN ", "x", ")").replacen("=x", "=hi", 1)),
    ("lets-outermost-name", || lets(|_| 0)),
    ("lets-nearest-name", || lets(|before| before - 1)),
    ("feedbacks", || nested("(LET INIT?bit REC y=", "input", " IN y)")),
    ("ifs", || nested("(IF input MATCHES hi THEN ", "hi", " ELSE lo)")),
    ("delays", || nested("(DELAY(hi,", "?bit", "))")),
    ("constructors", || constructors(12_000, 4, |_| 0)),
    ("constructors-first-used", || constructors(6_000, 4, |_| 0)),
    ("constructors-last-used", || constructors(6_000, 4, |count| count - 1)),
    ("constructors-of-16-letters", || constructors(1_900, LONGEST_NAME, |count| count - 1)),
    ("flat-types", || types(false)),
    ("pair-types", || types(true)),
    ("constant-pairs-first-type", || constant_pairs(false)),
    ("constant-pairs-last-type", || constant_pairs(true)),
    ("constants-in-constants", constants_in_constants),
    ("alternatives", || inside("(IF input MATCHES hi", "|lo", " THEN hi ELSE lo)")),
    ("parts", || inside("input", "[2]", "")),
    ("undefined-64-leaves", undefined),
    ("constructors-of-one-hash", || {
        format!("TYPE type={} IN INPUT type input", one_hash(6, 9_300).join("|"))
    }),
    ("one-hash-first-used", || first_used(&one_hash(6, 5_500))),
    ("one-path-deepest-used", || last_used(&one_path())),
    ("lets-ended", || ended(&[], "x")),
    ("lets-ended-on-one-path", || {
        one_path().split_last().map_or(String::new(), |(last, others)| ended(others, last))
    }),
];

const BIT: &str = "TYPE bit=hi|lo IN INPUT bit ";

/// All of them, and T with blanks after it, each of 65,535 bytes.
pub fn all() -> impl Iterator<Item = (&'static str, Vec<u8>)> {
    let t =
        "(LET INIT?bit REC q=(DELAY(lo,(IF input MATCHES hi THEN(IF q MATCHES lo THEN hi ELSE lo)\
             ELSE q)))IN q)";
    let texts = TEXTS.iter().map(|(name, make)| (*name, make()));
    texts.chain([("T-and-blanks", format!("{BIT}{t}"))]).map(|(name, text)| (name, filled(text)))
}

fn filled(text: String) -> Vec<u8> {
    let mut text = text.into_bytes();
    assert!(text.len() <= LONGEST_TEXT, "{} bytes", text.len());
    text.resize(LONGEST_TEXT, b' ');
    text
}

/// An expression in as many of its kind as there is room for.
fn nested(open: &str, inside: &str, close: &str) -> String {
    let depth = (LONGEST_TEXT - BIT.len() - inside.len()) / (open.len() + close.len());
    format!("{BIT}{}{inside}{}", open.repeat(depth), close.repeat(depth))
}

/// An expression with a piece as often as there is room for.
fn inside(begun: &str, again: &str, ended: &str) -> String {
    let times = (LONGEST_TEXT - BIT.len() - begun.len() - ended.len()) / again.len();
    format!("{BIT}{begun}{}{ended}", again.repeat(times))
}

fn balanced(depth: usize) -> String {
    match depth {
        0 => "input".to_string(),
        _ => format!("({},{})", balanced(depth - 1), balanced(depth - 1)),
    }
}

/// A name of so many letters, which begins as the others do.
fn name(number: usize, letters: usize) -> String {
    let mut rest = number;
    let mut name = vec![b'a'; letters];
    for letter in name.iter_mut().rev() {
        *letter = b'a' + (rest % 26) as u8;
        rest /= 26;
    }
    String::from_utf8_lossy(&name).into_owned()
}

/// LETs in each other, each with its own name and defined as one of those
/// before it.
fn lets(used: fn(usize) -> usize) -> String {
    let count = (LONGEST_TEXT - BIT.len() - 60) / 19;
    let mut text = format!("{BIT}(LET aaaa=hi IN ");
    for before in 1..count {
        text += &format!("(LET {}={} IN ", name(before, 4), name(used(before), 4));
    }
    format!("{text}{}{}", name(used(count), 4), ")".repeat(count))
}

/// So many constructors of one type, and one of them as often as there is
/// room for.
fn constructors(count: usize, letters: usize, used: fn(usize) -> usize) -> String {
    let names: Vec<String> = (0..count).map(|number| name(number, letters)).collect();
    let begun = format!("TYPE type={} IN INPUT type ", names.join("|"));
    let used = &names[used(count)];
    let pairs = (LONGEST_TEXT - begun.len() - letters) / (letters + 3);
    format!("{begun}{}{used}{}", format!("({used},").repeat(pairs), ")".repeat(pairs))
}

/// The hash by which a table of names may begin a search.
fn hash(letters: &str) -> usize {
    letters.bytes().fold(0, |hash, letter| (hash * 31 + usize::from(letter)) % 4_096)
}

/// Names of hash 0 that begin so, with three letters more.
fn of_hash_0(begun: impl Iterator<Item = String>) -> impl Iterator<Item = String> {
    let mut by_hash = vec![Vec::new(); 4_096];
    for number in 0..26 * 26 * 26 {
        let letters = name(number, 3);
        by_hash[hash(&letters)].push(letters);
    }
    begun.flat_map(move |begun| {
        let rest = hash(&begun) * 31 * 31 * 31 % 4_096;
        let letters = by_hash[(4_096 - rest) % 4_096].clone();
        letters.into_iter().map(move |letters| begun.clone() + &letters)
    })
}

/// So many names of one hash, all of so many letters.
fn one_hash(letters: usize, count: usize) -> Vec<String> {
    of_hash_0((0..).map(|number| name(number, letters - 3))).take(count).collect()
}

/// Names of one hash and of the most letters, the first twelve of them equal: a
/// tree over the bits of the letters has most of them on the way to the last.
fn one_path() -> Vec<String> {
    let begun = "a".repeat(LONGEST_NAME - 4);
    let family = of_hash_0((0..26).map(|number| begun.clone() + &name(number, 1)));
    let family: Vec<String> = family.collect();
    let bits = |name: &str| -> Vec<bool> {
        let letters = name.bytes().skip(LONGEST_NAME - 4);
        letters.flat_map(|letter| (0..5).map(move |bit| letter >> bit & 1 == 1)).collect()
    };
    let shared = |one: &str, other: &str| {
        bits(one).iter().zip(bits(other)).take_while(|(one, other)| **one == *other).count()
    };
    let used = family[0].clone();
    let mut names = family;
    names.sort_by_key(|name| shared(name, &used));
    names
}

fn first_used(names: &[String]) -> String {
    matched(names, &names[0])
}

fn last_used(names: &[String]) -> String {
    matched(names, &names[names.len() - 1])
}

/// One type of these constructors, in this order, and a pattern that names one
/// of them as often as there is room for.
fn matched(declared: &[String], used: &str) -> String {
    let begun = format!("TYPE type={} IN INPUT type (IF input MATCHES ", declared.join("|"));
    let ended = " THEN input ELSE input)";
    let times = (LONGEST_TEXT - begun.len() - ended.len() + 1) / (used.len() + 1);
    format!("{begun}{}{ended}", vec![used; times].join("|"))
}

/// LETs of one name beside each other, under other names that are declared.
fn ended(names: &[String], bound: &str) -> String {
    let names: String = names.iter().map(|name| format!("|{name}")).collect();
    let begun = format!("TYPE bit=hi|lo{names} IN INPUT bit ");
    let open = format!("((LET {bound}=hi IN {bound}),");
    let times = (LONGEST_TEXT - begun.len() - 2) / (open.len() + 1);
    format!("{begun}{}hi{}", open.repeat(times), ")".repeat(times))
}

/// As many types as there is room for: flat ones of one constructor, or pairs
/// of the one before and the first.
fn types(pairs: bool) -> String {
    let mut text = "TYPE aaaa=x IN ".to_string();
    let mut number = 1;
    while text.len() + 60 < LONGEST_TEXT {
        let (own, before) = (name(number, 4), name(number - 1, 4));
        text += &match pairs {
            true => format!("TYPE {own}=({before},aaaa)IN "),
            false => format!("TYPE {own}=x{own} IN "),
        };
        number += 1;
    }
    format!("{text}INPUT {} input", name(number - 1, 4))
}

/// Pair types of all two flat ones, and as many DELAYs as there is room for,
/// whose constants have the first or the last of those types.
fn constant_pairs(last: bool) -> String {
    const FLATS: usize = 40;
    let mut text = String::new();
    for flat in 0..FLATS {
        text += &format!("TYPE f{0}=c{0} IN ", name(flat, 2));
    }
    for pair in 0..FLATS * FLATS {
        let (first, second) = (name(pair / FLATS, 2), name(pair % FLATS, 2));
        text += &format!("TYPE p{}=(f{first},f{second})IN ", name(pair, 3));
    }
    text += "INPUT faa ";
    let used = name(if last { FLATS - 1 } else { 0 }, 2);
    let open = format!("(DELAY((c{used},c{used}),");
    let depth = (LONGEST_TEXT - text.len() - 5) / (open.len() + 2);
    format!("{text}{}input{}", open.repeat(depth), "))".repeat(depth))
}

/// Pair types of one first part, and as many DELAYs as there is room for, each
/// of a constant of a hundred pairs in each other, whose types come last.
fn constants_in_constants() -> String {
    const OTHERS: usize = 1_400;
    const DEPTH: usize = 100;
    let mut text = "TYPE a=x IN TYPE b=y IN ".to_string();
    for pair in 0..OTHERS + DEPTH {
        let second = match pair {
            0 => "b".to_string(),
            OTHERS => "a".to_string(),
            _ => name(pair - 1, 3),
        };
        text += &format!("TYPE {}=(a,{second})IN ", name(pair, 3));
    }
    text += "INPUT a ";
    let open = format!("(DELAY({}x{},", "(x,".repeat(DEPTH), ")".repeat(DEPTH));
    let depth = (LONGEST_TEXT - text.len() - 5) / (open.len() + 2);
    format!("{text}{}input{}", open.repeat(depth), "))".repeat(depth))
}

/// As many undefined constants of 64 leaves as there is room for.
fn undefined() -> String {
    let mut text = "TYPE a=x IN ".to_string();
    for (own, part) in ["b", "c", "d", "e", "f", "g"].iter().zip(["a", "b", "c", "d", "e", "f"]) {
        text += &format!("TYPE {own}=({part},{part})IN ");
    }
    text += "INPUT a ";
    let pairs = (LONGEST_TEXT - text.len() - 2) / 5;
    format!("{text}{}?g{}", "(?g,".repeat(pairs), ")".repeat(pairs))
}
