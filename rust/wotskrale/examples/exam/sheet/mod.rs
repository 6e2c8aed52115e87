//! The question sheet and the marking key.

mod draw;
mod questions;
mod show;

use wotskrale::Refusal;

use draw::Draw;

/// What stands above the questions, so that they can be answered from the sheet alone.
const RULES: &[&str] = &[
    "Limits are three numbers: the most bytes in a component, components in a path, and bytes in a path.",
    "Paths: bytes in hexadecimal, components split by /, - an empty component, () the empty path. A path is a prefix of itself.",
    "Order of paths: component by component, bytes unsigned; a proper prefix is smaller, for components and for paths.",
    "A packed path is the count, as many accumulated lengths, each of these numbers in 8 bytes, and the bytes. It is well formed \
     if count, components and bytes are within the limits, no length is below the one before, and there are just as many bytes \
     as the last length says; this is asked of the whole buffer, and the count beside it may be smaller than the one in it, but \
     not greater.",
    "Ranges: [a, b) includes a and what is above it and below b, so nothing where b is not above a; 'from a' has no end.",
    "An intersection is written with the greater start and the smaller end, and is none where nothing lies in both.",
    "An area includes the entries of its subspace, or of any, whose path its own is a prefix of, at one of its times.",
    "A 3d range includes the entries whose subspace, path and time lie in its three ranges.",
    "Of two entries the newer has the greater time; at equal times the greater digest, bytes unsigned; at equal digests the \
     greater payload length. An entry prunes another if namespace and subspace agree, its path is a prefix of the other's, and \
     it is newer.",
    "Of a builder, 7 and 8 judge the declared length and count, 9 and 11 each component or prefix that it is given.",
    "An offer is outdated if an entry held by the store prunes it, a repeat if one equals it in every field, and else taken. What \
     it prunes is let go, as are an outdated offer and a repeat; a refused offer changes nothing. 13 is given where the payload \
     lengths held, let go and offered pass 2^64 − 1 together; 14 where an offer that is neither outdated nor a repeat finds the \
     store full even without what it prunes.",
    "Where there is nothing that is asked for, the answer is none. Where several refusals apply, the smallest number is given:",
];

/// The seed, and how many questions of each kind, from the words of a command; none where a word is no number or one too many.
pub fn asked(words: impl IntoIterator<Item = String>) -> Option<(u64, u64)> {
    let numbers: Result<Vec<u64>, _> = words.into_iter().map(|word| word.parse()).collect();
    match numbers.ok()?[..] {
        [] => Some((1, 1)),
        [seed] => Some((seed, 1)),
        [seed, each] => Some((seed, each)),
        _ => None,
    }
}

/// The whole text: rules, questions, and the key.
pub fn exam(seed: u64, each: u64) -> Result<String, Refusal> {
    let mut draw = Draw(seed);
    let mut text = format!("Question sheet, seed {seed}\n\n{}\n", RULES.join("\n"));
    for refusal in Refusal::NAMED {
        text += &format!("- {refusal}\n");
    }
    text += "\n";
    let mut key = String::new();
    let mut number = 0;
    for kind in questions::KINDS {
        for _ in 0..each {
            let (question, answer) = kind(&mut draw)?;
            number += 1;
            text += &format!("{number}. {question}\n");
            key += &format!("{number}. {answer}\n");
        }
    }
    Ok(format!("{text}\nMarking key, seed {seed}\n\n{key}"))
}
