//! The bytes of an event by the second column of docs/FORMAT.md's table: hexadecimal
//! bytes, `8n` for a status with its channel, letters for fields, `length` with `data` or
//! `text`.

use super::records::Field;

/// The bytes of an event whose fields have all their first or all their second good value.
pub fn of(pattern: &str, fields: &[Field], end: usize) -> Option<Vec<u8>> {
    let words: Vec<&str> = pattern.split(' ').collect();
    let numbers: Vec<i64> = fields.iter().filter_map(|field| field.number(end)).collect();
    let bulk = fields.iter().find_map(|field| field.bulk(end)).unwrap_or_default();
    let mut bytes = Vec::new();
    let left = lay(&words, &numbers, &bulk, &mut bytes)?;
    Some(bytes).filter(|_| left.is_empty())
}

/// Adds the bytes of these words and answers the numbers that no word has taken.
fn lay<'a>(
    words: &[&str],
    numbers: &'a [i64],
    bulk: &[u8],
    bytes: &mut Vec<u8>,
) -> Option<&'a [i64]> {
    let Some((&word, mut rest)) = words.split_first() else {
        return Some(numbers);
    };
    let mut left = numbers;
    match (word, rest) {
        ("length", _) => bytes.push(u8::try_from(bulk.len()).ok().filter(|byte| *byte < 128)?),
        ("data" | "text", _) => bytes.extend(bulk),
        ("l", ["m", after @ ..]) => {
            let (value, others) = left.split_first()?;
            bytes.extend([(value % 128) as u8, (value / 128) as u8]);
            (left, rest) = (others, after);
        }
        _ if word.len() == 1 => {
            let (value, others) = left.split_first()?;
            let count = 1 + rest.iter().take_while(|next| **next == word).count();
            bytes.extend(&value.to_be_bytes()[8 - count..]);
            (left, rest) = (others, &rest[count - 1..]);
        }
        _ if word.ends_with('n') => {
            let (channel, others) = left.split_first()?;
            bytes
                .push(u8::from_str_radix(&word[..1], 16).ok()? << 4 | u8::try_from(*channel).ok()?);
            left = others;
        }
        _ => bytes.push(u8::from_str_radix(word, 16).ok().filter(|_| word.len() == 2)?),
    }
    lay(rest, left, bulk, bytes)
}
