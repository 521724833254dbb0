//! The JSON that the program reads back: lines of flat objects.

use std::collections::BTreeMap;
use std::iter::Peekable;
use std::str::Chars;

/// A value of a flat object.
#[derive(Clone, Debug, PartialEq, Eq)]
pub enum Value {
    Null,
    Number(u64),
    Text(String),
}

/// An object whose values are texts, whole numbers and null; nothing if the line is no such.
pub fn object(line: &str) -> Option<BTreeMap<String, Value>> {
    let mut letters = line.chars().peekable();
    let mut object = BTreeMap::new();
    sign(&mut letters, '{')?;
    if spaced(&mut letters) == Some(&'}') {
        letters.next();
    } else {
        loop {
            spaced(&mut letters);
            let name = text(&mut letters)?;
            sign(&mut letters, ':')?;
            object.insert(name, value(&mut letters)?);
            spaced(&mut letters);
            match letters.next()? {
                ',' => {}
                '}' => break,
                _ => return None,
            }
        }
    }
    spaced(&mut letters).is_none().then_some(object)
}

fn spaced<'a>(letters: &'a mut Peekable<Chars>) -> Option<&'a char> {
    while letters.next_if(char::is_ascii_whitespace).is_some() {}
    letters.peek()
}

fn sign(letters: &mut Peekable<Chars>, wanted: char) -> Option<()> {
    spaced(letters);
    letters.next_if_eq(&wanted).map(drop)
}

fn value(letters: &mut Peekable<Chars>) -> Option<Value> {
    if spaced(letters) == Some(&'"') {
        return text(letters).map(Value::Text);
    }
    let mut word = String::new();
    while let Some(letter) = letters.next_if(char::is_ascii_alphanumeric) {
        word.push(letter);
    }
    if word == "null" {
        return Some(Value::Null);
    }
    word.parse().ok().map(Value::Number)
}

fn text(letters: &mut Peekable<Chars>) -> Option<String> {
    letters.next_if_eq(&'"')?;
    let mut text = String::new();
    loop {
        text.push(match letters.next()? {
            '"' => return Some(text),
            '\\' => escaped(letters)?,
            letter => letter,
        });
    }
}

fn escaped(letters: &mut Peekable<Chars>) -> Option<char> {
    Some(match letters.next()? {
        'n' => '\n',
        'r' => '\r',
        't' => '\t',
        'b' => '\x08',
        'f' => '\x0c',
        'u' => match unit(letters)? {
            high @ 0xd800..0xdc00 => {
                (letters.next()? == '\\' && letters.next()? == 'u').then_some(())?;
                let low = unit(letters)?
                    .checked_sub(0xdc00)
                    .filter(|low| *low < 0x400)?;
                char::from_u32(0x10000 + ((high - 0xd800) << 10) + low)?
            }
            unit => char::from_u32(unit)?,
        },
        letter @ ('"' | '\\' | '/') => letter,
        _ => return None,
    })
}

/// Four hexadecimal digits.
fn unit(letters: &mut Peekable<Chars>) -> Option<u32> {
    (0..4).try_fold(0, |unit, _| Some(unit * 16 + letters.next()?.to_digit(16)?))
}

#[cfg(test)]
mod tests {
    use super::{Value, object};
    use compare::quoted;

    #[test]
    fn texts_come_back() {
        for text in ["", "plain", "a\"b\\c\n\u{1}\t/", "Größe 契約 \u{1f600}"] {
            let line = format!("{{\"a\":{},\"b\":null,\"c\":17}}", quoted(text));
            let read = object(&line).expect("it is an object");
            assert_eq!(read["a"], Value::Text(text.into()));
            assert_eq!((&read["b"], &read["c"]), (&Value::Null, &Value::Number(17)));
        }
    }

    #[test]
    fn what_others_write_is_read_too() {
        let read = object(" { \"a\" : \"\\u00f6\\ud83d\\ude00\\/\" , \"b\" : 0 } ");
        let read = read.expect("it is an object");
        assert_eq!(read["a"], Value::Text("ö\u{1f600}/".into()));
        assert_eq!(object("{}").map(|read| read.len()), Some(0));
    }

    #[test]
    fn what_is_no_such_object_is_nothing() {
        for line in [
            "",
            "{",
            "[]",
            "{\"a\"}",
            "{\"a\":}",
            "{\"a\":1,}",
            "{\"a\":1}x",
            "{\"a\":\"b}",
            "{\"a\":\"\\q\"}",
            "{\"a\":\"\\ud800\"}",
            "{\"a\":-1}",
            "{a:1}",
        ] {
            assert_eq!(object(line), None, "{line}");
        }
    }
}
