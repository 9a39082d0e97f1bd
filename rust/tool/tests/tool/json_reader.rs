//! A small reader of JSON objects: numbers, strings, true, false, null, and objects and lists in them.

/// A member's value.
#[derive(Clone, Debug, PartialEq)]
pub enum Value {
    Null,
    Number(i64),
    Decimal(f64),
    Flag(bool),
    Text(String),
    Object(Members),
    List(Vec<Value>),
}

/// Keys and values in order.
pub type Members = Vec<(String, Value)>;

/// The members of an object in order; panics at anything that is no such object.
pub fn object(line: &str) -> Members {
    let mut rest = line.chars().peekable();
    assert_eq!(rest.next(), Some('{'));
    let members = members(&mut rest);
    assert_eq!(rest.next(), None);
    members
}

/// Any value, with blanks and line ends between its parts.
pub fn value_of(text: &str) -> Value {
    let compact = compact(text);
    let mut rest = compact.chars().peekable();
    let value = value(&mut rest);
    assert_eq!(rest.next(), None);
    value
}

/// The same text without what stands between its parts.
fn compact(text: &str) -> String {
    let (mut in_string, mut is_escaped) = (false, false);
    let keeps = |it: &char| {
        let keeps = in_string || !matches!(it, ' ' | '\n' | '\t' | '\r');
        (in_string, is_escaped) = match (in_string, is_escaped, it) {
            (true, false, '"') => (false, false),
            (true, false, '\\') => (true, true),
            (true, ..) => (true, false),
            (false, _, it) => (*it == '"', false),
        };
        keeps
    };
    text.chars().filter(keeps).collect()
}

type Rest<'a> = std::iter::Peekable<std::str::Chars<'a>>;

/// Any number of members, up to the closing brace.
fn members(rest: &mut Rest) -> Members {
    let mut members = Vec::new();
    if rest.next_if_eq(&'}').is_some() {
        return members;
    }
    loop {
        assert_eq!(rest.next(), Some('"'));
        let key = string(rest);
        assert_eq!(rest.next(), Some(':'));
        members.push((key, value(rest)));
        match rest.next() {
            Some(',') => {}
            Some('}') => return members,
            other => panic!("{other:?} between members"),
        }
    }
}

fn value(rest: &mut Rest) -> Value {
    if rest.next_if_eq(&'"').is_some() {
        return Value::Text(string(rest));
    }
    if rest.next_if_eq(&'{').is_some() {
        return Value::Object(members(rest));
    }
    if rest.next_if_eq(&'[').is_some() {
        return Value::List(values(rest));
    }
    let mut word = String::new();
    while let Some(it) = rest.next_if(|it| !matches!(it, ',' | '}' | ']')) {
        word.push(it);
    }
    match word.as_str() {
        "null" => Value::Null,
        "true" => Value::Flag(true),
        "false" => Value::Flag(false),
        decimal if decimal.contains('.') => Value::Decimal(decimal.parse().expect("a decimal")),
        number => Value::Number(number.parse().expect("a number")),
    }
}

/// Any number of values, up to the closing bracket.
fn values(rest: &mut Rest) -> Vec<Value> {
    let mut values = Vec::new();
    if rest.next_if_eq(&']').is_some() {
        return values;
    }
    loop {
        values.push(value(rest));
        match rest.next() {
            Some(',') => {}
            Some(']') => return values,
            other => panic!("{other:?} between values"),
        }
    }
}

/// The characters up to the closing quote.
fn string(rest: &mut Rest) -> String {
    let mut text = String::new();
    loop {
        match rest.next().expect("a closing quote") {
            '"' => return text,
            '\\' => text.push(escaped(rest)),
            it => {
                assert!(!it.is_control());
                text.push(it);
            }
        }
    }
}

fn escaped(rest: &mut Rest) -> char {
    match rest.next().expect("an escape") {
        'n' => '\n',
        'r' => '\r',
        't' => '\t',
        'u' => unit(rest),
        it @ ('"' | '\\') => it,
        other => panic!("\\{other}"),
    }
}

/// A character by its four digits, or by the two halves of a pair.
fn unit(rest: &mut Rest) -> char {
    let half = |rest: &mut Rest| u16::from_str_radix(&rest.take(4).collect::<String>(), 16).expect("four digits");
    let mut halves = vec![half(rest)];
    if (0xD800..0xDC00).contains(&halves[0]) {
        assert_eq!((rest.next(), rest.next()), (Some('\\'), Some('u')));
        halves.push(half(rest));
    }
    String::from_utf16(&halves).expect("a character").chars().next().expect("one")
}
