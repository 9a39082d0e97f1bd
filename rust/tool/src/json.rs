//! JSON objects on one line, keys in the order in which they are put.

use crate::name;
use std::ffi::OsStr;
use std::fmt::Write;

/// The form of the objects. It grows by one where a key goes, or means something else.
const FORMAT: i64 = 1;

/// An object under construction.
#[derive(Default)]
pub struct Object {
    members: Vec<String>,
}

impl Object {
    /// An object without members.
    pub fn new() -> Self {
        Self::default()
    }

    /// An answer about a file, as every line begins: the format, the file's name as far as it is text, and where it is not, its bytes.
    pub fn about(file: &OsStr) -> Self {
        let object = Self::new().number("format", FORMAT).text("file", file.to_string_lossy().as_ref());
        object.text("file_bytes", name::file_bytes(file).as_deref())
    }

    /// A string, or null.
    pub fn text<'a>(self, key: &str, value: impl Into<Option<&'a str>>) -> Self {
        self.member(key, value.into().map(quoted))
    }

    /// A whole number, or null.
    pub fn number(self, key: &str, value: impl Into<Option<i64>>) -> Self {
        self.member(key, value.into().map(|number| number.to_string()))
    }

    /// A count, or null.
    pub fn count(self, key: &str, value: impl Into<Option<usize>>) -> Self {
        self.member(key, value.into().map(|count| count.to_string()))
    }

    /// A decimal.
    pub fn decimal(self, key: &str, value: f64) -> Self {
        self.member(key, Some(value.to_string()))
    }

    /// True or false.
    pub fn flag(self, key: &str, value: bool) -> Self {
        self.member(key, Some(value.to_string()))
    }

    /// A list of numbers.
    pub fn numbers<N: ToString>(self, key: &str, values: &[N]) -> Self {
        let values: Vec<String> = values.iter().map(N::to_string).collect();
        self.member(key, Some(format!("[{}]", values.join(","))))
    }

    /// A list of strings.
    pub fn texts(self, key: &str, values: &[String]) -> Self {
        let values: Vec<String> = values.iter().map(|text| quoted(text)).collect();
        self.member(key, Some(format!("[{}]", values.join(","))))
    }

    /// A list of objects, or null.
    pub fn objects(self, key: &str, values: Option<Vec<Object>>) -> Self {
        let list = |values: Vec<Object>| values.into_iter().map(Object::close).collect::<Vec<_>>().join(",");
        self.member(key, values.map(|values| format!("[{}]", list(values))))
    }

    /// An object, or null.
    pub fn object(self, key: &str, value: Option<Object>) -> Self {
        self.member(key, value.map(Object::close))
    }

    fn member(mut self, key: &str, value: Option<String>) -> Self {
        let value = value.unwrap_or_else(|| "null".to_string());
        self.members.push(format!("{}:{value}", quoted(key)));
        self
    }

    /// The object as text.
    pub fn close(self) -> String {
        format!("{{{}}}", self.members.join(","))
    }
}

/// A JSON string: quotes, backslashes and control characters escaped.
fn quoted(text: &str) -> String {
    let mut out = String::from("\"");
    for it in text.chars() {
        match it {
            '"' | '\\' => out.extend(['\\', it]),
            '\n' => out.push_str("\\n"),
            '\r' => out.push_str("\\r"),
            '\t' => out.push_str("\\t"),
            it if name::is_hidden(it) => escape(it, &mut out),
            it => out.push(it),
        }
    }
    out.push('"');
    out
}

/// A character by the numbers of its one or two halves.
fn escape(it: char, out: &mut String) {
    for half in it.encode_utf16(&mut [0; 2]) {
        write!(out, "\\u{half:04x}").expect("a string takes all text");
    }
}

#[cfg(test)]
mod tests {
    use super::*;

    #[test]
    fn an_answer_begins_with_its_format_and_file() {
        let object = Object::about(OsStr::new("a b.wad")).count("n", 1);
        assert_eq!(object.close(), r#"{"format":1,"file":"a b.wad","file_bytes":null,"n":1}"#);
    }

    #[test]
    fn text_that_turns_other_text_is_escaped() {
        let object = Object::new().text("a", "\u{202e}b\u{e0041}");
        assert_eq!(object.close(), r#"{"a":"\u202eb\udb40\udc41"}"#);
    }

    #[test]
    fn strings_are_escaped() {
        let object = Object::new().text("a\"b", "c\\d\n\u{1}\u{7f}é").text("none", None);
        assert_eq!(object.close(), r#"{"a\"b":"c\\d\n\u0001\u007fé","none":null}"#);
    }

    #[test]
    fn members_stay_in_order() {
        let object = Object::new().number("z", -1).count("a", 2).count("m", None);
        assert_eq!(object.close(), r#"{"z":-1,"a":2,"m":null}"#);
        assert_eq!(Object::new().close(), "{}");
    }

    #[test]
    fn a_member_may_be_a_list() {
        let object = Object::new().numbers("some", &[3, 0, 65_535]).numbers::<u16>("none", &[]);
        assert_eq!(object.close(), r#"{"some":[3,0,65535],"none":[]}"#);
        let object = Object::new().objects("some", Some(vec![Object::new(), Object::new().count("a", 1)])).objects("none", None);
        assert_eq!(object.close(), r#"{"some":[{},{"a":1}],"none":null}"#);
    }

    #[test]
    fn decimals_and_flags_are_plain() {
        let object = Object::new().decimal("a", -0.0).decimal("b", 64.0).decimal("c", 1e-6).flag("d", true).flag("e", false);
        assert_eq!(object.close(), r#"{"a":-0,"b":64,"c":0.000001,"d":true,"e":false}"#);
    }

    #[test]
    fn an_object_may_hold_another() {
        let object = Object::new().object("in", Some(Object::new().count("a", 1))).object("none", None);
        assert_eq!(object.close(), r#"{"in":{"a":1},"none":null}"#);
    }
}
