//! JSON, as far as the recorded cases go: objects, lists, texts and whole numbers.

use std::iter::Peekable;
use std::str::Chars;

#[derive(Clone, Debug, PartialEq)]
pub enum Json {
    Number(i128),
    Text(String),
    List(Vec<Json>),
    Object(Vec<(String, Json)>),
}

impl Json {
    /// The value that a text is.
    pub fn of(text: &str) -> Option<Json> {
        let mut rest = Rest(text.chars().peekable());
        let value = rest.value()?;
        rest.skip_spaces();
        rest.0.next().is_none().then_some(value)
    }

    /// The value of a name in an object.
    pub fn get(&self, name: &str) -> Option<&Json> {
        let Json::Object(members) = self else {
            return None;
        };
        let found = members.iter().find(|(known, _)| known == name);
        found.map(|(_, value)| value)
    }

    pub fn number(&self) -> Option<i128> {
        match self {
            Json::Number(number) => Some(*number),
            _ => None,
        }
    }

    pub fn text(&self) -> Option<&str> {
        match self {
            Json::Text(text) => Some(text),
            _ => None,
        }
    }

    pub fn list(&self) -> Option<&[Json]> {
        match self {
            Json::List(list) => Some(list),
            _ => None,
        }
    }
}

struct Rest<'a>(Peekable<Chars<'a>>);

impl Rest<'_> {
    fn skip_spaces(&mut self) {
        while self.0.next_if(|c| " \t\r\n".contains(*c)).is_some() {}
    }

    /// Whether the sign comes next, which is then taken.
    fn takes(&mut self, sign: char) -> bool {
        self.skip_spaces();
        self.0.next_if_eq(&sign).is_some()
    }

    fn value(&mut self) -> Option<Json> {
        self.skip_spaces();
        match self.0.peek()? {
            '{' => self.members('{', '}', Rest::member).map(Json::Object),
            '[' => self.members('[', ']', Rest::value).map(Json::List),
            '"' => self.quoted().map(Json::Text),
            _ => self.whole().map(Json::Number),
        }
    }

    /// What stands between two signs, parted by commas.
    fn members<T>(
        &mut self,
        first: char,
        last: char,
        member: fn(&mut Self) -> Option<T>,
    ) -> Option<Vec<T>> {
        let mut members = vec![];
        if !self.takes(first) {
            return None;
        }
        if self.takes(last) {
            return Some(members);
        }
        loop {
            members.push(member(self)?);
            if self.takes(last) {
                return Some(members);
            }
            if !self.takes(',') {
                return None;
            }
        }
    }

    fn member(&mut self) -> Option<(String, Json)> {
        self.skip_spaces();
        let name = self.quoted()?;
        if !self.takes(':') {
            return None;
        }
        Some((name, self.value()?))
    }

    fn whole(&mut self) -> Option<i128> {
        let mut digits = String::new();
        while let Some(c) = self.0.next_if(|c| *c == '-' || c.is_ascii_digit()) {
            digits.push(c);
        }
        digits.parse().ok()
    }

    fn quoted(&mut self) -> Option<String> {
        let mut text = String::new();
        self.0.next_if_eq(&'"')?;
        loop {
            match self.0.next()? {
                '"' => return Some(text),
                '\\' => text.push(self.escaped()?),
                c => text.push(c),
            }
        }
    }

    fn escaped(&mut self) -> Option<char> {
        Some(match self.0.next()? {
            'b' => '\u{8}',
            'f' => '\u{c}',
            'n' => '\n',
            'r' => '\r',
            't' => '\t',
            'u' => {
                let digits: String = self.0.by_ref().take(4).collect();
                char::from_u32(u32::from_str_radix(&digits, 16).ok()?)?
            }
            c => c,
        })
    }
}

#[test]
fn values() {
    let text = r#" {"a": [1, -2, []], "b": "x\u00e9\n\"", "c": {}, "n": 18446744073709551615} "#;
    let value = Json::of(text).expect("this is JSON");
    let list = value.get("a").and_then(Json::list);
    let members = [Json::Number(1), Json::Number(-2), Json::List(vec![])];
    assert_eq!(list, Some(&members[..]));
    assert_eq!(value.get("b").and_then(Json::text), Some("x\u{e9}\n\""));
    assert_eq!(value.get("c"), Some(&Json::Object(vec![])));
    let number = value.get("n").and_then(Json::number);
    assert_eq!(number, Some(u64::MAX.into()));
    for text in [
        "",
        "{",
        "[1,]",
        "{\"a\" 1}",
        "\"a",
        "1 2",
        "-",
        "{}}",
        "[1 2]",
    ] {
        assert_eq!(Json::of(text), None, "{text}");
    }
}
