//! The setting text, read and written ("Setting text").

use crate::refusal::{OCTETS_TOO_SHORT, Refusal, WRONG_SETTINGS, refuse};

/// First, second and third rate, unused ones 0 and last; and tcmax.
pub type Settings = [u16; 4];

/// Octets of the longest text written.
pub const MAX_TEXT: usize = 31;

const RATES: [(u16, &[u8]); 3] = [(2400, b"2400"), (1200, b"1200"), (600, b"600")];

fn rate_of(word: &[u8]) -> Option<u16> {
    let found = RATES.iter().find(|(_, known)| *known == word);
    found.map(|(rate, _)| *rate)
}

fn word_of(rate: u16) -> Option<&'static [u8]> {
    let found = RATES.iter().find(|(known, _)| *known == rate);
    found.map(|(_, word)| *word)
}

/// What stands behind the name, where the item begins with it in any letter case.
fn value_of<'a>(item: &'a [u8], name: &[u8]) -> Option<&'a [u8]> {
    let (head, value) = item.split_at_checked(name.len())?;
    head.eq_ignore_ascii_case(name).then_some(value)
}

fn read_rates(value: &[u8]) -> Option<[u16; 3]> {
    let mut rates = [0; 3];
    for (place, word) in value.split(|octet| *octet == b',').enumerate() {
        let rate = rate_of(word)?;
        if rates.contains(&rate) {
            return None;
        }
        *rates.get_mut(place)? = rate;
    }
    Some(rates)
}

fn read_tcmax(value: &[u8]) -> Option<u16> {
    let (b'1'..=b'9', 1..=3) = (*value.first()?, value.len()) else {
        return None;
    };
    let mut tcmax = 0;
    for digit in value {
        if !digit.is_ascii_digit() {
            return None;
        }
        tcmax = 10 * tcmax + u16::from(digit - b'0');
    }
    (tcmax <= 255).then_some(tcmax)
}

fn parse(text: &[u8]) -> Option<Settings> {
    let (mut rates, mut tcmax) = (None, None);
    if !text.is_empty() {
        for item in text.split(|octet| *octet == b';') {
            if let (Some(value), None) = (value_of(item, b"bitrate="), rates) {
                rates = Some(read_rates(value)?);
            } else if let (Some(value), None) = (value_of(item, b"tcmax="), tcmax) {
                tcmax = Some(read_tcmax(value)?);
            } else {
                return None;
            }
        }
    }
    let [first, second, third] = rates.unwrap_or([2400, 0, 0]);
    Some([first, second, third, tcmax.unwrap_or(35)])
}

pub fn read(text: &[u8]) -> Result<Settings, Refusal> {
    parse(text).map_or(refuse(WRONG_SETTINGS, 0), Ok)
}

/// Text that is put together before it is lent out.
#[derive(Default)]
struct Text {
    octets: [u8; MAX_TEXT],
    length: usize,
}

impl Text {
    fn put(&mut self, octets: &[u8]) {
        self.octets[self.length..self.length + octets.len()].copy_from_slice(octets);
        self.length += octets.len();
    }

    fn put_number(&mut self, value: u8) {
        let digits = [
            b'0' + value / 100,
            b'0' + value / 10 % 10,
            b'0' + value % 10,
        ];
        let leading = match value {
            100.. => 0,
            10.. => 1,
            _ => 2,
        };
        self.put(&digits[leading..]);
    }
}

fn text([first, second, third, tcmax]: Settings) -> Option<Text> {
    let tcmax = u8::try_from(tcmax).ok().filter(|tcmax| *tcmax > 0)?;
    let mut text = Text::default();
    text.put(b"bitrate=");
    text.put(word_of(first)?);
    if second != 0 {
        text.put(b",");
        text.put(word_of(second).filter(|_| second != first)?);
    }
    if third != 0 {
        text.put(b",");
        text.put(word_of(third).filter(|_| second != 0 && third != first && third != second)?);
    }
    text.put(b";tcmax=");
    text.put_number(tcmax);
    Some(text)
}

/// Gives the octets written.
pub fn write(settings: Settings, out: &mut [u8]) -> Result<usize, Refusal> {
    let Some(text) = text(settings) else {
        return refuse(WRONG_SETTINGS, 0);
    };
    let Some(filled) = out.get_mut(..text.length) else {
        return refuse(OCTETS_TOO_SHORT, text.length);
    };
    filled.copy_from_slice(&text.octets[..text.length]);
    Ok(text.length)
}
