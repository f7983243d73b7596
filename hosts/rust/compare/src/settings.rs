//! Settings read and written, texts and settings legal and damaged.

use crate::guard::{Lent, octet};
use crate::prng::Prng;
use crate::{LONGER, both, lengthened, wanted, whole};
use second::settings::{self, Settings};

const RATES: [u16; 3] = [2400, 1200, 600];
const DAMAGED: usize = 250_000;
const RANDOM: usize = 100_000;
const UNFIT: usize = 100_000;

fn compare_read(text: &[u8], prng: &mut Prng) {
    let lent = Lent::holding(text, prng, octet);
    let got = both::read_settings(&lent);
    lent.unchanged();
    let wanted = whole(settings::read(text));
    assert_eq!(got, wanted, "reading {:?}", String::from_utf8_lossy(text));
}

fn compare_write(values: Settings, room: usize, prng: &mut Prng) {
    let mut out = Lent::new(room, prng, octet);
    let got = both::write_settings(values, &mut out);
    let mut text = vec![0; room];
    let (answer, text) = wanted(settings::write(values, &mut text), text);
    assert_eq!(got, answer, "writing {values:?} to {room}");
    out.holds_only(&text);
}

/// All lists of one to three different rates.
fn rate_lists() -> Vec<Vec<u16>> {
    let mut lists = vec![];
    for a in RATES {
        lists.push(vec![a]);
        for b in RATES.into_iter().filter(|b| *b != a) {
            lists.push(vec![a, b]);
            let others = RATES.into_iter().filter(|c| *c != a && *c != b);
            lists.extend(others.map(|c| vec![a, b, c]));
        }
    }
    lists
}

fn joined(rates: &[u16]) -> String {
    let words: Vec<String> = rates.iter().map(u16::to_string).collect();
    words.join(",")
}

fn values_of(rates: &[u16], tcmax: u16) -> Settings {
    let mut values = [0, 0, 0, tcmax];
    values[..rates.len()].copy_from_slice(rates);
    values
}

fn any_case(text: &str, prng: &mut Prng) -> String {
    let flip = |c: char| {
        if prng.one_in(3) {
            c.to_ascii_uppercase()
        } else {
            c
        }
    };
    text.chars().map(flip).collect()
}

fn legal_text(prng: &mut Prng) -> String {
    let lists = rate_lists();
    let rates = &lists[prng.below(lists.len())];
    let bitrate = any_case("bitrate=", prng) + &joined(rates);
    let tcmax = any_case("tcmax=", prng) + &prng.within(1, 255).to_string();
    match prng.below(6) {
        0 => String::new(),
        1 => bitrate,
        2 => tcmax,
        3 => format!("{tcmax};{bitrate}"),
        _ => format!("{bitrate};{tcmax}"),
    }
}

fn damage(text: &mut Vec<u8>, prng: &mut Prng) {
    let at = prng.below(text.len() + 1);
    let octet = prng.pick(b"bitrate=cmx24061;;,,  \n\0+-:<{\xE2B@[`\xFF5789");
    match prng.below(5) {
        0 if at < text.len() => drop(text.remove(at)),
        1 | 2 if at < text.len() => text[at] = octet,
        3 if at < text.len() => text[at] ^= 0x20,
        _ => text.insert(at, octet),
    }
}

/// Every list of rates with every tcmax, in both orders, written and read back.
#[test]
fn legal() {
    let mut prng = Prng::new(31);
    for list in rate_lists() {
        for tcmax in 1..=255u16 {
            let bitrate = format!("bitrate={}", joined(&list));
            compare_read(format!("{bitrate};tcmax={tcmax}").as_bytes(), &mut prng);
            compare_read(format!("tcmax={tcmax};{bitrate}").as_bytes(), &mut prng);
            let room = prng.within(18, 34);
            compare_write(values_of(&list, tcmax), room, &mut prng);
        }
    }
}

#[test]
fn corners() {
    let mut prng = Prng::new(32);
    let texts: [&[u8]; 34] = [
        b"",
        b";",
        b"=",
        b"tcmax=5;",
        b";tcmax=5",
        b"tcmax=5;;bitrate=600",
        b"tcmax=",
        b"bitrate=",
        b"bitrate=,",
        b"bitrate=600,",
        b"bitrate=,600",
        b"bitrate=600,600",
        b"bitrate=600,1200,2400",
        b"bitrate=600,1200,2400,600",
        b"tcmax=0",
        b"tcmax=00",
        b"tcmax=01",
        b"tcmax=255",
        b"tcmax=256",
        b"tcmax=1000",
        b"tcmax=65571",
        b"tcmax=4294967297",
        b"tcmax=+1",
        b"tcmax=1 ",
        b" tcmax=1",
        b"tcmax=1\n",
        b"tcmax=1\0",
        b"tcmax=1;tcmax=1",
        b"TCMAX=1;BITRATE=600",
        b"bitrate=600;tcmax=1;bitrate=600",
        b"bitrate=2400;bitrate=600",
        b"bitrate=02400",
        b"bitrate=300",
        b"maxptime=45",
    ];
    for text in texts {
        compare_read(text, &mut prng);
    }
    // Every octet at every place of a legal text, and before and behind it.
    let text = b"tcmax=101;bitrate=600,2400";
    for octet in 0..=255 {
        for at in 0..text.len() {
            let mut other = text.to_vec();
            other[at] = octet;
            compare_read(&other, &mut prng);
            other[at] = text[at];
            other.insert(at, octet);
            compare_read(&other, &mut prng);
        }
    }
}

#[test]
fn damaged() {
    let mut prng = Prng::new(33);
    for _ in 0..DAMAGED {
        let mut text = legal_text(&mut prng).into_bytes();
        for _ in 0..prng.below(3) {
            damage(&mut text, &mut prng);
        }
        compare_read(&text, &mut prng);
    }
}

/// Words of the text in any order.
#[test]
fn random() {
    let words = [
        "bitrate=", "tcmax=", "2400", "1200", "600", ",", ";", "1", "35", "255", "25", "0", "=",
        "B",
    ];
    let mut prng = Prng::new(34);
    for _ in 0..RANDOM {
        let text: String = (0..prng.below(9)).map(|_| prng.pick(&words)).collect();
        compare_read(text.as_bytes(), &mut prng);
    }
}

#[test]
fn unfit_settings() {
    let mut prng = Prng::new(35);
    let rates = [0, 600, 1200, 2400, 601, 1, 65535];
    let tcmaxes = [0, 1, 9, 10, 35, 99, 100, 255, 256, 291, 65535];
    for _ in 0..UNFIT {
        let mut rate = || prng.pick(&rates);
        let values = [rate(), rate(), rate(), prng.pick(&tcmaxes)];
        let room = prng.below(36);
        compare_write(values, room, &mut prng);
    }
}

/// Every number at each of the four places, beside one, two and three rates.
#[test]
fn every_number() {
    let mut prng = Prng::new(37);
    for rates in [&[2400, 1200, 600][..], &[600, 2400], &[1200]] {
        for place in 0..4 {
            let mut values = values_of(rates, 35);
            for number in 0..=u16::MAX {
                values[place] = number;
                compare_write(values, 31, &mut prng);
            }
        }
    }
}

/// Texts and rooms that would do, or would not, if their lengths were cut.
#[test]
fn longer() {
    let mut prng = Prng::new(38);
    for by in LONGER {
        for _ in 0..200 {
            let text = legal_text(&mut prng);
            let fill = prng.pick(b"\0 0;,");
            compare_read(&lengthened(text.as_bytes(), by, fill), &mut prng);
            let short = prng.below(31) + by;
            compare_write([2400, 1200, 600, 255], short, &mut prng);
        }
    }
}

/// Every room from none to more than enough.
#[test]
fn rooms() {
    let mut prng = Prng::new(36);
    for list in rate_lists() {
        for tcmax in [1, 10, 255] {
            for room in 0..36 {
                compare_write(values_of(&list, tcmax), room, &mut prng);
            }
        }
    }
}
