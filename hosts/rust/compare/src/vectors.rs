//! The recorded cases of tests/vectors (MOULT_VECTORS names another folder): the library, through
//! wrapper and C ABI, and the second implementation must both answer as recorded.

use crate::both::{self, Answer, Operation};
use crate::guard::{Lent, number, octet};
use crate::json::Json;
use crate::prng::Prng;
use crate::{journals, payloads, records, wanted, whole};
use second::{Session, fields, journal, listing, payload, settings, time, views, writer};
use std::fmt::Debug;
use std::fs;
use std::path::{Path, PathBuf};

/// A line of a file.
struct Case {
    file: PathBuf,
    line: usize,
    values: Json,
}

impl Case {
    #[track_caller]
    fn is<T: PartialEq + Debug>(&self, got: T, wanted: &T, who: &str) {
        let (file, line) = (self.file.display(), self.line);
        assert_eq!(got, *wanted, "{who} at {file}:{line}");
    }

    /// A value of the case, or of a part of it.
    #[track_caller]
    fn of<'a, T>(&self, part: &'a Json, name: &str, take: fn(&'a Json) -> Option<T>) -> T {
        part.get(name).and_then(take).unwrap_or_else(|| {
            let (file, line) = (self.file.display(), self.line);
            panic!("{file}:{line}: `{name}` is missing or of another form")
        })
    }

    #[track_caller]
    fn number<T: TryFrom<i128>>(&self, name: &str) -> T {
        self.of(&self.values, name, whole_number)
    }

    #[track_caller]
    fn octets(&self, name: &str) -> Vec<u8> {
        self.of(&self.values, name, hex)
    }

    #[track_caller]
    fn numbers(&self, name: &str) -> Vec<u16> {
        self.of(&self.values, name, number_list)
    }

    /// A text whose characters stand for one octet each.
    #[track_caller]
    fn text(&self, name: &str) -> Vec<u8> {
        self.of(&self.values, name, characters)
    }

    /// The three rates and tcmax.
    #[track_caller]
    fn settings(&self) -> settings::Settings {
        let rates = self.numbers("rates");
        [rates[0], rates[1], rates[2], self.number("tcmax")]
    }

    /// The case's session; not agreed where it has none.
    #[track_caller]
    fn session(&self) -> Session {
        match self.values.get("agreed").and_then(Json::number) {
            None | Some(0) => Session::NotAgreed,
            Some(_) => Session::Agreed(self.number("agreed_rate")),
        }
    }

    /// The answer with this value.
    #[track_caller]
    fn answer<T>(&self, value: T) -> Answer<T> {
        (self.number("number"), self.number("place"), value)
    }
}

fn whole_number<T: TryFrom<i128>>(value: &Json) -> Option<T> {
    T::try_from(value.number()?).ok()
}

fn number_list(value: &Json) -> Option<Vec<u16>> {
    value.list()?.iter().map(whole_number).collect()
}

fn hex(value: &Json) -> Option<Vec<u8>> {
    let digits = value.text()?.as_bytes();
    let octet = |pair: &[u8]| u8::from_str_radix(std::str::from_utf8(pair).ok()?, 16).ok();
    digits.chunks(2).map(octet).collect()
}

fn characters(value: &Json) -> Option<Vec<u8>> {
    let octet = |c| u8::try_from(c).ok();
    value.text()?.chars().map(octet).collect()
}

fn read(case: &Case, prng: &mut Prng) {
    let payload = case.octets("payload");
    let (rows_room, bodies_room) = (case.number("numbers"), case.number("octets"));
    let (mut rows, mut bodies) = (vec![], vec![]);
    for frame in case.of(&case.values, "frames", Json::list) {
        let (kind, tc) = (
            case.of(frame, "kind", whole_number),
            case.of(frame, "tc", whole_number),
        );
        let body: Vec<u8> = case.of(frame, "body", hex);
        case.is(both::body_octets(kind, tc), &body.len(), "the library");
        case.is(second::body_octets(kind, tc), &body.len(), "the second");
        rows.extend([kind, tc]);
        bodies.extend(body);
    }
    let values = (
        rows.len() / 2,
        bodies.len(),
        case.number("rate"),
        case.number("ticks"),
    );
    let answer = case.answer(values);
    let lent = Lent::holding(&payload, prng, octet);
    let mut lent_rows = Lent::new(rows_room, prng, number);
    let mut lent_bodies = Lent::new(bodies_room, prng, octet);
    let session = case.session();
    let got = both::read(session, &lent, &mut lent_rows, &mut lent_bodies);
    case.is(got, &answer, "the library");
    lent_rows.holds_only(&rows);
    lent_bodies.holds_only(&bodies);
    let second = payloads::wanted(session, &payload, rows_room, bodies_room);
    case.is(second, &(answer, rows, bodies), "the second");

    // Packet time asks for no room.
    let ticks = match answer.0 {
        0 | 9 | 10 => (0, 0, case.number("packet_ticks")),
        _ => case.answer(0),
    };
    case.is(both::packet_ticks(session, &lent), &ticks, "the library");
    let second = whole(time::packet_ticks_in(session, &payload));
    case.is(second, &ticks, "the second");
    lent.unchanged();
}

fn count(case: &Case, prng: &mut Prng) {
    let (payload, count) = (case.octets("payload"), case.number("count"));
    let lent = Lent::holding(&payload, prng, octet);
    case.is(both::count(&lent), &count, "the library");
    case.is(payload::count(&payload), &count, "the second");
    lent.unchanged();
}

fn view(case: &Case, prng: &mut Prng) {
    let (payload, row) = (case.octets("payload"), case.number("row"));
    let (stand_in, frame) = (case.octets("stand_in"), case.octets("frame"));
    let (session, augmentation) = (case.session(), case.octets("augmentation"));
    let lent = Lent::holding(&payload, prng, octet);
    let lent_stand_in = Lent::holding(&stand_in, prng, octet);
    let (_, start, length) = both::augmentation(session, &lent, row);
    let got = &payload[start..][..length];
    case.is(got, &&augmentation[..], "the library");
    let (of_stand_in, start, length) = both::frame_or(session, &lent, row, &lent_stand_in);
    let buffer = if of_stand_in == 0 {
        &payload
    } else {
        &stand_in
    };
    case.is(&buffer[start..][..length], &&frame[..], "the library");
    let second = &payload[views::augmentation_in(session, &payload, row)];
    case.is(second, &&augmentation[..], "the second");
    let second = views::frame_in(session, &payload, row);
    let second = second.map_or(&stand_in[..], |part| &payload[part]);
    case.is(second, &&frame[..], "the second");
}

fn time(case: &Case, _: &mut Prng) {
    let (rate, frames) = (case.number("rate"), case.number("frames"));
    let answer = case.answer(case.number("millis"));
    case.is(both::ptime(rate, frames), &answer, "the library");
    case.is(whole(time::ptime(rate, frames)), &answer, "the second");
}

fn write(case: &Case, prng: &mut Prng) {
    let (rows, bodies) = (case.numbers("rows"), case.octets("bodies"));
    let (room, payload) = (case.number("octets"), case.octets("payload"));
    let answer = case.answer(payload.len());
    let lent_rows = Lent::holding(&rows, prng, number);
    let lent_bodies = Lent::holding(&bodies, prng, octet);
    let mut out = Lent::new(room, prng, octet);
    let session = case.session();
    let got = both::write(session, &lent_rows, &lent_bodies, &mut out);
    case.is(got, &answer, "the library");
    out.holds_only(&payload);
    let mut out = vec![0; room];
    let second = writer::write_in(session, &rows, &bodies, &mut out);
    case.is(wanted(second, out), &(answer, payload), "the second");
}

fn settings_read(case: &Case, prng: &mut Prng) {
    let text = case.text("text");
    let answer = case.answer(case.settings());
    let lent = Lent::holding(&text, prng, octet);
    case.is(both::read_settings(&lent), &answer, "the library");
    case.is(whole(settings::read(&text)), &answer, "the second");
}

fn settings_write(case: &Case, prng: &mut Prng) {
    let (values, room, text) = (case.settings(), case.number("octets"), case.text("text"));
    let answer = case.answer(text.len());
    let mut out = Lent::new(room, prng, octet);
    case.is(
        both::write_settings(values, &mut out),
        &answer,
        "the library",
    );
    out.holds_only(&text);
    let mut out = vec![0; room];
    let second = wanted(settings::write(values, &mut out), out);
    case.is(second, &(answer, text), "the second");
}

fn unpack(case: &Case, prng: &mut Prng) {
    let (mode, body) = (case.number("mode"), case.octets("body"));
    let (room, fields) = (case.number("numbers"), case.numbers("fields"));
    let answer = case.answer(fields.len());
    let lent = Lent::holding(&body, prng, octet);
    let mut out = Lent::new(room, prng, number);
    case.is(both::unpack(mode, &lent, &mut out), &answer, "the library");
    out.holds_only(&fields);
    let mut out = vec![0; room];
    let second = wanted(fields::unpack(mode, &body, &mut out), out);
    case.is(second, &(answer, fields), "the second");
}

fn pack(case: &Case, prng: &mut Prng) {
    let (mode, fields) = (case.number("mode"), case.numbers("fields"));
    let (room, body) = (case.number("octets"), case.octets("body"));
    let answer = case.answer(body.len());
    let lent = Lent::holding(&fields, prng, number);
    let mut out = Lent::new(room, prng, octet);
    case.is(both::pack(mode, &lent, &mut out), &answer, "the library");
    out.holds_only(&body);
    let mut out = vec![0; room];
    let second = wanted(fields::pack(mode, &fields, &mut out), out);
    case.is(second, &(answer, body), "the second");
}

fn entry(case: &Case, prng: &mut Prng) {
    let (journal, at) = (case.octets("journal"), case.number("at"));
    let answer = case.answer(both::Entry {
        entries: case.number("entries"),
        ticks: case.number("ticks"),
        source: case.number("source"),
        start: case.number("start"),
        next: case.number("next"),
    });
    let lent = Lent::holding(&journal, prng, octet);
    case.is(both::journal_entry_at(&lent, at), &answer, "the library");
    case.is(journals::wanted(&journal, at), &answer, "the second");
    lent.unchanged();
}

fn entry_write(case: &Case, prng: &mut Prng) {
    let (ticks, source) = (case.number("ticks"), case.number("source"));
    let (payload, room) = (case.octets("payload"), case.number("octets"));
    let entry = case.octets("entry");
    let answer = case.answer(entry.len());
    let lent = Lent::holding(&payload, prng, octet);
    let mut out = Lent::new(room, prng, octet);
    let got = both::journal_write_entry(ticks, source, &lent, &mut out);
    case.is(got, &answer, "the library");
    out.holds_only(&entry);
    let mut out = vec![0; room];
    let second = journal::write_entry(ticks, source, &payload, &mut out);
    case.is(wanted(second, out), &(answer, entry), "the second");
}

/// An operation such as ["replace", 0, 3, 0].
fn operation(value: &Json) -> Option<Operation> {
    let (name, numbers) = value.list()?.split_first()?;
    Some(match (name.text()?, numbers) {
        ("push", [kind, tc]) => Operation::Push(whole_number(kind)?, whole_number(tc)?),
        ("pop", []) => Operation::Pop,
        ("replace", [row, kind, tc]) => {
            Operation::Replace(whole_number(row)?, whole_number(kind)?, whole_number(tc)?)
        }
        _ => return None,
    })
}

fn operations(value: &Json) -> Option<Vec<Operation>> {
    value.list()?.iter().map(operation).collect()
}

/// Which operations are refused, with number and place.
fn refusals(value: &Json) -> Option<Vec<Vec<u16>>> {
    value.list()?.iter().map(number_list).collect()
}

fn record(case: &Case, _: &mut Prng) {
    let (mut record, mut second) = (both::Record::new(), second::Record::default());
    let mut refused = [vec![], vec![]];
    let operations = case.of(&case.values, "operations", operations);
    for (i, operation) in operations.into_iter().enumerate() {
        let answers = [
            record.operate(operation),
            whole(records::operate(&mut second, operation)),
        ];
        for (refused, (number, place, ())) in refused.iter_mut().zip(answers) {
            if number != 0 {
                refused.push(vec![i as u16, number as u16, place as u16]);
            }
        }
    }
    let [by_library, by_second] = refused;
    let refusals = case.of(&case.values, "refusals", refusals);
    case.is(by_library, &refusals, "the library");
    case.is(by_second, &refusals, "the second");

    let all = records::wanted(&second);
    case.is(record.all(), &&all, "the library");
    let rows = 2 * all.rows;
    case.is(
        all.numbers[..rows].to_vec(),
        &case.numbers("rows"),
        "the second",
    );
    case.is(
        all.starts[..all.rows].to_vec(),
        &case.numbers("starts"),
        "the second",
    );
    let totals = (case.number("octets"), case.number("ticks"));
    case.is((all.octets, all.ticks), &totals, "the second");

    let asked = case.number("asked");
    let row = case.numbers("row");
    let row = [row.first(), row.get(1)].map(|number| number.copied().unwrap_or(0));
    case.is(record.row(asked), &case.answer(row), "the library");
    case.is(
        record.start(asked),
        &case.answer(case.number("start")),
        "the library",
    );
    records::compare_row(&record, &second, asked);
}

/// The library has no listing: its program is held to these cases by itself.
fn list(case: &Case, _: &mut Prng) {
    let lines = case.of(&case.values, "lines", Json::list);
    let lines: Option<Vec<&str>> = lines.iter().map(Json::text).collect();
    let lines = lines.expect("lines are texts").join("\n") + "\n";
    let mut listed = vec![];
    listing::list(&mut &case.octets("input")[..], &mut listed).expect("memory can be read");
    case.is(listed, &lines.into_bytes(), "the second");
}

fn run(case: &Case, prng: &mut Prng) {
    match case.of(&case.values, "case", Json::text) {
        "read" => {
            read(case, prng);
            count(case, prng);
        }
        "session_read" => read(case, prng),
        "view" | "session_view" => view(case, prng),
        "time" => time(case, prng),
        "write" | "session_write" => write(case, prng),
        "settings_read" => settings_read(case, prng),
        "settings_write" => settings_write(case, prng),
        "unpack" => unpack(case, prng),
        "pack" => pack(case, prng),
        "list" => list(case, prng),
        "entry" => entry(case, prng),
        "entry_write" => entry_write(case, prng),
        "record" => record(case, prng),
        other => panic!("{}:{}: no case: {other}", case.file.display(), case.line),
    }
}

fn folder() -> PathBuf {
    match std::env::var_os("MOULT_VECTORS") {
        Some(folder) => folder.into(),
        None => Path::new(env!("CARGO_MANIFEST_DIR")).join("../../../tests/vectors"),
    }
}

fn files() -> Vec<PathBuf> {
    let folder = folder();
    let entries = fs::read_dir(&folder)
        .unwrap_or_else(|error| panic!("no recorded cases in {}: {error}", folder.display()));
    let paths = entries.map(|entry| entry.expect("the folder can be listed").path());
    paths
        .filter(|path| path.extension().is_some_and(|end| end == "jsonl"))
        .collect()
}

#[test]
fn recorded_cases() {
    let mut prng = Prng::new(71);
    let mut cases = 0;
    for file in files() {
        let text = fs::read_to_string(&file).expect("the file can be read");
        for (line, text) in (1..).zip(text.lines()) {
            let values =
                Json::of(text).unwrap_or_else(|| panic!("{}:{line}: not JSON", file.display()));
            let file = file.clone();
            run(&Case { file, line, values }, &mut prng);
            cases += 1;
        }
    }
    assert!(cases > 0, "no recorded cases in {}", folder().display());
    println!("{cases} recorded cases");
}
