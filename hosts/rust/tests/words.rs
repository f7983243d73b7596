//! Every refusal in words: why, and what its place says in the call that gave it.

use moult::{Call, Kind, Record, Refusal, Session, Settings, journal};

fn read(payload: &[u8], rows: usize, octets: usize) -> Refusal {
    moult::read(payload, &mut vec![0; rows], &mut vec![0; octets]).unwrap_err()
}

fn write(rows: &[u16], bodies: usize, out: usize) -> Refusal {
    moult::write(rows, &vec![0xFF; bodies], &mut vec![0; out]).unwrap_err()
}

#[track_caller]
fn says(refusal: Refusal, words: &str) {
    assert_eq!(refusal.to_string(), words);
}

#[test]
fn of_the_reader() {
    let end = ", payload octets up to that frame's end: ";
    let says = |payload: &[u8], words: &str, place: usize| {
        let words = format!("{words}{end}{place}");
        assert_eq!(read(payload, 0, 0).to_string(), words);
        assert_eq!(moult::packet_ticks(payload).unwrap_err().to_string(), words);
    };
    says(&[0; 6], "refusal 2: frame cut at the front", 6);
    says(&[0x82], "refusal 3: reserved or foreign bits set", 1);
    says(&[0, 255], "refusal 4: long count is 0", 2);
    says(&[0, 160, 0, 160], "refusal 6: comfort noise not last", 2);
    let bad_base = [64, 64, 64, 64, 64, 64, 64, 0, 1, 255];
    let words = "refusal 7: augmentation not behind a 2400 bps frame";
    says(&bad_base, words, 10);
    let mixed = [0, 0, 0, 0, 0, 0, 0, 0, 0, 0, 0, 0, 0, 64];
    says(&mixed, "refusal 8: rates mixed", 7);
}

#[test]
fn of_room() {
    says(
        read(&[0; 1401], 0, 0),
        "refusal 1: too long, at most 1400 octets are allowed",
    );
    says(
        read(&[0; 14], 3, 14),
        "refusal 9: number list too short, rows needed: 2",
    );
    says(
        read(&[0; 14], 4, 13),
        "refusal 10: octet buffer too short, octets needed: 14",
    );
}

#[test]
fn of_the_writer() {
    let row = " (from 0)";
    let cases: [(&[u16], usize, &str, &str); 7] = [
        (&[1], 0, "refusal 11: odd row list, its length: 1", ""),
        (
            &[1, 0, 9, 0],
            0,
            "refusal 12: unknown kind, rate, row or number of frames, at row 1",
            row,
        ),
        (
            &[1, 0, 1, 1],
            0,
            "refusal 13: TC wrong for the kind, at row 1",
            row,
        ),
        (
            &[4, 0, 1, 0],
            0,
            "refusal 6: comfort noise not last, at row 0",
            row,
        ),
        (&[1, 0, 3, 0], 0, "refusal 8: rates mixed, at row 1", row),
        (
            &[1, 0],
            6,
            "refusal 14: length wrong, octets needed in the bodies: 7",
            "",
        ),
        (
            &[1, 0],
            7,
            "refusal 3: reserved or foreign bits set, at octet 6 of the bodies",
            row,
        ),
    ];
    for (rows, bodies, words, more) in cases {
        says(write(rows, bodies, 0), &format!("{words}{more}"));
    }
    says(
        write(&[1; 402], 0, 0),
        "refusal 1: too long, at most 200 rows and 1400 octets are allowed",
    );
    let short = moult::write(&[1, 0], &[0; 7], &mut [0; 6]).unwrap_err();
    says(
        short,
        "refusal 10: octet buffer too short, octets needed: 7",
    );
}

/// Row 0 is not to blame for an agreed rate.
#[test]
fn of_a_session() {
    let words = "refusal 12: unknown kind, rate, row or number of frames";
    for rate in [0, 1200, 2401, u32::MAX] {
        let session = Session::Agreed(rate);
        let refusals = [
            moult::read_in(session, &[0; 1401], &mut [], &mut []).unwrap_err(),
            moult::write_in(session, &[9, 0, 1], &[], &mut []).unwrap_err(),
            moult::packet_ticks_in(session, &[0; 7]).unwrap_err(),
        ];
        for refusal in refusals {
            assert_eq!((refusal.call, refusal.place), (Call::Session, 0));
            says(refusal, words);
        }
    }
    let session = Session::Agreed(600);
    says(
        moult::write_in(session, &[9, 0], &[], &mut []).unwrap_err(),
        &format!("{words}, at row 0 (from 0)"),
    );
    says(
        moult::write_in(session, &[1, 0], &[], &mut []).unwrap_err(),
        "refusal 8: rates mixed, at row 0 (from 0)",
    );
    says(
        moult::write_in(session, &[3, 0], &[128; 7], &mut []).unwrap_err(),
        "refusal 3: reserved or foreign bits set, at octet 6 of the bodies (from 0)",
    );
    says(
        moult::read_in(
            session,
            &[64, 64, 64, 64, 64, 64, 64, 0, 1, 255],
            &mut [],
            &mut [],
        )
        .unwrap_err(),
        "refusal 8: rates mixed, payload octets up to that frame's end: 10",
    );
}

#[test]
fn of_time_and_settings() {
    let time = moult::ptime(2400, 0).unwrap_err();
    says(
        time,
        "refusal 12: unknown kind, rate, row or number of frames",
    );
    let wrong = "refusal 15: setting text or settings wrong";
    says("tcmax=".parse::<Settings>().unwrap_err(), wrong);
    for rates in [
        &[0][..],
        &[],
        &[2400, 0],
        &[600, 600],
        &[2400, 1200, 600, 600],
    ] {
        says(Settings::new(rates, 35).unwrap_err(), wrong);
    }
    let settings = Settings::new(&[600], 9).unwrap();
    let short = settings.write(&mut [0; 3]).unwrap_err();
    says(
        short,
        "refusal 10: octet buffer too short, octets needed: 19",
    );
}

#[test]
fn of_fields() {
    let unpack = |mode, body: &[u8]| moult::unpack(mode, body, &mut []).unwrap_err();
    let pack = |fields: &[u16]| moult::pack(1, fields, &mut []).unwrap_err();
    says(unpack(9, &[]), "refusal 16: mode not 1 to 3");
    says(
        unpack(1, &[]),
        "refusal 14: length wrong, octets needed in the body: 7",
    );
    says(
        unpack(1, &[64; 7]),
        "refusal 3: reserved or foreign bits set, at octet 6 of the body (from 0)",
    );
    says(
        unpack(1, &[0; 7]),
        "refusal 9: number list too short, fields needed: 11",
    );
    says(pack(&[]), "refusal 14: length wrong, fields needed: 11");
    let mut fields = [0; 11];
    says(
        pack(&fields),
        "refusal 10: octet buffer too short, octets needed: 7",
    );
    fields[10] = 128;
    says(
        pack(&fields),
        "refusal 17: field too large, at field 10 (from 0)",
    );
}

#[test]
fn of_the_journal() {
    let at = " of the journal (from 0)";
    let says = |octets: &[u8], words: &str, place: usize| {
        let last = journal::entries(octets).last().unwrap().unwrap_err();
        let words = format!("{words}, in the entry that begins at octet {place}{at}");
        assert_eq!(last.to_string(), words);
    };
    says(&[128, 0], "refusal 18: bad number", 0);
    says(&[0, 0, 0, 128, 0], "refusal 18: bad number", 3);
    says(&[0, 0, 1, 0, 5], "refusal 19: entry cut short", 4);
    says(&[0, 0, 0, 0, 0, 249, 10], "refusal 1: too long", 3);

    let write = |ticks, octets: usize| journal::write_entry(ticks, 0, &vec![0; octets], &mut []);
    let write = |ticks, octets| write(ticks, octets).unwrap_err().to_string();
    assert_eq!(write(1 << 32, 1401), "refusal 18: bad number");
    assert_eq!(
        write(0, 1401),
        "refusal 1: too long, at most 1400 octets are allowed"
    );
    assert_eq!(
        write(0, 1400),
        "refusal 10: octet buffer too short, octets needed: 1404"
    );
    let most = vec![0; moult::MAX_OCTETS];
    let top = u32::MAX.into();
    let needed = journal::write_entry(top, top, &most, &mut []).unwrap_err();
    assert_eq!(needed.place, moult::MAX_ENTRY);
}

/// Row 0 is not to blame for a row that is missing.
#[test]
fn of_a_record() {
    let unknown = "refusal 12: unknown kind, rate, row or number of frames";
    let mut record = Record::new();
    for missing in [
        record.pop().unwrap_err(),
        record.replace(0, Kind::Other(9), 0).unwrap_err(),
        record.row(0).unwrap_err(),
        record.start(usize::MAX).unwrap_err(),
    ] {
        assert_eq!((missing.call, missing.place), (Call::RecordRow, 0));
        says(missing, unknown);
    }
    let at_row_0 = format!("{unknown}, at row 0 (from 0)");
    says(record.push(Kind::Other(9), 0).unwrap_err(), &at_row_0);
    record.push(Kind::Rate2400, 0).unwrap();
    says(record.replace(0, Kind::Other(0), 0).unwrap_err(), &at_row_0);
    says(
        record.push(Kind::Rate2400, 1).unwrap_err(),
        "refusal 13: TC wrong for the kind, at row 1 (from 0)",
    );
    says(
        record.push(Kind::Rate600, 0).unwrap_err(),
        "refusal 8: rates mixed, at row 1 (from 0)",
    );
    record.push(Kind::ComfortNoise, 0).unwrap();
    says(
        record.push(Kind::Rate2400, 0).unwrap_err(),
        "refusal 6: comfort noise not last, at row 1 (from 0)",
    );
    let shown = format!("{record:?}");
    assert_eq!(shown, "Record [(Rate2400, 0, 0), (ComfortNoise, 0, 7)]");

    let limit = "refusal 1: too long, at most 200 rows and 1400 octets are allowed";
    record.pop().unwrap();
    for _ in 1..200 {
        record.push(Kind::Rate2400, 0).unwrap();
    }
    says(record.push(Kind::Other(9), 0).unwrap_err(), limit);
    says(record.replace(7, Kind::Tsvcis, 1).unwrap_err(), limit);
}
