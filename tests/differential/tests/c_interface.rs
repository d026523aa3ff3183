//! What only the archive's C interface can show: pointers of empty slices, and the wrapper's
//! enums over the interface's words.
#![cfg(feature = "archive")]

use differential::fixture::{names, plain_model};
use differential::rng::Rng;
use differential::{offers, settings};
use mtcore::ffi::raw;
use mtcore::{Level, Observed, Record, Refusal, Sizes, Value};
use std::ptr::{null, null_mut, NonNull};

const END: u64 = 1 << 63;

/// An empty slice is NULL and 0, or any pointer and 0.
#[test]
fn pointers_of_empty_slices() {
    let words: [*const u32; 2] = [null(), NonNull::dangling().as_ptr()];
    let bytes: [*const u8; 2] = [null(), NonNull::dangling().as_ptr()];
    let ring: [*mut u64; 2] = [null_mut(), NonNull::dangling().as_ptr()];
    let cells: [*mut u8; 2] = [null_mut(), NonNull::dangling().as_ptr()];
    let records: [*const Record; 2] = [null(), NonNull::dangling().as_ptr()];
    for kind in 0..2 {
        let (w, b, r, c, l) = (words[kind], bytes[kind], ring[kind], cells[kind], records[kind]);
        // SAFETY: every length is 0.
        unsafe {
            let answer = raw::mtcore_start(w, 0, b, 0, r, 0, c, 0, 1, 1, 1, 1);
            assert_eq!((answer.number, answer.count), (1, 0));
            assert_eq!(raw::mtcore_observe(w, 0, b, 0, r, 0, 0, 1, 1, 0), END + 1);
            let answer = raw::mtcore_observe_batch(w, 0, b, 0, r, 0, l, 0, 1, r, 0);
            assert_eq!((answer.number, answer.count), (1, 0));
            assert_eq!(raw::mtcore_read_line(w, 0, b, 0, r, 0, b, 0, 1), END + 1);
            let answer = raw::mtcore_write_line(w, 0, b, 0, 0, 0, 0, c, 0);
            assert_eq!((answer.number, answer.count), (1, 0));
            let answer = raw::mtcore_streams(w, 0, b, 0, r.cast_const(), 0, 1, 1, 1, c, 0);
            assert_eq!((answer.number, answer.count), (1, 0));
            assert_eq!(raw::mtcore_store_asset(w, 0, b, 0, r, 0, c, 0, b, 0, b, 0, 1), END + 1);
            let answer = raw::mtcore_request(w, 0, b, 0, r, 0, c, 0, b, 0, r, 0);
            assert_eq!((answer.number, answer.count), (1, 0));
            assert_eq!(raw::mtcore_body(c, 0, b, 0).length, 0);
        }
    }
}

/// The same with a sound model, so that the later slices are reached.
#[test]
fn empty_stores_texts_and_replies() {
    let (model, names) = (plain_model(2, true), names(&["Device"]));
    let mut observations = vec![0; mtcore::observation_words(2, 2)];
    let mut assets = vec![0; mtcore::asset_bytes(1)];
    let sizes = Sizes { places: 2, cells: 1, origin: 1 };
    assert_eq!(mtcore::start(&model, &names, &mut [], &mut [], sizes, 1), Err(Refusal::Size));
    mtcore::start(&model, &names, &mut observations, &mut assets, sizes, 1).unwrap();
    let observed = mtcore::observe(&model, &names, &mut [], 0, 1, 1, Value::Unavailable);
    assert_eq!(observed, Err(Refusal::Store));
    let ask =
        |text: &[u8], reply: &mut [u64]| mtcore::request(&model, &names, &observations, &assets, text, reply);
    assert_eq!(ask(b"", &mut [0; 9]), Err(Refusal::InvalidUri));
    assert_eq!(ask(b"/assets", &mut []), Err(Refusal::Space));
    assert_eq!(mtcore::body(&assets, b""), None);
    assert_eq!(mtcore::body(&[], b"T"), None);
    let stored = mtcore::store_asset(&model, &names, &mut observations, &mut assets, b"", b"", 1);
    assert_eq!(stored, Err(Refusal::Asset));
}

/// An empty list and an empty answer buffer, over a sound store and over an empty one.
#[test]
fn empty_deliveries() {
    let (model, names) = (plain_model(2, true), names(&["Device"]));
    let mut observations = vec![0; mtcore::observation_words(2, 2)];
    let mut assets = vec![0; mtcore::asset_bytes(1)];
    let sizes = Sizes { places: 2, cells: 1, origin: 1 };
    mtcore::start(&model, &names, &mut observations, &mut assets, sizes, 1).unwrap();
    let record = Record { item: 0, time: 1, value: 1 << 32 };
    let batch = |store: &mut [u64], records: &[Record], answers: &mut [u64]| {
        let answer = mtcore::ffi::observe_batch(&model, &names, store, records, 1, answers);
        (answer.number, answer.count)
    };
    assert_eq!(batch(&mut observations, &[], &mut []), (0, 0));
    assert_eq!(batch(&mut observations, &[], &mut [9]), (0, 0));
    assert_eq!(batch(&mut observations, &[record], &mut []), (15, 0));
    assert_eq!(batch(&mut observations, &[record; 257], &mut []), (16, 0));
    assert_eq!(batch(&mut [], &[], &mut []), (2, 0));
    assert_eq!(batch(&mut [], &[record], &mut [9]), (2, 0));
    // Pointers of the empty list and buffer.
    let (m, n, s) = (model.as_ptr(), names.as_ptr(), observations.as_mut_ptr());
    let (m_len, n_len, s_len) = (model.len(), names.len(), observations.len());
    for list in [null(), NonNull::<Record>::dangling().as_ptr().cast_const()] {
        for room in [null_mut(), NonNull::dangling().as_ptr()] {
            // SAFETY: three whole slices, and two empty ones.
            let answer =
                unsafe { raw::mtcore_observe_batch(m, m_len, n, n_len, s, s_len, list, 0, 1, room, 0) };
            assert_eq!((answer.number, answer.count), (0, 0));
        }
    }
}

/// An empty line and an empty text, and lines over an empty store.
#[test]
fn empty_lines() {
    let (model, names) = (plain_model(2, true), names(&["Device"]));
    let mut observations = vec![0; mtcore::observation_words(2, 2)];
    let mut assets = vec![0; mtcore::asset_bytes(1)];
    let sizes = Sizes { places: 2, cells: 1, origin: 1 };
    mtcore::start(&model, &names, &mut observations, &mut assets, sizes, 1).unwrap();
    let mut read = |line: &[u8]| mtcore::read_line(&model, &names, &mut observations, line, 1);
    assert_eq!(read(b"").map_err(Refusal::number), Err(20));
    assert_eq!(read(b"|0|5"), Ok(Observed::Recorded(3)));
    assert_eq!(read(b"|0|5.0"), Ok(Observed::Same));
    assert_eq!(read(b"2001-02-29T00:00:00.000Z|0|5").map_err(Refusal::number), Err(21));
    for line in [&b""[..], b"|0|5"] {
        assert_eq!(mtcore::read_line(&model, &names, &mut [], line, 1), Err(Refusal::Store));
    }
    let mut text = [7; 5];
    let five = Value::Sample(5000);
    assert_eq!(mtcore::write_line(&model, &names, 0, 0, five, &mut []), Err(Refusal::Space));
    assert_eq!(mtcore::write_line(&model, &names, 0, 0, five, &mut text[..3]), Err(Refusal::Space));
    assert_eq!(text, [7; 5]);
    assert_eq!(mtcore::write_line(&model, &names, 0, 0, five, &mut text), Ok(4));
    assert_eq!(&text, b"|0|5\x07");
    let late = mtcore::write_line(&model, &names, 0, u64::MAX, five, &mut text);
    assert_eq!(late.map_err(Refusal::number), Err(21));
}

/// An empty reply and an empty text, by the wrapper and by pointers; the wrapper tells the bytes.
#[test]
fn empty_documents() {
    let (model, names) = (plain_model(2, true), names(&["Device"]));
    let streams = |reply: &[u64], time, text: &mut [u8]| {
        mtcore::streams(&model, &names, reply, 2, 1, time, text).map_err(Refusal::number)
    };
    let none = [0, 1, 2, 3];
    let mut text = [7; 400];
    assert_eq!(streams(&[], u64::MAX, &mut []), Err(2));
    assert_eq!(streams(&none, u64::MAX, &mut []), Err(21));
    assert_eq!(streams(&none, 5, &mut []), Err(15));
    assert_eq!(text, [7; 400]);
    let bytes = streams(&none, 5, &mut text).unwrap() as usize;
    assert!(text[..bytes].starts_with(b"<?xml ") && text[..bytes].ends_with(b"</MTConnectStreams>\n"));
    assert!(text[bytes..].iter().all(|&byte| byte == 7));
    let mut exact = vec![7; bytes];
    assert_eq!(streams(&none, 5, &mut exact[..bytes - 1]), Err(15));
    assert_eq!(streams(&none, 5, &mut exact), Ok(bytes as u64));
    assert_eq!(exact, text[..bytes]);
    let (m, n) = (model.as_ptr(), names.as_ptr());
    let (m_len, n_len) = (model.len(), names.len());
    for reply in [null(), NonNull::<u64>::dangling().as_ptr().cast_const()] {
        for room in [null_mut(), NonNull::dangling().as_ptr()] {
            // SAFETY: whole slices, and empty ones.
            unsafe {
                let answer = raw::mtcore_streams(m, m_len, n, n_len, reply, 0, 2, 1, 5, room, 0);
                assert_eq!((answer.number, answer.count), (2, 0));
                let answer = raw::mtcore_streams(m, m_len, n, n_len, none.as_ptr(), 4, 2, 1, 5, room, 0);
                assert_eq!((answer.number, answer.count), (15, 0));
            }
        }
    }
}

/// The wrapper's results say what the words say.
#[test]
fn results_and_words_agree() {
    let (model, names) = (plain_model(4, true), names(&["Device"]));
    let mut observations = vec![0; mtcore::observation_words(3, 4)];
    let mut assets = vec![0; mtcore::asset_bytes(2)];
    let sizes = Sizes { places: 3, cells: 2, origin: 1 };
    mtcore::start(&model, &names, &mut observations, &mut assets, sizes, 1).unwrap();
    let mut rng = Rng::new(settings::seed());
    for step in 0..20_000 {
        let item = rng.below(5);
        let word = offers::value(&mut rng, (item % 3) as u32);
        let Some(value) = Value::from_word(word) else {
            continue;
        };
        assert_eq!(value.word(), word);
        let mut copy = observations.clone();
        let raw = mtcore::ffi::observe(&model, &names, &mut copy, item, step, step, word);
        let result = mtcore::observe(&model, &names, &mut observations, item, step, step, value);
        let expected = match raw {
            0 => Ok(Observed::Same),
            word if word < END => Ok(Observed::Recorded(word)),
            word => Err(Refusal::from_number(word - END).unwrap()),
        };
        assert_eq!((result, &observations), (expected, &copy));
    }
}

/// A native code that does not fit cannot pass for another level.
#[test]
fn wide_native_codes_are_refused() {
    let (model, names) = ([1, 1, 0, 2 * 65_536], names(&["SYSTEM"]));
    let mut observations = vec![0; mtcore::observation_words(3, 1)];
    let mut assets = vec![0; mtcore::asset_bytes(1)];
    let sizes = Sizes { places: 3, cells: 1, origin: 1 };
    mtcore::start(&model, &names, &mut observations, &mut assets, sizes, 1).unwrap();
    let mut observe = |value| mtcore::observe(&model, &names, &mut observations, 0, 1, 1, value);
    for level in [Level::Normal, Level::Warning, Level::Fault] {
        for code in [1 << 24, 2 << 24, (1 << 24) + 1, u32::MAX] {
            assert_eq!(observe(Value::Condition(level, code)), Err(Refusal::Kind));
        }
    }
    let largest = (1 << 24) - 1;
    assert_eq!(observe(Value::Condition(Level::Normal, largest)), Ok(Observed::Same));
    assert_eq!(observe(Value::Condition(Level::Warning, largest)), Ok(Observed::Recorded(2)));
    assert_eq!(observe(Value::Condition(Level::Normal, largest)), Ok(Observed::Recorded(3)));
}

/// Eight codes stand on an item, through the wrapper's own sizes; a ninth has its refusal's name.
#[test]
fn a_ninth_code_by_its_name() {
    let (model, names) = ([1, 1, 0, 2 * 65_536], names(&["SYSTEM"]));
    let mut observations = vec![0; mtcore::observation_words(3, 1)];
    assert_eq!(observations.len(), 4 + 2 * 3 + 48);
    let mut assets = vec![0; mtcore::asset_bytes(1)];
    let sizes = Sizes { places: 3, cells: 1, origin: 1 };
    mtcore::start(&model, &names, &mut observations, &mut assets, sizes, 1).unwrap();
    let mut observe = |level, code| {
        mtcore::observe(&model, &names, &mut observations, 0, 1, 1, Value::Condition(level, code))
    };
    for code in 1..=8 {
        assert_eq!(observe(Level::Warning, code), Ok(Observed::Recorded(1 + u64::from(code))));
    }
    assert_eq!(observe(Level::Fault, 9), Err(Refusal::Crowded));
    assert_eq!(observe(Level::Normal, 9), Ok(Observed::Same));
    assert_eq!((Refusal::Crowded.number(), Refusal::from_number(19)), (19, Some(Refusal::Crowded)));
}
