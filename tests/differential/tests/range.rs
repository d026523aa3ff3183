//! Sequence numbers at the bounds of what may be asked for: below first a number is late, 17, and
//! above the end it is early, 18. What is expected is written out, or worked out from what observe
//! answered, so that core and second implementation agreeing is not enough.

use differential::call::{Answer, Call, Start};
use differential::fixture::{begin, core, names, plain_model, start, Tested};
use differential::pair::Pair;
use differential::polls::{Polls, EARLY, LATE};
use differential::under_test::UnderTest;
use differential::{damaged, lists, rng, settings, Counts};
use reference::{Clean, Core, Fault, FaultSet, Faults, Stores, Value};
use std::ops::RangeInclusive;

const END: u64 = 1 << 63;

/// A ring of N places and m items from B on, with so many values observed behind the start.
fn ring(core: &UnderTest, [n, m, b]: [u64; 3], observed: u64) -> Tested<'_> {
    let model = plain_model(m as u32, false);
    let mut session = begin(core, &start(&model, &names(&["Device"]), [n, 1, b], 1000));
    observe(&mut session, observed);
    session
}

/// So many values of item 0, none equal to the one before. Answers the numbers they got.
fn observe(session: &mut Tested, values: u64) -> Vec<u64> {
    (0..values)
        .map(|_| {
            let value = Value::Sample(session.machine.last() as i32);
            let number = session.observe(0, 2000, 0, value);
            assert!((1..END).contains(&number), "{number:#x}");
            number
        })
        .collect()
}

/// The answer of all three to a request with a reply buffer of so many words: the refusal's number, 0
/// where accepted.
fn answer(session: &mut Tested, text: &str, words: usize) -> u64 {
    let (call, before) = (request(text, words), stores(&session.pair));
    let answer = session.must(&call);
    unchanged(&session.pair, &before, &call, answer)
}

/// The same over a store that no list after a start leads to.
fn answer_over(pair: &mut Pair<UnderTest>, text: &str, words: usize) -> u64 {
    let (call, before) = (request(text, words), stores(pair));
    let answer = pair.call(&call).unwrap_or_else(|what| panic!("{call:?}: {what}"));
    unchanged(pair, &before, &call, answer)
}

fn request(text: &str, words: usize) -> Call {
    Call::Request { text: text.into(), reply: (0..words as u64).map(|word| !word).collect() }
}

fn stores(pair: &Pair<UnderTest>) -> (Vec<u64>, Vec<u8>) {
    (pair.expected_observations.clone(), pair.expected_assets.clone())
}

/// No request changes a store, and a refused one no word of the reply. Answers the refusal's number.
fn unchanged(pair: &Pair<UnderTest>, before: &(Vec<u64>, Vec<u8>), call: &Call, answer: Answer) -> u64 {
    assert!(stores(pair) == *before, "{call:?}");
    let Call::Request { reply, .. } = call else {
        panic!("{call:?} is no request");
    };
    let refusal = answer.refusal();
    if refusal != 0 {
        assert_eq!((answer, &pair.reply), (Answer::Pair(refusal, 0), reply), "{call:?}");
    }
    refusal
}

/// Words enough for every reply here.
const AMPLE: usize = 4 + 3 * 100;

/// A ring, and numbers that it holds and doesn't. 0 stands in none of the lists: as a start it means
/// first, as `at` it is late.
struct Ring {
    what: &'static str,
    /// N, m and B, and how many values are observed behind the start.
    sizes: [u64; 3],
    observed: u64,
    late: &'static [u64],
    /// From first to last.
    held: &'static [u64],
    /// last + 1: a start, and early as `at`.
    next: u64,
    early: &'static [u64],
}

const RINGS: [Ring; 11] = [
    Ring {
        what: "not wrapped, from 1 on",
        sizes: [8, 2, 1],
        observed: 2,
        late: &[],
        held: &[1, 2, 3, 4],
        next: 5,
        early: &[6, 7, 9, END - 1],
    },
    Ring {
        what: "not wrapped, from a large number on",
        sizes: [8, 2, 5_000_000_000],
        observed: 2,
        // With 2^32 less than first, and further down 2^32 more.
        late: &[1, 705_032_704, 4_999_999_998, 4_999_999_999],
        held: &[5_000_000_000, 5_000_000_001, 5_000_000_002, 5_000_000_003],
        next: 5_000_000_004,
        early: &[5_000_000_005, 5_000_000_008, 9_294_967_296],
    },
    Ring {
        what: "full, and not wrapped",
        sizes: [4, 2, 1],
        observed: 2,
        late: &[],
        held: &[1, 2, 3, 4],
        next: 5,
        early: &[6, 7],
    },
    Ring {
        what: "wrapped by one",
        sizes: [4, 2, 1],
        observed: 3,
        late: &[1],
        held: &[2, 3, 4, 5],
        next: 6,
        early: &[7, 8],
    },
    Ring {
        what: "wrapped several times",
        sizes: [3, 2, 1],
        observed: 7,
        late: &[1, 2, 3, 4, 5, 6],
        held: &[7, 8, 9],
        next: 10,
        early: &[11, 12, END - 1],
    },
    Ring {
        what: "wrapped, from a large number on",
        sizes: [3, 2, 9_000_000_000],
        observed: 4,
        late: &[1, 8_999_999_999, 9_000_000_000, 9_000_000_001, 9_000_000_002],
        held: &[9_000_000_003, 9_000_000_004, 9_000_000_005],
        next: 9_000_000_006,
        early: &[9_000_000_007, 9_000_000_008],
    },
    Ring { what: "one place", sizes: [1, 1, 1], observed: 0, late: &[], held: &[1], next: 2, early: &[3, 4] },
    Ring {
        what: "one place, overwritten",
        sizes: [1, 1, 1],
        observed: 1,
        late: &[1],
        held: &[2],
        next: 3,
        early: &[4, 5],
    },
    Ring {
        what: "fewer places than items, overwritten by the start itself",
        sizes: [2, 5, 10],
        observed: 0,
        late: &[1, 9, 10, 11, 12],
        held: &[13, 14],
        next: 15,
        early: &[16, 17],
    },
    Ring {
        what: "one number left",
        sizes: [3, 2, END - 4],
        observed: 1,
        late: &[1, END - 6, END - 5],
        held: &[END - 4, END - 3, END - 2],
        next: END - 1,
        early: &[],
    },
    Ring {
        what: "no number left",
        sizes: [3, 2, END - 4],
        observed: 2,
        late: &[1, END - 5, END - 4],
        held: &[END - 3, END - 2, END - 1],
        next: END,
        early: &[],
    },
];

#[test]
fn numbers_around_both_bounds() {
    let core = core();
    for Ring { what, sizes, observed, late, held, next, early } in RINGS {
        let mut session = ring(&core, sizes, observed);
        let ends = [held[0], held[held.len() - 1], next];
        assert_eq!(session.ask("/current").unwrap()[1..4], ends, "{what}");
        let mut judged = |number: u64, start: u64, at: u64| {
            for (text, expected) in [("/sample?from=", start), ("/current?at=", at)] {
                // No text can give a number above 2^63 - 1.
                let expected = if number < END { expected } else { 8 };
                let text = format!("{text}{number}");
                assert_eq!(answer(&mut session, &text, AMPLE), expected, "{what}: {text}");
            }
        };
        judged(0, 0, LATE);
        late.iter().for_each(|&number| judged(number, LATE, LATE));
        held.iter().for_each(|&number| judged(number, 0, 0));
        judged(next, 0, EARLY);
        early.iter().for_each(|&number| judged(number, EARLY, EARLY));
        judged(END, EARLY, EARLY);
    }
}

/// No number and 0 mean first, which is never out of range.
#[test]
fn no_start_and_zero_mean_first() {
    let core = core();
    for Ring { what, sizes, observed, held, .. } in RINGS {
        let mut session = ring(&core, sizes, observed);
        let plain = session.ask("/sample").unwrap();
        let first = held[0];
        assert_eq!(plain[4], first, "{what}");
        for start in ["from=0".into(), "from=000".into(), format!("from={first}")] {
            assert_eq!(session.ask(format!("/sample?{start}")).unwrap(), plain, "{what}: {start}");
        }
    }
}

/// Each number around what is held, at each step of small rings. What is held are the newest N of the
/// numbers that observe answered.
#[test]
fn every_number_while_a_ring_turns() {
    let core = core();
    for n in 1..=4 {
        for m in [1, 2, 3, 5] {
            for b in [1, 2, 7, 1000] {
                let mut session = ring(&core, [n, m, b], 0);
                let mut recorded: Vec<u64> = (b..b + m).collect();
                for _ in 0..3 * n {
                    ask_around(&mut session, &recorded[recorded.len().saturating_sub(n as usize)..]);
                    recorded.extend(observe(&mut session, 1));
                }
            }
        }
    }
}

fn ask_around(session: &mut Tested, held: &[u64]) {
    let (first, last) = (held[0], held[held.len() - 1]);
    let judged = |number: u64, end: u64| match number {
        _ if number < first => LATE,
        _ if number > end => EARLY,
        _ => 0,
    };
    for number in (0..4).chain(first.saturating_sub(3)..=last + 4) {
        let start = if number == 0 { first } else { number };
        for count in ["", "&count=1"] {
            let text = format!("/sample?from={number}{count}");
            assert_eq!(session.ask(&text).err().unwrap_or(0), judged(start, last + 1), "{held:?}: {text}");
        }
        let text = format!("/current?at={number}");
        assert_eq!(session.ask(&text).err().unwrap_or(0), judged(number, last), "{held:?}: {text}");
    }
}

// The order of the refusals.

/// Components Device and Axes; AVAILABILITY is Device's, POSITION is that of Axes.
const MODEL: [u32; 6] = [2, 2, 0, 1, 65_538, 259];

fn model_names() -> Vec<u8> {
    names(&["Device", "Axes", "AVAILABILITY", "POSITION"])
}

/// Three places, with 7 to 9 of the numbers from 1 on: 6 is late, 11 is early as a start, 10 as `at`.
fn seven_to_nine(core: &UnderTest) -> Tested<'_> {
    let mut session = begin(core, &start(&MODEL, &model_names(), [3, 1, 1], 1000));
    positions(&mut session, 3..=9);
    session
}

const NONE_SELECTED: &str = "path=//Axes//DataItem[@type=\"AVAILABILITY\"]";
const ONE_SELECTED: &str = "path=//Device//DataItem[@type=\"AVAILABILITY\"]";

/// What a text may have besides a number that is out of range, with the refusal that this brings: 0
/// where it brings none, and the number is what is refused.
const ADDED_TO_SAMPLE: [(&str, u64); 19] = [
    ("count=1\x20", 7),
    ("from=8", 8),
    ("count=0", 8),
    ("count=x", 8),
    ("at=8", 8),
    ("interval=x", 8),
    ("interval=5&count=0", 8),
    ("interval=5", 9),
    ("interval=5&count=4&path=//No", 9),
    ("count=4", 10),
    ("count=4&path=//No", 10),
    ("count=9223372036854775807", 10),
    ("path=//No", 11),
    ("path=", 11),
    (NONE_SELECTED, 11),
    ("count=3", 0),
    ("count=1", 0),
    ("path=//Axes", 0),
    (ONE_SELECTED, 0),
];

const ADDED_TO_CURRENT: [(&str, u64); 9] = [
    ("path=//Axes\x7f", 7),
    ("count=1", 8),
    ("interval=5", 8),
    ("interval=5&path=//No", 8),
    ("path=//No", 11),
    ("path=", 11),
    (NONE_SELECTED, 11),
    ("path=//Axes", 0),
    (ONE_SELECTED, 0),
];

/// Late and early come behind the refusals of text, count and path, and ahead of that of the space.
#[test]
fn late_and_early_in_their_place() {
    let core = core();
    let mut session = seven_to_nine(&core);
    for out in [("from=1", LATE), ("from=6", LATE), ("from=11", EARLY), ("from=9223372036854775807", EARLY)] {
        in_place(&mut session, "/sample", out, &ADDED_TO_SAMPLE);
    }
    for out in [("at=0", LATE), ("at=6", LATE), ("at=10", EARLY), ("at=9223372036854775807", EARLY)] {
        in_place(&mut session, "/current", out, &ADDED_TO_CURRENT);
    }
    // In range the space is all that is left to refuse.
    for text in ["/sample?from=7", "/sample?from=10", "/current?at=7", "/current?at=9"] {
        assert_eq!((answer(&mut session, text, 3), answer(&mut session, text, AMPLE)), (15, 0), "{text}");
    }
}

/// A number that is out of range with each addition, in both orders.
fn in_place(session: &mut Tested, word: &str, (number, refusal): (&str, u64), additions: &[(&str, u64)]) {
    for &(added, own) in additions {
        let expected = if own == 0 { refusal } else { own };
        for text in [format!("{word}?{number}&{added}"), format!("{word}?{added}&{number}")] {
            for words in [0, 3, 4, AMPLE] {
                assert_eq!(answer(session, &text, words), expected, "{text} into {words}");
            }
        }
    }
}

/// Model and heads come ahead of everything else.
#[test]
fn model_and_heads_come_first() {
    let core = core();
    let session = seven_to_nine(&core);
    let sound = Start {
        observations: session.pair.expected_observations.clone(),
        assets: session.pair.expected_assets.clone(),
        ..start(&MODEL, &model_names(), [3, 1, 1], 1000)
    };
    type Change = fn(&mut Start);
    let changes: [(Change, u64); 7] = [
        (|start| start.model[0] = 0, 1),
        (|start| start.names[0] = b'-', 1),
        // m, B and last of the head, the store's length, and the other store's head.
        (|start| start.observations[1] = 1, 2),
        (|start| start.observations[2] = 0, 2),
        (|start| start.observations[3] = END, 2),
        (|start| start.observations.push(0), 2),
        (|start| start.assets[1] = 2, 2),
    ];
    for (text, in_turn) in [
        ("/sample?from=6", LATE),
        ("/sample?from=11", EARLY),
        ("/current?at=0", LATE),
        ("/current?at=6", LATE),
        ("/current?at=10", EARLY),
    ] {
        assert_eq!(answer_over(&mut Pair::over(&core, sound.clone()), text, 40), in_turn, "{text}");
        for (change, expected) in changes {
            let mut changed = sound.clone();
            change(&mut changed);
            assert_eq!(answer_over(&mut Pair::over(&core, changed), text, 40), expected, "{text}");
        }
    }
}

// Stores that start did not make.

/// A store of this head, N, m, B and last, with all its bits set behind it: no ring entry is sound, and
/// the tables of latest values and checkpoints name numbers that were never given.
fn own_made([n, m, b, last]: [u64; 4]) -> Start {
    let mut made = start(&plain_model(m as u32, false), &names(&["Device"]), [n, 1, b], 0);
    made.observations.fill(u64::MAX);
    made.observations[..4].copy_from_slice(&[n, m, b, last]);
    made.assets.fill(0);
    made.assets[0] = 1;
    made
}

type Answers = &'static [(&'static str, u64)];

const OWN_MADE: [([u64; 4], Answers); 4] = [
    (
        [4, 3, 1, 6],
        &[
            ("/sample?from=2", LATE),
            ("/sample?from=3", 2),
            ("/sample?from=6", 2),
            ("/sample?from=8", EARLY),
            ("/current?at=0", LATE),
            ("/current?at=2", LATE),
            ("/current?at=3", 2),
            ("/current?at=6", 2),
            ("/current?at=7", EARLY),
        ],
    ),
    (
        [4, 3, 1000, 1002],
        &[
            ("/sample?from=999", LATE),
            ("/sample?from=1000", 2),
            ("/sample?from=1004", EARLY),
            ("/current?at=999", LATE),
            ("/current?at=1000", 2),
            ("/current?at=1002", 2),
            ("/current?at=1003", EARLY),
        ],
    ),
    (
        [131_072, 64, 1, 64],
        &[
            ("/sample?from=0", 2),
            ("/sample?from=1", 2),
            ("/sample?from=66", EARLY),
            ("/current?at=0", LATE),
            ("/current?at=64", 2),
            ("/current?at=65", EARLY),
        ],
    ),
    (
        [4, 3, 1, END - 1],
        &[
            ("/sample?from=1", LATE),
            ("/sample?from=9223372036854775803", LATE),
            ("/sample?from=9223372036854775804", 2),
            ("/sample?from=9223372036854775807", 2),
            ("/current?at=9223372036854775803", LATE),
            ("/current?at=9223372036854775804", 2),
            ("/current?at=9223372036854775807", 2),
        ],
    ),
];

/// The head alone says what is late and early: nothing behind it is looked at before.
#[test]
fn late_and_early_over_a_ring_of_bad_entries() {
    let core = core();
    for (head, answers) in OWN_MADE {
        let mut pair = Pair::over(&core, own_made(head));
        for &(text, expected) in answers {
            for words in [0, 4, AMPLE] {
                assert_eq!(answer_over(&mut pair, text, words), expected, "{head:?}: {text} into {words}");
            }
        }
        // From last + 1 nothing is considered, and no entry is read.
        if head[3] < END - 1 {
            let text = format!("/sample?from={}", head[3] + 1);
            assert_eq!(answer_over(&mut pair, &text, 3), 15, "{head:?}: {text}");
            assert_eq!(answer_over(&mut pair, &text, 4), 0, "{head:?}: {text}");
        }
    }
}

// Clients.

/// Requests to a ring of four that holds 3 to 6, with the next number each gives, and how many
/// observations later that number has been overwritten.
const GIVES_NEXT: [(&str, u64, u64); 7] = [
    ("/sample", 7, 5),
    ("/sample?from=7", 7, 5),
    ("/sample?from=3&count=2", 5, 3),
    ("/sample?count=1&path=//Device//DataItem[@type=\"AVAILABILITY\"]", 4, 2),
    ("/current", 7, 5),
    ("/current?at=3", 7, 5),
    ("/current?path=//Axes", 7, 5),
];

/// What a poll may ask for besides its start.
const ASKED: [&str; 5] =
    ["", "&count=1", "&count=4", "&path=//Axes&count=2", "&path=//Device//DataItem[@type=\"AVAILABILITY\"]"];

/// A client's first poll after its number was overwritten is late, whatever it asks for; up to then it
/// is neither late nor early.
#[test]
fn a_client_is_late_once_its_number_is_overwritten() {
    let core = core();
    for (text, next, late_after) in GIVES_NEXT {
        for missed in 0..12 {
            let mut session = begin(&core, &start(&MODEL, &model_names(), [4, 1, 1], 1000));
            positions(&mut session, 3..=6);
            assert_eq!(session.ask(text).unwrap()[1..4], [3, 6, next], "{text}");
            positions(&mut session, 7..=6 + missed);
            let [into_ample, into_three] = if missed >= late_after { [LATE, LATE] } else { [0, 15] };
            for asked in ASKED {
                let poll = format!("/sample?from={next}{asked}");
                assert_eq!(answer(&mut session, &poll, AMPLE), into_ample, "{missed} behind {text}: {poll}");
                assert_eq!(answer(&mut session, &poll, 3), into_three, "{missed} behind {text}: {poll}");
            }
            // Current gives it a number to go on from.
            assert_eq!(session.ask("/current").unwrap()[3], 7 + missed);
            assert!(session.ask(format!("/sample?from={}", 7 + missed)).is_ok());
        }
    }
}

/// Observes positions, each of which gets the number given.
fn positions(session: &mut Tested, numbers: RangeInclusive<u64>) {
    for number in numbers {
        assert_eq!(session.observe(1, number, 0, Value::Sample(number as i32)), number);
    }
}

/// A client that is level, then misses one observation, two, and so on, before the rule about polls
/// alone: nothing else looks at the answers.
fn polls_of<F: FaultSet>(faults: F) -> Result<(), String> {
    let stores = Stores::new(faults);
    let Start { model, names, mut observations, mut assets, n, a, b, host } =
        start(&MODEL, &model_names(), [4, 1, 1], 1000);
    Core::start(&stores, &model, &names, &mut observations, &mut assets, n, a, b, host);
    let (mut polls, mut last) = (Polls::default(), 2);
    let mut next = None;
    for missed in 0..12 {
        let text = next.map_or("/current".into(), |next| format!("/sample?from={next}&count=4"));
        let mut reply = vec![0; AMPLE];
        let pair =
            Core::request(&stores, &model, &names, &observations, &assets, text.as_bytes(), &mut reply);
        polls.take(text.as_bytes(), Answer::Pair(pair.0, pair.1), &reply, [n, last])?;
        next = (pair.0 == 0).then_some(reply[3]);
        for _ in 0..missed {
            last += 1;
            let value = (1 << 32) + last;
            Core::observe(&stores, &model, &names, &mut observations, 1, last, 0, value);
        }
    }
    assert!(polls.late > 0 && polls.in_time > 0);
    Ok(())
}

#[test]
fn the_rule_about_polls_tells_faults_by_itself() {
    assert_eq!(polls_of(Clean), Ok(()));
    let faults = [
        Fault::OverwrittenStartMoved,
        Fault::PartlyLostStartMoved,
        Fault::LateAndEarlyExchanged,
        Fault::AllEarly,
        Fault::LateAsTwelve,
        Fault::FirstLate,
        Fault::OverwrittenEarly,
        Fault::RangeFromOrigin,
        Fault::EmptyTailRefused,
        Fault::FirstTooLow,
        Fault::FirstTooHigh,
        Fault::NextBeyondLast,
    ];
    for fault in faults {
        assert!(polls_of(Faults::from(fault)).is_err(), "{fault:?}");
    }
}

// The number that is no longer given.

#[test]
fn twelve_is_no_refusal() {
    let twelve = END + 12;
    for (answer, words) in [
        (Answer::Pair(12, 0), &[][..]),
        (Answer::Word(twelve), &[]),
        (Answer::Pair(0, 1), &[twelve]),
        (Answer::Pair(0, 3), &[1, 0, twelve]),
    ] {
        assert!(answer.in_use(words).is_err(), "{answer:?} {words:?}");
    }
    // Twelve rows, the number 12, a body of 12 bytes, and what stood behind the words given.
    for (answer, words) in [
        (Answer::Pair(0, 12), &[][..]),
        (Answer::Word(12), &[]),
        (Answer::Part(12, 12), &[]),
        (Answer::Pair(0, 1), &[12, twelve]),
        (Answer::Pair(15, 0), &[twelve]),
    ] {
        assert_eq!(answer.in_use(words), Ok(answer), "{words:?}");
    }
}

/// The random lists look for it in every answer, also where nothing is compared yet.
#[test]
fn twelve_is_noticed_in_the_lists() {
    for fault in [Fault::LateAsTwelve, Fault::EarlyAsTwelve] {
        let core = Stores::new(Faults::from(fault));
        let seeds = || (0..100).map(|list| rng::list_seed(settings::seed(), list));
        let in_lists = seeds().find_map(|seed| lists::run(&core, Clean, seed, &mut Counts::default()).err());
        let in_damaged = seeds().find_map(|seed| damaged::run(&core, seed, &mut Counts::default()).err());
        for found in [in_lists, in_damaged] {
            let what = found.expect("12 is answered").what;
            assert!(what.contains("12, which no refusal has"), "{fault:?}: {what}");
        }
    }
}
