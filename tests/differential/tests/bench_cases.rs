//! The twelve bench cases: through the calls, and through the program.

use differential::fixture::{begin, core, names, start, Tested};
use reference::Value;

const MODEL: [u32; 6] = [2, 2, 0, 1, 65_538, 259];

/// Name, request text, and the refusal's number or the reply's words.
type Case = (&'static str, &'static str, Result<&'static [u64], u64>);

const CASES: [Case; 12] = [
    (
        "C1",
        "/sample",
        Ok(&[3, 2, 4, 5, 2, 3, 4, 1000, 1_099_511_627_776, 1010, 1_103_806_600_072, 1030, 1_108_101_562_367]),
    ),
    ("C2", "/current?at=2", Ok(&[2, 2, 4, 5, 1, 2, 1000, 0, 1000, 1_099_511_627_776])),
    ("C3", "/current?path=//Axes", Ok(&[1, 2, 4, 5, 4, 1030, 1_108_101_562_367])),
    ("C4", "/sample?from=5", Ok(&[0, 2, 4, 5])),
    ("C5 above", "/sample?from=6", Err(18)),
    ("C5 below", "/sample?from=1", Err(17)),
    (
        "C6 at N",
        "/sample?count=3",
        Ok(&[3, 2, 4, 5, 2, 3, 4, 1000, 1_099_511_627_776, 1010, 1_103_806_600_072, 1030, 1_108_101_562_367]),
    ),
    ("C6 above N", "/sample?count=4", Err(10)),
    ("C7", "/sample?count=0", Err(8)),
    ("C8", "/current?at=1", Err(17)),
    ("C9", "/sample?from=2&count=1&path=//Device//DataItem[@type=\"AVAILABILITY\"]", Ok(&[0, 2, 4, 3])),
    ("C10", "/assets", Ok(&[0, 0, 1, 0])),
];

/// The cases' start and its three observes.
fn prepared(core: &differential::under_test::UnderTest) -> Tested<'_> {
    let names = names(&["Device", "Axes", "AVAILABILITY", "POSITION"]);
    let mut session = begin(core, &start(&MODEL, &names, [3, 1, 1], 1000));
    assert_eq!(session.observe(1, 1010, 1010, Value::Sample(5000)), 3);
    assert_eq!(session.observe(1, 1020, 1020, Value::Sample(5000)), 0);
    assert_eq!(session.observe(1, 0, 1030, Value::Sample(-1)), 4);
    session
}

#[test]
fn cases_through_the_calls() {
    let core = core();
    let mut session = prepared(&core);
    for (name, text, expected) in CASES {
        assert_eq!(session.ask(text), expected.map(<[u64]>::to_vec), "{name} {text}");
    }
}

/// The store behind them has 106 words, and these of them are not 0.
#[test]
fn the_cases_store() {
    let core = core();
    let session = prepared(&core);
    let words = &session.pair.expected_observations;
    assert_eq!(words.len(), 106);
    assert_eq!(words[..4], [3, 2, 1, 4]);
    assert_eq!(words[4..7], [1030, 1000, 1010]);
    assert_eq!(words[7..10], [1_108_101_562_367, 1_099_511_627_776, 1_103_806_600_072]);
    let entries: Vec<(usize, u64)> = (10..106).map(|at| (at, words[at])).filter(|word| word.1 != 0).collect();
    let latest = [(10, 1), (18, 4), (26, 1000), (34, 1030), (50, 1_108_101_562_367)];
    assert_eq!(entries, [&latest[..], &[(58, 1), (74, 1000)]].concat());
}

/// `benchcase` reads one request and prints number and k, then the reply's words.
#[cfg(feature = "program")]
mod program {
    use super::CASES;
    use std::io::Write;
    use std::path::PathBuf;
    use std::process::{Command, Stdio};

    /// Where the program stands: BENCHCASE, or the repository's own build.
    fn path() -> PathBuf {
        std::env::var_os("BENCHCASE")
            .map(PathBuf::from)
            .unwrap_or_else(|| [env!("CARGO_MANIFEST_DIR"), "../../crates/benchcase/out/benchcase"].iter().collect())
    }

    fn run(input: &[u8]) -> String {
        let mut child = Command::new(path())
            .stdin(Stdio::piped())
            .stdout(Stdio::piped())
            .spawn()
            .expect("benchcase starts");
        // It may stop reading at the line feed; the rest is then not taken.
        let _ = child.stdin.take().expect("its input is a pipe").write_all(input);
        let output = child.wait_with_output().expect("benchcase ends");
        assert!(output.status.success(), "{:?}", output.status);
        String::from_utf8(output.stdout).expect("benchcase prints text")
    }

    /// The two lines of an answer. The columns of a row are two for assets, three otherwise.
    fn lines(text: &str, expected: Result<&[u64], u64>) -> String {
        match expected {
            Err(number) => format!("{number} 0\n\n"),
            Ok(words) => {
                let columns = if text.starts_with("/asset") { 2 } else { 3 };
                assert_eq!(words.len() as u64, 4 + columns * words[0]);
                let words: Vec<String> = words.iter().map(u64::to_string).collect();
                format!("0 {}\n{}\n", words[0], words.join(" "))
            }
        }
    }

    #[test]
    fn cases_through_the_program() {
        for (name, text, expected) in CASES {
            let plain = lines(text, expected);
            assert_eq!(run(text.as_bytes()), plain, "{name} without a line feed");
            assert_eq!(run(format!("{text}\n").as_bytes()), plain, "{name}");
            assert_eq!(run(format!("{text}\n/assets\n").as_bytes()), plain, "{name} with a line behind it");
        }
    }

    #[test]
    fn inputs_at_the_edges() {
        assert_eq!(run(b""), "7 0\n\n");
        assert_eq!(run(b"\n"), "7 0\n\n");
        // A carriage return stays in the text.
        assert_eq!(run(b"/assets\r\n"), "7 0\n\n");
        let long = |length: usize| [&b"/sample?path=//"[..], &vec![b'A'; length - 15]].concat();
        assert_eq!(run(&long(256)), "11 0\n\n");
        assert_eq!(run(&long(257)), "7 0\n\n");
        assert_eq!(run(&long(100_000)), "7 0\n\n");
    }
}
