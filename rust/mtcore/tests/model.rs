//! The check of models is the core's: what one refuses the other does, and what is built passes both.

mod common;

use common::Rng;
use mtcore::{ffi, Category, Component, Model, ModelBuilder, ModelError};

/// Whether the core takes the model. Start tests the model first, and then finds no stores.
fn core_takes(words: &[u32], names: &[u8]) -> bool {
    match ffi::start(words, names, &mut [], &mut [], 1, 1, 1, 0).number {
        1 => false,
        3 => true,
        other => panic!("start without stores answers {other}"),
    }
}

#[track_caller]
fn compare(words: &[u32], names: &[u8]) -> bool {
    let checked = Model::new(words, names);
    assert_eq!(checked.is_ok(), core_takes(words, names), "{words:?} {names:?}: {checked:?}");
    checked.is_ok()
}

/// A model that keeps the rules, of at most so many of each part.
fn sound(rng: &mut Rng, most: u64) -> (Vec<u32>, Vec<u8>) {
    let (c, m, cells) = (1 + rng.below(most), 1 + rng.below(most), 1 + rng.below(most) as usize);
    let mut words = vec![c as u32, m as u32];
    words.extend((0..c).map(|place| (rng.below(place.max(1)) * 256 + rng.below(cells as u64)) as u32));
    let change = rng.below(2 * m);
    words.extend((0..m).map(|item| {
        let category = if item == change { 3 } else { rng.pick(&[0, 1, 2, 4]) };
        (category * 65_536 + rng.below(c) * 256 + rng.below(cells as u64)) as u32
    }));
    let mut names = vec![0; 24 * cells];
    for cell in names.chunks_exact_mut(24) {
        let length = 1 + rng.below(24) as usize;
        cell[..length].fill_with(|| rng.pick(b"aAzZ09_mM5"));
    }
    (words, names)
}

/// One change, which may break a rule.
fn change(rng: &mut Rng, words: &mut Vec<u32>, names: &mut Vec<u8>) {
    match rng.below(6) {
        0 => {
            let at = rng.below(words.len() as u64) as usize;
            words[at] =
                words[at].wrapping_add(rng.pick(&[1, u32::MAX, 256, 65_536, 3 * 65_536, 1 << 24, 1 << 31]));
        }
        1 => {
            words.pop();
        }
        2 => words.push(rng.pick(&[0, 1, 65_536])),
        3 => {
            let at = rng.below(names.len() as u64) as usize;
            names[at] = rng.pick(b"\0\0\0aZ9_-/:@[`{ \x7f\x80\xff");
        }
        4 => names.truncate(names.len() - rng.pick(&[1, 23, 24])),
        _ => names.extend_from_slice(&[b'A'; 48][..rng.pick(&[1, 24, 25, 48])]),
    }
}

#[test]
fn checked_as_the_core_does() {
    let mut rng = Rng::new(20_260_913);
    let (mut taken, mut refused) = (0, 0);
    for round in 0..40_000 {
        let (mut words, mut names) = sound(&mut rng, if round % 20 == 0 { 64 } else { 5 });
        assert!(compare(&words, &names), "a sound model: {words:?}");
        for _ in 0..1 + rng.below(2) {
            if words.is_empty() || names.len() < 24 {
                break;
            }
            change(&mut rng, &mut words, &mut names);
        }
        if compare(&words, &names) {
            taken += 1;
        } else {
            refused += 1;
        }
    }
    assert!(taken > 1000 && refused > 1000, "{taken} taken, {refused} refused");
}

/// Every byte at the first, a middle and the last place of a name, and behind its end.
#[test]
fn every_byte_of_a_name() {
    for byte in 0..=255 {
        for place in [0, 7, 23] {
            let mut cell = [b'A'; 24];
            cell[place] = byte;
            assert_eq!(
                compare(&[1, 1, 0, 0], &cell),
                byte.is_ascii_alphanumeric() || byte == b'_' || (byte == 0 && place == 23)
            );
        }
        let mut short = [0; 24];
        (short[0], short[9]) = (b'A', byte);
        assert_eq!(compare(&[1, 1, 0, 0], &short), byte == 0);
    }
}

/// The bounds of every size.
#[test]
fn sizes_at_their_bounds() {
    let model = |c: u32, m: u32| {
        let mut words = vec![c, m];
        words.resize(mtcore::model_words(c as usize, m as usize), 0);
        words
    };
    let one = [b'A'; 24];
    for (c, m, right) in
        [(1, 1, true), (64, 64, true), (65, 64, false), (64, 65, false), (0, 1, false), (1, 0, false)]
    {
        assert_eq!(compare(&model(c, m), &one), right, "{c} {m}");
    }
    for (cells, right) in [(0, false), (1, true), (256, true), (257, false)] {
        assert_eq!(compare(&model(1, 1), &one.repeat(cells)), right, "{cells}");
    }
    assert!(!compare(&[], &one) && !compare(&[1], &one) && !compare(&[1, 1], &one));
    assert!(!compare(&[u32::MAX, u32::MAX], &one) && !compare(&[u32::MAX, 1, 0, 0], &one));
}

/// Categories go to 4, and of 3 alone there is at most one item.
#[test]
fn categories_at_their_bounds() {
    let one = [b'A'; 24];
    for category in 0..65_536 {
        assert_eq!(compare(&[1, 1, 0, category * 65_536], &one), category <= 4, "{category}");
    }
    for left in 0..6 {
        for right in 0..6 {
            let pair = [1, 3, 0, left * 65_536, right * 65_536, left * 65_536];
            let taken = left <= 4 && right <= 4 && left != 3;
            assert_eq!(compare(&pair, &one), taken, "{left} {right}");
        }
    }
    let change_among_discrete: Vec<_> = (0..64).map(|item| if item == 40 { 3 } else { 4 } << 16).collect();
    let words: Vec<_> = [1, 64, 0].into_iter().chain(change_among_discrete).collect();
    assert!(compare(&words, &one));
}

/// What a builder was asked for and accepted.
#[derive(Default)]
struct Accepted {
    components: Vec<(&'static str, Option<Component>)>,
    items: Vec<(&'static str, Component, Category)>,
}

const TEXTS: [&str; 9] =
    ["Axes", "POSITION", "LOAD", "", "A-B", "abcdefghijklmnopqrstuvwxyz", "Ö", "X_1", "Device"];
const CATEGORIES: [Category; 5] =
    [Category::Sample, Category::Event, Category::Condition, Category::AssetChange, Category::Discrete];

impl Accepted {
    /// Asks for one part more, which may break a rule.
    fn ask(&mut self, rng: &mut Rng, build: &mut ModelBuilder) {
        let (at, text) = (Component(rng.pick(&[0, 0, 0, 1, 1, 2, 7])), rng.pick(&TEXTS));
        if rng.below(2) == 0 {
            if let Ok(place) = build.component(at, text) {
                assert_eq!(usize::from(place.0), self.components.len());
                self.components.push((text, Some(at)));
            }
        } else {
            let category = rng.pick(&CATEGORIES);
            if let Ok(item) = build.item(at, category, text) {
                assert_eq!(item, self.items.len() as u64);
                self.items.push((text, at, category));
            }
        }
    }

    fn is_in(&self, model: &Model<&[u32], &[u8]>) {
        assert_eq!((model.components(), model.items()), (self.components.len(), self.items.len()));
        for (place, &(text, parent)) in (0..).zip(&self.components) {
            assert_eq!(model.component_type(Component(place)), Some(text));
            assert_eq!(model.parent(Component(place)), parent);
        }
        for (item, &(text, component, category)) in (0..).zip(&self.items) {
            assert_eq!(model.item_type(item), Some(text));
            assert_eq!((model.component_of(item), model.category(item)), (Some(component), Some(category)));
        }
    }
}

/// Whatever is asked of a builder, what it finishes is a model of the core, and holds what was accepted.
#[test]
fn built_models_are_the_core_s() {
    let mut rng = Rng::new(7);
    let mut finished = 0;
    for _ in 0..3000 {
        let (mut words, mut names) = ([77; 130], [77; 24 * 6]);
        let room = rng.pick(&[3, 4, 6, 12, 130]);
        let mut build = ModelBuilder::new(&mut words[..room], &mut names, "Device").unwrap();
        let mut accepted = Accepted { components: vec![("Device", None)], ..Accepted::default() };
        for _ in 0..rng.below(20) {
            accepted.ask(&mut rng, &mut build);
        }
        match build.finish() {
            Ok(model) => {
                assert!(core_takes(model.words(), model.names()));
                accepted.is_in(&model);
                finished += 1;
            }
            Err(error) => assert!(error == ModelError::Items && accepted.items.is_empty()),
        }
    }
    assert!(finished > 1000, "{finished} of 3000 had an item");
}
