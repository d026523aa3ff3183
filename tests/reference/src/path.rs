//! The path of a request: which items it selects, one bit each.

use crate::faults::{Fault, FaultSet};
use crate::model::Model;

/// The items a path selects; all of them without a path. `None` where the path has another form,
/// names no component type, or in its second form selects nothing.
pub fn select<F: FaultSet>(model: &Model, path: Option<&[u8]>, faults: F) -> Option<u64> {
    let Some(path) = path else {
        return Some(set_of(model, |_| true));
    };
    let (component_type, item_type) = split(path, faults)?;
    let inside = subtree(model, component_type, faults)?;
    let in_subtree = |item: usize| inside >> model.component(item) & 1 == 1;
    let Some(item_type) = item_type else {
        return Some(set_of(model, in_subtree));
    };
    let ignored = faults.has(Fault::ItemTypeIgnored);
    let selected = set_of(model, |item| in_subtree(item) && (ignored || model.item_type(item) == item_type));
    (selected != 0 || faults.has(Fault::EmptySecondForm)).then_some(selected)
}

/// `//T` into T, `//T//DataItem[@type="Y"]` into T and Y. Neither can hold a `/` and be a name.
fn split<F: FaultSet>(path: &[u8], faults: F) -> Option<(&[u8], Option<&[u8]>)> {
    let rest = path.strip_prefix(b"//")?;
    let Some(slash) = rest.iter().position(|&byte| byte == b'/') else {
        return Some((rest, None));
    };
    let (component_type, rest) = rest.split_at(slash);
    let rest = rest.strip_prefix(b"//DataItem[@type=\"")?;
    let item_type = match rest.strip_suffix(b"\"]") {
        Some(item_type) => item_type,
        None if faults.has(Fault::OpenBracket) => rest.strip_suffix(b"\"")?,
        None => return None,
    };
    Some((component_type, Some(item_type)))
}

/// The components of the type, with all below them. A parent comes before its children, so one
/// pass does.
fn subtree<F: FaultSet>(model: &Model, wanted: &[u8], faults: F) -> Option<u64> {
    let mut inside = 0u64;
    let mut found = false;
    for component in 0..model.components() {
        let mut named = same_name(model.component_type(component), wanted, faults);
        if faults.has(Fault::FirstOfTypeOnly) {
            named &= !found;
        }
        found |= named;
        let below = inside >> model.parent(component) & 1 == 1 && !faults.has(Fault::NoAncestors);
        inside |= u64::from(named || below) << component;
    }
    found.then_some(inside)
}

fn same_name<F: FaultSet>(name: &[u8], wanted: &[u8], faults: F) -> bool {
    if faults.has(Fault::TypePrefix) {
        return !wanted.is_empty() && name.starts_with(wanted);
    }
    name == wanted
}

fn set_of(model: &Model, selected: impl Fn(usize) -> bool) -> u64 {
    (0..model.items()).filter(|&item| selected(item)).fold(0, |set, item| set | 1 << item)
}
