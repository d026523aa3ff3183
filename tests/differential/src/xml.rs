//! A small reader of XML, for the documents of the tests: elements, attributes and text, without entities. What is
//! not well formed is an error.

/// An element with what stands in it.
#[derive(Clone, PartialEq, Eq, Default, Debug)]
pub struct Element {
    pub name: String,
    pub attributes: Vec<(String, String)>,
    pub children: Vec<Element>,
    /// The text ahead of the first child.
    pub text: String,
}

impl Element {
    /// The attribute of a name.
    pub fn attribute(&self, name: &str) -> Result<&str, String> {
        let found = self.attributes.iter().find(|(of, _)| of == name);
        found.map(|(_, value)| &value[..]).ok_or_else(|| format!("{} has no {name}", self.name))
    }

    /// The names of its attributes, in the order in which they stand.
    pub fn attribute_names(&self) -> Vec<&str> {
        self.attributes.iter().map(|(name, _)| &name[..]).collect()
    }
}

const DECLARATION: &str = "<?xml version=\"1.0\" encoding=\"UTF-8\"?>\n";

/// The root element of a document.
pub fn read(document: &[u8]) -> Result<Element, String> {
    let text = std::str::from_utf8(document).map_err(|error| error.to_string())?;
    let mut rest = text.strip_prefix(DECLARATION).ok_or("no declaration")?;
    let root = element(&mut rest)?;
    if !rest.trim().is_empty() {
        return Err(format!("behind the root: {rest}"));
    }
    Ok(root)
}

fn element(rest: &mut &str) -> Result<Element, String> {
    let inside = tag(rest)?;
    let (inside, empty) = inside.strip_suffix('/').map_or((inside, false), |inside| (inside, true));
    let mut element = opened(inside)?;
    if empty {
        return Ok(element);
    }
    element.text = text(rest);
    while !rest.starts_with("</") {
        element.children.push(self::element(rest)?);
        let between = text(rest);
        if !between.trim().is_empty() {
            return Err(format!("{between:?} between elements"));
        }
    }
    let closing = tag(rest)?;
    if closing.strip_prefix('/') != Some(&element.name) {
        return Err(format!("<{closing}> closes {}", element.name));
    }
    Ok(element)
}

/// What stands between `<` and `>`.
fn tag<'a>(rest: &mut &'a str) -> Result<&'a str, String> {
    let (inside, behind) =
        rest.strip_prefix('<').and_then(|rest| rest.split_once('>')).ok_or_else(|| no_tag(rest))?;
    *rest = behind;
    Ok(inside)
}

fn no_tag(rest: &str) -> String {
    format!("no tag: {:?}", rest.chars().take(80).collect::<String>())
}

fn text(rest: &mut &str) -> String {
    let (text, behind) = rest.split_at(rest.find('<').unwrap_or(rest.len()));
    *rest = behind;
    text.into()
}

/// Name and attributes of an opening tag.
fn opened(inside: &str) -> Result<Element, String> {
    let (name, mut rest) = inside.split_at(inside.find(' ').unwrap_or(inside.len()));
    let named = name.starts_with(|first: char| first.is_ascii_alphabetic())
        && name.chars().all(|one| one.is_ascii_alphanumeric() || one == '_');
    if !named {
        return Err(format!("<{inside}> has no name"));
    }
    let mut element = Element { name: name.into(), ..Element::default() };
    while !rest.is_empty() {
        let (name, behind) = rest
            .strip_prefix(' ')
            .and_then(|rest| rest.split_once("=\""))
            .ok_or_else(|| format!("<{inside}>"))?;
        let (value, behind) = behind.split_once('"').ok_or_else(|| format!("<{inside}>"))?;
        if element.attribute(name).is_ok() {
            return Err(format!("<{inside}> has {name} twice"));
        }
        element.attributes.push((name.into(), value.into()));
        rest = behind;
    }
    Ok(element)
}
