//! What labels and indexes share: the root with its version, and the rules for
//! children. Refusals follow the order by class over the whole text, so the
//! values are read only after the structure of the whole text is known good.

use crate::values::{self, decode, Version};
use crate::xml::{self, is_white, Element};
use crate::{require, Refusal};

/// The first checks of any text: its length, the XML form, the root's name and
/// its one attribute, the version.
pub fn open(text: &[u8], longest: usize, root_name: &str) -> Result<(Element, Version), Refusal> {
    require(text.len() <= longest, Refusal::TooLong)?;
    let root = xml::parse(text).ok_or_else(|| outside_form(text))?;
    require(root.name == root_name, Refusal::Structure)?;
    let attribute = root.attribute.as_ref().ok_or(Refusal::Structure)?;
    require(attribute.name == "version", Refusal::Structure)?;
    let version = values::version(decode(&attribute.raw).as_bytes()).ok_or(Refusal::Version)?;
    Ok((root, version))
}

/// Of a text that has no tree.
fn outside_form(text: &[u8]) -> Refusal {
    let front = xml::check_form(text).expect_err("both readings refuse the text");
    Refusal::form(front)
}

#[derive(Clone, Copy, PartialEq, Eq)]
pub enum Times {
    Once,
    AtMostOnce,
    Any,
}

/// An element of children: each allowed as often as it may be, none unknown, no text.
pub fn children(element: &Element, allowed: &[(&str, Times)]) -> Result<(), Refusal> {
    require(element.raw_text.bytes().all(is_white), Refusal::Structure)?;
    for child in &element.children {
        require(
            allowed.iter().any(|(name, _)| child.name == *name),
            Refusal::Structure,
        )?;
    }
    for (name, times) in allowed {
        let count = element
            .children
            .iter()
            .filter(|child| child.name == *name)
            .count();
        let lawful = match times {
            Times::Once => count == 1,
            Times::AtMostOnce => count <= 1,
            Times::Any => true,
        };
        require(lawful, Refusal::Structure)?;
    }
    Ok(())
}

/// Only the root has an attribute.
pub fn no_attribute(element: &Element) -> Result<(), Refusal> {
    require(element.attribute.is_none(), Refusal::Structure)
}

/// An element that holds a value: text, no attribute, no child.
pub fn value(element: &Element) -> Result<(), Refusal> {
    no_attribute(element)?;
    require(element.children.is_empty(), Refusal::Structure)
}

/// The child of this name, if there is one.
pub fn optional<'a>(element: &'a Element, name: &str) -> Option<&'a Element> {
    element.children.iter().find(|child| child.name == name)
}

/// The child of this name in an element whose structure was checked.
pub fn only<'a>(element: &'a Element, name: &str) -> &'a Element {
    optional(element, name).expect("the structure check found it")
}

/// The decoded text of a value element.
pub fn text(element: &Element) -> String {
    decode(&element.raw_text)
}

/// The value of the child `name`, read by `read`; refusal 6 when it reads none.
pub fn read<T>(
    element: &Element,
    name: &str,
    read: impl Fn(&[u8]) -> Option<T>,
) -> Result<T, Refusal> {
    read(text(only(element, name)).as_bytes()).ok_or(Refusal::Value)
}

/// The text of the child `name` when it passes `rule`.
pub fn read_text(
    element: &Element,
    name: &str,
    rule: impl Fn(&[u8]) -> bool,
) -> Result<String, Refusal> {
    let text = text(only(element, name));
    require(rule(text.as_bytes()), Refusal::Value)?;
    Ok(text)
}
