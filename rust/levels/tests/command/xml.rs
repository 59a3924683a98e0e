//! Whether XML is well formed: one root, elements closed in order, attributes quoted
//! and different, no sign left unescaped, no character that XML does not allow.

/// What is wrong, if anything is.
pub fn well_formed(text: &str) -> Result<(), String> {
    if let Some(bad) = text.chars().find(|&c| c.is_control() && !matches!(c, '\t' | '\n' | '\r')) {
        return Err(format!("character {bad:?}"));
    }
    let mut open: Vec<String> = Vec::new();
    let mut roots = 0;
    let mut rest = text;
    while let Some((before, after)) = rest.split_once('<') {
        characters(before, open.is_empty())?;
        let (tag, behind) = after.split_once('>').ok_or("a tag does not end")?;
        rest = behind;
        if let Some(name) = tag.strip_prefix('/') {
            if open.pop().as_deref() != Some(name) {
                return Err(format!("</{name}> closes another element"));
            }
            continue;
        }
        let (tag, leaf) = tag.strip_suffix('/').map_or((tag, false), |tag| (tag, true));
        roots += usize::from(open.is_empty());
        let name = element(tag)?;
        if !leaf {
            open.push(name);
        }
    }
    characters(rest, true)?;
    match (roots, open.last()) {
        (1, None) => Ok(()),
        (_, Some(name)) => Err(format!("<{name}> is not closed")),
        (roots, None) => Err(format!("{roots} roots")),
    }
}

/// An element's name, its attributes checked.
fn element(tag: &str) -> Result<String, String> {
    let (name, mut rest) = tag.split_once(' ').unwrap_or((tag, ""));
    if name.is_empty() || !name.chars().all(|c| c.is_ascii_alphanumeric()) {
        return Err(format!("element {name:?}"));
    }
    let mut seen = Vec::new();
    while !rest.is_empty() {
        let (attribute, behind) = rest.split_once("=\"").ok_or(format!("attributes {rest:?}"))?;
        let (value, behind) = behind.split_once('"').ok_or("a value does not end")?;
        if !attribute.chars().all(|c| c.is_ascii_alphanumeric() || c == '-')
            || seen.contains(&attribute)
        {
            return Err(format!("attribute {attribute:?}"));
        }
        characters(value, false)?;
        seen.push(attribute);
        rest = behind.strip_prefix(' ').unwrap_or(behind);
    }
    Ok(name.to_string())
}

fn characters(text: &str, outside: bool) -> Result<(), String> {
    if outside && !text.trim().is_empty() {
        return Err(format!("{text:?} outside the root"));
    }
    for behind in text.split('&').skip(1) {
        if !["amp;", "lt;", "gt;", "quot;"].iter().any(|sign| behind.starts_with(sign)) {
            return Err(format!("&{behind}"));
        }
    }
    Ok(())
}

#[test]
fn the_check_itself() {
    assert_eq!(well_formed("<a b=\"1\"><c/>x &amp; y</a>\n"), Ok(()));
    let wrong = [
        "",
        "<a>",
        "<a></b>",
        "<a/><a/>",
        "<a b=1/>",
        "<a b=\"1\" b=\"2\"/>",
        "<a>&x</a>",
        "x<a/>",
        "<a>\u{1}</a>",
    ];
    for text in wrong {
        assert!(well_formed(text).is_err(), "{text:?}");
    }
}
