//! For tests: whether the tags of a page balance, and which attributes it has.

/// Elements of HTML that have no end.
const VOID: [&str; 5] = ["meta", "br", "hr", "link", "col"];

enum Tag<'a> {
    Begin(&'a str),
    End(&'a str),
    Alone,
}

/// Tag by tag; the text of the style sheet is passed over.
fn tags(page: &str) -> Result<Vec<Tag<'_>>, String> {
    let mut tags = Vec::new();
    let mut rest = page;
    while let Some(at) = rest.find('<') {
        let end = rest[at..].find('>').map(|end| at + end).ok_or("a tag without an end")?;
        let inside = &rest[at + 1..end];
        rest = &rest[end + 1..];
        if inside.matches('"').count() % 2 == 1 || inside.contains('<') {
            return Err(format!("<{inside}> is no tag"));
        }
        let name = inside.trim_start_matches('/').split([' ', '/', '\n']).next().unwrap_or("");
        tags.push(match inside {
            _ if inside.starts_with('!') || inside.ends_with('/') || VOID.contains(&name) => Tag::Alone,
            _ if inside.starts_with('/') => Tag::End(name),
            _ => Tag::Begin(name),
        });
        if inside == "style" {
            rest = &rest[rest.find("</style>").ok_or("a style sheet without an end")?..];
        }
    }
    Ok(tags)
}

pub fn balance(page: &str) -> Result<(), String> {
    let mut open = Vec::new();
    for tag in tags(page)? {
        match tag {
            Tag::Alone => {}
            Tag::Begin(name) => open.push(name),
            Tag::End(name) => match open.pop() {
                Some(begun) if begun == name => {}
                begun => return Err(format!("{begun:?} is ended by {name}")),
            },
        }
    }
    match open.is_empty() {
        true => Ok(()),
        false => Err(format!("{open:?} have no end")),
    }
}

/// The names of all attributes.
pub fn attributes(page: &str) -> Vec<String> {
    let tags = page.split('<').skip(1).filter_map(|tag| tag.split('>').next());
    let quoted = tags.map(|tag| tag.split('"').step_by(2).collect::<Vec<&str>>().join(" "));
    quoted
        .flat_map(|names| {
            names
                .split([' ', '\n'])
                .filter(|word| word.ends_with('='))
                .map(|word| word.trim_end_matches('=').to_string())
                .collect::<Vec<String>>()
        })
        .collect()
}

#[test]
fn what_does_not_balance_is_seen() {
    assert!(balance("<p><b>x</b></p><br><rect/>").is_ok());
    for wrong in ["<p>", "</p>", "<p><b></p></b>", "<p", "<p a=\">", "<p <b></b>"] {
        assert!(balance(wrong).is_err(), "{wrong}");
    }
    assert_eq!(attributes("<p class=\"a b=\" id=\"c\">d e=</p><q f=\"g\"/>"), ["class", "id", "f"]);
}
