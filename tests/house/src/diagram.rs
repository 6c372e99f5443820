//! The diagram of the crates in docs/ARCHITECTURE.md, made from crates.txt: a box for each family, an arrow from a crate to each that it
//! rests on and that does not follow from another arrow.

const BEGIN: &str = "```mermaid\n";
const END: &str = "```\n";

pub struct Family {
    /// What its comment line says before a colon.
    pub name: String,
    pub crates: Vec<Crate>,
}

pub struct Crate {
    pub name: String,
    /// Whether it is a static library, which no crate rests on.
    pub is_static: bool,
    pub rests_on: Vec<String>,
}

/// The families of crates.txt: a comment line begins one, and one with no crate is none.
pub fn families(text: &str) -> Vec<Family> {
    let mut found: Vec<Family> = Vec::new();
    for line in text.lines() {
        if let Some(comment) = line.strip_prefix("# ") {
            let name = comment.split(':').next().unwrap_or("").to_string();
            found.push(Family { name, crates: Vec::new() });
        } else if let (Some(family), Some((name, rests_on))) = (found.last_mut(), line.split_once(':')) {
            let rests_on = rests_on.split_whitespace().map(String::from).collect();
            let (name, kind) = name.split_once(' ').unwrap_or((name, ""));
            family.crates.push(Crate { name: name.into(), is_static: kind == "staticlib", rests_on });
        }
    }
    found.retain(|family| !family.crates.is_empty());
    found
}

/// The page with its diagram made anew, where it has one.
pub fn written(page: &str, families: &[Family]) -> String {
    let parts = page.split_once(BEGIN).and_then(|(before, rest)| Some((before, rest.split_once(END)?.1)));
    match parts {
        Some((before, after)) => format!("{before}{BEGIN}{}{END}{after}", diagram(families)),
        None => page.into(),
    }
}

fn diagram(families: &[Family]) -> String {
    let mut lines = vec!["flowchart TD".to_string()];
    for (k, family) in families.iter().enumerate() {
        lines.push(format!("  subgraph family{k} [\"{}\"]", family.name));
        lines.extend(family.crates.iter().map(|krate| format!("    {}", krate.name)));
        lines.push("  end".into());
    }
    let crates: Vec<&Crate> = families.iter().flat_map(|family| &family.crates).collect();
    for krate in &crates {
        let arrows = not_following(krate, &crates);
        if !arrows.is_empty() {
            lines.push(format!("  {} --> {}", krate.name, arrows.join(" & ")));
        }
    }
    lines.iter().map(|line| format!("{line}\n")).collect()
}

/// What a crate rests on, of these crates, without what another of them rests on.
fn not_following<'a>(krate: &'a Crate, crates: &[&'a Crate]) -> Vec<&'a str> {
    let known = |name: &&String| crates.iter().any(|other| other.name == **name);
    let direct: Vec<&String> = krate.rests_on.iter().filter(known).collect();
    let follows = |name: &&String| direct.iter().any(|other| other != name && reaches(other, name, crates));
    direct.iter().filter(|name| !follows(name)).map(|name| name.as_str()).collect()
}

fn reaches(from: &str, to: &str, crates: &[&Crate]) -> bool {
    let mut seen = vec![from];
    let mut at = 0;
    while let Some(name) = seen.get(at) {
        let rests_on = crates.iter().find(|krate| krate.name == *name).map_or(&[][..], |krate| &krate.rests_on);
        for next in rests_on {
            if !seen.contains(&next.as_str()) {
                seen.push(next);
            }
        }
        at += 1;
    }
    seen[1..].contains(&to)
}

#[cfg(test)]
mod tests {
    use super::*;

    const CRATES: &str =
        "# NAME: what it rests on.\n\n# wire: bytes\nread:\nput: read\n\n# programs\nbench: read put io\nlinked staticlib: put\n";

    #[test]
    fn a_comment_line_begins_a_family() {
        let found = families(CRATES);
        assert_eq!(found.iter().map(|family| family.name.as_str()).collect::<Vec<_>>(), ["wire", "programs"]);
        assert_eq!(found[0].crates[1].rests_on, ["read"]);
        let kinds = found[1].crates.iter().map(|krate| (krate.name.as_str(), krate.is_static));
        assert_eq!(kinds.collect::<Vec<_>>(), [("bench", false), ("linked", true)]);
    }

    #[test]
    fn an_arrow_that_follows_from_others_is_left_out() {
        let boxes = "  subgraph family0 [\"wire\"]\n    read\n    put\n  end\n  subgraph family1 [\"programs\"]\n    bench\n    linked\n  end\n";
        let made = format!(
            "before\n```mermaid\nflowchart TD\n{boxes}  put --> read\n  bench --> put\n  linked --> put\n```\nafter\n"
        );
        assert_eq!(written("before\n```mermaid\nold\n```\nafter\n", &families(CRATES)), made);
    }
}
