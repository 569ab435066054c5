//! docs/TOOL.md and README.md show what the tool prints, and docs/tool.svg is as made.
use crate::common::{kept, tool, words, Folder};

const PAGE: &str = "docs/TOOL.md";
const PICTURE: &str = "docs/tool.svg";
const PICTURED: [&str; 2] = ["draw", "samples/first.capture"];

fn text(file: &str) -> String {
    String::from_utf8(kept(file)).unwrap()
}

// Commands with what is shown of each, of blocks that begin with one. A line that ends with a
// backslash goes on.
fn shown(page: &str) -> Vec<(Vec<String>, String)> {
    let mut shown: Vec<(Vec<String>, String)> = Vec::new();
    for block in page.split("```").skip(1).step_by(2) {
        let block = block.trim_start_matches('\n').replace("\\\n", " ");
        if !block.starts_with("$ fenhamper") {
            continue;
        }
        for line in block.lines() {
            match line.strip_prefix("$ fenhamper ") {
                Some(command) => shown.push((words(command), String::new())),
                None => shown.last_mut().unwrap().1 += &format!("{line}\n"),
            }
        }
    }
    shown
}

// Files that are written stand in a folder of their own, and are read there later.
#[test]
fn the_page_shows_what_is_printed() {
    let folder = Folder::new();
    let page = text(PAGE);
    let commands = shown(&page);
    assert!(commands.len() >= 10, "{}", commands.len());
    for name in ["list", "count", "why", "pcap", "from-pcap", "draw", "send"] {
        let named = commands.iter().any(|(words, _)| words[0] == name);
        assert!(named, "{name} is not shown");
    }
    for (words, expected) in commands {
        let mut here = words.clone();
        for at in 1..here.len() {
            let written = here[at - 1] == "-o" || folder.files().contains(&here[at]);
            if written && here[at] != "-" {
                here[at] = folder.name(&here[at]);
            }
        }
        let here: Vec<&str> = here.iter().map(String::as_str).collect();
        let said = tool(&here);
        let given = format!("{}{}", said.text(), said.err);
        let given = given.replace(&folder.name(""), "");
        assert_eq!(given, expected, "{words:?}");
    }
}

#[test]
fn the_picture_is_as_made() {
    let said = tool(&[&PICTURED[..], &["-o", "-"]].concat()).good();
    if std::env::var_os("FENHAMPER_BLESS").is_some() {
        std::fs::write(PICTURE, &said.out).unwrap();
    }
    assert!(said.out == kept(PICTURE), "{PICTURE} is not as made");
    assert!(text(PAGE).contains("(tool.svg)"));
}

#[test]
fn the_readme_shows_the_list() {
    let list = tool(&["list", "samples/first.capture"]).good();
    let readme = text("README.md");
    assert!(readme.contains(list.text()));
    let plain = text("samples/first.txt");
    assert!(readme.find(list.text()) < readme.find(&plain));
}
