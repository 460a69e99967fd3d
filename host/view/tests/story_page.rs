//! The story's page and picture in `docs/`: what the documented command writes.

mod common;

use std::path::{Path, PathBuf};

use common::{scratch, shown};

fn docs(name: &str) -> PathBuf {
    Path::new(env!("CARGO_MANIFEST_DIR")).join("../../docs").join(name)
}

/// As in `host/README.md`, with other places to write to.
fn write_story(core: &[&str], html: &Path, svg: &Path) {
    let [html, svg] = [html, svg].map(|path| path.to_str().expect("a path that is text"));
    let arguments = [
        "--html",
        html,
        "--svg",
        svg,
        "--title",
        "Two blocks for one container",
        "--beside",
        "runs/story-wrong.run",
        "--fault",
        "weak-over-block",
        "runs/story.run",
    ];
    shown(&[core, &arguments].concat());
}

fn read(path: &Path) -> String {
    std::fs::read_to_string(path).unwrap_or_else(|error| panic!("{}: {error}", path.display()))
}

#[test]
fn page_and_picture_are_up_to_date() {
    assert_up_to_date(&[]);
}

/// The oracle draws the same as the library.
#[test]
fn page_and_picture_are_those_of_the_oracle() {
    assert_up_to_date(&["--core", "oracle"]);
}

fn assert_up_to_date(core: &[&str]) {
    let [html, svg] = ["story.html", "story.svg"].map(|name| scratch(&format!("{}{name}", core.concat())));
    write_story(core, &html, &svg);
    for (name, path) in [("story.html", html), ("story.svg", svg)] {
        let written = read(&path);
        std::fs::remove_file(&path).unwrap();
        assert!(written == read(&docs(name)), "docs/{name}: write it again with the command in host/README.md");
    }
}

#[test]
fn the_page_needs_nothing_else() {
    let page = read(&docs("story.html"));
    let elsewhere = page.matches("http").count() - page.matches("http://www.w3.org/2000/svg").count();
    assert_eq!(elsewhere, 0);
    for word in ["<script", "src=", "@import", "url(h", "<link"] {
        assert!(!page.contains(word), "{word}");
    }
}

#[test]
fn the_page_tells_both_ends() {
    let page = read(&docs("story.html"));
    assert!(page.contains("One chain: of any two rows of releases the shorter begins the longer."));
    assert!(page.contains("Two chains: at height 1 replica 2 released B and replica 3 released A."));
    assert!(page.contains("here the runs part"));
}

/// Every element that is opened is closed, in order.
#[test]
fn the_picture_is_well_formed() {
    let picture = read(&docs("story.svg"));
    let mut open = Vec::new();
    for tag in picture.split('<').skip(1) {
        let tag = tag.split('>').next().unwrap();
        let name = tag.trim_start_matches('/').split([' ', '/']).next().unwrap();
        if tag.starts_with('/') {
            assert_eq!(open.pop(), Some(name));
        } else if !tag.ends_with('/') {
            open.push(name);
        }
    }
    assert_eq!(open, Vec::<&str>::new());
}

/// The number in this attribute.
fn attribute(element: &str, name: &str) -> f64 {
    let value = element.split(&format!(" {name}=\"")).nth(1).and_then(|rest| rest.split('"').next());
    value.and_then(|value| value.parse().ok()).unwrap_or_else(|| panic!("{name} in {element}"))
}

#[test]
fn the_picture_is_1200_wide_and_nothing_lies_outside() {
    let picture = read(&docs("story.svg"));
    let root = picture.lines().next().unwrap();
    let (width, height) = (attribute(root, "width"), attribute(root, "height"));
    assert_eq!(width, 1200.0);
    let texts: Vec<&str> = picture.lines().filter(|line| line.starts_with("<text")).collect();
    assert!(texts.len() > 100);
    for text in texts {
        let (x, y) = (attribute(text, "x"), attribute(text, "y"));
        assert!((0.0..width - 10.0).contains(&x) && (0.0..height).contains(&y), "{text}");
    }
}
