//! The parts of this crate use only those that `lib.rs` lists above them.

use std::fs;
use std::path::Path;

const PARTS: [&str; 4] = ["player", "disk", "generator", "program"];

/// Which parts the files of a part name: everything outside of a folder is reached by `crate::`.
fn used_by(part: &str) -> Vec<String> {
    let folder = Path::new(env!("CARGO_MANIFEST_DIR")).join("src").join(part);
    let mut used = Vec::new();
    for file in fs::read_dir(folder).unwrap() {
        let text = fs::read_to_string(file.unwrap().path()).unwrap();
        assert!(!text.contains("super::super"), "a file of {part} leaves its folder by super::super");
        for path in text.split("crate::").skip(1) {
            used.push(path.split(|c: char| !c.is_alphanumeric()).next().unwrap().to_string());
        }
    }
    used
}

#[test]
fn each_part_uses_only_those_above_it() {
    for (place, part) in PARTS.iter().enumerate() {
        let used = used_by(part);
        assert_eq!(used.is_empty(), place == 0, "the player uses nothing, the others something");
        for other in used {
            assert!(PARTS[..place].contains(&other.as_str()), "{part} uses {other}");
        }
    }
}
