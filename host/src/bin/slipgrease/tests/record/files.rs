//! The files that a record reads, which are not drawn over.

use super::super::{printed, refused, Folder, BLOCK, KEY};
use std::fs::{self, Permissions};
use std::os::unix::fs::{symlink, PermissionsExt};

/// By its own name, by another and through a link; its mode is left as it was too.
#[test]
fn what_is_read_is_not_drawn_over() {
    let folder = Folder::new("drawn-over");
    let text = format!("{KEY}\n");
    let lines = format!("{BLOCK}\n").repeat(71);
    let (key, dump) = (folder.file("key.txt", &text), folder.file("dump.txt", &lines));
    let [hard, soft] = ["hard.svg", "soft.svg"].map(|name| folder.path(name));
    fs::hard_link(&key, &hard).unwrap();
    symlink(&dump, &soft).unwrap();
    for file in [&key, &dump] {
        fs::set_permissions(file, Permissions::from_mode(0o640)).unwrap();
    }
    for (picture, read) in [(&key, &key), (&hard, &key), (&dump, &dump), (&soft, &dump)] {
        let told = refused(&format!("record --offset 3 --svg {picture} --against {dump} --key-file {key} {BLOCK}"));
        assert_eq!(told, (format!("{picture}: it is written to, and is read as {read} too"), 1));
    }
    assert_eq!([&key, &dump].map(|file| fs::read_to_string(file).unwrap()), [text, lines]);
    assert_eq!([&key, &dump].map(|file| fs::metadata(file).unwrap().permissions().mode() & 0o777), [0o640; 2]);
    // What is not read is drawn over.
    assert_eq!(printed(&format!("record --offset 3 --svg {soft} --key-file {key} {BLOCK}")), "");
    assert!(fs::read_to_string(&dump).unwrap().starts_with("<svg "));
}
