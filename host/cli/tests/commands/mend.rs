//! `mend`.

use std::fs;

use crate::arguments;
use crate::common::{folder, refused, run, said};

/// Clock 7, direction 9, one body of two bytes that begins at 19 and not at 20.
const SCRAMBLED: &[u8] = b"\0\0\0\x01\0\0\0\x14\0\x02\x09\0\0\0\0\0\0\0\x07ab";
const MENDED: &[u8] = b"\0\0\0\x01\0\0\0\x13\0\x02\x02\0\0\0\0\0\0\0\x07ab";

#[test]
fn a_scrambled_recording_is_mended_and_told() {
    let folder = folder("scrambled");
    let file = folder.join("recording");
    fs::write(&file, SCRAMBLED).unwrap();
    let told = "entry 0: offset 20 is now 19\nentry 0: direction 9 is now 2\n2 fields changed\n";
    assert_eq!(said(run(arguments!["mend", file])), (0, told.to_string()));
    assert_eq!(fs::read(&file).unwrap(), MENDED);
    assert_eq!(fs::read_dir(&folder).unwrap().count(), 1);
}

#[test]
fn json_has_each_change() {
    let file = folder("mend-json").join("recording");
    fs::write(&file, [SCRAMBLED, b"tail"].concat()).unwrap();
    let mut longer = fs::read(&file).unwrap();
    longer[2] = 1; // a count of 257
    fs::write(&file, longer).unwrap();
    let told = "{\"changes\":[{\"field\":\"count\",\"entry\":null,\"old\":257,\"new\":1},\
                {\"field\":\"offset\",\"entry\":0,\"old\":20,\"new\":19},\
                {\"field\":\"direction\",\"entry\":0,\"old\":9,\"new\":2}]}\n";
    assert_eq!(
        said(run(arguments!["mend", "--json", file])),
        (0, told.to_string())
    );
    let told = (0, "{\"changes\":[]}\n".to_string());
    assert_eq!(said(run(arguments!["mend", file, "--json"])), told);
}

#[test]
fn a_good_recording_is_not_written() {
    let file = folder("good").join("recording");
    fs::write(&file, MENDED).unwrap();
    let mut permissions = fs::metadata(&file).unwrap().permissions();
    permissions.set_readonly(true);
    fs::set_permissions(&file, permissions).unwrap();
    let written = fs::metadata(&file).unwrap().modified().unwrap();
    let told = (0, "0 fields changed\n".to_string());
    assert_eq!(said(run(arguments!["mend", file])), told);
    assert_eq!(fs::metadata(&file).unwrap().modified().unwrap(), written);
}

#[test]
fn permissions_stay() {
    let file = folder("permissions").join("recording");
    fs::write(&file, SCRAMBLED).unwrap();
    let mut permissions = fs::metadata(&file).unwrap().permissions();
    permissions.set_readonly(true);
    fs::set_permissions(&file, permissions).unwrap();
    assert_eq!(run(arguments!["mend", file]).status.code(), Some(0));
    assert!(fs::metadata(&file).unwrap().permissions().readonly());
}

#[test]
fn what_a_link_names_is_mended() {
    let folder = folder("link");
    let (file, link) = (folder.join("recording"), folder.join("link"));
    fs::write(&file, SCRAMBLED).unwrap();
    std::os::unix::fs::symlink("recording", &link).unwrap();
    assert_eq!(run(arguments!["mend", link]).status.code(), Some(0));
    assert_eq!(fs::read(&file).unwrap(), MENDED);
    assert!(fs::symlink_metadata(&link).unwrap().is_symlink());
    // The gate takes no link in a checkout, nor one that an earlier run left.
    fs::remove_file(&link).unwrap();
}

#[test]
fn what_cannot_be_mended_is_left() {
    let folder = folder("left");
    let (short, missing) = (folder.join("short"), folder.join("missing"));
    fs::write(&short, b"abc").unwrap();
    let name = short.display();
    let too_short = format!("bhajnolith: mend: {name}: refused 2: a recording has 4 bytes");
    refused(run(arguments!["mend", short]), &too_short);
    for file in [folder.as_path(), missing.as_path(), "/dev/zero".as_ref()] {
        refused(
            run(arguments!["mend", file]),
            &format!("bhajnolith: mend: {}:", file.display()),
        );
    }
    assert_eq!(fs::read(&short).unwrap(), b"abc");
    refused(run(arguments!["mend"]), "bhajnolith: mend: FILE is missing");
    refused(run(arguments!["mend", short, short]), "bhajnolith: mend: ");
}
