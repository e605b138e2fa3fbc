//! Paper 01's listing, and the stored scripts with their outputs in `tests/scripts`.

use reference::session::run;
use std::fs;
use std::path::Path;

fn output(script: &[u8]) -> String {
    let mut output = Vec::new();
    run(script, &mut output).expect("memory takes everything");
    String::from_utf8(output).expect("replies are plain text")
}

#[test]
fn the_listing() {
    let script = b"S 0 1 1 0\nW 1 7E82E80141\nK 1 1\nD 1 1\nK 1 1\nK 1 1\nD 1 1\nR 1\nK 1 1\nD 1 1\n";
    let expected = "0 SET\n1 WENT\n2 WENT\n3 WENT\n4 WENT\n5 WENT\n6 WROTE 1 1 7E82E80141\n7 WENT\n8 WENT\n\
                    9 READ 1 1 7E82E80141\n";
    assert_eq!(output(script), expected);
}

#[test]
fn line_ends() {
    assert_eq!(output(b""), "");
    assert_eq!(output(b"\n"), "0 UNREAD\n");
    assert_eq!(output(b"S 0 1 1 0"), "0 SET\n");
    assert_eq!(output(b"S 0 1 1 0\n"), "0 SET\n");
    assert_eq!(output(b"S 0 1 1 0\n\n"), "0 SET\n1 UNREAD\n");
    assert_eq!(output(b"S 0 1 1 0\r\nR 1"), "0 UNREAD\n1 UNREAD\n");
    let long = [&b"S 0 1 1 0\n"[..], &[b' '; 200_000], b"\nR 1"].concat();
    assert_eq!(output(&long), "0 SET\n1 UNREAD\n2 WENT\n");
}

#[test]
fn stored_scripts() {
    let folder = Path::new(env!("CARGO_MANIFEST_DIR")).join("../scripts");
    let mut seen = 0;
    for file in fs::read_dir(folder).expect("tests/scripts is there") {
        let path = file.expect("it can be listed").path();
        if path.extension().is_some_and(|extension| extension == "txt") {
            let script = fs::read(&path).expect("it can be read");
            let expected = fs::read_to_string(path.with_extension("out")).expect("its output is there");
            assert_eq!(output(&script), expected, "{}", path.display());
            seen += 1;
        }
    }
    assert!(seen > 0);
}
