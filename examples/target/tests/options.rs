//! The command line.

use target::options::Options;

fn read(words: &str) -> Result<Options, String> {
    Options::read(words.split_whitespace().map(str::to_string))
}

#[test]
fn options_have_defaults_and_limits() {
    assert_eq!(read(""), Ok(Options::default()));
    assert_eq!(read("--size 1 --delay 20").map(|options| (options.size, options.delay.as_millis())), Ok((1 << 20, 20)));
    let name = |length: usize| read(&format!("--name {}", "x".repeat(length)));
    assert_eq!((name(223).map(|options| options.name.len()), name(224).is_err()), (Ok(223), true));
    assert!(Options::read(["--name", ""].into_iter().map(str::to_string)).is_err());
    for wrong in ["--size 0", "--size", "--workers x", "--window 257", "--port 1", "--ping 0", "--patience 0"] {
        assert!(read(wrong).is_err(), "{wrong}");
    }
}
