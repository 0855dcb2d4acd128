//! Showing texts, and where two of them differ.

/// Says on which line a text first differs from the kept one.
pub fn first_difference(who: &str, text: &[u8], kept: &[u8]) -> String {
    let lines = |text: &[u8]| -> Vec<String> {
        let lines = text.split_inclusive(|&byte| byte == b'\n');
        lines.map(|line| line.escape_ascii().to_string()).collect()
    };
    let (text, kept) = (lines(text), lines(kept));
    let at = text.iter().zip(&kept).take_while(|(one, other)| one == other).count();
    let show = |lines: &[String]| lines.get(at).cloned().unwrap_or("nothing".into());
    format!("line {}: {who} has {}, kept is {}", at + 1, show(&text), show(&kept))
}

/// Prints a text indented, odd bytes made visible, long ones cut.
pub fn print_text(text: &[u8]) {
    for line in text.split_inclusive(|&byte| byte == b'\n').take(100) {
        let (line, newline) = match line.strip_suffix(b"\n") {
            Some(line) => (line, ""),
            None => (line, "   (no newline)"),
        };
        println!("    {}{newline}", line.escape_ascii());
    }
}
