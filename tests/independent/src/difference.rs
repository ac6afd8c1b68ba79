//! What a program prints and leaves behind of an input that showed a difference.

use std::path::PathBuf;

/// Longer messages are printed only in part.
const LONGEST_PRINTED: usize = 2_000;

/// Prints the message, and leaves message and book behind in hex.
pub fn print_input(program: &str, message: &[u8], book: &[u8]) {
    let printed = &message[..message.len().min(LONGEST_PRINTED)];
    println!(
        "  message:              {} bytes, b\"{}\"{}",
        message.len(),
        printed.escape_ascii(),
        if printed.len() < message.len() {
            " ..."
        } else {
            ""
        }
    );
    for (name, bytes) in [("message", message), ("book", book)] {
        match write_hex(&format!("{program}_{name}.hex"), bytes) {
            Ok(path) => println!("  the {name} in hex: {}", path.display()),
            Err(error) => println!("  the {name} could not be written: {error}"),
        }
    }
}

/// Writes the bytes in hex beside the program, which lies in the target folder.
pub fn write_hex(file_name: &str, bytes: &[u8]) -> std::io::Result<PathBuf> {
    let path = std::env::current_exe()?.with_file_name(file_name);
    let mut text = String::with_capacity(3 * bytes.len());
    for line in bytes.chunks(16) {
        let words: Vec<String> = line.iter().map(|byte| format!("{byte:02X}")).collect();
        text.push_str(&words.join(" "));
        text.push('\n');
    }
    std::fs::write(&path, text)?;
    Ok(path)
}
