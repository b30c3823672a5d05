//! What is said about the first difference, and the image written down for it.

use std::fmt::Display;
use std::{env, fs};

pub struct Difference {
    pub text: String,
    pub image: Vec<u8>,
}

impl Difference {
    pub fn new(image: &[u8], what: &str, library: impl Display, reference: impl Display) -> Self {
        Difference {
            text: format!("{what}\n  library:   {library}\n  reference: {reference}"),
            image: image.to_vec(),
        }
    }

    /// Prints the difference with what leads to it (a seed), and keeps the image as hex.
    pub fn report(&self, origin: &str) {
        let path = env::temp_dir().join("caisson-difference.hex");
        let hex: String = self
            .image
            .chunks(16)
            .map(|line| {
                let line: Vec<String> = line.iter().map(|byte| format!("{byte:02x}")).collect();
                line.join(" ") + "\n"
            })
            .collect();
        println!("DIFFERENCE at {origin}: {}", self.text);
        match fs::write(&path, hex) {
            Ok(()) => println!(
                "  the image ({} bytes) is in {}",
                self.image.len(),
                path.display()
            ),
            Err(error) => println!("  the image could not be written: {error}"),
        }
    }
}
