use nifazombi::{Texts, texts_image};
use std::error::Error;

fn main() -> Result<(), Box<dyn Error>> {
    let mut words = [("toast", 4), ("toad", 3), ("toaster", 5)];
    words.sort();
    let image = texts_image(&words, b"")?;
    for (word, value) in Texts::new(&image)?.below("toas") {
        println!("{} {value}", String::from_utf8_lossy(word));
    }

    let image = texts_image(&[("/", 10), ("/home/", 20), ("/home/ann/", 30)], b"")?;
    let limits = Texts::new(&image)?;
    for path in ["/home/ann/letters", "/home/bob", "/etc", "etc"] {
        let limit = limits.nearest(path).map(|(_, limit)| limit);
        println!("{path}: {limit:?}");
    }
    Ok(())
}
