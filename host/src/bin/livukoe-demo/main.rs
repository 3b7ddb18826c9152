//! Makes the pictures of the demonstration.
//!
//!     livukoe-demo relief OUT.pgm          a relief map with dust on it
//!     livukoe-demo png IN.pgm OUT.png      a plate file as a PNG

mod png;

use std::error::Error;
use std::fs;
use std::process::ExitCode;

use livukoe::{pictures, Plate, BYTE_GREATEST};

fn main() -> ExitCode {
    let words: Vec<String> = std::env::args().skip(1).collect();
    let words: Vec<&str> = words.iter().map(String::as_str).collect();
    let made = match words[..] {
        ["relief", output] => relief(output),
        ["png", input, output] => to_png(input, output),
        _ => {
            eprintln!("usage: livukoe-demo relief OUT.pgm\n       livukoe-demo png IN.pgm OUT.png");
            return ExitCode::from(2);
        }
    };
    match made {
        Ok(()) => ExitCode::SUCCESS,
        Err(error) => {
            eprintln!("livukoe-demo: {error}");
            ExitCode::FAILURE
        }
    }
}

fn relief(output: &str) -> Result<(), Box<dyn Error>> {
    let plate = pictures::specked_relief(420, 300);
    fs::write(output, plate.to_pgm()?)?;
    Ok(())
}

fn to_png(input: &str, output: &str) -> Result<(), Box<dyn Error>> {
    let plate = Plate::from_pgm(&fs::read(input)?)?;
    if plate.greatest() != BYTE_GREATEST {
        let greatest = plate.greatest();
        let words = format!("{input}: the greatest grey is {greatest}; {BYTE_GREATEST} is shown");
        return Err(words.into());
    }
    fs::write(output, png::encoded(&plate))?;
    Ok(())
}
