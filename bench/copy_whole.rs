// Reads each file whole, writes it into a new folder, and has it reach the disk: what a merge cannot do without.
//
// copy_whole FOLDER FILES..

use std::error::Error;
use std::io::Write;
use std::path::Path;
use std::{env, fs};

fn main() -> Result<(), Box<dyn Error>> {
    let mut words = env::args().skip(1);
    let folder = words.next().ok_or("a new folder, and files")?;
    fs::create_dir(&folder)?;
    for (number, file) in words.enumerate() {
        let bytes = fs::read(file)?;
        let mut copy = fs::File::create_new(Path::new(&folder).join(number.to_string()))?;
        copy.write_all(&bytes)?;
        copy.sync_all()?;
    }
    Ok(())
}
