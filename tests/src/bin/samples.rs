//! Writes samples/NAME.txt and, by the independent implementation, samples/NAME.out.

use budgieleaf_tests::{oracle::findrules::output, program::root, samples};

fn main() -> std::io::Result<()> {
    let folder = root().join("samples");
    std::fs::create_dir_all(&folder)?;
    for (name, input) in samples::all() {
        std::fs::write(folder.join(format!("{name}.txt")), &input)?;
        std::fs::write(folder.join(format!("{name}.out")), output(&input))?;
    }
    Ok(())
}
