//! README.md and include/budgieleaf.h say the same of each refusal, and call each template by the same name.

use budgieleaf_tests::program::root;

/// The lines of a file from the one that begins so up to the next that begins so.
fn part(file: &str, from: &str, to: &str) -> Vec<String> {
    let text = std::fs::read_to_string(root().join(file)).unwrap();
    let lines = text.lines().skip_while(|line| !line.starts_with(from));
    lines.take_while(|line| line.starts_with(from) || !line.starts_with(to)).map(str::to_string).collect()
}

fn is_number(cell: &str) -> bool {
    cell.parse::<u32>().is_ok()
}

/// The first cells of each numbered row of a table in README.
fn in_readme(heading: &str, cells: usize) -> Vec<Vec<String>> {
    let row = |line: &String| line.split('|').skip(1).take(cells).map(|cell| cell.trim().to_string()).collect::<Vec<_>>();
    part("README.md", heading, "## ").iter().map(row).filter(|row| row.len() == cells && is_number(&row[0])).collect()
}

/// The cells of each line of the header's comment: they stand two blanks or more apart.
fn in_header(heading: &str, next: &str) -> Vec<Vec<String>> {
    let cells =
        |line: &String| line.trim_start_matches(" *").split("  ").map(str::trim).filter(|c| !c.is_empty()).map(str::to_string).collect();
    part("include/budgieleaf.h", heading, next).iter().map(cells).collect()
}

/// Number, what it is, its detail and who causes it, in the order of the numbers.
#[test]
fn refusals() {
    let readme = in_readme("## Refusals", 4);
    let header: Vec<_> = in_header(" * REFUSALS", " * TEMPLATES").into_iter().filter(|row| row.len() == 4 && is_number(&row[0])).collect();
    assert_eq!(readme, header);
    assert!(readme.iter().map(|row| row[0].clone()).eq((1..=15).map(|k| k.to_string())), "{readme:?}");
}

#[test]
fn names_of_templates() {
    let readme = in_readme("## Formats", 2);
    let mut header: Vec<Vec<String>> = in_header(" * TEMPLATES", " */")
        .concat()
        .iter()
        .filter_map(|cell| cell.split_once(' '))
        .filter(|(number, _)| is_number(number))
        .map(|(number, name)| vec![number.to_string(), name.to_string()])
        .collect();
    header.sort_by_key(|row| row[0].parse::<u32>().unwrap());
    assert_eq!(readme, header);
    assert!(readme.iter().map(|row| row[0].clone()).eq((1..=24).map(|k| k.to_string())), "{readme:?}");
}

/// The archive needs the C library's memset and nothing else, as the header says.
#[test]
fn archive_needs_memset_alone() {
    let archive = root().join("target/staticlib/libcapi.a");
    let listed = std::process::Command::new("nm").arg("-u").arg(archive).output().unwrap();
    let text = String::from_utf8(listed.stdout).unwrap();
    let mut names: Vec<_> = text.lines().filter_map(|line| line.trim().strip_prefix("U ")).collect();
    names.sort_unstable();
    names.dedup();
    assert_eq!(names, ["memset"]);
}
