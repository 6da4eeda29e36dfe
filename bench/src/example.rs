//! The example of docs/LINKING.md, compiled as the page says, prints what the page says. Where there is no cc nothing is compiled.
use crate::c;

#[test]
fn page_prints_what_it_says() {
    if !c::there() {
        return eprintln!("no cc: the example of docs/LINKING.md was not compiled");
    }
    let (program, printed) = c::page("An example", "It prints");
    let folder = c::Folder::new("example");
    let ran = c::ran(&folder.compile(&program), &[]);
    assert_eq!(String::from_utf8_lossy(&ran.stdout), printed);
}
