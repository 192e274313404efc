//! The numbers of the header are those of the bindings and of the archive.

use kajurnat::raw;

/// What the header defines a name as.
fn header_number(name: &str) -> String {
    let header =
        std::fs::read_to_string(concat!(env!("CARGO_MANIFEST_DIR"), "/../../include/kajurnat.h"))
            .expect("the header is beside the bindings");
    let define = format!("#define {name} ");
    let found = header.lines().find_map(|line| line.strip_prefix(&define));
    found.unwrap_or_else(|| panic!("the header has no {name}")).into()
}

#[test]
fn the_version_of_a_card_is_the_headers() {
    assert_eq!(header_number("KAJURNAT_VERSION"), raw::version().to_string());
}

/// The library, the bindings and the header have one version.
#[test]
fn the_version_is_the_headers() {
    let numbers = ["MAJOR", "MINOR", "PATCH"]
        .map(|part| header_number(&format!("KAJURNAT_VERSION_{part}")))
        .join(".");
    assert_eq!(numbers, kajurnat::VERSION);
    assert_eq!(header_number("KAJURNAT_VERSION_STRING"), format!("{:?}", kajurnat::VERSION));
}
