//! The inputs stored with the report programs, made again. The tests hold them equal, and equal to what
//! the writer of images makes of their numbers.

use crate::sites;

/// Each stored input under its name: `report` for that of the report program, `crates/report/stdin`,
/// and NAME for `crates/report_examples/data/NAME.image`.
pub fn examples() -> Vec<(&'static str, Vec<u8>)> {
    let mut refused = sites::site_s(4);
    refused.ties[5] = (3, 2);
    vec![
        // Site S of the specification with mu 4.
        ("report", sites::site_s(4).plain_image()),
        // One group of one handset, which has no reach.
        ("alone", sites::alone().plain_image()),
        // A tie beyond gamma inside a group, and a near tie that leaves it: neither counts for its reach.
        ("beyond", sites::beyond().plain_image()),
        // Site S with a blank mu, which means 4.
        ("blank", sites::site_s(0).plain_image()),
        // No handsets.
        ("empty", sites::untied(0, 3).plain_image()),
        // A border in five groups, and an outlier.
        ("hub", sites::hub().plain_image()),
        // A group whose reach is exactly G, and one whose longest tie joins two that are not alike.
        ("limit", sites::two_reaches().plain_image()),
        // Site S whose tie 5 repeats tie 3 the other way round: refused 10 5.
        ("refused", refused.plain_image()),
        // Site S with mu 3 written out.
        ("three", sites::site_s(3).plain_image()),
        // Every role, and four totals that differ.
        ("totals", sites::totals().plain_image()),
    ]
}

#[cfg(test)]
mod tests {
    use super::*;
    use crate::calls::Planner;
    use crate::fast::Fast;
    use crate::numbers::Numbers;
    use crate::reference::{self, Reference};
    use crate::sites::COORDINATES;
    use std::collections::BTreeMap;
    use std::fs;
    use std::path::{Path, PathBuf};

    fn crates() -> PathBuf {
        Path::new(env!("CARGO_MANIFEST_DIR")).join("../../crates")
    }

    fn names_in(folder: &Path) -> Vec<String> {
        let entries = fs::read_dir(folder).expect("a folder of the repository");
        let name = |entry: fs::DirEntry| entry.file_name().into_string().expect("a name");
        entries.map(|entry| name(entry.expect("an entry"))).collect()
    }

    /// The stored input of each crate whose name begins with `report`, where it has one, and the
    /// images of `report_examples`.
    fn stored() -> BTreeMap<String, Vec<u8>> {
        let mut stored = BTreeMap::new();
        for name in names_in(&crates()) {
            let input = crates().join(&name).join("stdin");
            if name.starts_with("report") && input.exists() {
                stored.insert(name, fs::read(input).expect("a stored input"));
            }
        }
        let images = crates().join("report_examples/data");
        for file in names_in(&images) {
            let name = file.strip_suffix(".image").expect("an image's file").to_string();
            let image = fs::read(images.join(file)).expect("a stored image");
            assert_eq!(stored.insert(name, image), None, "no name stands for two");
        }
        stored
    }

    /// The file with the text that is stored for a program.
    fn stored_text(path: &str) -> String {
        fs::read_to_string(crates().join(path)).expect("a stored text")
    }

    /// Every stored input has a maker, every maker a stored input, and the two are equal.
    #[test]
    fn stored_inputs_can_be_made_again() {
        let stored = stored();
        let made: BTreeMap<_, _> = examples().into_iter().collect();
        assert_eq!(made.len(), examples().len(), "no name stands for two");
        assert!(stored.keys().eq(made.keys()), "{:?}, {:?}", stored.keys(), made.keys());
        for (name, image) in made {
            assert_eq!(stored[name], image, "{name}");
        }
    }

    /// The program of the examples is run on each of its images, in the order of their makers.
    #[test]
    fn stored_images_are_all_run() {
        let all = examples().into_iter().filter(|(name, _)| *name != "report");
        let files: String = all.map(|(name, _)| format!("{name}.image\n")).collect();
        assert_eq!(stored_text("report_examples/args"), files);
    }

    /// Each stored input that is accepted is what a writer writes from its numbers.
    #[test]
    fn stored_inputs_are_the_writers() {
        let writers: [&dyn Planner; _] = [
            #[cfg(feature = "proved")]
            &crate::ffi::Proved,
            &Fast,
            &Reference,
        ];
        let mut written = 0;
        for (name, image) in
            stored().into_iter().filter(|(_, image)| reference::open(image).is_ok())
        {
            let numbers = Numbers::held(&image);
            for writer in writers {
                let mut buffer = vec![0xa5; image.len()];
                let length = writer.write(numbers.contents(), &mut buffer);
                assert_eq!(length, Ok(image.len() as u64), "{} of {name}", writer.name());
                assert_eq!(buffer, image, "{} of {name}", writer.name());
            }
            written += 1;
        }
        assert_eq!(written, examples().len() - 1, "all but the one that is refused");
    }

    /// They are the sites of before, and their outputs those of before.
    #[test]
    fn stored_inputs_are_on_the_ground() {
        for (name, image) in stored() {
            let numbers = Numbers::held(&image);
            let (positions, _) = numbers.coordinates.as_chunks::<COORDINATES>();
            assert!(positions.iter().all(|position| position[2] == 0), "{name}");
        }
    }

    #[test]
    fn stored_outputs_are_those_of_the_reference() {
        let mut expected = String::new();
        for (name, image) in examples() {
            let text = String::from_utf8(reference::program(&image)).expect("text");
            if name == "report" {
                assert_eq!(stored_text("report/stdout"), text);
            } else {
                expected += &format!("== {name}.image\n{text}");
            }
        }
        assert_eq!(stored_text("report_examples/stdout"), expected);
    }
}
