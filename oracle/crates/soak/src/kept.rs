//! A difference, kept as files so that it can be looked at, and stay as an example.
use crate::question::Question;
use std::fs;
use std::path::Path;

/// Where it is, and what makes it stay. Each file has this path and a word behind it.
pub fn keep(path: &str, question: &Question, words: &str) -> String {
    let write = |file: &str, bytes: &[u8]| {
        let path = format!("{path}.{file}");
        let folder = Path::new(&path).parent().expect("a folder");
        fs::create_dir_all(folder).and_then(|()| fs::write(&path, bytes)).unwrap_or_else(|error| panic!("{path}: {error}"));
        path
    };
    let told = write("txt", format!("{}\n{words}\n", question.describe()).as_bytes());
    match question {
        Question::Job { bytes, must } => {
            let job = write("job", bytes);
            write("answer", must.as_bytes());
            format!("kept as {job}; copy it and its .answer to examples/ under a name that says what it shows, and it is asked again by every gate (tools/run-examples)")
        }
        _ => format!("kept as {told}; a call of the library stays as a test of bindings/rust/tests"),
    }
}
