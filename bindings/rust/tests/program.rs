//! The program's text for a job's bytes: each example's, as it is stored beside it.
use ndigomarr::answer;
use std::fs;
use std::path::Path;

#[test]
fn each_example() {
    let folder = Path::new(env!("CARGO_MANIFEST_DIR")).join("../../examples");
    let files = fs::read_dir(folder).expect("the examples").map(|file| file.expect("a file").path());
    let jobs: Vec<_> = files.filter(|path| path.extension().is_some_and(|kind| kind == "job")).collect();
    assert!(jobs.len() >= 20);
    for job in jobs {
        let stored = fs::read_to_string(job.with_extension("answer")).expect("its answer");
        assert_eq!(answer(&fs::read(&job).expect("its bytes")), stored, "{}", job.display());
    }
}

#[test]
fn no_bytes_and_too_many() {
    assert_eq!(answer(&[]), "refused 21\n");
    assert_eq!(answer(&[0; 32_769]), "refused 26\n");
}
