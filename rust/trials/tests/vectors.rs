//! Every case of vectors/ through the C face.

use ratlinery_reference::vectors;
use ratlinery_trials::library::Library;
use std::path::Path;

#[test]
fn every_case_of_the_vectors() {
    let folder = Path::new(env!("CARGO_MANIFEST_DIR")).join("../../vectors");
    let report = vectors::run_all(&Library, &folder);
    println!("{:?}", report.passed);
    assert!(report.failed.is_empty(), "{} failed:\n{}", report.failed.len(), report.failed.join("\n"));
    let operations = if cfg!(feature = "prepared") { 13 } else { 9 };
    assert!(report.passed.len() == operations, "an operation has no case: {:?}", report.passed);
}
