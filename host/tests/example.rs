//! The example of the crate's documentation, which includes the same file. A test runs on either processor; a documentation test
//! does not run where programs are emulated.

include!("../examples/calls.rs");

#[test]
fn the_documented_example_runs() {
    assert_eq!(main(), Ok(()));
}
