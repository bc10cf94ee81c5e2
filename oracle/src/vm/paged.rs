include!(concat!(
    env!("CARGO_MANIFEST_DIR"),
    "/../../shared/docs/src/zircon-object/src/vm/vmo/paged.rs"
));

#[warn(warnings, clippy::all)]
pub mod tree;
