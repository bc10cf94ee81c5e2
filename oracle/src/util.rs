//! The source's blocks of a byte range, as they stand.

#[allow(clippy::all)]
pub mod block_range {
    include!(concat!(
        env!("CARGO_MANIFEST_DIR"),
        "/../../shared/docs/src/zircon-object/src/util/block_range.rs"
    ));
}
