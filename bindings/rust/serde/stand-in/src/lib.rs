//! Stands for the crate serde in the workspace of `bindings/rust`, so that cargo asks no registry there. A crate that
//! depends on sellumaq never sees it.
compile_error!("the feature serde can't be built here: the folder serde has its tests, by serde itself");
