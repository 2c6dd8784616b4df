//! Only the module paths that the original files expect. The files themselves are copied, unchanged, beside this one when the
//! comparison is built.
#![allow(dead_code, unused)]

pub mod variables {
    pub mod domain {
        pub mod bitset_domain;
        pub mod sparse_set;
    }
}

pub mod constraints {
    pub mod gac_bitset;
    pub mod gac_hybrid;
    /// gac_hybrid.rs names a type that no file supplies: a stand-in. Nothing that is compared calls it.
    #[path = "../stub_sparseset_gac.rs"]
    pub mod gac_sparseset;
}
