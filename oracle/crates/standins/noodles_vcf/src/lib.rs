//! Stand-in for noodles_vcf's record: it carries what the core asks of a variant, bounds, size and features, and a number to know it by.
pub mod variant {
    #[derive(Clone, Debug)]
    pub struct RecordBuf {
        pub start: u64,
        pub end: u64,
        pub size: i64,
        pub kfeat: Vec<f32>,
        pub number: u32,
    }

    impl RecordBuf {
        pub fn reference_sequence_name(&self) -> &str {
            "table"
        }
    }
}
