//! The root of both builds: kanpig's seven files as modules, and thin stand-ins for what was not copied.
//! The build script puts the files into OUT_DIR, unchanged or patched.
#[macro_use]
extern crate log;

pub mod notes;

pub mod kplib {
    macro_rules! copied {
        ($name:ident) => {
            #[allow(unused_doc_comments, clippy::all)]
            pub mod $name {
                include!(concat!(env!("OUT_DIR"), "/", stringify!($name), ".rs"));
            }
        };
    }
    copied!(graphparams);
    copied!(haplotype);
    copied!(kmer);
    copied!(metrics);
    copied!(pathscore);
    copied!(traverse);
    copied!(vargraph);

    pub use graphparams::GraphParams;
    pub use haplotype::{Haplotype, HaplotypeMeta};
    pub use kmer::seq_to_kmer;
    pub use pathscore::PathScore;
    pub use vargraph::Variants;

    /// A record's bounds, features and size, as the caller gave them.
    pub mod vcftraits {
        use noodles_vcf::variant::RecordBuf;

        pub trait KdpVcf {
            fn boundaries(&self) -> (u64, u64);
            fn to_kfeat(&self, kmer: u8) -> (Vec<f32>, i64);
        }

        impl KdpVcf for RecordBuf {
            fn boundaries(&self) -> (u64, u64) {
                (self.start, self.end)
            }

            fn to_kfeat(&self, _kmer: u8) -> (Vec<f32>, i64) {
                (self.kfeat.clone(), self.size)
            }
        }
    }

    // Named by `take_annotated`, which the core never calls.
    pub mod germ_genotyper {
        pub struct Genotyper;
    }

    pub struct Ploidy;

    pub struct GenotypeAnno;

    impl GenotypeAnno {
        pub fn new(
            _node: &petgraph::graph::NodeIndex,
            _paths: &[PathScore],
            _coverage: u64,
            _ploidy: &Ploidy,
            _start: u64,
            _sample: usize,
            _genotyper: &germ_genotyper::Genotyper,
        ) -> Self {
            GenotypeAnno
        }
    }

    pub type ChannelOutput = Vec<Option<(noodles_vcf::variant::RecordBuf, Vec<GenotypeAnno>)>>;
}
