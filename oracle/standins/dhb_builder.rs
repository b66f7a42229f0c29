//! Stands for dynamic_honey_badger/builder.rs, which document 01 leaves out; only its name is needed.
use std::marker::PhantomData;

pub struct DynamicHoneyBadgerBuilder<C, N>(PhantomData<(C, N)>);

impl<C, N> DynamicHoneyBadgerBuilder<C, N> {
    pub fn new() -> Self {
        DynamicHoneyBadgerBuilder(PhantomData)
    }
}
