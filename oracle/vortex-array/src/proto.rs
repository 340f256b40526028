//! SHIM, never run: the protobuf message of the options.
pub mod expr {
    pub struct NumericalAggregateOpts {
        pub skip_nans: bool,
    }
    impl prost::Message for NumericalAggregateOpts {
        fn encode_to_vec(&self) -> Vec<u8> {
            unreachable!("serialization is outside the comparison")
        }
        fn decode(_: &[u8]) -> Result<Self, prost::DecodeError> {
            Err(prost::DecodeError)
        }
    }
}
