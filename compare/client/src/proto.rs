//! Stands in for the generated protobuf modules, of which the original's client names these messages. Field numbers
//! are chosen here: both clients share them.
#![allow(missing_docs)]

pub mod misc {
    #[derive(Clone, PartialEq, prost::Message)]
    pub struct TGuid {
        #[prost(fixed64, required, tag = "1")]
        pub first: u64,
        #[prost(fixed64, required, tag = "2")]
        pub second: u64,
    }

    #[derive(Clone, PartialEq, prost::Message)]
    pub struct TAttribute {
        #[prost(string, required, tag = "1")]
        pub key: String,
        #[prost(bytes = "vec", required, tag = "2")]
        pub value: Vec<u8>,
    }

    #[derive(Clone, PartialEq, prost::Message)]
    pub struct TAttributeDictionary {
        #[prost(message, repeated, tag = "1")]
        pub attributes: Vec<TAttribute>,
    }

    #[derive(Clone, PartialEq, prost::Message)]
    pub struct TError {
        #[prost(int32, required, tag = "1")]
        pub code: i32,
        #[prost(string, optional, tag = "2")]
        pub message: Option<String>,
        #[prost(message, optional, tag = "3")]
        pub attributes: Option<TAttributeDictionary>,
        #[prost(message, repeated, tag = "4")]
        pub inner_errors: Vec<TError>,
    }
}

pub mod bus {
    #[derive(Clone, PartialEq, prost::Message)]
    pub struct THandshake {
        #[prost(message, required, tag = "1")]
        pub connection_id: super::misc::TGuid,
        #[prost(int32, optional, tag = "2")]
        pub encryption_mode: Option<i32>,
        #[prost(bool, optional, tag = "3")]
        pub verify: Option<bool>,
    }
}
