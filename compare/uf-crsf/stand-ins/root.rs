// Stands in for uf-crsf's src/lib.rs: of its modules, those that the direct commands need.
pub mod constants;
pub mod error;
pub mod packets;

pub use error::CrsfParsingError;
pub use packets::PacketType;
