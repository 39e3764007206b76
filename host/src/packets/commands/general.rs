//! After uf-crsf's src/packets/commands/general.rs (Apache-2.0, see NOTICE).

/// Protocol speed negotiation (command ID 0x0A).
#[derive(Clone, Debug, PartialEq)]
pub enum GeneralCommand {
    /// Propose a speed.
    SpeedProposal {
        /// The port.
        port_id: u8,
        /// Proposed UART speed in baud, encoded as a big-endian u32.
        proposed_baudrate: u32,
    },
    /// Answer a proposal.
    SpeedProposalResponse {
        /// The port.
        port_id: u8,
        /// Whether the speed is accepted.
        accepted: bool,
    },
}
