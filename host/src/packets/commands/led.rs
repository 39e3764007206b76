//! After uf-crsf's src/packets/commands/led.rs (Apache-2.0, see NOTICE).

/// LED HSV colour. Hue is 0–359 degrees; saturation and value are 0–100 percent.
///
/// Encoded as three bytes, MSB first: 9 hue bits, 7 saturation bits, 8 value bits.
#[derive(Clone, Copy, Debug, PartialEq)]
pub struct LedColor {
    /// 0 to 359 degrees.
    pub hue: u16,
    /// 0 to 100 percent.
    pub saturation: u8,
    /// 0 to 100 percent.
    pub value: u8,
}

/// LED commands (command ID 0x09). Pulse durations are in milliseconds.
#[derive(Clone, Debug, PartialEq)]
pub enum LedCommand {
    /// Set the default.
    SetDefault,
    /// Override the colour.
    OverrideColor(LedColor),
    /// Override by a pulse.
    OverridePulse {
        /// Duration in milliseconds.
        duration_ms: u16,
        /// Start colour.
        start: LedColor,
        /// Stop colour.
        stop: LedColor,
    },
    /// Override by a blink.
    OverrideBlink {
        /// Interval in milliseconds.
        interval_ms: u16,
        /// Start colour.
        start: LedColor,
        /// Stop colour.
        stop: LedColor,
    },
    /// Override by a shift.
    OverrideShift {
        /// Interval in milliseconds.
        interval_ms: u16,
        /// The colour.
        color: LedColor,
    },
}
