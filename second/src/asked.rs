//! What the rules ask for, and which message has it on either document's pages.
//!
//! A post hears the messages of its own interface only, so that both may stand beside each other here.

use crate::codec::Message;
use crate::pages::Kind;

pub const STATUS: &[Kind] = &[Kind::PowerModulesStatus, Kind::OlderPowerModulesStatus];
pub const CONTROLLER_STATUS: &[Kind] = &[Kind::AdvanticsControllerStatus, Kind::OlderAdvanticsControllerStatus];
pub const OPENING: &[Kind] = &[Kind::NewChargeSession, Kind::OlderNewChargeSession];
pub const FINISHED: &[Kind] = &[Kind::ChargeSessionFinished, Kind::OlderChargeSessionFinished];

/// 02: "Insulation_Test, Precharge and Charging_Loop count as the three functions, the latest of them standing for
/// DC_Power_Control".
pub const CONTROL: &[Kind] = &[Kind::DcPowerControl, Kind::InsulationTest, Kind::Precharge, Kind::ChargingLoop];

/// 02: "F3, F6 and F7 give no finding there"; they ask for 000's message alone.
pub const DC_POWER_CONTROL: &[Kind] = &[Kind::DcPowerControl];

/// 02: "an Emergency_Stop"; it "gets teeth" with F12.
pub const STOP: &[Kind] = &[Kind::EmergencyStop, Kind::OlderEmergencyStop];

/// What tells limits.
pub const TOLD: &[Kind] = &[Kind::DcPowerParameters, Kind::PowerModulesLimits];

/// The function of a control, by the name of its label in 000; 001's count as theirs "whatever their numbers".
pub fn function(control: &Message) -> &'static str {
    match control.kind {
        Kind::InsulationTest => "Insulation_Test",
        Kind::Precharge => "Precharge",
        Kind::ChargingLoop => "Power_Transfer",
        _ => control.label("Power_Function"),
    }
}

/// What a session is opened with, and F10 compares: the protocol and the plug.
pub fn protocol_and_plug(opening: &Message) -> [i64; 2] {
    ["Communication_Protocol", "Plug_and_pins"].map(|name| opening.raw(name))
}

/// A limit that a post may be told, and the signal that tells it.
#[derive(Clone, Copy)]
pub enum Limit {
    Voltage,
    Charge,
    Discharge,
}

/// The number of that limit in what tells limits; 02: "Power_Modules_Limits sets the voltage and charge limits".
pub fn told(limits: &Message, limit: Limit) -> Option<i64> {
    let signal = match (limits.kind, limit) {
        (_, Limit::Voltage) => "Maximum_Voltage",
        (Kind::PowerModulesLimits, Limit::Charge) => "Maximum_Current",
        (Kind::PowerModulesLimits, Limit::Discharge) => return None,
        (_, Limit::Charge) => "Maximum_Charge_Current",
        (_, Limit::Discharge) => "Maximum_Discharge_Current",
    };
    Some(limits.raw(signal))
}
