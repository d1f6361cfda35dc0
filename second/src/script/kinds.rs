//! What arrives at a post of either interface, and how often.

use crate::pages::{Kind, OLDER};

/// Weights of the messages that the rules ask for: while a session is open, and while none is.
type Weighted = (u64, u64, Kind);

const NEWER_ASKED: [Weighted; 7] = [
    (12, 30, Kind::NewChargeSession),
    (18, 15, Kind::AdvanticsControllerStatus),
    (24, 12, Kind::PowerModulesStatus),
    (22, 18, Kind::DcPowerControl),
    (7, 6, Kind::DcPowerParameters),
    (5, 3, Kind::EmergencyStop),
    (4, 5, Kind::ChargeSessionFinished),
];

const OLDER_ASKED: [Weighted; 9] = [
    (12, 30, Kind::OlderNewChargeSession),
    (18, 15, Kind::OlderAdvanticsControllerStatus),
    (24, 12, Kind::OlderPowerModulesStatus),
    (7, 6, Kind::InsulationTest),
    (7, 6, Kind::Precharge),
    (9, 7, Kind::ChargingLoop),
    (9, 6, Kind::PowerModulesLimits),
    (5, 3, Kind::OlderEmergencyStop),
    (4, 5, Kind::OlderChargeSessionFinished),
];

const SAFETY: [(u64, Kind); 3] = [(4, Kind::ChargeControl1), (4, Kind::ChargeState1), (4, Kind::Pt1000State)];

const NEWER_OTHERS: [(u64, Kind); 15] = [
    (6, Kind::SequenceControl),
    (2, Kind::AdmCsSeccOutputs),
    (2, Kind::ChargeStatusChange),
    (3, Kind::EvInformationBattery),
    (3, Kind::EvInformationVoltages),
    (3, Kind::EvInformationChargeLimits),
    (2, Kind::EvInformationDischargeLimits),
    (2, Kind::EvInformationEnergy),
    (1, Kind::EvIdCcsPart2Din),
    (2, Kind::AdmCoCui1Inputs),
    (2, Kind::AdmCsSeccInputs),
    (2, Kind::AdmCsSpccInputs),
    (2, Kind::CcsExtraInformation),
    (2, Kind::McsExtraInformation),
    (2, Kind::OcppControl),
];

const OLDER_OTHERS: [(u64, Kind); 9] = [
    (2, Kind::OlderSequenceControl),
    (2, Kind::OlderAdmCsSeccOutputs),
    (2, Kind::OlderChargeStatusChange),
    (2, Kind::OlderAdmCoCui1Inputs),
    (2, Kind::OlderAdmCsSeccInputs),
    (2, Kind::OlderEvIdCcsPart2Din),
    (2, Kind::OlderAdmCsSpccInputs),
    (2, Kind::OlderCcsExtraInformation),
    (2, Kind::OlderMcsExtraInformation),
];

const TICKS: u64 = 9;

/// `None` is a tick.
pub fn arriving(interface: u32, open: bool) -> Vec<(u64, Option<Kind>)> {
    let (asked, others): (&[Weighted], &[(u64, Kind)]) =
        if interface == OLDER { (&OLDER_ASKED, &OLDER_OTHERS) } else { (&NEWER_ASKED, &NEWER_OTHERS) };
    let asked = asked.iter().map(|&(opened, closed, kind)| (if open { opened } else { closed }, Some(kind)));
    let others = others.iter().chain(&SAFETY).map(|&(weight, kind)| (weight, Some(kind)));
    asked.chain(others).chain([(TICKS, None)]).collect()
}

pub fn status(interface: u32) -> Kind {
    if interface == OLDER {
        Kind::OlderPowerModulesStatus
    } else {
        Kind::PowerModulesStatus
    }
}

/// What ends the silences that F2 and F1 look for.
pub fn signs_of_life(interface: u32) -> [Kind; 2] {
    let controller =
        if interface == OLDER { Kind::OlderAdvanticsControllerStatus } else { Kind::AdvanticsControllerStatus };
    [controller, status(interface)]
}
