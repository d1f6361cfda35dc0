//! The charge controllers' messages, typed from the maker's charger-side pages (000), in the order of its sections.

use crate::both_pages::{
    ADM_CO_CUI1_INPUTS, ADM_CS_SECC_INPUTS, ADM_CS_SECC_OUTPUTS, ADM_CS_SPCC_INPUTS, CCS_EXTRA_INFORMATION,
    MCS_EXTRA_INFORMATION, SEQUENCE_CONTROL,
};
use crate::pages::{label, page, signed, unsigned, Kind, Page, Unit};

pub const NEWER_PAGES: [Page; 22] = [
    page(
        "Power_Modules_Status",
        Kind::PowerModulesStatus,
        0x63000,
        8,
        &[
            unsigned("Present_Voltage", 0, 16, Unit::Volts),
            signed("Present_Current", 16, 16, Unit::Amps),
            unsigned("Power_Modules_Temperature", 32, 8, Unit::Celsius),
            unsigned("Enclosure_Temperature", 40, 8, Unit::Celsius),
            label("System_Enable", 48, 8, &[(0, "Not_Allowed"), (1, "Allowed")]),
            unsigned("Insulation_Resistance", 56, 8, Unit::KiloOhms),
        ],
    ),
    page(
        "DC_Power_Parameters",
        Kind::DcPowerParameters,
        0x63001,
        8,
        &[
            unsigned("Maximum_Voltage", 0, 16, Unit::Volts),
            unsigned("Maximum_Charge_Current", 16, 16, Unit::Amps),
            unsigned("Maximum_Discharge_Current", 32, 16, Unit::Amps),
            signed("Range_Target_Current", 48, 16, Unit::Amps),
        ],
    ),
    page("Sequence_Control", Kind::SequenceControl, 0x63002, 3, SEQUENCE_CONTROL),
    page("ADM_CS_SECC_Outputs", Kind::AdmCsSeccOutputs, 0x63201, 8, ADM_CS_SECC_OUTPUTS),
    page(
        "Advantics_Controller_Status",
        Kind::AdvanticsControllerStatus,
        0x6b000,
        1,
        &[label(
            "State",
            0,
            8,
            &[
                (0, "Initialising"),
                (1, "Waiting_For_PEV"),
                (2, "Negotiating_Connection"),
                (3, "Connected_With_Full_Info"),
                (4, "Insulation_Test"),
                (5, "Precharge"),
                (6, "Waiting_For_Charge"),
                (7, "Charging"),
                (8, "Ending_Charge"),
                (9, "Welding_Detection"),
                (10, "Closing_Communication"),
                (11, "CCS_Authorisation_Process"),
                (12, "Not_Available"),
                (13, "Charge_Pause"),
            ],
        )],
    ),
    page(
        "New_Charge_Session",
        Kind::NewChargeSession,
        0x6b001,
        2,
        &[
            label(
                "Communication_Protocol",
                0,
                8,
                &[
                    (0, "CCS_DIN_70121_2012_v2"),
                    (1, "CCS_ISO_15118_2010_v1"),
                    (2, "CCS_ISO_15118_2013_v2"),
                    (3, "CHAdeMO_v0.9"),
                    (4, "CHAdeMO_v1.0-v1.1-v1.2"),
                    (5, "CHAdeMO_v2.0"),
                    (6, "CCS_PWM"),
                    (7, "CCS_ISO_15118_2022"),
                ],
            ),
            label(
                "Plug_and_pins",
                8,
                8,
                &[(0, "CCS_DC_Core"), (1, "CCS_DC_Extended"), (2, "CHAdeMO"), (3, "CCS_AC"), (4, "MCS")],
            ),
        ],
    ),
    page(
        "Charge_Status_Change",
        Kind::ChargeStatusChange,
        0x6b002,
        1,
        &[label("Vehicle_Ready_for_Charging", 0, 8, &[(0, "Charge_Stopped"), (1, "Charge_Started")])],
    ),
    page(
        "DC_Power_Control",
        Kind::DcPowerControl,
        0x6b003,
        7,
        &[
            unsigned("Target_Voltage", 0, 16, Unit::Volts),
            signed("Current_Range_Max", 16, 16, Unit::Amps),
            signed("Current_Range_Min", 32, 16, Unit::Amps),
            label(
                "Power_Function",
                48,
                4,
                &[(0, "Off"), (1, "Standby"), (2, "Insulation_Test"), (4, "Precharge"), (8, "Power_Transfer")],
            ),
            unsigned("Reserved", 52, 1, Unit::None),
            label("Setpoints_Mode", 53, 1, &[(0, "Target_Mode"), (1, "Range_Mode")]),
            label("Output_Contactors", 54, 1, &[(0, "Open"), (1, "Close")]),
            label("Lower_Output_Voltage", 55, 1, &[(0, "No_Lowering"), (1, "Lowering")]),
        ],
    ),
    page(
        "Charge_Session_Finished",
        Kind::ChargeSessionFinished,
        0x6b004,
        1,
        &[label("State", 0, 8, &[(0, "Clean_Stop"), (1, "Rushed_Stop")])],
    ),
    page("Emergency_Stop", Kind::EmergencyStop, 0x6b005, 1, &[label("Origin", 0, 8, &[(1, "EVSE"), (3, "PEV")])]),
    page(
        "EV_Information_Battery",
        Kind::EvInformationBattery,
        0x6b100,
        6,
        &[
            unsigned("Battery_Capacity", 0, 16, Unit::None),
            unsigned("Present_State_of_Charge", 16, 8, Unit::None),
            unsigned("Minimum_State_of_Charge", 24, 8, Unit::None),
            unsigned("Target_State_of_Charge", 32, 8, Unit::None),
            unsigned("Maximum_State_of_Charge", 40, 8, Unit::None),
        ],
    ),
    page(
        "EV_Information_Voltages",
        Kind::EvInformationVoltages,
        0x6b101,
        6,
        &[
            unsigned("EV_Minimum_Voltage", 0, 16, Unit::Volts),
            unsigned("EV_Maximum_Voltage", 16, 16, Unit::Volts),
            unsigned("EV_Present_Voltage", 32, 16, Unit::Volts),
        ],
    ),
    page(
        "EV_Information_Charge_Limits",
        Kind::EvInformationChargeLimits,
        0x6b102,
        8,
        &[
            unsigned("EV_Minimum_Charge_Current", 0, 16, Unit::Amps),
            unsigned("EV_Maximum_Charge_Current", 16, 16, Unit::Amps),
            unsigned("EV_Minimum_Charge_Power", 32, 16, Unit::None),
            unsigned("EV_Maximum_Charge_Power", 48, 16, Unit::None),
        ],
    ),
    page(
        "EV_Information_Discharge_Limits",
        Kind::EvInformationDischargeLimits,
        0x6b103,
        8,
        &[
            unsigned("EV_Minimum_Discharge_Current", 0, 16, Unit::Amps),
            unsigned("EV_Maximum_Discharge_Current", 16, 16, Unit::Amps),
            unsigned("EV_Minimum_Discharge_Power", 32, 16, Unit::None),
            unsigned("EV_Maximum_Discharge_Power", 48, 16, Unit::None),
        ],
    ),
    page(
        "EV_Information_Energy",
        Kind::EvInformationEnergy,
        0x6b104,
        6,
        &[
            signed("EV_Minimum_Energy_Request", 0, 16, Unit::None),
            signed("EV_Target_Energy_Request", 16, 16, Unit::None),
            signed("EV_Maximum_Energy_Request", 32, 16, Unit::None),
        ],
    ),
    page(
        "EV_ID_CCS_Part2_DIN",
        Kind::EvIdCcsPart2Din,
        0x6b105,
        6,
        &[
            unsigned("Byte0", 0, 8, Unit::None),
            unsigned("Byte1", 8, 8, Unit::None),
            unsigned("Byte2", 16, 8, Unit::None),
            unsigned("Byte3", 24, 8, Unit::None),
            unsigned("Byte4", 32, 8, Unit::None),
            unsigned("Byte5", 40, 8, Unit::None),
        ],
    ),
    page("ADM_CO_CUI1_Inputs", Kind::AdmCoCui1Inputs, 0x6b200, 8, ADM_CO_CUI1_INPUTS),
    page("ADM_CS_SECC_Inputs", Kind::AdmCsSeccInputs, 0x6b201, 8, ADM_CS_SECC_INPUTS),
    page("ADM_CS_SPCC_Inputs", Kind::AdmCsSpccInputs, 0x6b202, 8, ADM_CS_SPCC_INPUTS),
    page("CCS_Extra_Information", Kind::CcsExtraInformation, 0x6b203, 8, CCS_EXTRA_INFORMATION),
    page("MCS_Extra_Information", Kind::McsExtraInformation, 0x6b204, 8, MCS_EXTRA_INFORMATION),
    page("OCPP_Control", Kind::OcppControl, 0x6b300, 2, &[signed("Dynamic_Target_Current", 0, 16, Unit::Amps)]),
];

/// 02: "the messages of source document 000 that the base left out, from Sequence_Control to OCPP_Control".
pub fn rest() -> impl Iterator<Item = &'static Page> {
    NEWER_PAGES.iter().filter(|page| is_rest(page.kind))
}

pub fn is_rest(kind: Kind) -> bool {
    let from_000 = NEWER_PAGES.iter().any(|page| page.kind == kind);
    from_000 && !BASE.contains(&kind)
}

/// What a vehicle tells of itself.
pub const EV_INFORMATION: &[Kind] = &[
    Kind::EvInformationBattery,
    Kind::EvInformationVoltages,
    Kind::EvInformationChargeLimits,
    Kind::EvInformationDischargeLimits,
    Kind::EvInformationEnergy,
];

/// 01's nine messages.
const BASE: [Kind; 9] = [
    Kind::PowerModulesStatus,
    Kind::DcPowerParameters,
    Kind::AdvanticsControllerStatus,
    Kind::NewChargeSession,
    Kind::ChargeStatusChange,
    Kind::DcPowerControl,
    Kind::ChargeSessionFinished,
    Kind::EmergencyStop,
    Kind::EvIdCcsPart2Din,
];
