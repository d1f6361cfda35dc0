//! The signals of the messages that documents 000 and 001 lay out alike, each under an identifier of its own.

use crate::pages::{flag, label, unsigned, Signal, Unit};

pub const SEQUENCE_CONTROL: &[Signal] = &[
    label("Start_Charge_Authorisation", 0, 1, &[(0, "Not_Allowed"), (1, "Allowed")]),
    label("CHAdeMO_Start_Button", 1, 1, &[(0, "Not_Pressed"), (1, "Pressed")]),
    label("CCS_Authorisation_Done", 8, 1, &[(0, "Not_Done"), (1, "Done")]),
    label("CCS_Authorisation_Valid", 9, 1, &[(0, "Invalid"), (1, "Valid")]),
    label("Charge_Parameters_Done", 10, 1, &[(0, "Not_Done"), (1, "Done")]),
    label("User_Stop_Button", 16, 1, &[(0, "Not_Pressed"), (1, "Pressed")]),
];

pub const ADM_CS_SECC_OUTPUTS: &[Signal] = &[
    flag("Digital_Output1", 0),
    flag("Digital_Output2", 1),
    flag("Digital_Output3", 2),
    flag("Digital_Output4", 3),
    unsigned("Reserved", 4, 60, Unit::None),
];

pub const ADM_CO_CUI1_INPUTS: &[Signal] = &[
    flag("SWITCH0", 0),
    flag("SWITCH1", 1),
    flag("SWITCH2", 2),
    flag("SWITCH3", 3),
    flag("SWITCH4", 4),
    flag("SWITCH5", 5),
    unsigned("Reserved", 6, 26, Unit::None),
    unsigned("Colibri_Temperature", 32, 8, Unit::Celsius),
    unsigned("CPU_Temperature", 40, 8, Unit::Celsius),
    unsigned("Pistol_PTC1", 48, 8, Unit::Celsius),
    unsigned("Pistol_PTC2", 56, 8, Unit::Celsius),
];

pub const ADM_CS_SECC_INPUTS: &[Signal] = &[
    flag("Digital_Input1", 0),
    flag("Digital_Input2", 1),
    flag("Digital_Input3", 2),
    flag("Digital_Input4", 3),
    unsigned("Reserved", 4, 36, Unit::None),
    unsigned("CPU_Temperature", 40, 8, Unit::Celsius),
    unsigned("Pistol_PTC1", 48, 8, Unit::Celsius),
    unsigned("Pistol_PTC2", 56, 8, Unit::Celsius),
];

pub const ADM_CS_SPCC_INPUTS: &[Signal] = &[
    flag("Digital_Input1", 0),
    flag("Digital_Input2", 1),
    flag("Digital_Input3", 2),
    flag("Digital_Input4", 3),
    unsigned("Reserved", 4, 4, Unit::None),
    unsigned("CPU_Temperature0", 8, 8, Unit::Celsius),
    unsigned("CPU_Temperature1", 16, 8, Unit::Celsius),
    unsigned("PT1K_A", 24, 8, Unit::Celsius),
    unsigned("PT1K_B", 32, 8, Unit::Celsius),
    unsigned("PT1KS_C", 48, 8, Unit::Celsius),
    unsigned("PT1KS_D", 56, 8, Unit::Celsius),
];

pub const CCS_EXTRA_INFORMATION: &[Signal] = &[
    label("CP_State", 0, 8, &[(0, "E_or_F"), (3, "D"), (6, "C"), (9, "B"), (12, "A")]),
    unsigned("CP_Duty_Cycle", 8, 16, Unit::Tenths),
    unsigned("Reserved", 24, 40, Unit::None),
];

pub const MCS_EXTRA_INFORMATION: &[Signal] = &[
    label(
        "CE_State",
        0,
        8,
        &[
            (0, "Undefined"),
            (1, "A"),
            (2, "B0"),
            (3, "B0_Aux"),
            (4, "B"),
            (5, "B_Aux"),
            (6, "C"),
            (7, "C_Aux"),
            (8, "EC"),
            (9, "E"),
        ],
    ),
    label("ID_State", 8, 8, &[(0, "Unmated"), (1, "Mated"), (2, "Mated_EVAux"), (3, "Mated_EVSEAux")]),
    unsigned("Reserved", 16, 48, Unit::None),
];
