//! The three messages between host and safety controller, typed from the maker's pages of document 004.
//!
//! 02: "identifiers 6, 7 and 8 (standard frames is our choice), eight bytes, big-endian signals".

use crate::pages::{flag, label, signed, unsigned, Kind, Order, Page, Unit};

pub const SAFETY_PAGES: [Page; 3] = [CHARGE_CONTROL_1, CHARGE_STATE_1, PT1000_STATE];

pub const CHARGE_CONTROL_1: Page = Page {
    name: "ChargeControl1",
    kind: Kind::ChargeControl1,
    id: 6,
    len: 8,
    extended: false,
    order: Order::Big,
    signals: &[
        unsigned("CC_TargetDutyCycle", 1, 10, Unit::Tenths),
        flag("CC_PWM_Active", 7),
        flag("CC_Contactor1State", 16),
        flag("CC_Contactor2State", 17),
    ],
};

pub const CHARGE_STATE_1: Page = Page {
    name: "ChargeState1",
    kind: Kind::ChargeState1,
    id: 7,
    len: 8,
    extended: false,
    order: Order::Big,
    signals: &[
        unsigned("CS_CurrentDutyCycle", 1, 10, Unit::Tenths),
        flag("CS_PWM_Active", 7),
        label(
            "CS_CurrentCpState",
            18,
            3,
            &[(0, "Unknown"), (1, "A"), (2, "B"), (3, "C"), (4, "D"), (5, "E"), (6, "F"), (7, "Invalid")],
        ),
        flag("CS_CpShortCircuit", 19),
        flag("CS_DiodeFault", 20),
        label(
            "CS_CurrentPpState",
            26,
            3,
            &[
                (0, "NoCableDetected"),
                (1, "13A"),
                (2, "20A"),
                (3, "32A"),
                (4, "63/70A"),
                (5, "Type1_Connected"),
                (6, "Type1_ConnectedButtonPressed"),
                (7, "Error"),
            ],
        ),
        flag("CS_Contactor1State", 32),
        flag("CS_Contactor2State", 33),
        flag("CS_Contactor1Error", 34),
        flag("CS_Contactor2Error", 35),
        flag("CS_Estop1ChargingAbort", 40),
        flag("CS_Estop2ChargingAbort", 41),
        flag("CS_Estop3ChargingAbort", 42),
        flag("CS_ImdRcmChargingAbort", 43),
        flag("CS_ImdRcmTestFailure", 44),
    ],
};

/// 0x1FFF in a temperature is a special number, no label (reading R4).
pub const PT1000_STATE: Page = Page {
    name: "PT1000State",
    kind: Kind::Pt1000State,
    id: 8,
    len: 8,
    extended: false,
    order: Order::Big,
    signals: &[
        signed("PT1_Temperature", 7, 14, Unit::Tenths),
        flag("PT1_ChargingStopped", 8),
        flag("PT1_SelftestFailed", 9),
        signed("PT2_Temperature", 23, 14, Unit::Tenths),
        flag("PT2_ChargingStopped", 24),
        flag("PT2_SelftestFailed", 25),
        signed("PT3_Temperature", 39, 14, Unit::Tenths),
        flag("PT3_ChargingStopped", 40),
        flag("PT3_SelftestFailed", 41),
        signed("PT4_Temperature", 55, 14, Unit::Tenths),
        flag("PT4_ChargingStopped", 56),
        flag("PT4_SelftestFailed", 57),
    ],
};
