//! What a post's kept frames say, in words: the readings that a night manager looks for, and every message as it stands.

use crate::clock;
use crate::library::{self, Depot, Kept, Numbers, Part, OLDER, SIGNALS, YES_NO};
use crate::pages::{self, tenths, Message};

/// A row of a card.
#[derive(Clone, Debug, PartialEq, Eq)]
pub struct Reading {
    pub name: &'static str,
    pub value: String,
    /// What it is held against, or what it belongs to.
    pub note: String,
    /// Something is wrong with it.
    pub marked: bool,
    /// Of the message, as of the post's latest accepted frame or tick.
    pub age: u32,
}

/// A kept frame beside its page.
pub struct Look {
    pub message: &'static Message,
    pub kept: Kept,
    raws: [i64; SIGNALS],
}

impl Look {
    fn new(kept: Kept) -> Option<Look> {
        let message = pages::message(kept.kind)?;
        let raws = message.raws(&kept.bytes)?;
        Some(Look { message, kept, raws })
    }

    fn raw(&self, signal: &str) -> Option<i64> {
        self.message.place(signal).map(|place| self.raws[place])
    }

    fn words(&self, signal: &str) -> Option<String> {
        self.message.place(signal).map(|place| self.message.signals[place].words(self.raws[place]))
    }

    /// Each signal's name and its words.
    pub fn signals(&self, sensor: u32) -> Vec<(&'static str, String)> {
        let words = |(place, signal): (usize, &'static pages::Signal)| {
            let yes_no = sensor == YES_NO && signal.name == INSULATION;
            (signal.name, if yes_no { valid(self.raws[place]) } else { signal.words(self.raws[place]) })
        };
        self.message.signals.iter().enumerate().map(words).collect()
    }

    fn reading(&self, name: &'static str, value: String) -> Reading {
        Reading { name, value, note: String::new(), marked: false, age: self.kept.age }
    }

    /// A signal's reading under a name of its own; none where the page has no such signal.
    fn said(&self, name: &'static str, signal: &str) -> Option<Reading> {
        self.words(signal).map(|words| self.reading(name, words))
    }
}

const INSULATION: &str = "Insulation_Resistance";

/// 02, Req 03: of a yes/no sensor.
fn valid(raw: i64) -> String {
    match raw {
        255 => "Valid".to_string(),
        0 => "Invalid".to_string(),
        other => format!("{other}, neither Valid (255) nor Invalid (0)"),
    }
}

/// The messages that a post keeps, in the order of their kinds.
pub fn looks(depot: &Depot, post: u32) -> Vec<Look> {
    pages::kinds().filter_map(|(kind, _)| depot.latest(post, kind)).filter_map(Look::new).collect()
}

pub fn in_session(depot: &Depot, post: u32, part: Part) -> Option<Look> {
    depot.in_session(post, part).and_then(Look::new)
}

fn latest<'a>(looks: &'a [Look], name: &str) -> Option<&'a Look> {
    looks.iter().find(|look| look.message.name == name)
}

/// 01, F9: "under 100 Ohm per volt of the same message's voltage, that is raw insulation times 200 is below raw voltage".
fn insulation(status: &Look, sensor: u32) -> Option<Reading> {
    let (raw, volt) = (status.raw(INSULATION)?, status.raw("Present_Voltage")?);
    if sensor == YES_NO {
        return Some(Reading {
            note: "yes/no sensor".to_string(),
            marked: raw == 0,
            ..status.reading("Insulation", valid(raw))
        });
    }
    let note = format!("limit {}.{:02} kOhm at {} V", volt / 100, volt % 100, tenths(volt));
    let marked = raw * 200 < volt;
    Some(Reading { note, marked, ..status.said("Insulation", INSULATION)? })
}

fn status(looks: &[Look], sensor: u32) -> Vec<Option<Reading>> {
    let Some(status) = latest(looks, "Power_Modules_Status") else {
        return vec![];
    };
    vec![
        status.said("Voltage", "Present_Voltage"),
        status.said("Current", "Present_Current"),
        insulation(status, sensor),
        status.said("Power modules", "Power_Modules_Temperature"),
        status.said("Enclosure", "Enclosure_Temperature"),
        status.said("System enable", "System_Enable"),
    ]
}

/// Of DC_Power_Control.
fn control(looks: &[Look]) -> Vec<Option<Reading>> {
    let Some(control) = latest(looks, "DC_Power_Control") else {
        return vec![];
    };
    let (most, least) = (control.words("Current_Range_Max"), control.words("Current_Range_Min"));
    let range = most.zip(least).map(|(most, least)| format!("{least} to {most}"));
    vec![
        control.said("Function", "Power_Function"),
        control.said("Contactors", "Output_Contactors"),
        control.said("Target voltage", "Target_Voltage"),
        range.map(|range| control.reading("Current range", range)),
        control.said("Lowering", "Lower_Output_Voltage"),
    ]
}

/// What a vehicle tells of its battery; an older controller tells it beside its function.
fn battery(looks: &[Look]) -> Option<Reading> {
    let battery = latest(looks, "EV_Information_Battery")?;
    let note = format!("of {}", battery.words("Battery_Capacity")?);
    Some(Reading { note, ..battery.said("State of charge", "Present_State_of_Charge")? })
}

/// An older controller asks for a function by a message of its own.
const FUNCTIONS: [&str; 3] = ["Insulation_Test", "Precharge", "Charging_Loop"];

fn older_control(looks: &[Look], session: Option<&Look>) -> Vec<Option<Reading>> {
    let asked = looks.iter().filter(|look| FUNCTIONS.contains(&look.message.name)).min_by_key(|look| look.kept.age);
    let Some(asked) = session.or(asked) else {
        return vec![];
    };
    vec![
        Some(asked.reading("Function", asked.message.name.to_string())),
        asked.said("Target voltage", "Target_Voltage").or_else(|| asked.said("Test voltage", "Test_Voltage")),
        asked.said("Target current", "Target_Current").or_else(|| asked.said("Maximum current", "Maximum_Current")),
        asked.said("State of charge", "State_of_Charge"),
    ]
}

/// What a post's charge controller and power modules say.
pub fn readings(depot: &Depot, post: u32, numbers: &Numbers, looks: &[Look]) -> Vec<Reading> {
    let mut rows = status(looks, numbers.sensor);
    rows.extend(match numbers.interface {
        OLDER => older_control(looks, in_session(depot, post, Part::Control).as_ref()),
        _ => control(looks),
    });
    rows.push(battery(looks));
    rows.push(latest(looks, "Advantics_Controller_Status").and_then(|look| look.said("Controller", "State")));
    rows.push(latest(looks, "Emergency_Stop").and_then(|look| {
        let marked = in_session(depot, post, Part::Stop).is_some();
        Some(Reading { marked, note: clock::told(look.kept.time), ..look.said("Emergency stop", "Origin")? })
    }));
    rows.into_iter().flatten().collect()
}

/// What a safety controller says; nothing where the post has heard none.
pub fn safety(looks: &[Look]) -> Vec<Reading> {
    let mut rows = Vec::new();
    rows.extend(latest(looks, "ChargeControl1").and_then(asked));
    if let Some(state) = latest(looks, "ChargeState1") {
        rows.extend(pilot(state));
        rows.extend(state.said("Proximity", "CS_CurrentPpState"));
        rows.extend(
            [
                ("Contactor 1", "CS_Contactor1State", "CS_Contactor1Error"),
                ("Contactor 2", "CS_Contactor2State", "CS_Contactor2Error"),
            ]
            .map(|(name, state_of, error)| Reading {
                note: when(state.raw(error) == Some(1), "error"),
                marked: state.raw(error) == Some(1),
                ..state.reading(name, if state.raw(state_of) == Some(1) { "closed" } else { "open" }.to_string())
            }),
        );
        rows.push(stops(state));
    }
    if let Some(probes) = latest(looks, "PT1000State") {
        rows.extend(PROBES.map(|(name, degrees, stopped, failed)| probe(probes, name, degrees, stopped, failed)));
    }
    rows
}

fn when(is: bool, words: &str) -> String {
    if is { words } else { "" }.to_string()
}

fn joined(words: &[(bool, &str)]) -> String {
    words.iter().filter(|(is, _)| *is).map(|(_, words)| *words).collect::<Vec<_>>().join(", ")
}

/// 004: what is above 100.0 % the safety controller takes as that.
fn asked(control: &Look) -> Option<Reading> {
    let duty = library::limited_duty(u16::try_from(control.raw("CC_TargetDutyCycle")?).ok()?);
    let is = |signal| control.raw(signal) == Some(1);
    let note = joined(&[
        (is("CC_PWM_Active"), "PWM active"),
        (is("CC_Contactor1State"), "contactor 1 closed"),
        (is("CC_Contactor2State"), "contactor 2 closed"),
    ]);
    Some(Reading { note, ..control.reading("Asked of it", format!("{} %", tenths(duty.into()))) })
}

fn pilot(state: &Look) -> Option<Reading> {
    let is = |signal| state.raw(signal) == Some(1);
    let wrong = [(is("CS_CpShortCircuit"), "short circuit"), (is("CS_DiodeFault"), "diode fault")];
    let duty = format!(
        "{}, PWM {}",
        state.words("CS_CurrentDutyCycle")?,
        if is("CS_PWM_Active") { "active" } else { "not active" }
    );
    let faults = joined(&wrong);
    let note = if faults.is_empty() { duty } else { format!("{duty}, {faults}") };
    Some(Reading { note, marked: !faults.is_empty(), ..state.said("Control pilot", "CS_CurrentCpState")? })
}

fn stops(state: &Look) -> Reading {
    let is = |signal| state.raw(signal) == Some(1);
    let told = joined(&[
        (is("CS_Estop1ChargingAbort"), "stop 1"),
        (is("CS_Estop2ChargingAbort"), "stop 2"),
        (is("CS_Estop3ChargingAbort"), "stop 3"),
        (is("CS_ImdRcmChargingAbort"), "insulation or residual current (IMD, RCM)"),
        (is("CS_ImdRcmTestFailure"), "IMD or RCM test failure"),
    ]);
    Reading {
        marked: !told.is_empty(),
        ..state.reading("Emergency stops", if told.is_empty() { "none".to_string() } else { told })
    }
}

const PROBES: [(&str, &str, &str, &str); 4] = [
    ("Probe 1", "PT1_Temperature", "PT1_ChargingStopped", "PT1_SelftestFailed"),
    ("Probe 2", "PT2_Temperature", "PT2_ChargingStopped", "PT2_SelftestFailed"),
    ("Probe 3", "PT3_Temperature", "PT3_ChargingStopped", "PT3_SelftestFailed"),
    ("Probe 4", "PT4_Temperature", "PT4_ChargingStopped", "PT4_SelftestFailed"),
];

fn probe(probes: &Look, name: &'static str, degrees: &str, stopped: &str, failed: &str) -> Reading {
    let wrong =
        [(probes.raw(stopped) == Some(1), "charging stopped"), (probes.raw(failed) == Some(1), "self-test failed")];
    let note = joined(&wrong);
    Reading { marked: !note.is_empty(), note, ..probes.reading(name, probes.words(degrees).unwrap_or_default()) }
}

#[cfg(test)]
mod tests {
    use super::*;

    fn kept(older: bool, name: &str, age: u32, bytes: &[u8]) -> Look {
        let kind = pages::named(older, name).unwrap();
        Look::new(Kept { kind, time: 1000 - age, age, bytes: bytes.to_vec() }).unwrap()
    }

    fn said(rows: Vec<Option<Reading>>) -> Vec<(&'static str, String, String, bool)> {
        rows.into_iter().flatten().map(|row| (row.name, row.value, row.note, row.marked)).collect()
    }

    fn row(name: &'static str, value: &str, note: &str, marked: bool) -> (&'static str, String, String, bool) {
        (name, value.to_string(), note.to_string(), marked)
    }

    /// E8: at 500.0 V raw 25 is no F9, raw 24 is one.
    #[test]
    fn insulation_with_its_limit() {
        for (raw, value, marked) in [(25, "50 kOhm", false), (24, "48 kOhm", true)] {
            let looks = [kept(false, "Power_Modules_Status", 0, &[0x88, 0x13, 0, 0, 65, 65, 1, raw])];
            assert_eq!(said(status(&looks, 0))[2], row("Insulation", value, "limit 50.00 kOhm at 500.0 V", marked));
        }
    }

    /// 001: each function is a message of its own.
    #[test]
    fn an_older_controller() {
        let looks = [
            kept(true, "Precharge", 300, &[0xa0, 0x0f, 20, 0]),
            kept(true, "Charging_Loop", 100, &[0xa0, 0x0f, 0x83, 0xff, 80]),
            kept(true, "Power_Modules_Status", 0, &[0xa0, 0x0f, 0x83, 0xff, 0x41, 0, 1, 0x64]),
        ];
        let wanted = [
            row("Function", "Charging_Loop", "", false),
            row("Target voltage", "400.0 V", "", false),
            row("Target current", "-12.5 A", "", false),
            row("State of charge", "80 %", "", false),
        ];
        assert_eq!(said(older_control(&looks, None)), wanted);
        let wanted = [
            row("Function", "Precharge", "", false),
            row("Target voltage", "400.0 V", "", false),
            row("Maximum current", "2.0 A", "", false),
        ];
        assert_eq!(said(older_control(&looks, Some(&looks[0]))), wanted);
        assert_eq!(said(status(&looks, 0))[1], row("Current", "-12.5 A", "", false));
    }

    /// 000: Battery_Capacity counts 1 kWh, where 001 counts 2.
    #[test]
    fn a_vehicle_that_tells_of_itself() {
        let looks = [kept(false, "EV_Information_Battery", 0, &[0x4b, 0x01, 37, 10, 80, 100])];
        assert_eq!(said(vec![battery(&looks)]), [row("State of charge", "37 %", "of 331 kWh", false)]);
        let energy = kept(false, "EV_Information_Energy", 0, &[0xff, 0xff, 30, 0, 46, 0]);
        assert_eq!(energy.signals(0)[0], ("EV_Minimum_Energy_Request", "-1 kWh".to_string()));
        let outputs = kept(false, "ADM_CS_SECC_Outputs", 0, &[0xf7, 255, 255, 255, 255, 255, 255, 255]);
        assert_eq!(outputs.signals(0)[4], ("Reserved", "1152921504606846975".to_string()));
    }

    /// 004: a duty above 100.0 % is taken as that, and only raw 8,191 is a probe that is not used.
    #[test]
    fn a_safety_controller() {
        let looks = [
            kept(false, "ChargeControl1", 0, &[0x83, 0xff, 1, 0, 0, 0, 0, 0]),
            kept(false, "PT1000State", 0, &[0x7f, 0xfc, 0xff, 0xfe, 0, 1, 3, 0xe8]),
        ];
        let rows = said(safety(&looks).into_iter().map(Some).collect());
        assert_eq!(rows[0], row("Asked of it", "100.0 %", "PWM active, contactor 1 closed", false));
        assert_eq!(rows[1], row("Probe 1", "not used", "", false));
        assert_eq!(rows[2], row("Probe 2", "-0.1 °C", "self-test failed", true));
        assert_eq!(rows[3], row("Probe 3", "0.0 °C", "charging stopped", true));
        assert_eq!(rows[4], row("Probe 4", "25.0 °C", "", false));
        assert!(rows.iter().all(|(_, value, _, _)| !value.contains("819")));
    }
}
