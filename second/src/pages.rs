//! What a page is, and which pages a post has beside 004's.

use crate::newer_pages::NEWER_PAGES;
use crate::older_pages::OLDER_PAGES;
use crate::safety_pages::SAFETY_PAGES;

/// The interfaces of a post, as a set-up names them: 000's pages, and those of 001, the older controllers.
pub const NEWER: u32 = 0;
pub const OLDER: u32 = 1;

/// The kinds, in the order of all pages: of 000, of 004, and of 001, whose names say so where 000 has the same.
#[derive(Clone, Copy, Debug, PartialEq, Eq)]
pub enum Kind {
    PowerModulesStatus,
    DcPowerParameters,
    SequenceControl,
    AdmCsSeccOutputs,
    AdvanticsControllerStatus,
    NewChargeSession,
    ChargeStatusChange,
    DcPowerControl,
    ChargeSessionFinished,
    EmergencyStop,
    EvInformationBattery,
    EvInformationVoltages,
    EvInformationChargeLimits,
    EvInformationDischargeLimits,
    EvInformationEnergy,
    EvIdCcsPart2Din,
    AdmCoCui1Inputs,
    AdmCsSeccInputs,
    AdmCsSpccInputs,
    CcsExtraInformation,
    McsExtraInformation,
    OcppControl,
    ChargeControl1,
    ChargeState1,
    Pt1000State,
    OlderPowerModulesStatus,
    PowerModulesLimits,
    OlderSequenceControl,
    OlderAdmCsSeccOutputs,
    OlderNewChargeSession,
    InsulationTest,
    Precharge,
    OlderChargeStatusChange,
    ChargingLoop,
    OlderEmergencyStop,
    OlderChargeSessionFinished,
    OlderAdvanticsControllerStatus,
    OlderAdmCoCui1Inputs,
    OlderAdmCsSeccInputs,
    OlderEvIdCcsPart2Din,
    OlderAdmCsSpccInputs,
    OlderCcsExtraInformation,
    OlderMcsExtraInformation,
}

impl Kind {
    pub fn page(self) -> &'static Page {
        all().nth(self as usize).expect("a page for each kind, in their order")
    }
}

#[derive(Clone, Copy, Debug, PartialEq, Eq)]
pub enum Unit {
    None,
    Volts,
    Amps,
    Celsius,
    KiloOhms,
    KiloWattHours,
    /// Whole tenths of a percent or of a degree.
    Tenths,
}

/// Which byte of a payload comes first in a number.
#[derive(Clone, Copy, Debug, PartialEq, Eq)]
pub enum Order {
    /// The lowest; a start names a signal's lowest bit.
    Little,
    /// The highest; a start names a signal's highest bit.
    Big,
}

#[derive(Debug)]
pub struct Signal {
    pub name: &'static str,
    pub start: u32,
    pub width: u32,
    pub signed: bool,
    pub unit: Unit,
    /// Number and name of each label; `None` for a signal that is a number.
    pub labels: Option<&'static [(i64, &'static str)]>,
}

#[derive(Debug)]
pub struct Page {
    pub name: &'static str,
    pub kind: Kind,
    pub id: u32,
    pub len: usize,
    /// The form of its identifier.
    pub extended: bool,
    pub order: Order,
    pub signals: &'static [Signal],
}

pub const fn unsigned(name: &'static str, start: u32, width: u32, unit: Unit) -> Signal {
    Signal { name, start, width, signed: false, unit, labels: None }
}

pub const fn signed(name: &'static str, start: u32, width: u32, unit: Unit) -> Signal {
    Signal { name, start, width, signed: true, unit, labels: None }
}

pub const fn label(name: &'static str, start: u32, width: u32, labels: &'static [(i64, &'static str)]) -> Signal {
    Signal { name, start, width, signed: false, unit: Unit::None, labels: Some(labels) }
}

/// A single bit, 0 or 1.
pub const fn flag(name: &'static str, start: u32) -> Signal {
    unsigned(name, start, 1, Unit::None)
}

/// A page of 000 or 001: an extended identifier, starts at the lowest bit.
pub const fn page(name: &'static str, kind: Kind, id: u32, len: usize, signals: &'static [Signal]) -> Page {
    Page { name, kind, id, len, extended: true, order: Order::Little, signals }
}

/// Every page there is.
pub fn all() -> impl Iterator<Item = &'static Page> {
    NEWER_PAGES.iter().chain(&SAFETY_PAGES).chain(&OLDER_PAGES)
}

/// The pages of a post with that interface: 004's go with either.
pub fn of(interface: u32) -> impl Iterator<Item = &'static Page> {
    let own: &'static [Page] = if interface == OLDER { &OLDER_PAGES } else { &NEWER_PAGES };
    own.iter().chain(&SAFETY_PAGES)
}

/// The page of an identifier in that form, on the pages of that interface.
pub fn find(interface: u32, id: u32, extended: bool) -> Option<&'static Page> {
    of(interface).find(|page| page.id == id && page.extended == extended)
}

pub fn other(interface: u32) -> u32 {
    if interface == OLDER {
        NEWER
    } else {
        OLDER
    }
}

/// 02: an "identifier only the other interface has", in that very form.
pub fn only_other_has(interface: u32, id: u32, extended: bool) -> bool {
    find(interface, id, extended).is_none() && find(other(interface), id, extended).is_some()
}

#[cfg(test)]
mod tests {
    use super::*;
    use crate::codec::places;

    #[test]
    fn each_kind_has_a_page_of_its_own() {
        assert_eq!(all().count(), 43);
        for page in all() {
            assert_eq!(page.kind.page().id, page.id, "{}", page.name);
        }
    }

    /// "000 and 001 share no identifier", so that each frame is of one interface or of both by 004.
    #[test]
    fn no_two_pages_share_an_identifier() {
        for page in all() {
            assert_eq!(all().filter(|other| other.id == page.id).count(), 1, "{:x}", page.id);
        }
    }

    /// How often each bit of a page's payload is covered.
    fn covered(page: &Page) -> Vec<u32> {
        let mut covered = vec![0; page.len * 8];
        for place in page.signals.iter().flat_map(|signal| places(page, signal)) {
            covered[place as usize] += 1;
        }
        covered
    }

    /// The bits that no signal covers; no bit has two.
    fn left(page: &Page) -> Vec<usize> {
        let covered = covered(page);
        assert!(covered.iter().all(|&times| times <= 1), "{}", page.name);
        (0..covered.len()).filter(|&bit| covered[bit] == 0).collect()
    }

    /// 004 leaves bits uncovered: 64 less the widths of its signals.
    #[test]
    fn signals_of_004_cover_no_bit_twice() {
        for (page, bits) in SAFETY_PAGES.iter().zip([51, 64 - 28, 0]) {
            assert_eq!(left(page).len(), bits, "{}", page.name);
        }
    }

    /// Reading M1: "all nine base messages cover every bit"; R10: "Sequence_Control 2-7, 11-15, 17-23; ADM_CS_SPCC_Inputs
    /// 40-47".
    #[test]
    fn signals_of_000_and_001_cover_all_but_these() {
        for (pages, signals) in [(&NEWER_PAGES[..], 97), (&OLDER_PAGES[..], 78)] {
            assert_eq!(pages.iter().map(|page| page.signals.len()).sum::<usize>(), signals);
            for page in pages {
                let bits: Vec<usize> = match page.name {
                    "Sequence_Control" => (2..8).chain(11..16).chain(17..24).collect(),
                    "ADM_CS_SPCC_Inputs" => (40..48).collect(),
                    _ => Vec::new(),
                };
                assert_eq!(left(page), bits, "{:x}", page.id);
            }
        }
    }
}
