//! Messages with numbers on both sides of the edges that 01's rules have.

use super::sketch::Sketch;
use crate::codec::{self, label_name, range, Message};
use crate::pages::{self, Kind, Order, Page, Signal, Unit};
use crate::rng::Rng;

const FUNCTIONS: [i64; 5] = [0, 1, 2, 4, 8];

/// Both sides of 100.0 %, a probe that is not used, and one that only looks so.
const TELLING: [i64; 4] = [1000, 1001, 0x1fff, -1];

/// A message of that kind, aimed at what the post may object to.
pub fn aimed(rng: &mut Rng, kind: Kind, post: &Sketch) -> Message {
    match kind {
        Kind::PowerModulesStatus | Kind::OlderPowerModulesStatus => power_modules_status(rng, kind, post),
        Kind::DcPowerParameters => dc_power_parameters(rng, post),
        Kind::PowerModulesLimits => power_modules_limits(rng, post),
        Kind::DcPowerControl => dc_power_control(rng, post),
        Kind::InsulationTest | Kind::Precharge | Kind::ChargingLoop => one_function(rng, kind, post),
        Kind::NewChargeSession | Kind::OlderNewChargeSession => new_charge_session(rng, kind, post),
        Kind::SequenceControl => sequence_control(rng),
        Kind::EvInformationVoltages | Kind::EvInformationChargeLimits => of_a_vehicle(rng, kind, post),
        _ => any(rng, kind.page()),
    }
}

/// A page of that interface. A quarter of them with starts at the highest bit: these have the most signals.
pub fn some_page(rng: &mut Rng, interface: u32) -> &'static Page {
    let order = rng.pick(&[Order::Little, Order::Little, Order::Little, Order::Big]);
    let pages: Vec<&Page> = pages::of(interface).filter(|page| page.order == order).collect();
    rng.pick(&pages)
}

/// A message of that page with any numbers.
pub fn any(rng: &mut Rng, page: &Page) -> Message {
    let raws: Vec<i64> = page.signals.iter().map(|signal| any_raw(rng, signal)).collect();
    Message::new(page.kind, &raws)
}

fn any_raw(rng: &mut Rng, signal: &Signal) -> i64 {
    let (least, most) = range(signal);
    match signal.labels {
        Some(labels) => rng.pick(labels).0,
        None if signal.unit == Unit::Tenths && rng.chance(40) => rng.pick(&TELLING).clamp(least, most),
        None if rng.chance(40) => rng.pick(&[least, most, 0, 1, most - 1]),
        None => rng.between(least, most),
    }
}

/// A signal that can hold a number without a label, and its page.
pub fn able_to_offend(rng: &mut Rng, interface: u32) -> (&'static Page, &'static Signal) {
    let all = pages::of(interface).flat_map(|page| page.signals.iter().map(move |signal| (page, signal)));
    let able: Vec<_> = all.filter(|(_, signal)| can_offend(signal)).collect();
    rng.pick(&able)
}

fn can_offend(signal: &Signal) -> bool {
    let (least, most) = range(signal);
    signal.labels.is_some_and(|labels| (labels.len() as i64) < most - least + 1)
}

/// A payload of the right length with a number in it that is no label, or with as many as there is room for.
pub fn unlabelled(rng: &mut Rng, interface: u32) -> (&'static Page, Vec<u8>) {
    let (page, first) = able_to_offend(rng, interface);
    let mut raws = any(rng, page).raws().to_vec();
    let all = rng.chance(50);
    for (raw, signal) in raws.iter_mut().zip(page.signals) {
        if signal.start == first.start || all && can_offend(signal) {
            *raw = number_without_label(rng, signal);
        }
    }
    (page, Message::new(page.kind, &raws).bytes())
}

/// A payload too short or too long, by one byte or by several, of a message with or without such a number.
pub fn wrong_length(rng: &mut Rng, interface: u32) -> (&'static Page, Vec<u8>) {
    let (page, mut bytes) = if rng.chance(30) {
        unlabelled(rng, interface)
    } else {
        let page = rng.pick(&pages::of(interface).collect::<Vec<_>>());
        (page, any(rng, page).bytes())
    };
    let length = match rng.below(4) {
        0 => page.len - 1,
        1 => rng.below(page.len as u64) as usize,
        2 => page.len + 1,
        _ => page.len + rng.pick(&[2, 3, 8, 56, 100, 200]),
    };
    bytes.truncate(length);
    bytes.extend(rng.bytes(length - bytes.len()));
    (page, bytes)
}

/// A payload with a bit set that no signal covers, or with several.
pub fn uncovered(rng: &mut Rng, interface: u32) -> (&'static Page, Vec<u8>) {
    let free = |page: &Page| codec::uncovered(page, &vec![0xff; page.len]);
    let able: Vec<&Page> = pages::of(interface).filter(|page| !free(page).is_empty()).collect();
    let page = rng.pick(&able);
    let mut bytes = any(rng, page).bytes();
    for _ in 0..rng.pick(&[1, 1, 1, 2, 20]) {
        let bit = rng.pick(&free(page));
        bytes[bit as usize / 8] |= 1 << (bit % 8);
    }
    (page, bytes)
}

pub fn number_without_label(rng: &mut Rng, signal: &Signal) -> i64 {
    let (least, most) = range(signal);
    loop {
        let number = if rng.chance(65) { number_around_labels(rng, signal) } else { rng.between(least, most) };
        if number <= most && label_name(signal, number).is_none() {
            return number;
        }
    }
}

/// A label's number, a gap between labels, or the number behind the last.
pub fn number_around_labels(rng: &mut Rng, signal: &Signal) -> i64 {
    let last = signal.labels.and_then(<[_]>::last);
    rng.between(0, last.map_or(1, |(number, _)| number + 1))
}

fn near(rng: &mut Rng, mark: i64) -> i64 {
    mark + rng.pick(&[-1, 0, 0, 1, 1])
}

fn power_modules_status(rng: &mut Rng, kind: Kind, post: &Sketch) -> Message {
    let insulation = rng.pick(&[0, 0, 0, 1, 24, 25, 100, 254, 255]);
    let voltage = match rng.below(4) {
        0 => rng.between(0, 65_535),
        1 => 0,
        _ => near(rng, insulation * 200).clamp(0, 65_535),
    };
    let current = match rng.below(10) {
        0 => rng.pick(&[32_767, -32_768, -1, 1, -125]),
        1 => rng.between(-32_768, 32_767),
        2 | 3 => 0,
        4..=6 => {
            let mark = rng.pick(&post.marks(1));
            near(rng, mark)
        }
        _ => {
            let mark = rng.pick(&post.marks(2));
            -near(rng, mark)
        }
    };
    let enable = i64::from(rng.chance(75));
    let current = current.clamp(-32_768, 32_767);
    Message::new(kind, &[voltage, current, rng.between(0, 255), rng.between(0, 255), enable, insulation])
}

fn dc_power_parameters(rng: &mut Rng, post: &Sketch) -> Message {
    let mut numbers = [0; 4];
    let defaults = [post.limits.volt, post.limits.charge, post.limits.discharge].map(i64::from);
    for (number, default) in numbers.iter_mut().zip(defaults) {
        let chosen = rng.pick(&[0, 0, 1, default / 2, default - 1, default, default + 1, 32_768, 65_535]);
        *number = chosen.clamp(0, 65_535);
    }
    numbers[3] = rng.between(-32_768, 32_767);
    Message::new(Kind::DcPowerParameters, &numbers)
}

/// A current of 0 or less among them.
fn power_modules_limits(rng: &mut Rng, post: &Sketch) -> Message {
    let [voltage, charge] = [post.limits.volt, post.limits.charge].map(i64::from);
    let voltage = rng.pick(&[0, 1, voltage / 2, voltage - 1, voltage, voltage + 1, 65_535]);
    let around = [charge / 2, charge - 1, charge, charge + 1];
    let current = if rng.chance(50) { rng.pick(&[0, 0, -1, 1, -32_768, 32_767]) } else { rng.pick(&around) };
    let reserved = rng.pick(&[0, 1, u32::MAX.into()]);
    Message::new(Kind::PowerModulesLimits, &[voltage.clamp(0, 65_535), current.min(32_767), reserved])
}

/// A maximum below the post's own limit, mostly: it is none of the post's.
fn of_a_vehicle(rng: &mut Rng, kind: Kind, post: &Sketch) -> Message {
    let mut raws = any(rng, kind.page()).raws().to_vec();
    let own = if kind == Kind::EvInformationVoltages { post.limits.volt } else { post.limits.charge };
    if rng.chance(75) {
        raws[1] = rng.pick(&[0, 1, i64::from(own / 2)]);
    }
    Message::new(kind, &raws)
}

/// With the stop button pressed, mostly: it is no Emergency_Stop.
fn sequence_control(rng: &mut Rng) -> Message {
    let mut raws = any(rng, Kind::SequenceControl.page()).raws().to_vec();
    raws[5] = i64::from(rng.chance(75));
    Message::new(Kind::SequenceControl, &raws)
}

/// A setpoint of volts, at 0 or close to where the voltage limit could stand.
fn target(rng: &mut Rng, post: &Sketch) -> i64 {
    let mark = rng.pick(&post.marks(0));
    match rng.below(5) {
        0 => 0,
        1 => rng.between(0, 65_535),
        _ => near(rng, mark).clamp(0, 65_535),
    }
}

/// One of the three messages that are a function each; at times with nothing asked for, or with no current.
fn one_function(rng: &mut Rng, kind: Kind, post: &Sketch) -> Message {
    let mut raws = any(rng, kind.page()).raws().to_vec();
    raws[0] = target(rng, post);
    let asked = match rng.below(5) {
        0 | 1 => 0,
        2 => 1,
        _ => raws.len(),
    };
    raws[asked..].fill(0);
    Message::new(kind, &raws)
}

fn dc_power_control(rng: &mut Rng, post: &Sketch) -> Message {
    let function = rng.pick(&FUNCTIONS);
    let switches = [rng.chance(20), rng.chance(50), rng.chance(50)].map(i64::from);
    if rng.chance(25) {
        return lowering(rng, switches);
    }
    let target = target(rng, post);
    let currents = if rng.chance(50) { [0, 0] } else { [rng.between(-32_768, 32_767), rng.between(-32_768, 32_767)] };
    let [reserved, mode, contactors] = switches;
    Message::new(Kind::DcPowerControl, &[target, currents[0], currents[1], function, reserved, mode, contactors, 0])
}

/// In order where the function is Standby and no setpoint stands; else with one thing wrong, or with several.
fn lowering(rng: &mut Rng, [reserved, mode, contactors]: [i64; 3]) -> Message {
    let function = if rng.chance(65) { 1 } else { rng.pick(&FUNCTIONS) };
    let mut setpoints = [0; 3];
    match rng.below(6) {
        place @ 0..=2 => setpoints[place as usize] = rng.pick(&[1, 5, 32_767]),
        3 => setpoints = [1, -1, -1],
        _ => {}
    }
    let [target, max, min] = setpoints;
    Message::new(Kind::DcPowerControl, &[target, max, min, function, reserved, mode, contactors, 1])
}

/// A repeat mostly says what the first one said; what else it says does not count.
fn new_charge_session(rng: &mut Rng, kind: Kind, post: &Sketch) -> Message {
    let [protocol, plug] = post.first;
    let first = match rng.below(10) {
        _ if !post.open => [rng.between(0, 7), rng.between(0, 4)],
        0 => [rng.between(0, 7), plug],
        1 => [protocol, rng.between(0, 4)],
        _ => [protocol, plug],
    };
    let mut raws = any(rng, kind.page()).raws().to_vec();
    raws[..2].copy_from_slice(&first);
    Message::new(kind, &raws)
}
