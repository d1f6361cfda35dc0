//! Which channel an interface is, and which interface a channel: by a map file, and by the interface's number where the map
//! says nothing. Nothing that the map gives to one is ever taken for another: what has an interface goes back to its channel.

use crate::arguments::Call;
use crate::fields::{fields, shown, Fault};
use crate::files;
use crate::log::CHANNELS;
use crate::numbers::decimal;

/// No interface stands in it twice and no channel.
#[derive(Debug, Default)]
pub struct Interfaces {
    map: Vec<(Vec<u8>, u32)>,
}

impl Interfaces {
    /// By the file behind `--map`, if there is one.
    pub fn asked(call: &Call) -> Result<Interfaces, String> {
        let Some(file) = call.value("--map") else { return Ok(Interfaces::default()) };
        let text = files::read_whole(file)?;
        Interfaces::read(&text).map_err(|(line, fault)| format!("{}: line {line}, {fault}", file.to_string_lossy()))
    }

    /// Lines `INTERFACE CHANNEL`; from `#` on a line is a comment. `Err` has the number of the bad line.
    pub fn read(text: &[u8]) -> Result<Interfaces, (usize, Fault)> {
        let mut interfaces = Interfaces::default();
        for (line, number) in text.split(|&byte| byte == b'\n').zip(1..) {
            let told = line.split(|&byte| byte == b'#').next().unwrap_or_default();
            interfaces.learn(told).map_err(|fault| (number, fault))?;
        }
        Ok(interfaces)
    }

    fn learn(&mut self, told: &[u8]) -> Result<(), Fault> {
        let all: Vec<_> = fields(told).collect();
        let [interface, channel] = all[..] else {
            return match all.first() {
                None => Ok(()),
                Some(first) => Err(first.fault("not INTERFACE CHANNEL")),
            };
        };
        if let Some(known) = self.mapped(interface.bytes) {
            return Err(interface.fault(format!("{} has channel {known} already", shown(interface.bytes))));
        }
        let number = channel_of(channel.bytes).ok_or_else(|| {
            channel.fault(format!("{} is no channel from 0 to {}", shown(channel.bytes), CHANNELS - 1))
        })?;
        if let Some(holder) = self.holder(number) {
            return Err(channel.fault(format!("channel {number} is {}'s already", shown(holder))));
        }
        self.map.push((interface.bytes.to_vec(), number));
        Ok(())
    }

    /// `Err` says why the interface has no channel.
    pub fn channel(&self, interface: &[u8]) -> Result<u32, String> {
        if let Some(channel) = self.mapped(interface) {
            return Ok(channel);
        }
        let name = shown(interface);
        let letters = interface.iter().rposition(|byte| !byte.is_ascii_digit()).map_or(0, |last| last + 1);
        let digits = &interface[letters..];
        if digits.is_empty() {
            return Err(format!("interface {name} has no number and is not in a map"));
        }
        let channel =
            channel_of(digits).ok_or_else(|| format!("interface {name}: channels end at {}", CHANNELS - 1))?;
        match self.holder(channel) {
            Some(holder) => Err(format!("interface {name}: the map gives channel {channel} to {}", shown(holder))),
            None => Ok(channel),
        }
    }

    /// `Err` says why the channel has no interface.
    pub fn interface(&self, channel: u32) -> Result<Vec<u8>, String> {
        if let Some(holder) = self.holder(channel) {
            return Ok(holder.to_vec());
        }
        let name = format!("can{channel}");
        match self.mapped(name.as_bytes()) {
            Some(other) => Err(format!("channel {channel} is not in the map, which gives {name} to channel {other}")),
            None => Ok(name.into_bytes()),
        }
    }

    fn mapped(&self, interface: &[u8]) -> Option<u32> {
        self.map.iter().find(|(name, _)| name == interface).map(|(_, channel)| *channel)
    }

    fn holder(&self, channel: u32) -> Option<&[u8]> {
        self.map.iter().find(|(_, number)| *number == channel).map(|(name, _)| name.as_slice())
    }
}

fn channel_of(digits: &[u8]) -> Option<u32> {
    u32::try_from(decimal(digits)?).ok().filter(|channel| *channel < CHANNELS)
}

#[cfg(test)]
mod tests {
    use super::*;

    fn map(text: &str) -> Interfaces {
        Interfaces::read(text.as_bytes()).expect("a map")
    }

    fn refused(text: &str) -> String {
        let (line, fault) = Interfaces::read(text.as_bytes()).expect_err(text);
        format!("{line}, {fault}")
    }

    #[test]
    fn by_number() {
        let none = Interfaces::default();
        for (interface, channel) in [("can0", 0), ("can31", 31), ("vcan7", 7), ("can04", 4), ("can1.2", 2), ("9", 9)] {
            assert_eq!(none.channel(interface.as_bytes()), Ok(channel), "{interface}");
        }
        for interface in ["can32", "can4294967296", "can99999999999999999999"] {
            assert!(none.channel(interface.as_bytes()).unwrap_err().ends_with(": channels end at 31"), "{interface}");
        }
        for interface in ["can", "can4x"] {
            assert!(none.channel(interface.as_bytes()).unwrap_err().ends_with("has no number and is not in a map"));
        }
        assert_eq!(none.interface(4), Ok(b"can4".to_vec()));
    }

    #[test]
    fn by_map() {
        let map = map("# the depot's posts\n\n gate \t31 # post 0\r\ncan9 0");
        assert_eq!(map.channel(b"gate"), Ok(31));
        assert_eq!(map.channel(b"can9"), Ok(0));
        assert_eq!(map.channel(b"can8"), Ok(8));
        assert_eq!(map.interface(31), Ok(b"gate".to_vec()));
        assert_eq!(map.channel(b"can0"), Err("interface can0: the map gives channel 0 to can9".to_string()));
        let none = "channel 9 is not in the map, which gives can9 to channel 0";
        assert_eq!(map.interface(9), Err(none.to_string()));
    }

    #[test]
    fn an_interface_goes_back_to_its_channel() {
        for text in ["", "can0 4", "can4 0\ncan0 4", "gate 7\nvcan3 1", "can31 0\ncan0 31\ncan1 2"] {
            let map = map(text);
            for channel in 0..CHANNELS {
                if let Ok(interface) = map.interface(channel) {
                    assert_eq!(map.channel(&interface), Ok(channel), "{text}");
                }
            }
        }
    }

    #[test]
    fn no_maps() {
        assert_eq!(refused("can0 1\n\ncan1"), "3, column 1: not INTERFACE CHANNEL");
        assert_eq!(refused(" can0 1 2"), "1, column 2: not INTERFACE CHANNEL");
        assert_eq!(refused("can0 32"), "1, column 6: 32 is no channel from 0 to 31");
        assert_eq!(refused("can0 x"), "1, column 6: x is no channel from 0 to 31");
        assert_eq!(refused("can0 1\ncan0 1"), "2, column 1: can0 has channel 1 already");
        assert_eq!(refused("can0 1\ncan5 1"), "2, column 6: channel 1 is can0's already");
    }
}
