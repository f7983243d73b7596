//! The setting text (`bitrate` and `tcmax` of RFC 8817).
#![forbid(unsafe_code)]

use crate::ffi;
use crate::refusal::{Call, Reason, Refusal, answer};
use core::fmt;
use core::str::FromStr;

/// Settings: one to three different rates out of 2400, 1200 and 600, the preferred one first, and a
/// tcmax of 1 to 255.
///
/// They are made by [`new`](Settings::new) or read from a text, and shown as one. What is shown is
/// read as the same settings.
///
/// ```
/// use moult::Settings;
/// let settings: Settings = "TCMAX=101;bitrate=600,2400".parse()?;
/// assert_eq!((settings.rates(), settings.tcmax()), (&[600, 2400][..], 101));
/// assert_eq!(settings.to_string(), "bitrate=600,2400;tcmax=101");
/// assert_eq!(settings, Settings::new(&[600, 2400], 101)?);
/// # Ok::<(), moult::Refusal>(())
/// ```
#[derive(Clone, Copy, Debug, PartialEq, Eq, Hash)]
pub struct Settings {
    /// The preferred one first, unused places 0 and last.
    rates: [u16; 3],
    tcmax: u16,
}

impl Settings {
    /// Settings that may be written.
    ///
    /// ```
    /// assert!(moult::Settings::new(&[2400], 35).is_ok());
    /// assert!(moult::Settings::new(&[2400, 2400], 35).is_err());
    /// assert!(moult::Settings::new(&[], 35).is_err());
    /// ```
    ///
    /// # Errors
    ///
    /// `WrongSettings`.
    pub fn new(rates: &[u16], tcmax: u16) -> Result<Settings, Refusal> {
        let mut settings = Settings {
            rates: [0; 3],
            tcmax,
        };
        match settings.rates.get_mut(..rates.len()) {
            Some(places) if !rates.contains(&0) => places.copy_from_slice(rates),
            _ => {
                return Err(Refusal {
                    reason: Reason::WrongSettings,
                    place: 0,
                    call: Call::SettingsWrite,
                });
            }
        }
        // The writer looks at the settings before the room.
        match settings.write(&mut []) {
            Err(refusal) if refusal.reason != Reason::OctetsTooShort => Err(refusal),
            _ => Ok(settings),
        }
    }

    /// Reads a setting text. A missing bitrate means 2400 only, a missing tcmax 35; names are in any
    /// letter case.
    ///
    /// ```
    /// let settings = moult::Settings::read(b"tcmax=101").unwrap();
    /// assert_eq!((settings.rates(), settings.tcmax()), (&[2400][..], 101));
    /// assert!(moult::Settings::read(b"tcmax=").is_err());
    /// ```
    ///
    /// # Errors
    ///
    /// `WrongSettings`.
    pub fn read(text: &[u8]) -> Result<Settings, Refusal> {
        let reading = ffi::settings_read(text);
        let [first, second, third, tcmax] = reading.settings;
        let settings = Settings {
            rates: [first, second, third],
            tcmax,
        };
        answer(Call::SettingsRead, reading.number, reading.place, settings)
    }

    /// Writes the settings as text and gives its octets; [`MAX_SETTINGS`](crate::MAX_SETTINGS) are
    /// enough.
    ///
    /// ```
    /// let settings = moult::Settings::read(b"").unwrap();
    /// let mut out = [0; 31];
    /// let octets = settings.write(&mut out).unwrap();
    /// assert_eq!(&out[..octets], b"bitrate=2400;tcmax=35");
    /// ```
    ///
    /// # Errors
    ///
    /// `OctetsTooShort`. A library that reads more settings than it writes has a reason of its own
    /// for those.
    pub fn write(&self, out: &mut [u8]) -> Result<usize, Refusal> {
        let [first, second, third] = self.rates;
        let writing = ffi::settings_write([first, second, third, self.tcmax], out);
        answer(
            Call::SettingsWrite,
            writing.number,
            writing.place,
            writing.octets,
        )
    }

    /// The rates, the preferred one first.
    pub fn rates(&self) -> &[u16] {
        let used = self.rates.iter().take_while(|rate| **rate != 0).count();
        &self.rates[..used]
    }

    /// The most octets of augmentation wanted in a frame.
    pub fn tcmax(&self) -> u16 {
        self.tcmax
    }
}

impl FromStr for Settings {
    type Err = Refusal;

    fn from_str(text: &str) -> Result<Settings, Refusal> {
        Settings::read(text.as_bytes())
    }
}

impl fmt::Display for Settings {
    fn fmt(&self, f: &mut fmt::Formatter<'_>) -> fmt::Result {
        f.write_str("bitrate=")?;
        for (place, rate) in self.rates().iter().enumerate() {
            let comma = if place == 0 { "" } else { "," };
            write!(f, "{comma}{rate}")?;
        }
        write!(f, ";tcmax={}", self.tcmax)
    }
}
