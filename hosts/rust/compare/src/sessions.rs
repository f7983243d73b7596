//! The sessions that payloads and row lists are compared in.

use crate::prng::Prng;
use second::Session;

/// Those that there are, and agreed rates that there are not.
pub const ALL: [Session; 8] = [
    Session::NotAgreed,
    Session::Agreed(2400),
    Session::Agreed(600),
    Session::Agreed(0),
    Session::Agreed(1200),
    Session::Agreed(2401),
    Session::Agreed((1 << 16) + 600),
    Session::Agreed(u32::MAX),
];

/// One that there is.
pub fn legal(prng: &mut Prng) -> Session {
    ALL[prng.below(3)]
}

/// The session, and any other one.
pub fn with_another(session: Session, prng: &mut Prng) -> [Session; 2] {
    let mut another = session;
    while another == session {
        another = prng.pick(&ALL);
    }
    [session, another]
}
