//! The desk that is held to the model: the proved library, or another with the same functions.

use keydesk::Returned;

/// Serves a request on pages, desk and answer space.
pub type Serve = fn(&mut [u8], &mut [u8], &mut [u8], &[u8]) -> Returned;

#[derive(Clone, Copy)]
pub struct UnderTest {
    /// Makes pages and desk fresh and gives the number.
    pub fresh: fn(&mut [u8], &mut [u8]) -> u32,
    pub serve: Serve,
}

/// The proved desk.
pub const LIBRARY: UnderTest = UnderTest { fresh: keydesk::fresh, serve: keydesk::serve };
