//! `replay`'s static library, where it is linked.

use crate::script::Run;

/// The library's way to run a script, if this was built with REPLAY_DIR.
#[cfg(not(replay))]
pub fn linked() -> Option<Run<'static>> {
    None
}

/// The library's way to run a script, if this was built with REPLAY_DIR.
#[cfg(replay)]
pub fn linked() -> Option<Run<'static>> {
    Some(&library::run)
}

#[cfg(replay)]
mod library {
    use crate::session::Opening;

    extern "C" {
        fn huurqan_replay(
            settings: *const u8,
            settings_length: usize,
            script: *const u8,
            script_length: usize,
            out: *mut u8,
            out_length: usize,
        ) -> usize;
    }

    /// The one place that says how settings are handed over: as line 1, without its end.
    pub fn run(opening: &Opening, script: &[u8], out: &mut [u8]) -> usize {
        let settings = opening.line();
        // Pointers of empty slices are not null, and `out` is lent to this call alone.
        unsafe {
            huurqan_replay(
                settings.as_ptr(),
                settings.len(),
                script.as_ptr(),
                script.len(),
                out.as_mut_ptr(),
                out.len(),
            )
        }
    }
}
