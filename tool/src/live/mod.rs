// SPDX-License-Identifier: Apache-2.0 OR MIT
//! What goes on in a daemon that runs: the ring of its latest steps, read while it is written.
pub mod calls;
mod daemon;
pub mod kernel;
pub mod program;
mod ring;
mod shares;
mod slot;
pub mod state;
#[cfg(feature = "top")]
pub mod top;
pub mod trace;

use clap::Args;

/// Which daemon, and which of its devices.
#[derive(Args, Clone, Debug)]
pub struct Where {
    /// The daemon's socket; else HULLPIPPIN_SOCKET, or where the daemon of this user or of the system is
    #[arg(long, value_name = "PATH")]
    pub socket: Option<String>,
    /// The device
    #[arg(long, value_name = "NAME", default_value = "/dev/binder")]
    pub device: String,
}
