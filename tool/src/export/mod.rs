// SPDX-License-Identifier: Apache-2.0 OR MIT
//! Recordings in the forms that other programs read.
pub mod pcapng;
pub mod perfetto;
