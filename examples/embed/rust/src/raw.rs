//! The archive's functions, as functions of safe Rust. All unsafe code of the crate is here.
//!
//! What the archive asks of a caller and does not check (`vk_c.h`) is kept so: a pointer comes from a reference or a slice that is
//! borrowed for the call, with the slice's own length, and no two that are written through overlap; a [`Raw`] begins as zeros, is not
//! copied or written, and is neither `Send` nor `Sync`, so it stays on its thread and is in one call at a time.

use std::cell::UnsafeCell;
use std::ffi::c_void;
use std::ptr::null_mut;

#[repr(C)]
#[derive(Clone, Copy)]
pub struct SettingsFields {
    pub tries: u32,
    pub interval: u32,
    pub life: u32,
    pub pool: u32,
}

#[repr(C)]
#[derive(Clone, Copy)]
pub struct ProcessFields {
    pub host: u16,
    pub local: u16,
    pub size: u32,
}

#[repr(C)]
#[derive(Clone, Copy)]
pub struct PoolFields {
    pub host: u16,
    pub slots: u16,
}

#[repr(C)]
#[derive(Clone, Copy, Default)]
pub struct CallFields {
    pub kind: u32,
    pub scope: u32,
    pub host: u16,
    pub local: u16,
    pub to_host: u16,
    pub to_local: u16,
    pub logical: u32,
    pub start: u32,
    pub dest: u32,
    pub src: u32,
    pub count: u32,
    pub message: [u8; 32],
}

#[repr(C)]
#[derive(Clone, Copy, Default)]
pub struct AnswerFields {
    pub kind: u32,
    pub why: u32,
    pub host: u16,
    pub local: u16,
    pub count: u32,
    pub now: u64,
    pub message: [u8; 32],
}

#[repr(C)]
struct Handle {
    at: *mut c_void,
    held: usize,
}

// The declarations of `vk_c.h`, whose layouts these are. (A test of the repository compares header and archive; that these are the
// header's is only looked at here.)
const _: () = {
    assert!(size_of::<SettingsFields>() == 16 && size_of::<ProcessFields>() == 8 && size_of::<PoolFields>() == 4);
    assert!(size_of::<CallFields>() == 68 && size_of::<AnswerFields>() == 56 && size_of::<Handle>() == 16);
};

extern "C" {
    fn vk_station_open_with_pools(
        station: *mut Handle,
        settings: *const SettingsFields,
        processes: *const ProcessFields,
        processes_len: usize,
        pools: *const PoolFields,
        pools_len: usize,
        host: u16,
    ) -> u32;
    fn vk_station_close(station: *mut Handle) -> u32;
    fn vk_station_call(
        station: *mut Handle,
        host: u16,
        local: u16,
        call: *const CallFields,
        bytes: *const u8,
        len: usize,
        answer: *mut AnswerFields,
    ) -> u32;
    fn vk_station_collect(station: *mut Handle, host: u16, local: u16, answer: *mut AnswerFields) -> u32;
    fn vk_station_tick(station: *mut Handle, answer: *mut AnswerFields) -> u32;
    fn vk_station_deliver(station: *mut Handle, bytes: *const u8, len: usize, answer: *mut AnswerFields) -> u32;
    fn vk_station_is_done(station: *mut Handle, host: u16, local: u16) -> u32;
    fn vk_station_frame_count(station: *mut Handle) -> u32;
    fn vk_station_frame(station: *mut Handle, at: u32, room: *mut u8, room_len: usize, len: *mut usize, to: *mut u16) -> u32;
    fn vk_station_loaded(
        station: *mut Handle,
        host: u16,
        local: u16,
        start: u32,
        count: u32,
        room: *mut u8,
        room_len: usize,
        len: *mut usize,
    ) -> u32;
    fn vk_station_step_count(station: *mut Handle) -> u32;
    fn vk_station_step(station: *mut Handle, at: u32, room: *mut u8, room_len: usize, len: *mut usize) -> u32;
    fn vk_station_now(station: *mut Handle) -> u64;
    fn vk_station_number(station: *mut Handle) -> u64;
    fn vk_station_events(station: *mut Handle) -> u64;
}

/// A station, or none. Functions that only look write it too, for a moment: hence the cell.
pub struct Raw {
    handle: UnsafeCell<Handle>,
}

impl Raw {
    /// One that holds none.
    pub fn none() -> Raw {
        Raw { handle: UnsafeCell::new(Handle { at: null_mut(), held: 0 }) }
    }

    pub fn open(&mut self, settings: &SettingsFields, processes: &[ProcessFields], pools: &[PoolFields], host: u16) -> u32 {
        let (at, count) = (processes.as_ptr(), processes.len());
        // SAFETY: as the head of this file says.
        unsafe { vk_station_open_with_pools(self.handle.get_mut(), settings, at, count, pools.as_ptr(), pools.len(), host) }
    }

    pub fn call(&mut self, host: u16, local: u16, call: &CallFields, bytes: &[u8], answer: &mut AnswerFields) -> u32 {
        // SAFETY: as the head of this file says.
        unsafe { vk_station_call(self.handle.get_mut(), host, local, call, bytes.as_ptr(), bytes.len(), answer) }
    }

    pub fn collect(&mut self, host: u16, local: u16, answer: &mut AnswerFields) -> u32 {
        // SAFETY: as the head of this file says.
        unsafe { vk_station_collect(self.handle.get_mut(), host, local, answer) }
    }

    pub fn tick(&mut self, answer: &mut AnswerFields) -> u32 {
        // SAFETY: as the head of this file says.
        unsafe { vk_station_tick(self.handle.get_mut(), answer) }
    }

    pub fn deliver(&mut self, bytes: &[u8], answer: &mut AnswerFields) -> u32 {
        // SAFETY: as the head of this file says.
        unsafe { vk_station_deliver(self.handle.get_mut(), bytes.as_ptr(), bytes.len(), answer) }
    }

    pub fn is_done(&self, host: u16, local: u16) -> bool {
        // SAFETY: as the head of this file says; no other call of this station is under way, since it is not `Sync`.
        unsafe { vk_station_is_done(self.handle.get(), host, local) == 1 }
    }

    pub fn frame_count(&self) -> u32 {
        // SAFETY: as in `is_done`.
        unsafe { vk_station_frame_count(self.handle.get()) }
    }

    pub fn frame(&self, at: u32, room: &mut [u8], len: &mut usize, to: &mut u16) -> u32 {
        // SAFETY: as in `is_done`.
        unsafe { vk_station_frame(self.handle.get(), at, room.as_mut_ptr(), room.len(), len, to) }
    }

    pub fn loaded(&self, host: u16, local: u16, start: u32, count: u32, room: &mut [u8], len: &mut usize) -> u32 {
        // SAFETY: as in `is_done`.
        unsafe { vk_station_loaded(self.handle.get(), host, local, start, count, room.as_mut_ptr(), room.len(), len) }
    }

    pub fn step_count(&self) -> u32 {
        // SAFETY: as in `is_done`.
        unsafe { vk_station_step_count(self.handle.get()) }
    }

    pub fn step(&self, at: u32, room: &mut [u8], len: &mut usize) -> u32 {
        // SAFETY: as in `is_done`.
        unsafe { vk_station_step(self.handle.get(), at, room.as_mut_ptr(), room.len(), len) }
    }

    pub fn now(&self) -> u64 {
        // SAFETY: as in `is_done`.
        unsafe { vk_station_now(self.handle.get()) }
    }

    pub fn number(&self) -> u64 {
        // SAFETY: as in `is_done`.
        unsafe { vk_station_number(self.handle.get()) }
    }

    pub fn events(&self) -> u64 {
        // SAFETY: as in `is_done`.
        unsafe { vk_station_events(self.handle.get()) }
    }
}

impl Drop for Raw {
    fn drop(&mut self) {
        // SAFETY: as the head of this file says; it holds none from then on, and that it held none is answered by a number.
        unsafe { vk_station_close(self.handle.get_mut()) };
    }
}
