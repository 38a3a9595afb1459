//! The functions and structs of `include/asset.h`, which says what each does.

#[repr(C)]
pub struct Handle {
    pub is_open: bool,
    pub core: *mut u8,
}

#[repr(C)]
#[derive(Clone, Copy)]
pub struct Object {
    pub name: u64,
    pub value: i64,
}

#[repr(C)]
#[derive(Clone, Copy, Default)]
pub struct Step {
    pub kind: u32,
    pub detail: u32,
    pub first: u64,
    pub second: u64,
    pub value: i64,
    pub count: u64,
    pub objects: [u64; 16],
}

#[repr(C)]
#[derive(Clone, Copy, Default)]
pub struct Answer {
    pub kind: u32,
    pub name: u64,
    pub value: i64,
}

#[repr(C)]
#[derive(Clone, Copy, Default)]
pub struct Waiter {
    pub name: u64,
    pub op: u32,
}

extern "C" {
    pub fn asset_open(
        asset: &mut Handle,
        objects: *const Object,
        object_count: usize,
        capacity: usize,
        twice: &mut u64,
    ) -> u32;
    pub fn asset_step(asset: &mut Handle, step: &Step, answer: &mut Answer) -> u32;
    pub fn asset_status(asset: &mut Handle, transaction: u64, status: &mut u32) -> u32;
    pub fn asset_value(asset: &mut Handle, object: u64, value: &mut i64) -> u32;
    pub fn asset_waiter(asset: &mut Handle, object: u64, index: usize, waiter: &mut Waiter) -> u32;
    pub fn asset_len(asset: &mut Handle, len: &mut usize) -> u32;
    pub fn asset_entry(asset: &mut Handle, index: usize, step: &mut Step, answer: &mut Answer) -> u32;
    pub fn asset_group_of(asset: &mut Handle, transaction: u64, group: &mut usize) -> u32;
    pub fn asset_close(asset: &mut Handle) -> u32;
}
