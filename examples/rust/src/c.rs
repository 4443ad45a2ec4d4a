//! The functions of `include/order_line.h`, in its order: a slice passes as a pointer and then its number of bytes, or of
//! 16-bit numbers.
//!
//! They stand once: the safe calls beside this file and the order line's tests, which compare every function with a
//! second implementation, both call through them.

unsafe extern "C" {
    pub fn order_line_version() -> u32;

    pub fn order_line_loop_time(k: usize, speed: u32, loop_ms: u32) -> u8;

    pub fn order_line_build_block(
        k: usize,
        service: u8,
        payload: *const u8,
        payload_bytes: usize,
        block: *mut u8,
        block_bytes: usize,
    ) -> u8;

    pub fn order_line_read_block(
        k: usize,
        block: *const u8,
        block_bytes: usize,
        payload: *mut u8,
        payload_bytes: usize,
        remainder: *mut u16,
    ) -> u16;

    pub fn order_line_open_sender(
        k: usize,
        speed: u32,
        loop_ms: u32,
        length: usize,
        order: *const u8,
        order_bytes: usize,
        state: *mut u8,
        state_bytes: usize,
    ) -> u8;

    pub fn order_line_open_sender_with_marks(
        k: usize,
        speed: u32,
        loop_ms: u32,
        length: usize,
        size: usize,
        order: *const u8,
        order_bytes: usize,
        state: *mut u8,
        state_bytes: usize,
    ) -> u8;

    pub fn order_line_send(
        state: *mut u8,
        state_bytes: usize,
        order: *const u8,
        order_bytes: usize,
        reading: bool,
        block: *mut u8,
        block_bytes: usize,
    ) -> u32;

    pub fn order_line_sender_rest(state: *const u8, state_bytes: usize) -> u8;

    pub fn order_line_open_receiver(k: usize, state: *mut u8, state_bytes: usize) -> u8;

    pub fn order_line_open_receiver_with_marks(
        k: usize,
        size: usize,
        state: *mut u8,
        state_bytes: usize,
    ) -> u8;

    pub fn order_line_receive(
        state: *mut u8,
        state_bytes: usize,
        line: *const u8,
        line_bytes: usize,
        bits: usize,
        ready: bool,
        store: *mut u8,
        store_bytes: usize,
        used: *mut usize,
        length: *mut usize,
        remainder: *mut u16,
    ) -> u8;

    pub fn order_line_return_bit(state: *const u8, state_bytes: usize) -> u8;

    pub fn order_line_write_tint(
        doses: *const u16,
        doses_numbers: usize,
        count: usize,
        order: *mut u8,
        order_bytes: usize,
        bytes: *mut usize,
    ) -> u8;

    pub fn order_line_read_tint(
        order: *const u8,
        order_bytes: usize,
        doses: *mut u16,
        doses_numbers: usize,
        count: *mut usize,
    ) -> u8;

    pub fn order_line_noise(
        k: usize,
        first: *mut u32,
        second: *mut u32,
        block: *mut u8,
        block_bytes: usize,
    ) -> u32;
}
