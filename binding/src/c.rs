//! The functions as include/arduinos.h declares them.

extern "C" {
    pub fn arduinos_format(disc: *mut u8, disc_len: usize, area: *mut u8, area_len: usize) -> i32;
    pub fn arduinos_boot(area: *mut u8, area_len: usize) -> i32;
    pub fn arduinos_store(
        disc: *mut u8,
        disc_len: usize,
        name: *const u8,
        name_len: usize,
        data: *const u8,
        data_len: usize,
    ) -> i32;
    pub fn arduinos_retrieve(
        disc: *const u8,
        disc_len: usize,
        name: *const u8,
        name_len: usize,
        out: *mut u8,
        out_len: usize,
    ) -> i32;
    pub fn arduinos_erase(
        disc: *mut u8,
        disc_len: usize,
        area: *const u8,
        area_len: usize,
        name: *const u8,
        name_len: usize,
    ) -> i32;
    pub fn arduinos_files(disc: *const u8, disc_len: usize, out: *mut u8, out_len: usize) -> i32;
    pub fn arduinos_free_space(disc: *const u8, disc_len: usize) -> i32;
    pub fn arduinos_run(
        disc: *const u8,
        disc_len: usize,
        area: *mut u8,
        area_len: usize,
        name: *const u8,
        name_len: usize,
    ) -> i32;
    pub fn arduinos_suspend(disc: *const u8, disc_len: usize, area: *mut u8, area_len: usize, id: u32) -> i32;
    pub fn arduinos_resume(disc: *const u8, disc_len: usize, area: *mut u8, area_len: usize, id: u32) -> i32;
    pub fn arduinos_kill(disc: *const u8, disc_len: usize, area: *mut u8, area_len: usize, id: u32) -> i32;
    pub fn arduinos_share(disc: *const u8, disc_len: usize, area: *mut u8, area_len: usize, id: u32, share: u32)
        -> i32;
    pub fn arduinos_list(
        disc: *const u8,
        disc_len: usize,
        area: *const u8,
        area_len: usize,
        out: *mut u8,
        out_len: usize,
    ) -> i32;
    pub fn arduinos_turn(
        disc: *mut u8,
        disc_len: usize,
        area: *mut u8,
        area_len: usize,
        slot: u32,
        clock: u32,
        out: *mut u8,
        out_len: usize,
    ) -> i32;
    pub fn arduinos_round(
        disc: *mut u8,
        disc_len: usize,
        area: *mut u8,
        area_len: usize,
        clock: u32,
        out: *mut u8,
        out_len: usize,
    ) -> i32;
}
