//! The exported C functions, as `include/katsunebyo.h` declares them.
//!
//! Every pointer comes with its length; an empty slice may come with a null pointer. Buffers are separate, and
//! `length` and `place` are non-null and overlap none of them: that is what makes a call safe.

macro_rules! entries {
    ($($name:ident($($slice:ident $len:ident),*);)*) => {
        extern "C" {
            $(pub fn $name(
                suite: u64,
                $($slice: *const u8, $len: usize,)*
                out: *mut u8,
                out_len: usize,
                length: *mut usize,
            ) -> u32;)*
        }
    };
}

entries! {
    katsu_blk(key key_len, block block_len);
    katsu_unblk(key key_len, block block_len);
    katsu_ctr(key key_len, iv iv_len, text text_len);
    katsu_ofb(key key_len, iv iv_len, text text_len);
    katsu_cfb(key key_len, iv iv_len, text text_len);
    katsu_uncfb(key key_len, iv iv_len, text text_len);
    katsu_cbc(key key_len, iv iv_len, text text_len);
    katsu_uncbc(key key_len, iv iv_len, text text_len);
    katsu_cbp(key key_len, iv iv_len, text text_len);
    katsu_uncbp(key key_len, iv iv_len, text text_len);
    katsu_mac(key key_len, text text_len);
    katsu_chk(key key_len, tag tag_len, text text_len);
}

extern "C" {
    pub fn katsu_prepare(
        text: *const u8,
        text_len: usize,
        list: *const u8,
        list_len: usize,
        out: *mut u8,
        out_len: usize,
        work: *mut u8,
        work_len: usize,
        length: *mut usize,
        place: *mut usize,
    ) -> u32;

    pub fn katsu_run(
        image: *const u8,
        image_len: usize,
        list: *const u8,
        list_len: usize,
        out: *mut u8,
        out_len: usize,
        work: *mut u8,
        work_len: usize,
        length: *mut usize,
    ) -> u32;
}
