//! gfshare's calls for C, with slices. A context is made once and never freed: none is timed.

use std::ffi::{c_uint, c_void};

pub type Fill = extern "C" fn(*mut u8, c_uint);

extern "C" {
    static mut gfshare_fill_rand: Option<Fill>;
    fn gfshare_ctx_init_enc(keepers: *const u8, count: c_uint, fewest: u8, size: c_uint)
        -> Context;
    fn gfshare_ctx_init_dec(keepers: *const u8, count: c_uint, size: c_uint) -> Context;
    fn gfshare_ctx_enc_setsecret(context: Context, secret: *const u8);
    fn gfshare_ctx_enc_getshare(context: Context, index: u8, share: *mut u8);
    fn gfshare_ctx_dec_giveshare(context: Context, index: u8, share: *const u8);
    fn gfshare_ctx_dec_extract(context: Context, secret: *mut u8);
    fn getrandom(bytes: *mut u8, count: usize, flags: c_uint) -> isize;
}

type Context = *mut c_void;

/// The system's random bytes, as gfshare's header advises.
pub extern "C" fn drawn(bytes: *mut u8, count: c_uint) {
    // SAFETY: gfshare lends this many bytes.
    let came = unsafe { getrandom(bytes, count as usize, 0) };
    assert_eq!(came, count as isize, "the system gives random bytes");
}

/// Leaves the random bytes of the split before.
pub extern "C" fn lent(_: *mut u8, _: c_uint) {}

pub struct Splitter {
    context: Context,
    keepers: usize,
    size: usize,
}

impl Splitter {
    pub fn new(keepers: &[u8], fewest: u8, size: usize) -> Splitter {
        // SAFETY: the keepers' numbers are as many as is said.
        let context = unsafe {
            gfshare_ctx_init_enc(keepers.as_ptr(), keepers.len() as c_uint, fewest, size as c_uint)
        };
        assert!(!context.is_null());
        Splitter { context, keepers: keepers.len(), size }
    }

    pub fn split(&mut self, fill: Fill, secret: &[u8], shares: &mut [Vec<u8>]) {
        assert!(secret.len() == self.size && shares.len() == self.keepers);
        // SAFETY: one thread alone sets the filler; each part is as long as the context was told.
        unsafe {
            gfshare_fill_rand = Some(fill);
            gfshare_ctx_enc_setsecret(self.context, secret.as_ptr());
            for (index, share) in (0..).zip(shares) {
                assert_eq!(share.len(), self.size);
                gfshare_ctx_enc_getshare(self.context, index, share.as_mut_ptr());
            }
        }
    }
}

pub struct Combiner {
    context: Context,
    keepers: usize,
    size: usize,
}

impl Combiner {
    pub fn new(keepers: &[u8], size: usize) -> Combiner {
        // SAFETY: the keepers' numbers are as many as is said.
        let context = unsafe {
            gfshare_ctx_init_dec(keepers.as_ptr(), keepers.len() as c_uint, size as c_uint)
        };
        assert!(!context.is_null());
        Combiner { context, keepers: keepers.len(), size }
    }

    pub fn combine(&mut self, shares: &[Vec<u8>], secret: &mut [u8]) {
        assert!(secret.len() == self.size && shares.len() == self.keepers);
        // SAFETY: each part is as long as the context was told.
        unsafe {
            for (index, share) in (0..).zip(shares) {
                assert_eq!(share.len(), self.size);
                gfshare_ctx_dec_giveshare(self.context, index, share.as_ptr());
            }
            gfshare_ctx_dec_extract(self.context, secret.as_mut_ptr());
        }
    }
}
