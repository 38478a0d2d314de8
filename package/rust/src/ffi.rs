//! The calls of `irikit.h`, as it declares them. Every `unsafe` of the crate is a call of one of these.
use std::os::raw::c_char;

pub const IRIKIT_OK: u8 = 0;
pub const IRIKIT_SHORT: u8 = 1;
pub const IRIKIT_NOT_NORMAL: u8 = 2;
pub const IRIKIT_BAD_TEXT: u8 = 3;
pub const IRIKIT_BAD_BASE: u8 = 4;
pub const IRIKIT_BAD_REFERENCE: u8 = 5;
pub const IRIKIT_BAD_PART: u8 = 8;
pub const IRIKIT_NO_HOST: u8 = 9;

pub const IRIKIT_RUN_SHORT: u8 = 5;

pub const IRIKIT_UNDEFINED: usize = 600;
pub const IRIKIT_STRING: usize = 601;
pub const IRIKIT_LIST: usize = 602;
pub const IRIKIT_PAIRS: usize = 603;

pub const IRIKIT_NOWHERE: usize = usize::MAX;

#[repr(C)]
#[derive(Clone, Copy, Default)]
pub struct Slot {
    pub offset: usize,
    pub len: usize,
}

#[repr(C)]
#[derive(Clone, Copy, Default)]
pub struct Slots {
    pub scheme: Slot,
    pub authority: Slot,
    pub path: Slot,
    pub query: Slot,
    pub fragment: Slot,
    pub userinfo: Slot,
    pub host: Slot,
    pub port: Slot,
}

#[repr(C)]
pub struct Text {
    pub bytes: *const c_char,
    pub len: usize,
}

#[repr(C)]
pub struct Given {
    pub part: usize,
    pub text: Text,
}

#[repr(C)]
pub struct Variable {
    pub name: Text,
    pub kind: usize,
    pub values: *const Text,
    pub count: usize,
}

macro_rules! calls {
    ($($name:ident($($argument:ident: $kind:ty),* $(,)?);)*) => {
        extern "C" { $(pub fn $name($($argument: $kind),*) -> u8;)* }
    };
}

extern "C" {
    pub fn irikit_version() -> u32;
}

calls! {
    irikit_canonical(grammar: u32, mode: u32, base: *const c_char, base_len: usize, reference: *const c_char, reference_len: usize,
        out: *mut c_char, size: usize, detail: *mut usize);
    irikit_canonical_to_uri(mode: u32, base: *const c_char, base_len: usize, reference: *const c_char, reference_len: usize,
        out: *mut c_char, size: usize, detail: *mut usize);
    irikit_canonical_lines(grammar: u32, mode: u32, base: *const c_char, base_len: usize, lines: *const c_char, lines_len: usize,
        out: *mut c_char, size: usize, consumed: *mut usize, detail: *mut usize);
    irikit_canonical_pairs(grammar: u32, mode: u32, lines: *const c_char, lines_len: usize, out: *mut c_char, size: usize,
        consumed: *mut usize, detail: *mut usize);
    irikit_validate(grammar: u32, kind: u32, text: *const c_char, len: usize, detail: *mut usize);
    irikit_fault_part(kind: u32, fault: usize, text: *const c_char, len: usize, part: *mut Slot, detail: *mut usize);
    irikit_split(grammar: u32, text: *const c_char, len: usize, parts: *mut Slots, detail: *mut usize);
    irikit_is_normalized(grammar: u32, mode: u32, text: *const c_char, len: usize, detail: *mut usize);
    irikit_map_to_uri(text: *const c_char, len: usize, out: *mut c_char, size: usize, detail: *mut usize);
    irikit_resolve(grammar: u32, base: *const c_char, base_len: usize, reference: *const c_char, reference_len: usize,
        out: *mut c_char, size: usize, detail: *mut usize);
    irikit_target(grammar: u32, base: *const c_char, base_len: usize, reference: *const c_char, reference_len: usize,
        out: *mut c_char, size: usize, detail: *mut usize);
    irikit_steps(grammar: u32, mode: u32, text: *const c_char, len: usize, out: *mut c_char, size: usize, detail: *mut usize);
    irikit_normalize(grammar: u32, mode: u32, text: *const c_char, len: usize, out: *mut c_char, size: usize, detail: *mut usize);
    irikit_encode(grammar: u32, place: u32, text: *const c_char, len: usize, out: *mut c_char, size: usize, detail: *mut usize);
    irikit_decode(text: *const c_char, len: usize, out: *mut c_char, size: usize, detail: *mut usize);
    irikit_mask_password(grammar: u32, text: *const c_char, len: usize, out: *mut c_char, size: usize, detail: *mut usize);
    irikit_replace_password(grammar: u32, text: *const c_char, len: usize, password: *const c_char, password_len: usize,
        out: *mut c_char, size: usize, detail: *mut usize);
    irikit_remove_fragment(grammar: u32, text: *const c_char, len: usize, out: *mut c_char, size: usize, detail: *mut usize);
    irikit_set_fragment(grammar: u32, text: *const c_char, len: usize, fragment: *const c_char, fragment_len: usize,
        out: *mut c_char, size: usize, detail: *mut usize);
    irikit_remove_password(grammar: u32, text: *const c_char, len: usize, out: *mut c_char, size: usize, detail: *mut usize);
    irikit_replace_host(grammar: u32, text: *const c_char, len: usize, host: *const c_char, host_len: usize, out: *mut c_char,
        size: usize, detail: *mut usize);
    irikit_replace_reg_name(grammar: u32, text: *const c_char, len: usize, host: *const c_char, host_len: usize,
        out: *mut c_char, size: usize, detail: *mut usize);
    irikit_build(grammar: u32, kind: u32, parts: *const Given, count: usize, out: *mut c_char, size: usize, detail: *mut usize);
    irikit_template_variables(template: *const c_char, len: usize, names: *mut Slot, count: usize, detail: *mut usize,
        place: *mut usize);
    irikit_expand(grammar: u32, template: *const c_char, template_len: usize, variables: *const Variable, count: usize,
        out: *mut c_char, size: usize, detail: *mut usize, place: *mut usize);
    irikit_fault_words(fault: usize, out: *mut c_char, size: usize, detail: *mut usize);
    irikit_template_fault_words(fault: usize, out: *mut c_char, size: usize, detail: *mut usize);
    irikit_run(words: *const c_char, words_len: usize, input: *const c_char, input_len: usize, out: *mut c_char, size: usize,
        out_len: *mut usize);
}
