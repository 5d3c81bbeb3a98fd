//! A library that is loaded before a program (`LD_PRELOAD`), and counts what it takes from `malloc`, by the calls that
//! lead there. `allocations.py` builds it, runs a program with it, and reads what it wrote.
//!
//! The program has neither frame pointers nor unwinding tables. So `ALLOCATIONS_FRAMES` names a file with two bytes for
//! each byte of its code: of the function to which a call returns there, how many bytes the frame takes.
#![allow(static_mut_refs)]

use std::arch::naked_asm;
use std::ffi::{c_char, c_int, c_void};
use std::ptr;

const MOST_CONTEXTS: usize = 1 << 16;
const MOST_DEPTH: usize = 62;
const MARK: u32 = 0x5eed_a110;
const HEAD: usize = 16;
const AT_PHDR: u64 = 3;
/// Where the program headers stand in a file, and so in memory.
const PROGRAM_HEADERS: usize = 64;

unsafe extern "C" {
    fn __libc_malloc(size: usize) -> *mut u8;
    fn __libc_realloc(block: *mut u8, size: usize) -> *mut u8;
    fn __libc_free(block: *mut u8);
    fn getauxval(kind: u64) -> u64;
    fn getenv(name: *const c_char) -> *const c_char;
    fn atoll(text: *const c_char) -> i64;
    fn open(path: *const c_char, flags: c_int, mode: c_int) -> c_int;
    fn lseek(file: c_int, offset: i64, from: c_int) -> i64;
    fn mmap(at: *mut c_void, size: usize, protection: c_int, flags: c_int, file: c_int, offset: i64) -> *mut c_void;
    fn write(file: c_int, bytes: *const u8, size: usize) -> isize;
    fn close(file: c_int) -> c_int;
}

// The stack pointer at the call is handed on: the return address is on top of it.
#[unsafe(no_mangle)]
#[unsafe(naked)]
pub unsafe extern "C" fn malloc(_size: usize) -> *mut u8 {
    naked_asm!("mov rsi, rsp", "jmp {}", sym take)
}

#[unsafe(no_mangle)]
#[unsafe(naked)]
pub unsafe extern "C" fn realloc(_block: *mut u8, _size: usize) -> *mut u8 {
    naked_asm!("mov rdx, rsp", "jmp {}", sym grow)
}

#[unsafe(no_mangle)]
pub unsafe extern "C" fn free(block: *mut u8) {
    unsafe {
        if !block.is_null() {
            __libc_free(uncount(block));
        }
    }
}

#[repr(C)]
struct Head {
    context: u32,
    mark: u32,
    size: u64,
}

#[derive(Clone, Copy)]
struct Context {
    hash: u64,
    depth: usize,
    path: [u32; MOST_DEPTH],
    times: u64,
    bytes: u64,
    live: u64,
    blocks: u64,
    live_then: u64,
    blocks_then: u64,
}

const NONE: Context = Context {
    hash: 0, depth: 0, path: [0; MOST_DEPTH], times: 0, bytes: 0, live: 0, blocks: 0, live_then: 0, blocks_then: 0,
};

static mut CONTEXTS: [Context; MOST_CONTEXTS] = [NONE; MOST_CONTEXTS];
static mut FRAMES: *const u16 = ptr::null();
static mut CODE: usize = 0;
static mut BASE: usize = 0;
static mut EVENTS: u64 = 0;
static mut WANTED: u64 = 0;
static mut LIVE: u64 = 0;
static mut MOST: u64 = 0;
static mut MOST_AT: u64 = 0;

unsafe fn start() {
    unsafe {
        BASE = getauxval(AT_PHDR) as usize - PROGRAM_HEADERS;
        let wanted = getenv(c"ALLOCATIONS_AT".as_ptr());
        WANTED = if wanted.is_null() { u64::MAX } else { atoll(wanted) as u64 };
        let file = open(getenv(c"ALLOCATIONS_FRAMES".as_ptr()), 0, 0);
        let size = lseek(file, 0, 2) as usize;
        CODE = size / 2;
        FRAMES = mmap(ptr::null_mut(), size, 1, 2, file, 0).cast();
        close(file);
    }
}

/// The context of a call with this stack, which is new where there was none of its path.
unsafe fn context_of(mut stack: *const usize) -> u32 {
    unsafe {
        let (mut path, mut depth, mut hash) = ([0u32; MOST_DEPTH], 0, 0xcbf2_9ce4_8422_2325u64);
        while depth < MOST_DEPTH {
            let back = (*stack).wrapping_sub(BASE);
            if back >= CODE || *FRAMES.add(back) == 0 {
                break;
            }
            path[depth] = back as u32;
            depth += 1;
            hash = (hash ^ back as u64).wrapping_mul(0x9e37_79b9_7f4a_7c15).rotate_left(23);
            stack = stack.byte_add(*FRAMES.add(back) as usize);
        }
        let mut place = hash as usize % MOST_CONTEXTS;
        while CONTEXTS[place].times != 0 && CONTEXTS[place].hash != hash {
            place = (place + 1) % MOST_CONTEXTS;
        }
        if CONTEXTS[place].times == 0 {
            CONTEXTS[place] = Context { hash, depth, path, ..NONE };
        }
        place as u32
    }
}

unsafe fn count(block: *mut u8, size: usize, stack: *const usize) -> *mut u8 {
    unsafe {
        if block.is_null() {
            return block;
        }
        let place = context_of(stack);
        let context = &mut CONTEXTS[place as usize];
        context.times += 1;
        context.bytes += size as u64;
        context.live += size as u64;
        context.blocks += 1;
        *block.cast::<Head>() = Head { context: place, mark: MARK, size: size as u64 };
        LIVE += size as u64;
        EVENTS += 1;
        if LIVE > MOST {
            (MOST, MOST_AT) = (LIVE, EVENTS);
        }
        if EVENTS == WANTED {
            for each in &mut CONTEXTS {
                (each.live_then, each.blocks_then) = (each.live, each.blocks);
            }
        }
        block.add(HEAD)
    }
}

/// The block below a counted one, which no longer counts.
unsafe fn uncount(block: *mut u8) -> *mut u8 {
    unsafe {
        let head = block.sub(HEAD).cast::<Head>();
        if (*head).mark != MARK {
            return block;
        }
        let context = &mut CONTEXTS[(*head).context as usize];
        context.live -= (*head).size;
        context.blocks -= 1;
        LIVE -= (*head).size;
        head.cast()
    }
}

unsafe extern "C" fn take(size: usize, stack: *const usize) -> *mut u8 {
    unsafe {
        if FRAMES.is_null() {
            start();
        }
        count(__libc_malloc(size + HEAD), size, stack)
    }
}

unsafe extern "C" fn grow(block: *mut u8, size: usize, stack: *const usize) -> *mut u8 {
    unsafe {
        if block.is_null() {
            return take(size, stack);
        }
        let below = uncount(block);
        count(__libc_realloc(below, size + HEAD), size, stack)
    }
}

unsafe fn put(file: c_int, number: u64, end: u8) {
    unsafe {
        let (mut digits, mut at, mut left) = ([end; 24], 23, number);
        loop {
            at -= 1;
            digits[at] = b'0' + (left % 10) as u8;
            left /= 10;
            if left == 0 {
                break;
            }
        }
        write(file, digits.as_ptr().add(at), 24 - at);
    }
}

/// Writes the most that was live and when, and a line for each context: how often, bytes, live bytes and blocks at the
/// wanted time, and its return addresses, the innermost first.
extern "C" fn end() {
    unsafe {
        let file = open(getenv(c"ALLOCATIONS_OUT".as_ptr()), 0o1101, 0o644);
        for (number, mark) in [(MOST, b' '), (MOST_AT, b' '), (EVENTS, b'\n')] {
            put(file, number, mark);
        }
        for context in CONTEXTS.iter().filter(|context| context.times > 0) {
            for number in [context.times, context.bytes, context.live_then, context.blocks_then] {
                put(file, number, b' ');
            }
            for back in &context.path[..context.depth] {
                put(file, u64::from(*back), b' ');
            }
            write(file, b"\n".as_ptr(), 1);
        }
        close(file);
    }
}

#[used]
#[unsafe(link_section = ".fini_array")]
static END: extern "C" fn() = end;
