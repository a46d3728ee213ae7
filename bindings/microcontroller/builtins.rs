//! What rustc calls to move memory, for a compiler that comes without the crate `compiler_builtins` of a target. GCC's libgcc has what divides.
#![feature(compiler_builtins)]
#![compiler_builtins]
#![no_std]
#![no_builtins]

#[unsafe(no_mangle)]
unsafe extern "C" fn memcpy(to: *mut u8, from: *const u8, length: usize) -> *mut u8 {
    for index in 0..length {
        unsafe { *to.add(index) = *from.add(index) };
    }
    to
}

#[unsafe(no_mangle)]
unsafe extern "C" fn memmove(to: *mut u8, from: *const u8, length: usize) -> *mut u8 {
    if to.cast_const() <= from {
        return unsafe { memcpy(to, from, length) };
    }
    for index in (0..length).rev() {
        unsafe { *to.add(index) = *from.add(index) };
    }
    to
}

#[unsafe(no_mangle)]
unsafe extern "C" fn memset(to: *mut u8, byte: i32, length: usize) -> *mut u8 {
    for index in 0..length {
        unsafe { *to.add(index) = byte as u8 };
    }
    to
}

#[unsafe(no_mangle)]
unsafe extern "C" fn memcmp(one: *const u8, other: *const u8, length: usize) -> i32 {
    for index in 0..length {
        let (one, other) = unsafe { (*one.add(index), *other.add(index)) };
        if one != other {
            return i32::from(one) - i32::from(other);
        }
    }
    0
}

#[unsafe(no_mangle)]
unsafe extern "C" fn __aeabi_memcpy(to: *mut u8, from: *const u8, length: usize) {
    unsafe { memcpy(to, from, length) };
}

#[unsafe(no_mangle)]
unsafe extern "C" fn __aeabi_memcpy4(to: *mut u8, from: *const u8, length: usize) {
    unsafe { memcpy(to, from, length) };
}

#[unsafe(no_mangle)]
unsafe extern "C" fn __aeabi_memcpy8(to: *mut u8, from: *const u8, length: usize) {
    unsafe { memcpy(to, from, length) };
}

#[unsafe(no_mangle)]
unsafe extern "C" fn __aeabi_memmove(to: *mut u8, from: *const u8, length: usize) {
    unsafe { memmove(to, from, length) };
}

#[unsafe(no_mangle)]
unsafe extern "C" fn __aeabi_memclr(to: *mut u8, length: usize) {
    unsafe { memset(to, 0, length) };
}

#[unsafe(no_mangle)]
unsafe extern "C" fn __aeabi_memclr4(to: *mut u8, length: usize) {
    unsafe { memset(to, 0, length) };
}

#[unsafe(no_mangle)]
unsafe extern "C" fn __aeabi_memclr8(to: *mut u8, length: usize) {
    unsafe { memset(to, 0, length) };
}
