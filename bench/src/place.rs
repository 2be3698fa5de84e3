//! Moves the code that the linker puts behind this by BENCH_PAD bytes, as it was set when this was compiled. Short loops run faster or
//! slower by where they stand within 64 bytes, on every side; a few builds with different pads show by how much.

const PAD: usize = match option_env!("BENCH_PAD") {
    None => 0,
    Some(text) => match usize::from_str_radix(text, 10) {
        Ok(bytes) => bytes,
        Err(_) => panic!("BENCH_PAD is a number of bytes"),
    },
};

#[cfg(target_arch = "x86_64")]
std::arch::global_asm!(".pushsection .text.bench_pad,\"axR\",@progbits", ".skip {pad}, 0x90", ".popsection", pad = const PAD);
