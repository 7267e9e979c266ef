//! Whether a processor runs this program itself. A time that an emulator took says nothing.

/// The name of an emulator, if the processor says that it is one.
#[cfg(target_arch = "x86_64")]
#[allow(unused_unsafe)]
pub fn emulator() -> Option<&'static str> {
    use std::arch::x86_64::__cpuid;
    let text = |leaf: u32| {
        let found = unsafe { __cpuid(leaf) };
        [found.eax, found.ebx, found.ecx, found.edx].map(u32::to_le_bytes).concat()
    };
    // What a machine that is not real calls itself. A hypervisor runs code on the processor; this one does not.
    if text(0x4000_0000)[4..] == *b"TCGTCGTCGTCG" {
        return Some("QEMU without a hypervisor");
    }
    let brand = [0x8000_0002, 0x8000_0003, 0x8000_0004].map(text).concat();
    if brand.starts_with(b"VirtualApple") {
        return Some("Rosetta");
    }
    None
}

#[cfg(not(target_arch = "x86_64"))]
pub fn emulator() -> Option<&'static str> {
    None
}

/// The processor's name, as the system tells it.
pub fn processor() -> String {
    let text = std::fs::read_to_string("/proc/cpuinfo").unwrap_or_default();
    let named = |name: &str| {
        let line = text.lines().find(|line| line.starts_with(name))?;
        Some(line.split_once(':')?.1.trim().to_string())
    };
    named("model name")
        .or_else(|| Some(format!("implementer {}, part {}", named("CPU implementer")?, named("CPU part")?)))
        .unwrap_or_else(|| "unknown".into())
}
