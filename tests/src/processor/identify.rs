//! Whether this machine's processor has the instructions, and what it calls itself.

use std::arch::asm;
use std::arch::x86_64::{__cpuid, __cpuid_count, __get_cpuid_max};

/// Why the instructions cannot be run here; nothing where they can.
pub fn missing() -> Option<String> {
    if __get_cpuid_max(0).0 < 7 {
        return Some("CPUID has no leaf 7".to_string());
    }
    let features = __cpuid_count(7, 0);
    // 16 F, 30 BW and 31 VL of AVX-512, which the runner's own instructions need.
    let foundation = features.ebx >> 16 & features.ebx >> 30 & features.ebx >> 31 & 1;
    if features.edx >> 23 & 1 == 0 || foundation == 0 {
        return Some("the processor has no AVX512-FP16 (CPUID leaf 7)".to_string());
    }
    // OSXSAVE, and XCR0: SSE, AVX, opmask, both upper parts of the vector file.
    let wanted = 0b1110_0110;
    if __cpuid(1).ecx >> 27 & 1 == 0 || extended_control() & wanted != wanted {
        return Some("the operating system does not keep AVX-512 state (XCR0)".to_string());
    }
    None
}

/// Only where CPUID says OSXSAVE.
fn extended_control() -> u32 {
    let low: u32;
    // Safety: the caller has seen OSXSAVE, so the instruction exists; it reads alone.
    unsafe { asm!("xgetbv", in("ecx") 0, out("eax") low, out("edx") _, options(nomem, nostack)) };
    low
}

/// With APX the two fixed bits of R4.8 have a meaning.
pub fn has_extended_prefix() -> bool {
    __cpuid_count(7, 0).eax >= 1 && __cpuid_count(7, 1).edx >> 21 & 1 == 1
}

/// The name, and family, model and stepping.
pub fn model() -> String {
    let signature = __cpuid(1).eax;
    let family = (signature >> 8 & 15) + (signature >> 20 & 255);
    let model = signature >> 4 & 15 | signature >> 12 & 0xF0;
    let stepping = signature & 15;
    let name = if __get_cpuid_max(0x8000_0000).0 >= 0x8000_0004 {
        name()
    } else {
        "no name".to_string()
    };
    format!("{name}, family {family}, model {model}, stepping {stepping}")
}

fn name() -> String {
    let mut bytes = Vec::new();
    for leaf in 0x8000_0002..=0x8000_0004 {
        let four = __cpuid(leaf);
        for word in [four.eax, four.ebx, four.ecx, four.edx] {
            bytes.extend(word.to_le_bytes());
        }
    }
    let text = String::from_utf8_lossy(&bytes);
    text.trim_matches(['\0', ' ']).to_string()
}
