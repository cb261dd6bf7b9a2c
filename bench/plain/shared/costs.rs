// Bytes of LEB128 numbers, and of line opcodes that have one as their operand and are left out where it is 0.
fn len_u(value: u64) -> u32 {
    (64 - (value | 1).leading_zeros()).div_ceil(7)
}

pub fn len_s(value: i64) -> u32 {
    let magnitude = if value < 0 { !value } else { value };
    (65 - magnitude.leading_zeros()).div_ceil(7)
}

pub fn operand_bytes(operand: u64) -> u32 {
    if operand == 0 {
        0
    } else {
        1 + len_u(operand)
    }
}

pub fn line_bytes(operand: i64) -> u32 {
    if operand == 0 {
        0
    } else {
        1 + len_s(operand)
    }
}
