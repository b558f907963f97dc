//! The images that both machines run.

fn three(function: u16, rd: u16, rs1: u16, rs2: u16) -> u16 {
    rd << 9 | rs1 << 6 | rs2 << 3 | function
}

fn add(rd: u16, rs1: u16, rs2: u16) -> u16 {
    three(0, rd, rs1, rs2)
}

fn sub(rd: u16, rs1: u16, rs2: u16) -> u16 {
    three(1, rd, rs1, rs2)
}

fn and(rd: u16, rs1: u16, rs2: u16) -> u16 {
    three(2, rd, rs1, rs2)
}

fn or(rd: u16, rs1: u16, rs2: u16) -> u16 {
    three(3, rd, rs1, rs2)
}

fn not(rd: u16, rs1: u16) -> u16 {
    three(4, rd, rs1, 0)
}

fn jalr(rd: u16, rs1: u16) -> u16 {
    1 << 12 | rd << 9 | rs1 << 6
}

fn take(rd: u16) -> u16 {
    2 << 12 | rd << 9
}

fn out(rd: u16) -> u16 {
    3 << 12 | rd << 9
}

fn short(opcode: u16, rd: u16, rs1: u16, imm: i16) -> u16 {
    opcode << 12 | rd << 9 | rs1 << 6 | imm as u16 & 63
}

fn addi(rd: u16, rs1: u16, imm: i16) -> u16 {
    short(4, rd, rs1, imm)
}

fn shf(rd: u16, rs1: u16, imm: i16) -> u16 {
    short(5, rd, rs1, imm)
}

fn lw(rd: u16, rs1: u16, imm: i16) -> u16 {
    short(6, rd, rs1, imm)
}

fn sw(rd: u16, rs1: u16, imm: i16) -> u16 {
    short(7, rd, rs1, imm)
}

fn long(opcode: u16, rd: u16, imm: i16) -> u16 {
    opcode << 12 | rd << 9 | imm as u16 & 255
}

fn lli(rd: u16, imm: i16) -> u16 {
    long(8, rd, imm)
}

fn lui(rd: u16, imm: i16) -> u16 {
    long(9, rd, imm)
}

fn beq(rd: u16, imm: i16) -> u16 {
    long(10, rd, imm)
}

fn bne(rd: u16, imm: i16) -> u16 {
    long(11, rd, imm)
}

fn bgt(rd: u16, imm: i16) -> u16 {
    long(12, rd, imm)
}

fn ble(rd: u16, imm: i16) -> u16 {
    long(15, rd, imm)
}

/// Goes over a table of 32 words for ever, and changes each by arithmetic with a running word.
pub fn table() -> Vec<u16> {
    vec![
        lli(6, 100),     //  0         r6: where the table begins
        lli(1, 1),       //  1         r1: the running word
        lli(2, 32),      //  2 outer:  r2: words left
        add(3, 6, 0),    //  3         r3: the word's place
        lw(4, 3, 0),     //  4 next:
        add(1, 1, 4),    //  5
        shf(5, 1, -3),   //  6
        sub(4, 5, 4),    //  7
        addi(4, 4, 7),   //  8
        and(5, 4, 1),    //  9
        or(1, 1, 5),     // 10
        shf(1, 1, 1),    // 11
        addi(1, 1, 13),  // 12
        sw(4, 3, 0),     // 13
        addi(3, 3, 1),   // 14
        addi(2, 2, -1),  // 15
        bgt(2, -13),     // 16         to next
        not(1, 1),       // 17
        beq(0, -17),     // 18         to outer
    ]
}

/// Fills 48 words from a shift register, sorts them by exchange of neighbours, and begins again.
/// Whether two are exchanged hangs on the data.
pub fn sort() -> Vec<u16> {
    vec![
        lli(7, 120),     //  0         r7: where the words begin
        lli(1, 0x35),    //  1         r1: the shift register
        lui(1, 0x6C),    //  2
        lli(2, 48),      //  3 again:  r2: words left
        add(3, 7, 0),    //  4         r3: the word's place
        shf(4, 1, 1),    //  5 fill:   the next pattern of 16 bits, by its uppermost bit
        bgt(1, 2),       //  6         to keep
        addi(4, 4, 29),  //  7
        addi(4, 4, 16),  //  8
        add(1, 4, 0),    //  9 keep:
        shf(4, 4, -2),   // 10
        sw(4, 3, 0),     // 11
        addi(3, 3, 1),   // 12
        addi(2, 2, -1),  // 13
        bgt(2, -10),     // 14         to fill
        lli(2, 47),      // 15         r2: the pairs to look at
        add(3, 7, 0),    // 16 pass:
        add(6, 2, 0),    // 17         r6: pairs left
        lw(4, 3, 0),     // 18 pair:
        lw(5, 3, 1),     // 19
        sub(4, 4, 5),    // 20
        ble(4, 4),       // 21         to ordered
        lw(4, 3, 0),     // 22
        sw(5, 3, 0),     // 23
        sw(4, 3, 1),     // 24
        bne(4, 0),       // 25         to ordered, taken or not
        addi(3, 3, 1),   // 26 ordered:
        addi(6, 6, -1),  // 27
        bgt(6, -11),     // 28         to pair
        addi(2, 2, -1),  // 29
        bgt(2, -15),     // 30         to pass
        lli(5, 3),       // 31
        jalr(5, 6),      // 32         to again
    ]
}

/// Sends the four window switches each time one of them changes, for ever.
pub fn door() -> Vec<u16> {
    vec![
        lli(3, 15),    // 0        the four window switches
        take(1),       // 1 poll:  the next recorded switch word
        and(2, 1, 3),  // 2
        sub(4, 2, 5),  // 3        r5 holds what was sent last
        beq(4, -4),    // 4        nothing has changed
        out(2),        // 5
        add(5, 2, 0),  // 6
        beq(0, -7),    // 7        to poll
    ]
}
