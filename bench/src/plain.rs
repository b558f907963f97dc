//! The machine as an ordinary Rust program has it: no contracts, no proofs, no `unsafe`.

/// Where words come from and go to.
pub trait Port {
    fn take(&mut self) -> Option<u16>;
    fn send(&mut self, word: u16) -> Result<(), Full>;
}

pub struct Full;

/// A list of words to read, and a buffer for the words sent.
pub struct Tape<'i, 'o> {
    input: &'i [u16],
    at: usize,
    output: &'o mut [u16],
    count: usize,
}

impl<'i, 'o> Tape<'i, 'o> {
    pub fn new(input: &'i [u16], output: &'o mut [u16]) -> Self {
        Tape {
            input,
            at: 0,
            output,
            count: 0,
        }
    }
}

impl Port for Tape<'_, '_> {
    #[inline]
    fn take(&mut self) -> Option<u16> {
        let word = *self.input.get(self.at)?;
        self.at += 1;
        Some(word)
    }

    #[inline]
    fn send(&mut self, word: u16) -> Result<(), Full> {
        let place = self.output.get_mut(self.count).ok_or(Full)?;
        *place = word;
        self.count += 1;
        Ok(())
    }
}

#[derive(Clone, Copy, PartialEq, Eq, Debug)]
pub enum Stop {
    Spent = 0,
    Halted = 30,
    Dry = 31,
    Full = 32,
    Outside = 33,
    Unassigned = 34,
}

#[derive(Clone, Copy, PartialEq, Eq, Debug)]
pub enum Refusal {
    Memory = 4,
    Image = 5,
    Budget = 8,
    Count = 9,
}

#[derive(Clone, Copy, PartialEq, Eq, Debug)]
pub struct Report {
    pub stop: Stop,
    pub cycles: u32,
}

#[derive(Default)]
pub struct Machine {
    registers: [u16; 8],
    pc: u16,
    halted: bool,
    size: usize,
    count: u32,
}

impl Machine {
    pub fn new() -> Self {
        Self::default()
    }

    pub fn count(&self) -> u32 {
        self.count
    }

    pub fn load(&mut self, image: &[u16], memory: &mut [u16]) -> Result<(), Refusal> {
        if !(64..=65536).contains(&memory.len()) {
            return Err(Refusal::Memory);
        }
        if image.len() > memory.len() {
            return Err(Refusal::Image);
        }
        let (front, back) = memory.split_at_mut(image.len());
        front.copy_from_slice(image);
        back.fill(0);
        *self = Machine {
            size: memory.len(),
            ..Machine::default()
        };
        Ok(())
    }

    pub fn run<P: Port>(
        &mut self,
        budget: u32,
        memory: &mut [u16],
        port: &mut P,
    ) -> Result<Report, Refusal> {
        if !(64..=65536).contains(&memory.len()) || memory.len() != self.size {
            return Err(Refusal::Memory);
        }
        if budget > 1_000_000 {
            return Err(Refusal::Budget);
        }
        if self.count + budget > 100_000_000 {
            return Err(Refusal::Count);
        }
        let mut cycles = 0;
        let stop = loop {
            if cycles == budget {
                break if self.halted {
                    Stop::Halted
                } else {
                    Stop::Spent
                };
            }
            match self.step(memory, port) {
                Ok(()) => cycles += 1,
                Err(stop) => break stop,
            }
        };
        self.count += cycles;
        Ok(Report { stop, cycles })
    }

    #[inline]
    fn get(&self, register: usize) -> u16 {
        self.registers[register & 7]
    }

    #[inline]
    fn set(&mut self, register: usize, word: u16) {
        if register & 7 != 0 {
            self.registers[register & 7] = word;
        }
    }

    #[inline]
    fn step<P: Port>(&mut self, memory: &mut [u16], port: &mut P) -> Result<(), Stop> {
        if self.halted {
            return Err(Stop::Halted);
        }
        let word = *memory.get(usize::from(self.pc)).ok_or(Stop::Outside)?;
        let rd = usize::from(word >> 9);
        let rs1 = usize::from(word >> 6);
        let rs2 = usize::from(word >> 3);
        let function = word & 7;
        let imm6 = ((word << 10) as i16 >> 10) as u16;
        let imm8 = word as i8 as u16;
        let mut next = self.pc.wrapping_add(1);
        match word >> 12 {
            0 => {
                let (a, b) = (self.get(rs1), self.get(rs2));
                let result = match function {
                    0 => a.wrapping_add(b),
                    1 => a.wrapping_sub(b),
                    2 => a & b,
                    3 => a | b,
                    4 => !a,
                    _ => return Err(Stop::Unassigned),
                };
                self.set(rd, result);
            }
            1 => {
                let target = self.get(rd);
                self.set(rs1, next);
                next = target;
            }
            2 => {
                let word = port.take().ok_or(Stop::Dry)?;
                self.set(rd, word);
            }
            3 => {
                if function != 0 {
                    return Err(Stop::Unassigned);
                }
                if rd & 7 == 0 {
                    self.halted = true;
                    return Ok(());
                }
                port.send(self.get(rd)).map_err(|Full| Stop::Full)?;
            }
            4 => self.set(rd, self.get(rs1).wrapping_add(imm6)),
            5 => {
                let places = u32::from((imm6 as i16).unsigned_abs());
                let word = self.get(rs1);
                let result = if (imm6 as i16) > 0 {
                    word.checked_shl(places)
                } else {
                    word.checked_shr(places)
                };
                self.set(rd, result.unwrap_or(0));
            }
            6 => {
                let at = usize::from(self.get(rs1).wrapping_add(imm6));
                let word = *memory.get(at).ok_or(Stop::Outside)?;
                self.set(rd, word);
            }
            7 => {
                let at = usize::from(self.get(rs1).wrapping_add(imm6));
                *memory.get_mut(at).ok_or(Stop::Outside)? = self.get(rd);
            }
            8 => self.set(rd, imm8),
            9 => self.set(rd, word << 8 | self.get(rd) & 0xFF),
            opcode => {
                let word = self.get(rd) as i16;
                let taken = match opcode {
                    10 => word == 0,
                    11 => word != 0,
                    12 => word > 0,
                    13 => word >= 0,
                    14 => word < 0,
                    _ => word <= 0,
                };
                if taken {
                    next = next.wrapping_add(imm8);
                }
            }
        }
        self.pc = next;
        Ok(())
    }
}
