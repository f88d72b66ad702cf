//! The 33 instructions.

use layout::Cell;
use layout::cell::word;
use layout::code::{DIV_BY_ZERO, INVALID_INSTRUCTION, TRAP};
use layout::limit::SHIFT_MOST;
use layout::memory::{INTERRUPT_PC_SAVE, INTERRUPT_SR_SAVE};
use layout::mode::REG;
use layout::op;
use layout::sr::{NEGATIVE, OVERFLOW, ZERO};

use crate::cell::{Decoded, Operand, address_in};
use crate::machine::{Fault, Machine};

type Done = Result<(), Fault>;

impl Machine<'_> {
    pub fn execute(&mut self, decoded: &Decoded) -> Done {
        let Decoded { op: operation, x, y } = *decoded;
        match operation {
            op::ADD => self.wrapping(x, y, |operand, register| register.overflowing_add(operand)),
            op::AND => self.logic(x, y, |operand, register| register & operand),
            op::CALL => self.call(x),
            op::CMP => self.cmp(x, y),
            op::DIV => self.div(x, y),
            op::FAS => self.fas(x, y),
            op::IN => self.input(x, y),
            op::JMP..=op::JGT => self.jump(operation, x),
            op::LD => {
                let cell = self.cell_of(x)?;
                self.set(y.reg, cell)
            }
            op::MUL => self.wrapping(x, y, |operand, register| register.overflowing_mul(operand)),
            op::NEG => self.neg(x),
            op::NOP => Ok(()),
            op::NOT => {
                let result = !self.word_of(x)?;
                self.put_result(x, result)
            }
            op::OR => self.logic(x, y, |operand, register| register | operand),
            op::OUT => self.output(x, y),
            op::POP => self.pop(x),
            op::PUSH => self.push(x),
            op::RESET => {
                self.state.pc -= 1;
                Err(Fault::Reset)
            }
            op::RTI => self.rti(),
            op::RTN => self.rtn(),
            op::SHL => self.shift(x, y, |register, amount| register << amount),
            op::SHR => self.shift(x, y, |register, amount| register >> amount),
            op::ST => self.st(x, y),
            op::SUB => self.wrapping(x, y, |operand, register| register.overflowing_sub(operand)),
            op::SWAP => self.swap(x, y),
            op::TRAP => Err(Fault::Code(TRAP)),
            _ => self.logic(x, y, |operand, register| register ^ operand),
        }
    }

    /// The operand's word, then the register's.
    fn words(&mut self, x: Operand, y: Operand) -> Result<(i64, i64), Fault> {
        Ok((self.word_of(x)?, self.word_of(y)?))
    }

    /// The register is written before the flags.
    fn put_result(&mut self, register: Operand, result: i64) -> Done {
        self.set(register.reg, word(result))?;
        self.put_bit(ZERO, result == 0);
        self.put_bit(NEGATIVE, result < 0);
        Ok(())
    }

    fn wrapping(&mut self, x: Operand, y: Operand, f: fn(i64, i64) -> (i64, bool)) -> Done {
        let (operand, register) = self.words(x, y)?;
        let (result, over) = f(operand, register);
        self.put_result(y, result)?;
        self.put_bit(OVERFLOW, over);
        Ok(())
    }

    fn logic(&mut self, x: Operand, y: Operand, f: fn(i64, i64) -> i64) -> Done {
        let (operand, register) = self.words(x, y)?;
        self.put_result(y, f(operand, register))
    }

    fn neg(&mut self, x: Operand) -> Done {
        let (result, over) = 0i64.overflowing_sub(self.word_of(x)?);
        self.put_result(x, result)?;
        self.put_bit(OVERFLOW, over);
        Ok(())
    }

    /// Z if the words are equal, N if operand < register.
    fn cmp(&mut self, x: Operand, y: Operand) -> Done {
        let (operand, register) = self.words(x, y)?;
        self.put_bit(ZERO, operand == register);
        self.put_bit(NEGATIVE, operand < register);
        Ok(())
    }

    fn div(&mut self, x: Operand, y: Operand) -> Done {
        let (operand, register) = self.words(x, y)?;
        if operand == 0 || (register == i64::MIN && operand == -1) {
            return Err(Fault::Code(DIV_BY_ZERO));
        }
        self.put_result(y, register / operand)
    }

    fn shift(&mut self, x: Operand, y: Operand, f: fn(i64, i64) -> i64) -> Done {
        let (amount, register) = self.words(x, y)?;
        if !(0..=SHIFT_MOST).contains(&amount) {
            return Err(Fault::Code(INVALID_INSTRUCTION));
        }
        self.put_result(y, f(register, amount))
    }

    /// Word 1 is written before the register is set, which stays where that write is not made.
    fn fas(&mut self, x: Operand, y: Operand) -> Done {
        let address = self.address(x).ok_or(Fault::CellError)?;
        let cell = self.read(address)?;
        self.write(address, word(1))?;
        self.set(y.reg, cell)
    }

    /// The source's word, then the address, then the bound.
    fn st(&mut self, x: Operand, y: Operand) -> Done {
        let source = self.word_of(x)?;
        let address = self.address(y).ok_or(Fault::CellError)?;
        self.write(address, word(source))
    }

    /// The register first; the address is resolved from the new registers.
    fn swap(&mut self, x: Operand, y: Operand) -> Done {
        let (first, second) = (self.cell_of(x)?, self.get(y.reg));
        self.set(y.reg, first)?;
        if x.mode == REG {
            return self.set(x.reg, second);
        }
        let address = self.address(x).ok_or(Fault::CellError)?;
        self.write(address, second)
    }

    fn target(&mut self, x: Operand) -> Result<u32, Fault> {
        address_in(self.word_of(x)?).ok_or(Fault::Extract)
    }

    /// A jump not taken never reads its operand.
    fn jump(&mut self, operation: i64, x: Operand) -> Done {
        let (zero, negative) = (self.has(ZERO), self.has(NEGATIVE));
        let taken = match operation {
            op::JMP => true,
            op::JEQ => zero,
            op::JNE => !zero,
            op::JLE => zero || negative,
            op::JLT => negative && !zero,
            op::JGE => zero || !negative,
            _ => !zero && !negative,
        };
        if taken {
            self.state.pc = self.target(x)?;
        }
        Ok(())
    }

    /// pc is pushed before the operand is read.
    fn call(&mut self, x: Operand) -> Done {
        self.push_cell(word(self.state.pc.into()))?;
        self.state.pc = self.target(x)?;
        Ok(())
    }

    fn push(&mut self, x: Operand) -> Done {
        let cell = self.cell_of(x)?;
        self.push_cell(cell)
    }

    /// sp stays moved where the store is outside.
    fn push_cell(&mut self, cell: Cell) -> Done {
        self.state.sp = self.state.sp.wrapping_sub(1);
        self.write(self.state.sp, cell)
    }

    /// Read at sp, then move sp.
    fn pop_cell(&mut self) -> Result<Cell, Fault> {
        let cell = self.read(self.state.sp)?;
        self.state.sp += 1;
        Ok(cell)
    }

    fn pop(&mut self, x: Operand) -> Done {
        let cell = self.pop_cell()?;
        self.set(x.reg, cell)
    }

    fn rtn(&mut self) -> Done {
        let cell = self.pop_cell()?;
        self.state.pc = self.take_address(cell).ok_or(Fault::CellError)?;
        Ok(())
    }

    /// pc is set before cell 101 is read.
    fn rti(&mut self) -> Done {
        self.privileged()?;
        let (pc, sr) = (self.read(INTERRUPT_PC_SAVE)?, self.read(INTERRUPT_SR_SAVE)?);
        self.state.pc = self.take_address(pc).ok_or(Fault::CellError)?;
        self.state.sr = self.take(sr).ok_or(Fault::CellError)?;
        Ok(())
    }

    fn input(&mut self, x: Operand, y: Operand) -> Done {
        self.privileged()?;
        let port = self.address(x).ok_or(Fault::CellError)?;
        let read = self.timer.read(port).unwrap_or_else(|| self.console.read(port));
        self.set(y.reg, word(read))
    }

    fn output(&mut self, x: Operand, y: Operand) -> Done {
        self.privileged()?;
        let source = self.word_of(x)?;
        let port = self.address(y).ok_or(Fault::CellError)?;
        if self.console.is_full(port) {
            return Err(Fault::OutputFull);
        }
        self.console.write(port, source);
        self.timer.write(port, source);
        Ok(())
    }
}
