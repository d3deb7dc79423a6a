"""How control goes on from an instruction word, as far as sections, loops and budgets need to know."""

from dataclasses import dataclass
from enum import Enum, auto

from fptools.isa import encodings
from fptools.isa.encodings import EBREAK as EBREAK
from fptools.isa.encodings import ECALL as ECALL
from fptools.isa.encodings import MRET as MRET
from fptools.isa.encodings import get

OPCODE_BRANCH, OPCODE_JALR, OPCODE_JAL = encodings.BRANCH, encodings.JALR, encodings.JAL
OPCODE_SYSTEM, OPCODE_TIMING = encodings.SYSTEM, encodings.TIMING
OPCODE_LOAD, OPCODE_STORE = encodings.LOAD, encodings.STORE
OPCODE_LUI, OPCODE_AUIPC = encodings.LUI, encodings.AUIPC
OPCODE_IMMEDIATE, OPCODE_REGISTERS = encodings.IMMEDIATE, encodings.REGISTERS
OPCODES_WITHOUT_RESULT = (OPCODE_STORE, OPCODE_BRANCH)

RETURN = 0x0000_8067  # jalr x0, 0(x1)

FUNCT3_WAITS = (2, 3)  # DU, WU
FUNCT3_EXPIRE = 4  # EE
CSR_MTVEC, CSR_MEPC = 0x305, 0x341
CONFIGURATION = (0x7C0, 0x7C1, 0x7C2, 0x7C3)  # slots, modes, dregions, iregions
RETURN_ADDRESS = 1


class Flow(Enum):
    """Where a thread goes on after a word."""

    NEXT = auto()  # at the next word
    BRANCH = auto()  # at the next word, or at the target
    JUMP = auto()  # at the target
    CALL = auto()  # at the target, while a register keeps the next word's address
    INDIRECT = auto()  # at an address in a register: a return, a call by pointer, MRET
    WAIT = auto()  # at the next word, by a time that is in registers: DU, WU
    TRAP = auto()  # at mtvec: ECALL, EBREAK, or no instruction


@dataclass(frozen=True)
class Word:
    """A word of code at its address."""

    pc: int
    bits: int

    def field(self, low: int, width: int) -> int:
        return self.bits >> low & (1 << width) - 1

    @property
    def opcode(self) -> int:
        return self.field(0, 7)

    @property
    def rd(self) -> int:
        return self.field(7, 5)

    @property
    def funct3(self) -> int:
        return self.field(12, 3)

    @property
    def rs1(self) -> int:
        return self.field(15, 5)

    @property
    def rs2(self) -> int:
        return self.field(20, 5)

    @property
    def is_code(self) -> bool:
        """False for a word that is no instruction of the core, as one that nothing placed."""
        return encodings.decode(self.bits) is not None

    @property
    def flow(self) -> Flow:
        if not self.is_code or self.bits in (ECALL, EBREAK):
            return Flow.TRAP
        if self.opcode == OPCODE_BRANCH:
            return Flow.BRANCH
        if self.opcode == OPCODE_JAL:
            return Flow.CALL if self.rd else Flow.JUMP
        if self.opcode == OPCODE_JALR or self.bits == MRET:
            return Flow.INDIRECT
        if self.opcode == OPCODE_TIMING and self.funct3 in FUNCT3_WAITS:
            return Flow.WAIT
        return Flow.NEXT

    @property
    def comes_back(self) -> bool:
        """Whether it is a call as the command `calls` has them: by x1, which `ret` goes back to."""
        return self.flow is Flow.CALL and self.rd == RETURN_ADDRESS

    @property
    def target(self) -> int | None:
        """The target of a branch, jump or call."""
        return encodings.target(self.pc, self.bits)

    @property
    def next(self) -> int:
        return self.pc + 4

    @property
    def is_call(self) -> bool:
        """Whether it is a call, by a name or by a pointer."""
        return self.flow is Flow.CALL or self.flow is Flow.INDIRECT and self.rd != 0

    @property
    def goes_on(self) -> bool:
        """Whether the next word may follow, if calls come back."""
        return self.is_call or self.flow in (Flow.NEXT, Flow.BRANCH, Flow.WAIT)

    @property
    def onward(self) -> list[int]:
        """Where control may go on: at the next word, if calls come back, and at the target."""
        return [self.next] * self.goes_on + ([] if self.target is None else [self.target])

    @property
    def csr(self) -> int | None:
        """The control and status register that it uses."""
        return self.field(20, 12) if self.opcode == OPCODE_SYSTEM and self.funct3 % 4 != 0 else None

    @property
    def writes_csr(self) -> bool:
        """Whether it writes its CSR: CSRRW does, CSRRS and CSRRC do but for x0 and 0."""
        return self.is_code and self.csr is not None and (self.funct3 % 4 == 1 or self.rs1 != 0)

    @property
    def writes_mtvec(self) -> bool:
        return self.writes_csr and self.csr == CSR_MTVEC

    @property
    def writes_mepc(self) -> bool:
        return self.writes_csr and self.csr == CSR_MEPC

    @property
    def writes_configuration(self) -> bool:
        """Whether it writes slots, modes or regions."""
        return self.writes_csr and self.csr in CONFIGURATION

    @property
    def may_trap(self) -> bool:
        """Whether it may trap by itself: a load or store, a CSR instruction, a jump through a register, or no code."""
        kinds = (OPCODE_LOAD, OPCODE_STORE, OPCODE_SYSTEM, OPCODE_JALR)
        return self.opcode in kinds or not self.is_code

    @property
    def traps_by_intent(self) -> bool:
        """An ECALL or EBREAK, or an EE, whose moment ends in a trap."""
        return self.arms or self.bits in (ECALL, EBREAK)

    @property
    def arms(self) -> bool:
        """Whether it is an EE, which arms a moment that may expire at any later word."""
        return self.is_code and self.opcode == OPCODE_TIMING and self.funct3 == FUNCT3_EXPIRE

    @property
    def immediate(self) -> int:
        """The number of an instruction with one of twelve bits."""
        return get("i", self.bits)

    @property
    def store_offset(self) -> int:
        """The number of a store: of its upper bits and of those where others have rd."""
        return get("o", self.bits)
