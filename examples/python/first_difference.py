"""The first step after which an emulator of three instructions differs from the machine. Its SRA has a
planted fault. See docs/EMULATOR.md."""

import rsp

PROGRAM = """
      lui $1, 0x8000
      sw $1, 16($0)
      sra $2, $1, 4
      sw $2, 20($0)
"""


class Mine:
    """In place of your emulator: LUI, SW, and an SRA that shifts zeros in."""

    def __init__(self, image: bytes) -> None:
        self.state = rsp.State()
        self.memories = [bytearray(4096), bytearray(4096), bytearray(image)]

    def run(self, steps: int) -> None:
        for _ in range(steps):
            self.step()

    def step(self) -> None:
        r, pc = self.state.words, self.state.pc
        word = int.from_bytes(self.memories[rsp.IMEM][pc : pc + 4], "big")
        s, t, d, low = word >> 21 & 31, word >> 16 & 31, word >> 11 & 31, word & 0xFFFF
        if word >> 26 == 15:
            r[t] = low << 16
        elif word >> 26 == 43:
            address = (r[s] + low) % 4096
            self.memories[rsp.DMEM][address : address + 4] = r[t].to_bytes(4, "big")
        elif word >> 26 == 0 and word & 63 == 3:
            r[d] = r[t] >> (word >> 6 & 31)
        r[0] = 0
        self.state.pc, self.state.npc = self.state.npc, (self.state.npc + 4) % 4096

    def get(self) -> rsp.State:
        return self.state

    def set(self, state: rsp.State) -> None:
        self.state = state

    def memory(self, bank: int, address: int, length: int) -> bytes:
        return self.memories[bank][address : address + length]

    def load(self, bank: int, address: int, data: bytes) -> None:
        self.memories[bank][address : address + len(data)] = data


with rsp.Machine(bytes(64)) as machine:
    machine.load_words(rsp.IMEM, 0, rsp.assemble(PROGRAM))
    print(rsp.first_difference(machine, Mine(bytes(64)), limit=4))
