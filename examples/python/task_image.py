"""task_image.py BOOT CODE DATA IMAGE: makes the contents of RDRAM with a task, for `rsp run --rdram IMAGE`.

`task 0x100` starts the task. Its results go to 0x8000. BOOT is the boot code, CODE the microcode, and DATA
its data, of at most 4096 bytes each.
"""

import struct
import sys
from pathlib import Path

if len(sys.argv) != 5:
    sys.exit(__doc__)
boot, code, data = (Path(name).read_bytes() for name in sys.argv[1:4])
words = [1, 0, 0x1000, len(boot), 0x2000, len(code), 0x4000, len(data)]  # up to ucode_data_size
words += [0, 0, 0x8000, 0x1000, 0, 0, 0, 0]  # the stack, the output, the list of commands, the yield
image = bytearray(0x10000)
for at, part in ((0x100, struct.pack(">16I", *words)), (0x1000, boot), (0x2000, code), (0x4000, data)):
    image[at : at + len(part)] = part
Path(sys.argv[4]).write_bytes(image)
