"""A machine whose savestate has all kinds of registers and memories that aren't 0, for each language."""

IMAGE, STEPS = bytes(range(256)), 1000
TEXT = "\n".join(
    (
        *(f"lui ${n}, {n * 0x777 % 0x8000}\nori ${n}, ${n}, {n * 0x1357 % 0x8000}" for n in range(1, 31)),
        *(f"sw ${n}, {4 * n}($0)" for n in range(1, 31)),
        *(f"lqv $v{n}[0], {n % 7 * 16}($0)" for n in range(1, 32)),
        "vmulf $v1, $v2, $v3\nvaddc $v4, $v5, $v6\nvch $v7, $v8, $v9\nvrcph $v10[1], $v11[2]",
        "ori $1, $0, 0x1008\nmtc0 $1, $c0\nori $2, $0, 0x20\nmtc0 $2, $c1\nori $3, $0, 0x1007\nmtc0 $3, $c3",
        "mtc0 $5, $c8\nmtc0 $6, $c15\nmfc0 $9, $c7\nori $8, $0, 0x150\nmtc0 $8, $c4",
        "ori $7, $0, 0x400\njr $7\nbreak\n",
    )
)
