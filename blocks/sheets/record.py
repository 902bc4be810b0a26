"""A recording for eight-chains: the logistic map in 16-bit numbers, eight times, and once more as the chain r. Chain 5 rounds where the others cut
off, from tick 40 on; chain 2 starts beside the others when half of the ticks are over. What the monitor should show is worked out here, without a circuit.

    python3 blocks/sheets/record.py > blocks/sheets/eight-chains.csv
"""
from __future__ import annotations

TICKS, ROUNDS_FROM, MOVED_AT = 120, 40, 60
ONE = 1 << 16


def following(x: int, rounds: bool) -> int:
    """4 x (1 - x), of numbers from 0 to 1 in units of 2^-16."""
    return (4 * x * (ONE - x) + (ONE // 2 if rounds else 0)) // ONE % ONE


def main() -> None:
    chains, r, named = [12345] * 8, 12345, 0
    print("clear," + "r," + ",".join("chain.%d" % i for i in range(8)) + "," + ",".join("c%d" % i for i in range(8)) + ",any")
    for tick in range(TICKS):
        if tick == MOVED_AT:
            chains[2] += 4096
        high = [x >> 15 for x in chains]
        differ = sum((bit != r >> 15) << i for i, bit in enumerate(high))
        clear = int(tick == 0)
        named = (0 if clear else named) or differ
        print(",".join(map(str, [clear, r >> 15, *high, *[named >> i & 1 for i in range(8)], int(named > 0)])))
        chains = [following(x, i == 5 and tick >= ROUNDS_FROM) for i, x in enumerate(chains)]
        r = following(r, False)


if __name__ == "__main__":
    main()
