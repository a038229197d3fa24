#!/usr/bin/env python3
"""The values that crates/profile_tests compares with: for each house profile, residues at the edges of the regions with their rounded and
recovered values, the signal and key bit for each coin, and the key bit read with the first and the last signal; and for each modulus
residues of extreme numbers, and sums with multiples."""
from definitions import COINS, RECONCILERS, SETS, read, reconcile, recover, round_by_search

for numbers, (_, _, q, p, *_) in SETS.items():
    for name, (_, step, bits, _) in RECONCILERS.items():
        print(f"{numbers} {name}")
        quarter = q // 4
        edges = [1, quarter, quarter + 1, q // 2, q - quarter, q - 2, q - 1]
        for x in edges:
            y = round_by_search(x, q, p, step)
            coins = [reconcile(name, x, coin, q) for coin in range(COINS)]
            reads = [read(name, x, signal, q) for signal in range(2**bits)]
            print(f"row({x}, {y}, {recover(y, q, p, step)}, {coins[0]}, {coins[1]}, {reads[0]}, {reads[-1]}),")

extremes = [-(2**31), -1, 2**31 - 1]
for numbers, (_, _, q, *_) in SETS.items():
    print(f"arithmetic at {numbers}")
    print([x % q for x in extremes], (2**32 - 1) % q, [(q - 1 + 2 * 1) % q, (1 + 2 * -3) % q, (2**32 - 1 + (2**32 - 1) * -(2**31)) % q])
