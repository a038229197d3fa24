"""The house profiles a second time, straight from the definitions in docs/PROFILES.md. Shares nothing with the proved code."""
#        byte  n    q        p      w   E  L
SETS = {
    "T": (1, 4, 257, 63, 6, 1, 4),
    "S": (2, 512, 12289, 4095, 12, 2, 191),
    "W": (3, 256, 8380417, 16383, 14, 7, 1792),
}
#                byte step signal bits, then R and tau for each number set
RECONCILERS = {
    "Ding": (1, 2, 1, {"T": (4, 63), "S": (4, 3071), "W": (512, 2095103)}),
    "OKCN": (2, 1, 2, {"T": (2, 47), "S": (2, 2303), "W": (256, 1571327)}),
}
COINS = 2


def signed(x, q):
    return x if x <= (q - 1) // 2 else x - q


def ding(x, coin, q):
    r = q // 4
    signal = 0 if -r + coin <= signed(x, q) <= r + coin else 1
    moved = (x + signal * ((q - 1) // 2)) % q
    return signal, abs(signed(moved, q)) % 2


def okcn(x, coin, q):
    z = 2 * x + coin
    return 4 * (z % q) // q, z // q


def recover(y, q, p, step):
    t = y * q // p
    while (t - y) % step:
        t += 1
    return t


def read(name, y, signal, q):
    if name == "Ding":
        return abs(signed((y + signal * ((q - 1) // 2)) % q, q)) % 2
    return (16 * y + q * (3 - 2 * signal)) // (8 * q) % 2


def reconcile(name, x, coin, q):
    return {"Ding": ding, "OKCN": okcn}[name](x, coin, q)


def round_by_search(x, q, p, step):
    """Of all values of the class of x the one that recovers nearest, the first at a tie."""
    return min(range(x % step, p + 1, step), key=lambda y: abs(recover(y, q, p, step) - x))
