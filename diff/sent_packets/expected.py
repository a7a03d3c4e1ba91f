"""How many packets, fragments among them, packets put together and errors the program writes, by the rules of RFC 791 and RFC 8200."""


def inward(length, mtu):
    room = (mtu - 48) // 8 * 8
    return 1 if length + 40 <= mtu else -(-length // room)


def outward(length, mtu, options, copied):
    left = length - 20 - options
    if length <= mtu:
        return 1
    pieces = 0
    header = 20 + options
    while left > mtu - header:
        left -= (mtu - header) // 8 * 8
        header = 20 + copied
        pieces += 1
    return pieces + 1


counts = []
for length in (64, 1240, 1241, 1460, 1461, 4000, 65535):
    counts += [inward(length, 1280), inward(length, 1500), inward(length, 1500), outward(length, 1500, 0, 0)]
for length in (576, 577, 1100, 65535):
    counts.append(outward(length, 576, 12, 4))
errors = 2 * (2 * 3 + 1) + 2
cut = [count for count in counts if count > 1]
print(f"{sum(counts) + errors} packets, {sum(cut)} fragments, {len(cut)} put together, {errors} errors")
