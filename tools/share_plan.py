"""What tools/shares plans: document 02, No. 5, once more in plain Python. The proved one is crates/shares; tests/shares holds this
against its archive."""

# The numbers of include/shares.h.
DONE, OUTSIDE, TWICE, WRONG_TOTAL, NO_LIST = range(5)
LEAST, MOST = 20, 50


def refusal(shares):
    """The first refusal that fits, or DONE. `shares` has a pair for each transmitter: its address, and the turns that it wants."""
    addresses = [address for address, _ in shares]
    total = sum(turns for _, turns in shares)
    if any(not 1 <= address <= 31 for address in addresses):
        return OUTSIDE
    if len(set(addresses)) < len(addresses):
        return TWICE
    if not LEAST <= total <= MOST:
        return WRONG_TOTAL
    return NO_LIST if any(2 * turns > total for _, turns in shares) else DONE


def is_list(shares, places):
    """Whether a list is one that is asked for."""
    return (LEAST <= len(places) <= MOST
            and all(places.count(address) == turns for address, turns in shares)
            and set(places) <= {address for address, _ in shares}
            and all(places[i - 1] != places[i] for i in range(len(places))))


def sooner(turn, best):
    """One that has come goes before one that has not; then the one that is due first; of two due together the larger share. A turn is
    whether it has come, its number, how many its transmitter wants, and the address."""
    if turn[0] != best[0]:
        return turn[0]
    mine, other = turn[1] * best[2], best[1] * turn[2]
    return mine < other or mine == other and turn[2] > best[2]


def spread(shares, early):
    """Place by place, of the turns that have come the one that is due first. Turn n of k comes at (n - 1)/k of the list, or `early`
    places before that, and is due at n/k of it. None where nobody may speak at a place."""
    total = sum(turns for _, turns in shares)
    places = []
    for place in range(total):
        best = None
        for address, turns in shares:
            had = places.count(address)
            turn = (had * total <= (place + early) * turns, had + 1, turns, address)
            if had < turns and places[-1:] != [address] and (best is None or sooner(turn, best)):
                best = turn
        if best is None:
            return None
        places.append(best[3])
    return places


def arranged(shares):
    """Each transmitter's turns in one block, the largest first; the even places take the first half of that row, the odd ones the
    second."""
    largest = max(shares, key=lambda share: share[1])
    row = [address for address, turns in [largest] + [share for share in shares if share is not largest] for _ in range(turns)]
    half = (len(row) + 1) // 2
    return [row[place // 2 if place % 2 == 0 else half + place // 2] for place in range(len(row))]


def plan(shares):
    """The number of the answer, and the list."""
    number = refusal(shares)
    if number != DONE:
        return number, []
    for places in (spread(shares, 0), spread(shares, 1)):
        if places is not None and is_list(shares, places):
            return DONE, places
    return DONE, arranged(shares)


def largest_gap(places, address):
    """Over how many slices an address waits at most, from one turn to the next around the ring."""
    turns = [place for place, there in enumerate(places) if there == address]
    return max(after - before for before, after in zip(turns, turns[1:] + [turns[0] + len(places)]))
